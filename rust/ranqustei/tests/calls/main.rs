//! The calls of the crate, on bytes and on figures.

mod any_bytes;
mod counted;
mod index;
mod index_order;
mod random;
mod random_figures;
mod reduced;
mod refusals;
mod resting;
mod samples;
mod signed_sums;
mod small;
mod triple;
mod triple_refusals;
mod writing;
mod yards;
