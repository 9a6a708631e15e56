//! The yards worked through in document 01, and yards for each request of document 02.

mod document_01;
mod indexes;
mod link_counts;
mod resting;
mod samples;
mod signed_sums;
mod small;
mod triple;
mod two_ranks;
