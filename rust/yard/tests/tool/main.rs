//! The tool: its commands, its files, its pictures.

mod any_input;
mod commands;
mod index;
mod pictures;
mod process;
#[path = "../../../ranqustei/tests/calls/random.rs"]
mod random;
mod readme;
mod records;
mod resting;
mod signed_sums;
mod small;
mod tool;
mod triple;
mod yard_text;
