//! Holds two planners against each other: generated surveys, lists and figures, all small surveys,
//! calls, comparison; and small yards against a listing of all trees.
//!
//! `cargo test --release` compares the proved planner with the independent one and prints how
//! much was compared; `cargo run --release --bin bench` times both.

#![forbid(unsafe_code)]

pub mod all_trees;
pub mod by_all_trees;
pub mod by_listing;
pub mod columns;
pub mod comparison;
pub mod complete_set;
pub mod damage;
pub mod draft;
pub mod fetch_rules;
pub mod fetching;
pub mod figure_damage;
pub mod figure_kinds;
pub mod figure_reasons;
pub mod index_damage;
pub mod index_rules;
pub mod index_tally;
pub mod indexing;
pub mod kinds;
pub mod link_figures;
pub mod list_bytes;
pub mod list_damage;
pub mod list_draft;
pub mod list_kinds;
pub mod listed;
pub mod missing_costs;
pub mod planner;
pub mod position_calls;
pub mod positions;
pub mod ranks;
pub mod records;
pub mod reduced;
pub mod rests;
pub mod rng;
pub mod round;
pub mod round_trip;
pub mod site;
pub mod small_calls;
pub mod small_rules;
pub mod small_tally;
pub mod sums;
pub mod tally;
pub mod triple_reasons;
pub mod value_counts;
pub mod values;
pub mod write_rules;
pub mod write_tally;
pub mod writing;
pub mod yards;
