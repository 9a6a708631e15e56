//! The tables of yards with three ceilings.

use compare::positions::{AFTER, BEFORE, POSITION_REASONS, POSITION_SORTS};
use compare::ranks::TRIPLE_RANKS;
use compare::tally::Tally;
use compare::triple_reasons::TRIPLE_REASONS;

/// The sorts of yards with three ceilings, and what 19 was replied for, and before and after what.
pub fn print_positions(total: &Tally) {
    let tally = &total.positions;
    println!("\n| legal surveys with three ceilings | surveys |\n|---|---|");
    for ([k1, k2, k3], count) in TRIPLE_RANKS.iter().zip(tally.ranks) {
        println!("| k = {k1}, {k2}, {k3} | {count} |");
    }
    for ((name, _), count) in POSITION_SORTS.iter().zip(tally.sorts) {
        println!("| {name} | {count} |");
    }
    println!("\n| refused for | number | surveys |\n|---|---|---|");
    for ((name, number, _), count) in TRIPLE_REASONS.iter().zip(total.triple_reasons.0) {
        println!("| {name} | {number} | {count} |");
    }
    println!("\n| refused by 19 for | surveys |\n|---|---|");
    for ((name, _), count) in POSITION_REASONS.iter().zip(tally.reasons) {
        println!("| {name} | {count} |");
    }
    println!("\n| refused by | though also | surveys or calls |\n|---|---|---|");
    for (number, count) in BEFORE.iter().zip(tally.before) {
        println!("| {number} | 19 | {count} |");
    }
    for (number, count) in [2, 7, 8].iter().zip(tally.at_last_link) {
        println!("| {number} at the last link | 19 | {count} |");
    }
    for (number, count) in AFTER.iter().zip(tally.after) {
        println!("| 19 | {number} | {count} |");
    }
}
