//! The tables of what was written from figures, and of what was refused.

use compare::figure_reasons::{LINK_REASONS, YARD_REASONS};
use compare::missing_costs::{MissingTally, SHORT_SORTS};
use compare::ranks::RANKS;
use compare::records::marks;
use compare::sums::SORTS;
use compare::tally::{Call, Tally, CALLS};
use compare::write_tally::{WriteTally, LENGTHS, UNKNOWN_KINDS, YARD_SORTS};
use peer::records::WRITTEN_RECORDS;

/// All tables.
pub fn print_writes(total: &Tally) {
    print_legal(total);
    print_lengths(&total.writes);
    print_missing(&total.writes.missing);
    print_unknown(&total.writes);
    print_reasons(&total.writes);
    print_order(&total.writes);
}

/// The legal figures by sorts.
fn print_legal(total: &Tally) {
    println!("\n| legal figures | count |\n|---|---|");
    println!("| all | {} |", total.legal);
    let [stations, links] = total.writes.sizes();
    println!("| different numbers of stations | {stations} |");
    println!("| different numbers of links | {links} |");
    for ((name, _), count) in YARD_SORTS.iter().zip(total.writes.sorts) {
        println!("| {name} | {count} |");
    }
    for ([k1, k2], count) in RANKS.iter().zip(total.writes.ranks) {
        println!("| k = {k1}, {k2} | {count} |");
    }
    for ((name, _), count) in SORTS.iter().zip(total.sums.sorts) {
        println!("| sums {name} | {count} |");
    }
}

/// The lengths of what was lent: where figures and kind are right, how many calls wrote.
fn print_lengths(tally: &WriteTally) {
    let records =
        marks(WRITTEN_RECORDS).map(|mark| format!("output, {mark}: written | refused by 17"));
    let records = records.join(" | ");
    println!(
        "\n| length | {records} | ends: written | refused by 7 | costs: written | refused by 8 |"
    );
    println!("|---|---|---|---|---|---|---|---|---|");
    for (i, (name, _)) in LENGTHS.iter().enumerate() {
        let counts = tally.outputs[i].as_flattened().iter();
        let counts = counts.chain(&tally.ends[i]).chain(&tally.costs[i]);
        let counts: Vec<String> = counts.map(u64::to_string).collect();
        println!("| {name} | {} |", counts.join(" | "));
    }
}

/// What was replied where costs were missing, by the number of ceilings.
fn print_missing(tally: &MissingTally) {
    println!("\n| costs missing | p = 0 | p = 1 | p = 2 |\n|---|---|---|---|");
    for ((name, due, _), counts) in SHORT_SORTS.iter().zip(tally.sorts) {
        let counts = (0..counts.len()).map(|ceilings| match due.contains(&ceilings) {
            true => counts[ceilings].to_string(),
            false => String::new(),
        });
        println!("| {name} | {} |", counts.collect::<Vec<_>>().join(" | "));
    }
    let lengths = tally.lengths().map(|count| count.to_string());
    println!(
        "| different lengths for 40 links | {} |",
        lengths.join(" | ")
    );
}

/// The kinds that are refused by 2.
fn print_unknown(tally: &WriteTally) {
    println!("\n| refused by 2 for kind | legal figures | illegal figures |\n|---|---|---|");
    for (kind, [legal, illegal]) in UNKNOWN_KINDS.iter().zip(tally.unknown) {
        println!("| {kind:08X} | {legal} | {illegal} |");
    }
}

/// The reasons of refusals.
fn print_reasons(tally: &WriteTally) {
    println!("\n| refused for | number | calls | links that had it |\n|---|---|---|---|");
    for ((name, number, _), count) in YARD_REASONS.iter().zip(tally.yards) {
        println!("| {name} | {number} | {count} | |");
    }
    for ((name, number, _), refused) in LINK_REASONS.iter().zip(&tally.links) {
        let (count, places) = (refused.count, refused.places());
        println!("| {name} | {number} | {count} | {places} |");
    }
}

/// Which number came first where figures break two rules.
fn print_order(tally: &WriteTally) {
    let (_, [_, numbers @ ..]) = CALLS[Call::Write as usize] else {
        return;
    };
    let others: Vec<String> = numbers.iter().map(usize::to_string).collect();
    let others = others.join(" | ");
    println!("\n| refused by, though also | {others} | 7 at a later link | 8 at a later link |");
    println!("|---|{}---|---|", "---|".repeat(numbers.len()));
    for &first in numbers {
        let others = numbers.iter().map(|&other| tally.before[first][other]);
        let later = [7, 8].map(|other| tally.before_later[first][other]);
        let counts = others.chain(later).map(|count| count.to_string());
        println!("| {first} | {} |", counts.collect::<Vec<_>>().join(" | "));
    }
}
