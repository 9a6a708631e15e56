//! The table of yards with three ceilings.

use crate::timing::print_ratios;
use crate::{label, print_both, print_both_heading, ratios, yards_of, Row, HARD_LINKS, SETS};
use compare::kinds::hard;
use compare::values::Values;
use compare::yards::Recipe;
use peer::records::{MAX_CEILINGS, TRIPLE};

/// The stations of the yards.
const STATIONS: [u8; 3] = [8, 16, 24];
/// The ranks of the yards.
pub const RANKS: [[u8; MAX_CEILINGS]; 3] = [[1, 1, 1], [3, 1, 1], [2, 2, 1]];
/// As many values of each ceiling as make 1,600 positions.
pub const MANY: [usize; MAX_CEILINGS] = [10, 10, 16];
/// How many values the ceilings have.
const COUNTS: [[usize; MAX_CEILINGS]; 3] = [[4, 4, 4], [40, 20, 2], MANY];

/// Yards with three ceilings of which no station rests, with at most so many values of each.
pub fn recipe(values: Values, counts: [usize; MAX_CEILINGS]) -> Recipe {
    let yards = hard(HARD_LINKS, values).with_value_counts(counts);
    yards.with_rest(u8::MAX).with_record(TRIPLE)
}

/// Prints a row for each set, number of values, number of stations and ranks.
pub fn print_table() {
    print_both_heading("Three ceilings");
    let mut rows = Vec::new();
    for (set, values) in SETS {
        for counts in COUNTS {
            rows.extend(rows_of(set, values, counts));
        }
    }
    print_ratios(
        "a list call with three ceilings",
        &ratios(&rows, |row| row.list),
    );
    print_ratios(
        "a question with three ceilings",
        &ratios(&rows, |row| row.best),
    );
}

/// The rows of a set with so many values, which are printed as they come.
fn rows_of(set: &str, values: Values, counts: [usize; MAX_CEILINGS]) -> Vec<Row> {
    let recipe = recipe(values, counts);
    let set = format!(
        "{set}, {} values",
        counts.map(|count| count.to_string()).join(" × ")
    );
    let yards = STATIONS
        .iter()
        .flat_map(|&stations| RANKS.map(|ranks| (stations, ranks)));
    let row = |(stations, ranks)| {
        let surveys = yards_of(&recipe, stations, ranks);
        let row = Row::new(label(&set, stations, ranks), &surveys);
        print_both(&row);
        row
    };
    yards.map(row).collect()
}
