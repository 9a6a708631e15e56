//! The table of writing surveys.

use crate::timing::{fastest, print_ratios};
use crate::YARDS;
use compare::columns::Columns;
use compare::draft::Draft;
use compare::kinds::exact;
use compare::records::{kind_of, marks};
use compare::rng::Rng;
use compare::sums::HIGHEST;
use compare::values::Values;
use compare::write_rules::Request;
use peer::records::{YardRecord, WRITTEN_RECORDS};
use std::hint::black_box;

/// Writes of a run.
const WRITES: usize = 64;

/// Something done to the figures of a row.
type Change = fn(&mut Draft);

/// The rows: a name, the numbers of stations and links, and what is done to the figures.
const ROWS: [(&str, i64, i64, Change); 4] = [
    ("no links", 1, 0, |_| {}),
    ("small", 5, 6, |_| {}),
    ("largest", 24, 40, |_| {}),
    ("refused at the last link", 24, 40, |draft| {
        draft.links[39].sum = HIGHEST + 1;
    }),
];

/// Prints a row for each sort of figures and each yard record.
pub fn print_table() {
    println!("\n## Writing a survey\n");
    println!(
        "A row is the mean over {YARDS} yards with any ranks. An output is of exactly its need.\n"
    );
    println!("| figures | n | links | yard record | archive | peer | ratio |");
    println!("|---|---|---|---|---|---|---|");
    let mut ratios = Vec::new();
    for (name, stations, links, change) in ROWS {
        let columns = columns_of(stations, links, change);
        for (record, mark) in WRITTEN_RECORDS.into_iter().zip(marks(WRITTEN_RECORDS)) {
            let [archive, peer] = time_row(record, &columns);
            let ratio = archive / peer;
            println!(
                "| {name} | {stations} | {links} | {mark} | {archive:.3} | {peer:.3} | {ratio:.2} |"
            );
            ratios.push(ratio);
        }
    }
    print_ratios("a write", &ratios);
}

/// The figures of a row, with any ranks.
fn columns_of(stations: i64, links: i64, change: Change) -> Vec<Columns> {
    let recipe = exact(stations, links, Values::Free).with_any_signs();
    let figures = |seed| {
        let mut draft = recipe.draft(&mut Rng::new(seed));
        change(&mut draft);
        Columns::of_draft(&draft)
    };
    (0..YARDS).map(figures).collect()
}

/// The time of a write, the mean over the figures of a row.
fn time_row(record: YardRecord, columns: &[Columns]) -> [f64; 2] {
    let share = 1.0 / columns.len() as f64;
    let mut row = [0.0; 2];
    for columns in columns {
        let times = time_write(&Request {
            kind: kind_of(record),
            figures: columns.figures(),
        });
        for (mean, time) in row.iter_mut().zip(times) {
            *mean += share * time;
        }
    }
    row
}

/// The time of a write in an output of exactly its need.
fn time_write(request: &Request) -> [f64; 2] {
    let mut survey = vec![0; request.need()];
    let times = fastest(|planner| {
        for _ in 0..WRITES {
            let Request { kind, figures } = black_box(*request);
            let _ = black_box(planner.write_survey(kind, &figures, &mut survey));
        }
    });
    times.map(|time| time / WRITES as f64)
}
