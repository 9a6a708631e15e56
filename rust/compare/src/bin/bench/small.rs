//! The table of the small surveys.

use crate::timing::{fastest_of, print_ratios};
use peer::{SMALL_SURVEYS, SMALL_SURVEY_BYTES};
use std::hint::black_box;

/// How often a run makes the calls of a row.
const ROUNDS: u32 = 16;

/// A row: a name, the number asked for by each call of a round, and the length of the output.
type Row = (&'static str, fn(u32) -> u32, usize);

const ROWS: [Row; 6] = [
    ("the first", |_| 0, SMALL_SURVEY_BYTES),
    ("the last", |_| SMALL_SURVEYS - 1, SMALL_SURVEY_BYTES),
    ("each in turn", |call| call, SMALL_SURVEY_BYTES),
    ("a longer output", |call| call, 2 * SMALL_SURVEY_BYTES),
    ("refused by 20", |_| SMALL_SURVEYS, SMALL_SURVEY_BYTES),
    ("refused by 17", |call| call, SMALL_SURVEY_BYTES - 1),
];

/// A planner's call, as a function that replies with its number: a call takes so little time that
/// what stands around it would count.
type Call = fn(u32, &mut [u8]) -> u8;

fn archive(number: u32, survey: &mut [u8]) -> u8 {
    ranqustei::small_survey(number, survey).map_or_else(|refusal| refusal.number, |()| 0)
}

fn peer(number: u32, survey: &mut [u8]) -> u8 {
    peer::small_survey(number, survey).map_or_else(|refusal| refusal.number, |()| 0)
}

/// Prints a row for each sort of calls.
pub fn print_table() {
    println!("\n## Small surveys\n");
    println!("A row is the mean over {SMALL_SURVEYS} calls.\n");
    println!("| survey | bytes of the output | archive | peer | ratio |\n|---|---|---|---|---|");
    let mut ratios = Vec::new();
    for (name, number, room) in ROWS {
        let [archive, peer] = time_row(number, room);
        let ratio = archive / peer;
        println!("| {name} | {room} | {archive:.4} | {peer:.4} | {ratio:.2} |");
        ratios.push(ratio);
    }
    print_ratios("a small survey", &ratios);
}

/// The time of a call, the mean over those of a row.
fn time_row(number: fn(u32) -> u32, room: usize) -> [f64; 2] {
    let numbers: Vec<u32> = (0..SMALL_SURVEYS).map(number).collect();
    let mut survey = vec![0; room];
    let calls: [Call; 2] = [archive, peer];
    let times = fastest_of(calls, |call| {
        for _ in 0..ROUNDS {
            for &number in &numbers {
                black_box(call(black_box(number), &mut survey));
            }
        }
    });
    times.map(|time| time / f64::from(ROUNDS * SMALL_SURVEYS))
}
