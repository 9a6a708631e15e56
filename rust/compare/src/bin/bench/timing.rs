//! The clock of the benchmark.

use compare::planner::{Archive, Peer, Planner};
use std::time::Instant;

/// Runs of each planner on a yard, a list or figures.
pub const RUNS: usize = 21;

/// The fastest run of each planner, archive and peer, in microseconds.
pub fn fastest(run: impl FnMut(&dyn Planner)) -> [f64; 2] {
    let planners: [&dyn Planner; 2] = [&Archive, &Peer];
    fastest_of(planners, run)
}

/// The fastest run with each of two, archive and peer.
pub fn fastest_of<T: Copy>(planners: [T; 2], mut run: impl FnMut(T)) -> [f64; 2] {
    let mut times = [f64::INFINITY; 2];
    for i in 0..2 * RUNS {
        // The order changes each time: archive, peer, peer, archive.
        let planner = (i / 2 + i) % 2;
        let start = Instant::now();
        run(planners[planner]);
        times[planner] = times[planner].min(start.elapsed().as_secs_f64() * 1e6);
    }
    times
}

/// Prints the range and the mean of the ratios of a table's rows.
pub fn print_ratios(call: &str, ratios: &[f64]) {
    let lowest = ratios.iter().copied().fold(f64::INFINITY, f64::min);
    let highest = ratios.iter().copied().fold(0.0, f64::max);
    let mean = ratios.iter().sum::<f64>() / ratios.len() as f64;
    println!("\nRatio of {call}: {lowest:.2} to {highest:.2}, {mean:.2} in the mean.");
}
