//! The table of the index: building it, and lookups in it.

use crate::timing::{fastest, print_ratios};
use compare::list_bytes::Plans;
use compare::list_draft::ListDraft;
use compare::rng::Rng;
use peer::plan_list::MAX_PLANS;
use peer::Costs;
use std::hint::black_box;

/// Builds of a run.
const BUILDS: usize = 16;
/// Lookups of a run.
const LOOKUPS: usize = 64;
/// The different y1, and the different sums, of the list that has few.
const FEW: i32 = 40;

/// Prints a row for each list with its name.
pub fn print_table(lists: &[(String, Vec<u8>)]) {
    println!("\n## The index: building it, then a lookup\n");
    println!("A row is one list: the longest of a set's yards with some p, or one made by hand. A");
    println!("lookup is the mean over values that are the y1 of plans.\n");
    println!("| list | plans | archive | peer | ratio | archive | peer | ratio |");
    println!("|---|---|---|---|---|---|---|---|");
    let [mut build_ratios, mut lookup_ratios] = [const { Vec::new() }; 2];
    for (name, list) in lists {
        let plans = Plans::read(list).expect("the lists are whole");
        let mut index = vec![0; plans.index_bytes()];
        let [build, peer_build] = time_build(list, &mut index);
        let [lookup, peer_lookup] = time_lookup(list, &plans, &index);
        let [build_ratio, lookup_ratio] = [build / peer_build, lookup / peer_lookup];
        println!(
            "| {name} | {} | {build:.2} | {peer_build:.2} | {build_ratio:.2} \
             | {lookup:.2} | {peer_lookup:.2} | {lookup_ratio:.2} |",
            plans.costs.len()
        );
        build_ratios.push(build_ratio);
        lookup_ratios.push(lookup_ratio);
    }
    print_ratios("a build", &build_ratios);
    print_ratios("a lookup", &lookup_ratios);
}

/// The time of a build; the index is left in the buffer.
fn time_build(list: &[u8], index: &mut [u8]) -> [f64; 2] {
    let times = fastest(|planner| {
        for _ in 0..BUILDS {
            let _ = black_box(planner.index(black_box(list), index));
        }
    });
    times.map(|time| time / BUILDS as f64)
}

/// The time of a lookup, the mean over values that are the y1 of plans.
fn time_lookup(list: &[u8], plans: &Plans, index: &[u8]) -> [f64; 2] {
    let mut rng = Rng::new(1);
    let values: Vec<i16> = (0..LOOKUPS)
        .map(|_| rng.pick(&plans.costs).ceilings[0])
        .collect();
    let times = fastest(|planner| {
        for &value in &values {
            let _ = black_box(planner.index_lookup(black_box(list), black_box(index), value));
        }
    });
    times.map(|time| time / LOOKUPS as f64)
}

/// Lists of as many plans as a list can have, each plan with 23 links.
pub fn hand_made_lists() -> [(String, Vec<u8>); 3] {
    let mut rng = Rng::new(1);
    let falling: Vec<[i32; 2]> = (0..MAX_PLANS as i32).map(|i| [800 - i, i]).collect();
    let mut shuffled = falling.clone();
    rng.shuffle(&mut shuffled);
    let grid = (0..FEW).flat_map(|y1| (0..FEW).map(move |sum| [y1, sum]));
    let mut few: Vec<[i32; 2]> = grid.collect();
    rng.shuffle(&mut few);
    [
        ("by hand, y1 falling", falling),
        ("by hand, y1 shuffled", shuffled),
        ("by hand, few different y1 and sums, shuffled", few),
    ]
    .map(|(name, figures)| (name.to_string(), list_of(&figures, &mut rng)))
}

/// A list of plans with these y1 and sums.
fn list_of(figures: &[[i32; 2]], rng: &mut Rng) -> Vec<u8> {
    let plan = |&[y1, sum]: &[i32; 2]| Costs {
        sum,
        ceilings: [y1 as i16, 0, 0],
    };
    let draft = ListDraft {
        tree_len: 23,
        ceilings: 2,
        plans: figures.iter().map(plan).collect(),
    };
    draft.bytes(rng)
}
