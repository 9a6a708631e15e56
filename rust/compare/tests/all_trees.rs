//! The listing that the complete set is held against: yards worked by hand, and agreement with the
//! peer on yards of every kind that have few links.

use compare::all_trees::{AllTrees, Link, Yard};
use compare::by_all_trees::ByAllTrees;
use compare::comparison::{Comparison, Difference};
use compare::kinds::KINDS;
use compare::planner::Peer;
use compare::rng::Rng;
use compare::round::survey_calls;
use compare::tally::Tally;
use peer::records::MAX_CEILINGS;

/// Seeds of each kind.
const SEEDS: u64 = 100;
/// The most links of the yards.
const LINKS: usize = 10;
/// The least yards of each sort.
const LEAST: usize = 100;

/// Ends, sum and ceiling costs of a link.
type LinkRow<'a> = ([usize; 2], i64, &'a [i64]);

/// All trees of a yard without stations at rest.
fn all_trees(stations: usize, ranks: &[usize], links: &[LinkRow]) -> AllTrees {
    let link = |&(ends, sum, costs): &LinkRow| Link {
        ends,
        sum,
        costs: costs.to_vec(),
    };
    AllTrees::of(Yard {
        rests: vec![false; stations],
        ranks: ranks.to_vec(),
        links: links.iter().map(link).collect(),
    })
}

/// The costs and links of each plan.
fn plans(all: &AllTrees) -> Vec<(&[i64], &[u8])> {
    let plans = all.plans().into_iter();
    plans
        .map(|plan| (&plan.costs[..], &plan.links[..]))
        .collect()
}

#[test]
fn yards_worked_in_document_01() {
    let p3 = all_trees(
        3,
        &[1, 1],
        &[
            ([0, 1], 4, &[7, 1]),
            ([1, 2], 3, &[2, 6]),
            ([0, 2], 1, &[9, 3]),
        ],
    );
    let listed: [(&[i64], &[u8]); 3] = [
        (&[4, 9, 6], &[1, 2]),
        (&[5, 9, 3], &[0, 2]),
        (&[7, 7, 6], &[0, 1]),
    ];
    assert_eq!((plans(&p3), p3.solved_count()), (listed.to_vec(), 6));
    let p5 = all_trees(2, &[1], &[([0, 1], 5, &[8]), ([0, 1], 5, &[3])]);
    let listed: [(&[i64], &[u8]); 1] = [(&[5, 3], &[1])];
    assert_eq!((plans(&p5), p5.solved_count()), (listed.to_vec(), 2));
    let p6 = all_trees(1, &[], &[]);
    let listed: [(&[i64], &[u8]); 1] = [(&[0], &[])];
    assert_eq!((plans(&p6), p6.solved_count()), (listed.to_vec(), 1));
    let p7 = all_trees(2, &[1], &[]);
    assert_eq!((plans(&p7), p7.solved_count()), (Vec::new(), 0));
}

#[test]
fn the_peer_agrees() {
    let mut yards = [0; MAX_CEILINGS + 1];
    let [mut ranked, mut resting] = [0; 2];
    for kind in KINDS.iter().filter(|kind| kind.is_legal()) {
        for seed in kind.first_seed..kind.first_seed + SEEDS.min(kind.seeds) {
            let mut rng = Rng::new(seed);
            for survey in kind.surveys(&mut rng) {
                let yard = peer::survey::Yard::read(&survey).expect("the kind is legal");
                if yard.links().len() <= LINKS {
                    compare(&survey, &mut rng).unwrap_or_else(|difference| panic!("{difference}"));
                    yards[yard.ceilings] += 1;
                    ranked += usize::from(yard.ranks.iter().any(|&rank| rank > 1));
                    resting += yard.rest.count().min(1);
                }
            }
        }
    }
    println!("yards by ceilings {yards:?}, ranked {ranked}, with stations at rest {resting}");
    assert!(yards
        .into_iter()
        .chain([ranked, resting])
        .all(|count| count >= LEAST));
}

/// Makes all calls that take a survey, and those of the index on its list.
fn compare(survey: &[u8], rng: &mut Rng) -> Result<(), Difference> {
    let (by_all_trees, mut tally) = (ByAllTrees::of(survey), Tally::default());
    let mut comparison = Comparison::new(&Peer, &by_all_trees, &mut tally);
    let list = survey_calls(&mut comparison, survey, rng)?;
    for plan in 0..=by_all_trees.plan_count() {
        comparison.fetch(&list, plan as u32)?;
    }
    let index = vec![0xaa; 2 * by_all_trees.plan_count()];
    let index = comparison.index(&list, &index)?.bytes;
    for value in [i16::MIN, -1, 0, i16::MAX, rng.bits() as i16] {
        comparison.lookup(&list, &index, value)?;
    }
    Ok(())
}
