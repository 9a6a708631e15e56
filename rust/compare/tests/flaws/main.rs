//! Wrong planners, each with one flaw, are told from the right one by the surveys and calls
//! that the proved planner is held to.

mod any_yard;
mod cost_refusals;
mod figures;
mod indexes;
mod link_counts;
mod lookups;
mod on_figures;
mod on_lists;
mod on_resting;
mod on_small;
mod on_triple;
mod orders;
mod outputs;
mod reading;
mod resting;
mod signed_sums;
mod small_outputs;
mod small_surveys;
mod trees_at_rest;
mod triple_calls;
mod triple_fetches;
mod triple_lists;
mod triple_surveys;
mod two_ranks;
mod write_refusals;

use any_yard::{
    AllSolved, ClearedTail, DifferentValues, KeptTail, LastTree, NoExceptions, NoPlace,
    NumberFirst, OtherPlace, OverAllowance, Stale, Walking,
};
use compare::comparison::Comparison;
use compare::kinds::{Kind, KINDS};
use compare::planner::{Peer, Planner};
use compare::rng::Rng;
use compare::sums::LOWEST;
use compare::tally::Tally;
use link_counts::{is_counted, is_known, recounting, ClearedByCount};
use reading::{refusing, Reading};
use signed_sums::{misreading, none_below_0, Pruning, UnsignedOrder};
use two_ranks::{Admitting, ThreeForTwo};

/// Seeds of each kind that a flaw has to show on.
const SEEDS: u64 = 200;

/// Whether the surveys are of small yards, whole or damaged.
fn is_small(kind: &Kind) -> bool {
    kind.name.starts_with("small") || kind.name == "damaged"
}

/// Whether the surveys are of small yards, or have sums at the limits on all links.
fn is_small_or_at_limits(kind: &Kind) -> bool {
    is_small(kind) || kind.name == "sums at the limits"
}

/// Whether the surveys are of small yards, or were damaged twice, or cut.
fn is_small_or_cut(kind: &Kind) -> bool {
    is_small(kind) || ["damaged in pairs", "counted, cut"].contains(&kind.name)
}

/// Asserts that each flaw shows on surveys of some kinds, and on none of a sort that it spares.
fn assert_noticed(
    kinds: fn(&Kind) -> bool,
    spared: fn(&[u8]) -> bool,
    flawed: &[(&str, &dyn Planner)],
) {
    for (flaw, planner) in flawed {
        let is_noticed = is_noticed_among(kinds, |_| true, *planner);
        assert!(is_noticed, "not noticed: {flaw}");
        let elsewhere = is_noticed_among(kinds, spared, *planner);
        assert!(!elsewhere, "noticed where it should not be: {flaw}");
        println!("noticed: {flaw}");
    }
}

/// Asserts that each flaw is noticed, beside the peer and where both planners have it.
fn assert_each_noticed(
    is_noticed: fn(&dyn Planner, &dyn Planner) -> bool,
    flawed: &[(&str, impl Planner)],
) {
    for (flaw, planner) in flawed {
        assert!(is_noticed(&Peer, planner), "not noticed: {flaw}");
        assert!(is_noticed(planner, planner), "not noticed in both: {flaw}");
        println!("noticed: {flaw}");
    }
}

/// Whether some call on surveys of some kinds and some sort tells a planner from the peer.
fn is_noticed_among(
    kinds: fn(&Kind) -> bool,
    sort: fn(&[u8]) -> bool,
    planner: &dyn Planner,
) -> bool {
    let mut kinds = KINDS.iter().filter(|kind| kinds(kind));
    kinds.any(|kind| {
        (kind.first_seed..kind.first_seed + SEEDS.min(kind.seeds)).any(|seed| {
            let (mut rng, mut tally) = (Rng::new(seed), Tally::default());
            let mut surveys = kind.surveys(&mut rng);
            surveys.retain(|survey| sort(survey));
            let mut comparison = Comparison::new(&Peer, planner, &mut tally);
            surveys
                .iter()
                .any(|survey| kind.calls(&mut comparison, survey, &mut rng).is_err())
        })
    })
}

#[test]
fn right_planners_are_not_noticed() {
    let is_noticed = |kinds, planner: &dyn Planner| is_noticed_among(kinds, |_| true, planner);
    assert!(!is_noticed(is_small, &Peer));
    assert!(!is_noticed(is_small, &Walking::default()));
    assert!(!is_noticed(is_small, &Admitting(two_ranks::fit)));
    let pruning = Pruning { least: LOWEST };
    assert!(!is_noticed(is_small_or_at_limits, &pruning));
    assert!(!is_noticed(is_small_or_at_limits, &misreading(|sum| sum)));
    assert!(!is_noticed(
        is_small_or_cut,
        &recounting(|[written, _]| written)
    ));
    assert!(!is_noticed(
        is_small_or_cut,
        &refusing(|_, refusal| refusal)
    ));
}

#[test]
fn flawed_planners_are_noticed() {
    let past = Walking {
        past: 1,
        ..Walking::default()
    };
    let keeping = Walking {
        keeps_dominated: true,
        ..Walking::default()
    };
    let flawed: [(&str, &dyn Planner); 13] = [
        ("k-th of the different values", &DifferentValues),
        ("no place", &NoPlace),
        ("last tree", &LastTree),
        ("no exceptions", &NoExceptions),
        ("tree buffer cleared past the tree", &ClearedTail),
        ("one position over the allowance", &OverAllowance),
        ("list buffer's last byte kept", &KeptTail),
        ("all positions counted as solved", &AllSolved),
        ("lists kept for other surveys", &Stale::default()),
        ("own place marked past", &past),
        ("dominated vectors kept", &keeping),
        ("plan number before the list", &NumberFirst),
        ("same links of another place", &OtherPlace),
    ];
    assert_noticed(is_small, |_| false, &flawed);
}

#[test]
fn flaws_of_two_ranks_are_noticed() {
    let [counted_once, link_by_link, by_one_rank, without_both, by_the_cheapest] = [
        two_ranks::fit_counted_once,
        two_ranks::fit_link_by_link,
        two_ranks::fit_by_one_rank,
        two_ranks::fit_without_both,
        two_ranks::fit_by_the_cheapest,
    ]
    .map(Admitting);
    let flawed: [(&str, &dyn Planner); 6] = [
        ("above both bounds, counted once", &counted_once),
        ("a pair allowed link by link", &link_by_link),
        ("as many exceptions as one rank allows", &by_one_rank),
        ("no link above both bounds", &without_both),
        ("the cheapest of all exceptions", &by_the_cheapest),
        ("a rank of 3 taken for 2", &ThreeForTwo),
    ];
    assert_noticed(is_small, |survey| !two_ranks::are_in(survey), &flawed);
}

#[test]
fn flaws_of_signed_sums_are_noticed() {
    let readings: [fn(i32) -> i32; 6] = [
        |sum| if sum < 0 { i32::MAX } else { sum },
        i32::wrapping_abs,
        |sum| sum.max(0),
        |sum| if sum == LOWEST { LOWEST - 1 } else { sum },
        |sum| if sum == LOWEST - 1 { LOWEST } else { sum },
        |sum| sum.max(LOWEST),
    ];
    let [unsigned, without_sign, at_least_0, lowest_refused, next_accepted, all_accepted] =
        readings.map(misreading);
    let flawed: [(&str, &dyn Planner); 8] = [
        ("a sum below 0 read as above the limit", &unsigned),
        ("a sum read without its sign", &without_sign),
        ("a sum below 0 taken for 0", &at_least_0),
        ("the lowest sum refused", &lowest_refused),
        ("one below the lowest sum accepted", &next_accepted),
        ("no lowest sum", &all_accepted),
        ("plans in unsigned order", &UnsignedOrder),
        (
            "further links taken to cost 0 at least",
            &Pruning { least: 0 },
        ),
    ];
    assert_noticed(is_small_or_at_limits, none_below_0, &flawed);
}

#[test]
fn flaws_of_link_counts_are_noticed() {
    let counts: [fn([usize; 2]) -> usize; 5] = [
        |[_, present]| present,
        |[written, present]| written.min(present),
        |[written, present]| written.max(present),
        |[written, _]| written + 1,
        |[written, present]| if written == 0 { present } else { written },
    ];
    let [ignored, no_link_missing, no_link_too_many, one_link_less, none_of_0] =
        counts.map(recounting);
    let [before_4, after_5, with_place] = [
        link_counts::count_before_4,
        link_counts::count_after_5,
        link_counts::count_with_place,
    ]
    .map(refusing);
    let flawed: [(&str, &dyn Planner); 11] = [
        ("the count ignored", &ignored),
        ("links missing accepted", &no_link_missing),
        ("links too many accepted", &no_link_too_many),
        ("the count compared with one link less", &one_link_less),
        ("a count of 0 taken for no count", &none_of_0),
        ("15 before 4", &before_4),
        ("15 after 5", &after_5),
        ("15 with a place", &with_place),
        ("a list buffer cleared with 15", &ClearedByCount),
        ("6 bytes for 7", &Reading(link_counts::measured_as_plain)),
        (
            "refused by its mark",
            &Reading(link_counts::without_counted_mark),
        ),
    ];
    assert_noticed(is_small_or_cut, |survey| !is_counted(survey), &flawed);
}

#[test]
fn flaws_of_unknown_marks_are_noticed() {
    let [measured_as_counted, mark_before_length] = [
        link_counts::unknown_measured_as_counted,
        link_counts::mark_before_length,
    ]
    .map(refusing);
    let flawed: [(&str, &dyn Planner); 2] = [
        ("an unknown mark measured by 7", &measured_as_counted),
        ("an unknown mark before the length", &mark_before_length),
    ];
    assert_noticed(is_small_or_cut, is_known, &flawed);
}
