//! The order of an index, and the plan that a lookup finds.

use crate::random::Random;
use crate::samples::{bytes_a, list_of, told, yard, yard_a};
use ranqustei::{index, index_lookup, Survey, Yard};

/// A plan's sum and its ceiling costs, as its record has them: two, or three in a list with p = 3.
type Record<const N: usize> = (i32, [i16; N]);

/// The plan numbers in the order of a list's index; every byte after the index stays.
fn indexed(list: &[u8], plans: usize) -> Vec<u16> {
    let mut buffer = vec![0xA5; 2 * plans + 7];
    assert_eq!(index(list, &mut buffer), Ok(()));
    let (built, after) = buffer.split_at(2 * plans);
    assert_eq!(after, [0xA5; 7]);
    let entries = built.chunks_exact(2);
    entries
        .map(|entry| u16::from_le_bytes([entry[0], entry[1]]))
        .collect()
}

fn bytes_of(numbers: &[u16]) -> Vec<u8> {
    numbers.iter().flat_map(|n| n.to_le_bytes()).collect()
}

/// Holds an index against the order that it should have.
fn check_order<const N: usize>(p: u8, plans: &[Record<N>], numbers: &[u16]) {
    assert_eq!(indexed(&list_of(1, p, plans), plans.len()), numbers);
}

#[test]
fn survey_a() {
    let plans = Survey::new(bytes_a()).and_then(|survey| survey.plans());
    let plans = plans.expect("survey A lists");
    assert_eq!(indexed(plans.as_bytes(), 2), [1, 0]);
    let look_up = |value| index_lookup(plans.as_bytes(), &[1, 0, 0, 0], value).map_err(told);
    for (value, plan) in [(7, 1), (8, 1), (9, 0), (10, 0), (i16::MAX, 0)] {
        assert_eq!(look_up(value), Ok(plan));
    }
    for value in [6, 0, -1, i16::MIN] {
        assert_eq!(look_up(value), Err((13, 0)));
    }
}

#[test]
fn first_ceiling_cost_then_sum_then_second_ceiling_cost_then_number() {
    check_order(2, &[(1, [9, 0]), (2, [5, 0]), (3, [7, 0])], &[1, 2, 0]);
    check_order(2, &[(3, [5, 0]), (1, [5, 9]), (2, [5, 0])], &[1, 2, 0]);
    check_order(2, &[(1, [5, 8]), (1, [5, 9]), (1, [5, 7])], &[2, 0, 1]);
    check_order(2, &[(1, [5, 8]), (1, [5, 8]), (1, [4, 9])], &[2, 0, 1]);
}

#[test]
fn figures_are_signed() {
    let costs = [
        (0, [1, 0]),
        (0, [-1, 0]),
        (0, [i16::MAX, 0]),
        (0, [i16::MIN, 0]),
    ];
    check_order(1, &costs, &[3, 1, 0, 2]);
    let sums = [
        (1, [0, 0]),
        (-1, [0, 0]),
        (i32::MAX, [0, 0]),
        (i32::MIN, [0, 0]),
    ];
    check_order(1, &sums, &[3, 1, 0, 2]);
    check_order(2, &[(0, [0, 1]), (0, [0, -1]), (0, [0, 0])], &[1, 2, 0]);
}

#[test]
fn the_third_ceiling_cost_is_not_in_the_order() {
    check_order(
        3,
        &[(1, [5, 8, 9]), (1, [5, 8, 7]), (1, [5, 7, 9])],
        &[2, 0, 1],
    );
    check_order(3, &[(2, [5, 0, 1]), (1, [5, 9, 2])], &[1, 0]);
    // With p = 2 the bytes after the second cost are link numbers.
    check_order(2, &[(1, [5, 8]), (1, [5, 7])], &[1, 0]);
}

#[test]
fn absent_ceilings() {
    // The second cost counts as it stands there, also with one ceiling.
    check_order(1, &[(1, [5, 8]), (1, [5, 7])], &[1, 0]);
    // Without ceilings neither does.
    check_order(0, &[(2, [1, 0]), (1, [9, 9]), (1, [9, 8])], &[1, 2, 0]);
    let list = list_of(1, 0, &[(2, [1, 0]), (1, [9, 9]), (1, [9, 8])]);
    for value in [i16::MIN, 0, i16::MAX] {
        assert_eq!(
            index_lookup(&list, &bytes_of(&[1, 2, 0]), value).map_err(told),
            Ok(1)
        );
    }
}

#[test]
fn the_first_in_the_list_of_equal_sums() {
    // Plan 1 stands first in the index; plan 0 stands first in the list.
    let list = list_of(1, 1, &[(4, [7, 0]), (4, [5, 0]), (6, [3, 0])]);
    let numbers = [2, 1, 0];
    assert_eq!(indexed(&list, 3), numbers);
    let look_up = |value| index_lookup(&list, &bytes_of(&numbers), value).map_err(told);
    assert_eq!(
        [2, 3, 4, 5, 6, 7, 8].map(look_up),
        [Err((13, 0)), Ok(2), Ok(2), Ok(1), Ok(1), Ok(0), Ok(0)]
    );
}

/// Plans with figures of so many different values, on both sides of 0.
fn random_plans<const N: usize>(
    count: usize,
    values: usize,
    random: &mut Random,
) -> Vec<Record<N>> {
    let mut figure = || (random.below(values) as i32 - values as i32 / 2) as i16;
    (0..count)
        .map(|_| (figure().into(), [0; N].map(|_| figure())))
        .collect()
}

/// Holds the index of a list, and lookups up to `most` on both sides of 0, against sorting the plans
/// and comparing all of them.
fn check_sorted<const N: usize>(p: u8, plans: &[Record<N>], most: i16) {
    let list = list_of(2, p, plans);
    let key = |&number: &u16| {
        let (sum, costs) = plans[usize::from(number)];
        let [y1, y2] = if p == 0 { [0, 0] } else { [costs[0], costs[1]] };
        (y1, sum, y2, number)
    };
    let mut sorted: Vec<u16> = (0..plans.len() as u16).collect();
    sorted.sort_by_key(key);
    assert_eq!(indexed(&list, plans.len()), sorted);
    for value in [i16::MIN, i16::MAX].into_iter().chain(-most..=most) {
        let meets = |number: &u16| p == 0 || plans[usize::from(*number)].1[0] <= value;
        let met = (0..plans.len() as u16).filter(meets);
        let cheapest = met.min_by_key(|&number| (plans[usize::from(number)].0, number));
        assert_eq!(
            index_lookup(&list, &bytes_of(&sorted), value).map_err(told),
            cheapest.ok_or((13, 0))
        );
    }
}

#[test]
fn random_lists() {
    let mut random = Random(8);
    for round in 0..2_000 {
        let (count, values) = (random.below(20), [2, 5, 30][round % 3]);
        let plans: Vec<Record<2>> = random_plans(count, values, &mut random);
        check_sorted((round / 3 % 3) as u8, &plans, 16);
        let plans: Vec<Record<3>> = random_plans(count, values, &mut random);
        check_sorted(3, &plans, 16);
    }
    for (values, p) in [(2, 1), (40, 2), (60_000, 1), (60_000, 2), (7, 0)] {
        let plans: Vec<Record<2>> = random_plans(1_600, values, &mut random);
        check_sorted(p, &plans, 20);
        let plans: Vec<Record<3>> = random_plans(1_600, values, &mut random);
        check_sorted(3, &plans, 20);
    }
}

#[test]
fn long_lists_in_every_direction() {
    let plan = |number: i16| (i32::from(number) / 7, [number, 0]);
    let rising: Vec<Record<2>> = (0..1_600).map(plan).collect();
    let falling: Vec<Record<2>> = rising.iter().rev().copied().collect();
    let shuffled: Vec<Record<2>> = (0..1_600).map(|i| plan((i * 997 % 1_600) as i16)).collect();
    for plans in [rising, falling, shuffled] {
        check_sorted(1, &plans, 3);
    }
}

/// The plans of a yard in the order of their index, as the planner's program prints them.
fn by_ceiling(yard: &Yard) -> Vec<String> {
    let survey = yard.survey().expect("the yard is accepted");
    let plans = survey.plans().expect("an accepted survey lists");
    let index = plans.index().expect("a list has an index");
    index
        .iter()
        .inspect(|(number, plan)| assert_eq!(plans.get(*number).as_ref(), Ok(plan)))
        .map(|(_, plan)| plan.to_string())
        .collect()
}

#[test]
fn plans_on_figures() {
    assert_eq!(by_ceiling(&yard_a(1)), ["7 7 links 0 1", "4 9 links 1 2"]);
    let two = [
        (0, 1, 4, &[7, 1][..]),
        (1, 2, 3, &[2, 6]),
        (0, 2, 1, &[9, 3]),
    ];
    assert_eq!(
        by_ceiling(&yard(3, &[1, 1], &two)),
        ["7 7 6 links 0 1", "4 9 6 links 1 2", "5 9 3 links 0 2"]
    );
    assert_eq!(by_ceiling(&yard(1, &[], &[])), ["0 links"]);
    assert!(by_ceiling(&yard(2, &[1], &[])).is_empty());
}
