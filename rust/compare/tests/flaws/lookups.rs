//! Planners whose lookups are flawed.

use compare::index_rules::numbers;
use compare::list_bytes::Plans;
use compare::planner::Planner;
use peer::Refusal;
use std::cmp::Reverse;

/// Looks up rightly after a test of its own on an index that is long enough.
pub fn lookup_after(
    list: &[u8],
    index: &[u8],
    value: i16,
    passes: impl Fn(&Plans) -> bool,
) -> Result<u16, Refusal> {
    let mut right = index.to_vec();
    peer::index(list, &mut right)?;
    match Plans::read(list).is_some_and(|plans| passes(&plans)) {
        true => peer::index_lookup(list, &right, value),
        false => Err(Refusal::whole(12)),
    }
}

/// Tests an index in its own way; it knows the plan numbers and how many bytes come after them.
pub struct Testing(pub fn(&Plans, &[usize], usize) -> bool);

impl Planner for Testing {
    fn index_lookup(&self, list: &[u8], index: &[u8], value: i16) -> Result<u16, Refusal> {
        lookup_after(list, index, value, |plans| {
            let (entries, after) = index.split_at(plans.index_bytes());
            (self.0)(plans, &numbers(entries), after.len())
        })
    }
}

/// The right test: each number once, each plan before the next.
pub fn is_index(plans: &Plans, numbers: &[usize], _: usize) -> bool {
    has_each_once(plans, numbers) && rises(plans, numbers)
}

fn has_each_once(plans: &Plans, numbers: &[usize]) -> bool {
    let mut numbers = numbers.to_vec();
    numbers.sort();
    numbers.into_iter().eq(0..plans.costs.len())
}

fn rises(plans: &Plans, numbers: &[usize]) -> bool {
    numbers.is_sorted_by(|&a, &b| (plans.key(a), a) < (plans.key(b), b))
}

/// Flawed tests of an index.
pub const TESTS: [(&str, Testing); 6] = [
    ("an index taken on trust", Testing(|_, _, _| true)),
    (
        "the order of an index taken on trust",
        Testing(|plans, numbers, _| has_each_once(plans, numbers)),
    ),
    (
        "equal plans in any order",
        Testing(|plans, numbers, _| {
            has_each_once(plans, numbers) && numbers.is_sorted_by_key(|&plan| plans.key(plan))
        }),
    ),
    (
        "an entry twice",
        Testing(|plans, numbers, _| {
            let are_plans = numbers.iter().all(|&plan| plan < plans.costs.len());
            are_plans && numbers.is_sorted_by_key(|&plan| (plans.key(plan), plan))
        }),
    ),
    (
        "the last entry taken on trust",
        Testing(|plans, numbers, _| {
            let tested = &numbers[..numbers.len().saturating_sub(1)];
            let are_plans = tested.iter().all(|&plan| plan < plans.costs.len());
            are_plans && rises(plans, tested)
        }),
    ),
    (
        "a longer index refused",
        Testing(|plans, numbers, after| is_index(plans, numbers, after) && after == 0),
    ),
];

/// Says that no plan meets the value before it tests the index.
pub struct ValueFirst;

impl Planner for ValueFirst {
    fn index_lookup(&self, list: &[u8], index: &[u8], value: i16) -> Result<u16, Refusal> {
        lookup_after(list, index, value, |_| true)?;
        peer::index_lookup(list, index, value)
    }
}

/// Chooses a plan in its own way; it knows the index and the value.
pub struct Choosing(pub fn(&Plans, &[usize], i16) -> Option<usize>);

impl Planner for Choosing {
    fn index_lookup(&self, list: &[u8], index: &[u8], value: i16) -> Result<u16, Refusal> {
        match peer::index_lookup(list, index, value) {
            Err(refusal) if refusal.number != 13 => return Err(refusal),
            _ => {}
        }
        let plans = Plans::read(list).ok_or(Refusal::whole(12))?;
        let numbers = numbers(&index[..plans.index_bytes()]);
        let chosen = (self.0)(&plans, &numbers, value).ok_or(Refusal::whole(13))?;
        Ok(chosen as u16)
    }
}

/// The right choice.
pub fn choice(plans: &Plans, index: &[usize], value: i16) -> Option<usize> {
    cheapest(plans, met(plans, index, |y1| y1 <= value))
}

/// The plans whose y1 passes a test, in the order of the index.
fn met(plans: &Plans, index: &[usize], passes: impl Fn(i16) -> bool) -> Vec<usize> {
    let meets = |&plan: &usize| plans.ceilings == 0 || passes(plans.costs[plan].ceilings[0]);
    index.iter().copied().filter(meets).collect()
}

/// The cheapest of some plans, of equal sums the one of the lowest number.
fn cheapest(plans: &Plans, mut among: Vec<usize>) -> Option<usize> {
    among.sort();
    among.into_iter().min_by_key(|&plan| plans.costs[plan].sum)
}

/// Flawed choices.
pub const CHOICES: [(&str, Choosing); 9] = [
    (
        "the later of equal sums",
        Choosing(|plans, index, value| {
            let met = met(plans, index, |y1| y1 <= value);
            met.into_iter()
                .max_by_key(|&plan| (Reverse(plans.costs[plan].sum), plan))
        }),
    ),
    (
        "the first in the index of equal sums",
        Choosing(|plans, index, value| {
            let met = met(plans, index, |y1| y1 <= value);
            met.into_iter().min_by_key(|&plan| plans.costs[plan].sum)
        }),
    ),
    (
        "the last that meets the value",
        Choosing(|plans, index, value| met(plans, index, |y1| y1 <= value).pop()),
    ),
    (
        "the cheapest without a sign",
        Choosing(|plans, index, value| {
            let met = met(plans, index, |y1| y1 <= value);
            met.into_iter()
                .min_by_key(|&plan| (plans.costs[plan].sum as u32, plan))
        }),
    ),
    (
        "the value without its sign",
        Choosing(|plans, index, value| {
            cheapest(plans, met(plans, index, |y1| y1 as u16 <= value as u16))
        }),
    ),
    (
        "below the value",
        Choosing(|plans, index, value| cheapest(plans, met(plans, index, |y1| y1 < value))),
    ),
    (
        "the value where p = 0",
        Choosing(|plans, index, value| {
            let meets = |&plan: &usize| plans.costs[plan].ceilings[0] <= value;
            cheapest(plans, index.iter().copied().filter(meets).collect())
        }),
    ),
    (
        "both ceilings",
        Choosing(|plans, index, value| {
            let mut met = met(plans, index, |y1| y1 <= value);
            met.retain(|&plan| plans.ceilings < 2 || plans.costs[plan].ceilings[1] <= value);
            cheapest(plans, met)
        }),
    ),
    (
        "plan 0 for none",
        Choosing(|plans, index, value| choice(plans, index, value).or(Some(0))),
    ),
];
