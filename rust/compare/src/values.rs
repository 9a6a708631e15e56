//! The sum and ceiling costs of generated yards.

use crate::rng::Rng;
use crate::sums;
use std::ops::RangeInclusive;

/// Which sum and ceiling costs the links have.
#[derive(Clone, Copy)]
pub enum Values {
    /// Any that are legal.
    Free,
    /// Few different ones, so that trees tie; links are often parallel.
    Tied,
    /// The ends of the legal ranges and the values around 0.
    Extreme,
    /// No value twice.
    Different,
    /// The lower the sum cost, the higher the ceiling costs: many plans.
    Opposed,
}

/// Which signs the sum costs of a yard's links have.
#[derive(Clone, Copy)]
pub enum Signs {
    /// None is below 0.
    Plus,
    /// All are below 0.
    Minus,
    /// Any.
    Mixed,
}

impl Signs {
    /// The sum costs of these signs that are at most `size` away from 0.
    fn range(self, size: i64) -> RangeInclusive<i64> {
        match self {
            Signs::Plus => 0..=size,
            Signs::Minus => -size..=-1,
            Signs::Mixed => -size..=size,
        }
    }

    /// Those of some sum costs that have these signs.
    fn filter(self, sums: &[i64]) -> Vec<i64> {
        let mut sums = sums.to_vec();
        sums.retain(|sum| self.range(HIGHEST).contains(sum));
        sums
    }
}

/// The signs that yards of any signs draw from.
pub const SIGNS: [Signs; 3] = [Signs::Plus, Signs::Minus, Signs::Mixed];

/// The limits of sum costs.
const LOWEST: i64 = sums::LOWEST as i64;
const HIGHEST: i64 = sums::HIGHEST as i64;
/// The ends of the legal sum costs and the values around 0.
const EXTREMES: [i64; 7] = [LOWEST, LOWEST + 1, -1, 0, 1, HIGHEST - 1, HIGHEST];

impl Values {
    /// Sum costs of these signs for so many links.
    pub fn sums(self, count: usize, signs: Signs, rng: &mut Rng) -> Vec<i64> {
        let scale = rng.pick(&[9, 1000, HIGHEST]);
        match self {
            Values::Different | Values::Opposed => different(count, signs.range(HIGHEST), rng),
            Values::Free => numbers(count, || rng.within(signs.range(scale))),
            Values::Tied => numbers(count, || rng.within(signs.range(2))),
            Values::Extreme => {
                let extremes = signs.filter(&EXTREMES);
                numbers(count, || rng.pick(&extremes))
            }
        }
    }

    /// The costs of so many ceilings, for links with these sums.
    pub fn costs(self, sums: &[i64], signs: Signs, room: usize, rng: &mut Rng) -> Vec<Vec<i64>> {
        if let Values::Opposed = self {
            return opposed(sums, *signs.range(HIGHEST).start(), room, rng);
        }
        let legal = i64::from(i16::MIN)..=i64::from(i16::MAX);
        let costs = |_| match self {
            Values::Different => different(sums.len(), legal.clone(), rng),
            Values::Tied => numbers(sums.len(), || rng.within(-1..=2)),
            Values::Extreme => numbers(sums.len(), || rng.pick(&[-32_768, -1, 0, 32_767])),
            _ => numbers(sums.len(), || rng.within(legal.clone())),
        };
        (0..room).map(costs).collect()
    }
}

/// Puts a limit of these signs on some link, if there is one.
pub fn put_limit(sums: &mut [i64], signs: Signs, rng: &mut Rng) {
    let limit = rng.pick(&signs.filter(&[LOWEST, HIGHEST]));
    let count = sums.len();
    if let Some(sum) = sums.get_mut(rng.below(count.max(1))) {
        *sum = limit;
    }
}

/// Costs that share out between the ceilings how far a link's sum is below the highest: the lower
/// the sum, the higher the costs. `least` is the lowest sum that may occur.
fn opposed(sums: &[i64], least: i64, room: usize, rng: &mut Rng) -> Vec<Vec<i64>> {
    let unit = (HIGHEST - least) * 31 / 1000;
    let mut costs = vec![Vec::new(); room];
    for sum in sums {
        let mut ends = numbers(room - 1, || rng.within(0..=1000));
        ends.push(1000);
        ends.sort();
        let starts = [0].into_iter().chain(ends.clone());
        for ((costs, start), end) in costs.iter_mut().zip(starts).zip(ends) {
            costs.push((HIGHEST - sum) * (end - start) / unit - 16_000);
        }
    }
    costs
}

fn numbers(count: usize, next: impl FnMut() -> i64) -> Vec<i64> {
    std::iter::repeat_with(next).take(count).collect()
}

/// That many different numbers of a range, in random order.
fn different(count: usize, range: RangeInclusive<i64>, rng: &mut Rng) -> Vec<i64> {
    let step = (range.end() - range.start()) / count.max(1) as i64;
    let mut numbers: Vec<i64> = (0..count as i64)
        .map(|i| range.start() + i * step + rng.within(0..=step - 1))
        .collect();
    rng.shuffle(&mut numbers);
    numbers
}
