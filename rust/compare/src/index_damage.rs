//! Indexes that are not a list's own.

use crate::damage::wrong_byte;
use crate::index_rules::{numbers, ENTRY_BYTES};
use crate::list_bytes::Plans;
use crate::rng::Rng;
use peer::plan_list::MAX_PLANS;

/// Something done to the index of a list.
type IndexDamage = fn(&mut [u8], &Plans, &mut Rng);

/// The kinds of damage for which an index is refused, where there are plans enough for it.
pub const INDEX_DAMAGES: [(&str, IndexDamage); 8] = [
    ("a byte changed", any_byte),
    ("the last entry changed", last_entry),
    ("two entries exchanged", two_exchanged),
    ("an entry twice", entry_twice),
    ("an entry of no plan", entry_of_no_plan),
    ("equal plans exchanged", equal_exchanged),
    ("all entries reversed", all_reversed),
    ("entries in list order", in_list_order),
];

fn entries(index: &mut [u8]) -> &mut [[u8; ENTRY_BYTES]] {
    index.as_chunks_mut().0
}

fn any_byte(index: &mut [u8], _: &Plans, rng: &mut Rng) {
    if !index.is_empty() {
        wrong_byte(&mut index[rng.below(index.len())], rng);
    }
}

fn last_entry(index: &mut [u8], _: &Plans, rng: &mut Rng) {
    if let Some(entry) = entries(index).last_mut() {
        wrong_byte(&mut entry[rng.below(ENTRY_BYTES)], rng);
    }
}

/// Two different places of an index, if it has two.
fn two_places(plans: &Plans, rng: &mut Rng) -> Option<[usize; 2]> {
    let count = plans.costs.len();
    if count < 2 {
        return None;
    }
    let place = rng.below(count);
    Some([place, (place + 1 + rng.below(count - 1)) % count])
}

fn two_exchanged(index: &mut [u8], plans: &Plans, rng: &mut Rng) {
    if let Some([place, other]) = two_places(plans, rng) {
        entries(index).swap(place, other);
    }
}

fn entry_twice(index: &mut [u8], plans: &Plans, rng: &mut Rng) {
    if let Some([place, other]) = two_places(plans, rng) {
        let entries = entries(index);
        entries[place] = entries[other];
    }
}

fn entry_of_no_plan(index: &mut [u8], plans: &Plans, rng: &mut Rng) {
    let count = plans.costs.len();
    let number = rng.pick(&[count, count + 1, MAX_PLANS, 0xffff]) as u16;
    if let Some(entry) = entries(index).get_mut(rng.below(count.max(1))) {
        *entry = number.to_le_bytes();
    }
}

/// Exchanges neighbours whose order is that of their plan numbers.
fn equal_exchanged(index: &mut [u8], plans: &Plans, rng: &mut Rng) {
    let numbers = numbers(index);
    let is_tied = |place: &usize| plans.key(numbers[*place]) == plans.key(numbers[place + 1]);
    let tied: Vec<usize> = (0..numbers.len().saturating_sub(1))
        .filter(is_tied)
        .collect();
    if !tied.is_empty() {
        let place = rng.pick(&tied);
        entries(index).swap(place, place + 1);
    }
}

fn all_reversed(index: &mut [u8], _: &Plans, _: &mut Rng) {
    entries(index).reverse();
}

fn in_list_order(index: &mut [u8], _: &Plans, _: &mut Rng) {
    entries(index).sort_by_key(|entry| u16::from_le_bytes(*entry));
}
