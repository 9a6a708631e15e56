//! Plan lists that break rules.

use crate::damage::{flip_bits, randomize, wrong_byte};
use crate::list_bytes::{plan_bytes, plan_count, plan_record, used_bytes};
use crate::rng::Rng;
use peer::plan_list::{HEAD_BYTES, MAX_PLANS, PLAN_RECORDS};

/// Something done to the bytes of a list.
type ListDamage = fn(&mut Vec<u8>, &mut Rng);

/// The kinds of damage for which a list is refused, if it has a plan.
pub const LIST_DAMAGES: [(&str, ListDamage); 11] = [
    ("the head's mark", |list, rng| head_mark(list, rng)),
    ("a count of one more", one_more),
    ("a count above 1,600", |list, rng| count_above(list, rng)),
    ("a t of one more", longer_plans),
    ("a t above 23", |list, rng| tree_len_above(list, rng)),
    ("a p above 3", |list, rng| ceilings_above(list, rng)),
    ("a plan's mark that another p has", |list, rng| {
        mark_of_other_ceilings(list, rng)
    }),
    ("plans 2 bytes shorter or longer", shorter_or_longer),
    ("the last byte gone", last_byte_gone),
    ("a plan's mark", |list, rng| any_mark(list, rng)),
    ("the last plan's mark", |list, rng| last_mark(list, rng)),
];

/// Changes after which a list may be a whole one, though not the one that it was.
pub const LIST_CHANGES: [ListDamage; 6] = [
    |list, rng| one_less(list, rng),
    |list, rng| other_ceilings(list, rng),
    cut,
    |list, rng| flip_bits(list, rng),
    randomize,
    |list, _| list.truncate(used_bytes(list)),
];

/// All heads that differ from a list's by a bit, or have a field at a limit or past it.
pub fn heads(list: &[u8]) -> Vec<[u8; HEAD_BYTES]> {
    let original: [u8; HEAD_BYTES] = std::array::from_fn(|i| list[i]);
    let mut heads = Vec::new();
    let mut change = |change: &dyn Fn(&mut [u8; HEAD_BYTES])| {
        let mut head = original;
        change(&mut head);
        heads.push(head);
    };
    for bit in 0..HEAD_BYTES * 8 {
        change(&|head| head[bit / 8] ^= 1 << (bit % 8));
    }
    let count = plan_count(list);
    for other in [count + 1, count.wrapping_sub(1), 0, 1600, 1601, 0xffff] {
        change(&|head| write_count(head, other));
    }
    for (at, others) in [(8, [0, 22, 23, 24, 25, 255]), (9, [0, 1, 2, 3, 4, 255])] {
        for other in others {
            change(&|head| head[at] = other);
        }
    }
    heads
}

fn write_count(list: &mut [u8], count: usize) {
    list[2..4].copy_from_slice(&(count as u16).to_le_bytes());
}

fn head_mark(list: &mut [u8], rng: &mut Rng) {
    wrong_byte(&mut list[rng.below(2)], rng);
}

/// The count is one more than there are plans.
fn one_more(list: &mut Vec<u8>, _: &mut Rng) {
    list.truncate(used_bytes(list));
    let count = plan_count(list);
    write_count(list, count + 1);
}

fn count_above(list: &mut [u8], rng: &mut Rng) {
    write_count(list, rng.pick(&[MAX_PLANS + 1, MAX_PLANS + 2, 0xffff]));
}

/// The plans are a byte shorter than the head says.
fn longer_plans(list: &mut Vec<u8>, _: &mut Rng) {
    list.truncate(used_bytes(list));
    list[8] += 1;
}

fn tree_len_above(list: &mut [u8], rng: &mut Rng) {
    list[8] = rng.pick(&[24, 25, 255]);
}

fn ceilings_above(list: &mut [u8], rng: &mut Rng) {
    list[9] = rng.pick(&[4, 5, 255]);
}

fn last_byte_gone(list: &mut Vec<u8>, _: &mut Rng) {
    list.truncate(used_bytes(list) - 1);
}

fn any_mark(list: &mut [u8], rng: &mut Rng) {
    let plan = rng.below(plan_count(list).max(1));
    wrong_mark(list, plan, rng);
}

fn last_mark(list: &mut [u8], rng: &mut Rng) {
    let last = plan_count(list).saturating_sub(1);
    wrong_mark(list, last, rng);
}

fn wrong_mark(list: &mut [u8], plan: usize, rng: &mut Rng) {
    let start = HEAD_BYTES + plan * plan_bytes(list);
    if plan < plan_count(list) {
        wrong_byte(&mut list[start + rng.below(2)], rng);
    }
}

/// The other mark that plans can have, on any plan.
fn mark_of_other_ceilings(list: &mut [u8], rng: &mut Rng) {
    let plans = plan_count(list);
    let start = HEAD_BYTES + rng.below(plans.max(1)) * plan_bytes(list);
    let [of_two, of_three] = PLAN_RECORDS.map(|record| record.mark);
    let other = if list[9] < 3 { of_three } else { of_two };
    if plans > 0 {
        list[start..start + 2].copy_from_slice(&other);
    }
}

/// The plans have the length and the mark of a list with fewer ceilings, or with more.
fn shorter_or_longer(list: &mut Vec<u8>, _: &mut Rng) {
    let (used, own) = (used_bytes(list), plan_bytes(list));
    let ceilings = if list[9] < 3 { 3 } else { 2 };
    let record = plan_record(ceilings);
    let plans = list[HEAD_BYTES..used].chunks_exact(own);
    let rewritten: Vec<u8> = plans
        .flat_map(|plan| {
            let links = &plan[plan_record(list[9]).costs_bytes..];
            let costs = plan[2..].iter().take(record.costs_bytes - 2);
            let mut bytes: Vec<u8> = record.mark.iter().chain(costs).copied().collect();
            bytes.resize(record.costs_bytes, 0);
            bytes.extend(links);
            bytes
        })
        .collect();
    list.truncate(HEAD_BYTES);
    list.extend(rewritten);
}

fn one_less(list: &mut [u8], _: &mut Rng) {
    let count = plan_count(list);
    write_count(list, count.saturating_sub(1));
}

fn other_ceilings(list: &mut [u8], rng: &mut Rng) {
    list[9] = (list[9] + rng.within(1..=3) as u8) % 4;
}

fn cut(list: &mut Vec<u8>, rng: &mut Rng) {
    list.truncate(rng.below(list.len()));
}
