//! The fetch calls made on one plan list, whole and damaged.

use crate::comparison::{Comparison, Difference};
use crate::list_bytes::{plan_bytes, plan_count, used_bytes};
use crate::list_damage::heads;
use crate::rng::Rng;
use peer::plan_list::HEAD_BYTES;

/// Fetches every plan, numbers past the last, and plans of damaged lists.
pub fn fetch_calls(c: &mut Comparison, list: &[u8], rng: &mut Rng) -> Result<(), Difference> {
    let count = plan_count(list) as u32;
    let used = used_bytes(list);
    for plan in (0..count + 2).chain([u32::MAX, rng.bits() as u32]) {
        c.fetch(list, plan)?;
    }
    for len in 0..=used {
        c.fetch(&list[..len], rng.below(count as usize + 1) as u32)?;
    }
    let mut damaged = list[..used].to_vec();
    head_damage(c, &mut damaged, count, rng)?;
    for _ in 0..4 {
        let plan = rng.below(count as usize + 1);
        mark_damage(c, &mut damaged, plan)?;
        any_damage(c, &damaged, rng)?;
    }
    Ok(())
}

/// Fetches with each wrong or unexpected byte in the head, and every bit of it flipped.
fn head_damage(
    c: &mut Comparison,
    list: &mut [u8],
    count: u32,
    rng: &mut Rng,
) -> Result<(), Difference> {
    let original = list[..HEAD_BYTES].to_vec();
    for head in heads(list) {
        list[..HEAD_BYTES].copy_from_slice(&head);
        for plan in [
            0,
            count.saturating_sub(1),
            count,
            count + 1,
            rng.bits() as u32,
        ] {
            c.fetch(list, plan)?;
        }
    }
    list[..HEAD_BYTES].copy_from_slice(&original);
    Ok(())
}

/// Fetches a plan and the next with each bit of the plan's mark flipped.
fn mark_damage(c: &mut Comparison, list: &mut [u8], plan: usize) -> Result<(), Difference> {
    let start = HEAD_BYTES + plan * plan_bytes(list);
    for bit in 0..16 {
        let Some(byte) = list.get_mut(start + bit / 8) else {
            break;
        };
        *byte ^= 1 << (bit % 8);
        c.fetch(list, plan as u32)?;
        c.fetch(list, plan as u32 + 1)?;
        list[start + bit / 8] ^= 1 << (bit % 8);
    }
    Ok(())
}

/// Fetches with random bytes flipped, and out of random bytes with and without the head.
fn any_damage(c: &mut Comparison, list: &[u8], rng: &mut Rng) -> Result<(), Difference> {
    let mut flipped = list.to_vec();
    for _ in 0..4 {
        let at = rng.below(flipped.len());
        flipped[at] ^= 1 << rng.below(8);
    }
    let mut random = rng.bytes(list.len());
    let plan = rng.below(20) as u32;
    c.fetch(&random, plan)?;
    random[..HEAD_BYTES].copy_from_slice(&list[..HEAD_BYTES]);
    for plan in [plan, 0] {
        c.fetch(&flipped, plan)?;
        c.fetch(&random, plan)?;
    }
    Ok(())
}
