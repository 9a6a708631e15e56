//! The calls of the proved archive on slices: the only unsafe code of this crate.

use crate::refusal::{Refusal, DAMAGED};
use crate::{Costs, Figures, CEILINGS};
use ranqustei_sys::{
    ranqustei_best, ranqustei_fetch, ranqustei_index, ranqustei_index_lookup, ranqustei_judge,
    ranqustei_list, ranqustei_small_survey, ranqustei_write_survey, Reply, Yard,
};

/// Nothing for number 0, else the refusal.
#[inline]
fn settle(number: u8, place: u8) -> Result<(), Refusal> {
    match number {
        0 => Ok(()),
        _ => Err(Refusal { number, place }),
    }
}

/// The costs of a plan, or the refusal.
fn costs(reply: Reply) -> Result<Costs, Refusal> {
    settle(reply.number, reply.place)?;
    Ok(Costs {
        sum: reply.sum,
        ceilings: [reply.y1, reply.y2, reply.y3],
    })
}

/// Judges a drawn tree, given as its link numbers, rising: its costs.
///
/// # Errors
/// 1 to 8, 15, 18 or 19 for the survey, 11 if the drawn links are no tree of the yard.
pub fn judge(survey: &[u8], drawn: &[u8]) -> Result<Costs, Refusal> {
    // SAFETY: each pointer is that of a live slice and goes with its length. The call only reads,
    // so that it does no harm if the two overlap.
    let reply =
        unsafe { ranqustei_judge(survey.as_ptr(), survey.len(), drawn.as_ptr(), drawn.len()) };
    costs(reply)
}

/// Finds the best tree under a bound for each ceiling: its costs. Its t link numbers go to the
/// first t bytes of `tree`; the bytes after them stay. Bounds for absent ceilings are ignored.
///
/// # Errors
/// 1 to 8, 15, 18 or 19 for the survey, 9 if `tree` is below t bytes, 14 if no tree fits. `tree`
/// then stays as it was.
pub fn best(survey: &[u8], bounds: [i16; CEILINGS], tree: &mut [u8]) -> Result<Costs, Refusal> {
    let [b1, b2, b3] = bounds;
    // SAFETY: each pointer is that of a live slice and goes with its length. `tree` is borrowed
    // for writing, so that it does not overlap the survey.
    let reply = unsafe {
        ranqustei_best(
            survey.as_ptr(),
            survey.len(),
            b1,
            b2,
            b3,
            tree.as_mut_ptr(),
            tree.len(),
        )
    };
    costs(reply)
}

/// Writes the list of plans into `buffer`, and 0 into its bytes after the list. 56,010 bytes are
/// always enough.
///
/// # Errors
/// 1 to 8, 15, 18 or 19 for the survey, 9 if `buffer` is below its need: it then stays as it was. 10
/// if the solved count would pass the allowance: the whole buffer is then 0.
pub fn list(survey: &[u8], allowance: u32, buffer: &mut [u8]) -> Result<(), Refusal> {
    // SAFETY: each pointer is that of a live slice and goes with its length. `buffer` is borrowed
    // for writing, so that it does not overlap the survey.
    let status = unsafe {
        ranqustei_list(
            survey.as_ptr(),
            survey.len(),
            allowance,
            buffer.as_mut_ptr(),
            buffer.len(),
        )
    };
    settle(status.number, status.place)
}

/// Fetches the link numbers of one plan, a part of the list.
///
/// # Errors
/// 12 if the list is damaged, 13 if it has no such plan; place 0.
pub fn fetch(list: &[u8], plan: u32) -> Result<&[u8], Refusal> {
    // SAFETY: the pointer is that of a live slice and goes with its length. The call only reads.
    let part = unsafe { ranqustei_fetch(list.as_ptr(), list.len(), plan) };
    settle(part.number, 0)?;
    list.get(part.start..)
        .and_then(|rest| rest.get(..part.count))
        .ok_or(DAMAGED)
}

/// Writes the index of a plan list into the front of `index`: the number of each plan, two bytes,
/// low byte first, by rising first ceiling cost, then sum, second ceiling cost and plan number; in
/// a list without ceilings by sum and plan number. The bytes after it stay. 3,200 bytes are always
/// enough.
///
/// # Errors
/// 12 if the list is damaged, in any of its plans; 16 if `index` is below 2 bytes for each plan;
/// place 0. `index` then stays as it was.
pub fn index(list: &[u8], index: &mut [u8]) -> Result<(), Refusal> {
    // SAFETY: each pointer is that of a live slice and goes with its length. `index` is borrowed
    // for writing, so that it does not overlap the list.
    let status =
        unsafe { ranqustei_index(list.as_ptr(), list.len(), index.as_mut_ptr(), index.len()) };
    settle(status.number, status.place)
}

/// Looks up the cheapest plan whose first ceiling cost is at most `value`: its number, the lowest
/// of those with the least sum. In a list without ceilings every plan meets every value. Bytes
/// after the index do not matter.
///
/// # Errors
/// 12 and 16 as [`index`] has them; then 12 if `index` is not the index of the list, 13 if no plan
/// meets the value; place 0.
pub fn index_lookup(list: &[u8], index: &[u8], value: i16) -> Result<u16, Refusal> {
    // SAFETY: each pointer is that of a live slice and goes with its length. The call only reads,
    // so that it does no harm if the two overlap.
    let found = unsafe {
        ranqustei_index_lookup(
            list.as_ptr(),
            list.len(),
            index.as_ptr(),
            index.len(),
            value,
        )
    };
    settle(found.number, found.place)?;
    Ok(found.plan)
}

/// Writes the survey of the figures into the front of `survey`, with the yard record of this kind:
/// [`YardRecord::kind`](crate::YardRecord::kind). It has 12 bytes for each sum cost, and before
/// them 6 bytes, or 7 with the counted yard record. The bytes after it stay. 487 bytes are always
/// enough.
///
/// # Errors
/// 2 if the kind is neither the plain nor the counted yard record's; 3 to 8 for the figures, as a
/// survey of them would be declined, 7 and 8 at the place of a link; 7 also for an end that is left
/// out, and 8 for a left out cost of a present ceiling; 17 if `survey` has no room for the survey.
/// `survey` then stays as it was.
pub fn write_survey(kind: u32, figures: &Figures, survey: &mut [u8]) -> Result<(), Refusal> {
    let Figures {
        stations,
        ceilings,
        ranks: [k1, k2],
        ends,
        sums,
        costs,
    } = *figures;
    let yard = Yard {
        n: stations,
        p: ceilings,
        k1,
        k2,
    };
    // SAFETY: each pointer is that of a live slice and goes with its length. `survey` is borrowed
    // for writing, so that it overlaps none of the others.
    let status = unsafe {
        ranqustei_write_survey(
            kind,
            yard,
            ends.as_ptr(),
            ends.len(),
            sums.as_ptr(),
            sums.len(),
            costs.as_ptr(),
            costs.len(),
            survey.as_mut_ptr(),
            survey.len(),
        )
    };
    settle(status.number, status.place)
}

/// Writes the [small survey](crate::SmallSurveys) of a number into the first 42 bytes of `survey`,
/// which are [`SMALL_SURVEY_BYTES`](crate::SMALL_SURVEY_BYTES). The bytes after them stay.
///
/// # Errors
/// 20 if `number` is not below 1,728, which is [`SMALL_SURVEYS`](crate::SMALL_SURVEYS); then 17 if
/// `survey` is below 42 bytes; place 0. `survey` then stays as it was.
#[inline] // the call costs as much as its work
pub fn small_survey(number: u32, survey: &mut [u8]) -> Result<(), Refusal> {
    // SAFETY: the pointer is that of a live slice, borrowed for writing, and goes with its length.
    let status = unsafe { ranqustei_small_survey(number, survey.as_mut_ptr(), survey.len()) };
    settle(status.number, status.place)
}
