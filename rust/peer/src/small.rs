//! All small yards in order: three stations, one ceiling, and three links with small figures.

use crate::records::{PLAIN, TWO_COSTS};
use crate::reply::Refusal;

/// How many small surveys there are.
pub const SMALL_SURVEYS: u32 = CHOICES.pow(3);
/// How many bytes a small survey has.
pub const SMALL_SURVEY_BYTES: usize = PLAIN.bytes + 3 * TWO_COSTS.bytes;

/// How many choices a link has: three pairs of ends, two sum costs and two ceiling costs.
const CHOICES: u32 = 3 * 2 * 2;

/// The pairs of ends that a link may have, in order.
const ENDS: [[u8; 2]; 3] = [[0, 1], [0, 2], [1, 2]];

/// The yard record: its mark, n, p, k1 and k2.
const YARD_RECORD: [u8; PLAIN.bytes] = {
    let [mark0, mark1] = PLAIN.mark;
    [mark0, mark1, 3, 1, 1, 0]
};

/// The link record of each choice, in order.
const LINK_RECORDS: [[u8; TWO_COSTS.bytes]; CHOICES as usize] = {
    let mut records = [[0; TWO_COSTS.bytes]; CHOICES as usize];
    let mut choice = 0;
    while choice < records.len() {
        records[choice] = link_record(choice);
        choice += 1;
    }
    records
};

/// The bytes of a link: choices go by ends, then s, then c1.
const fn link_record(choice: usize) -> [u8; TWO_COSTS.bytes] {
    let [mark0, mark1] = TWO_COSTS.mark;
    let [a, b] = ENDS[choice / 4];
    let [sum, cost] = [choice as u8 / 2 % 2, choice as u8 % 2];
    [mark0, mark1, a, b, sum, 0, 0, 0, cost, 0, 0, 0]
}

/// Writes the small survey of a number to the front of the lent buffer. Surveys go by the choice
/// of link 0, then link 1, then link 2.
pub fn small_survey(number: u32, survey: &mut [u8]) -> Result<(), Refusal> {
    if number >= SMALL_SURVEYS {
        return Err(Refusal::whole(20));
    }
    let survey: &mut [u8; SMALL_SURVEY_BYTES] =
        survey.first_chunk_mut().ok_or(Refusal::whole(17))?;
    let (yard_record, link_records) = survey.split_at_mut(PLAIN.bytes);
    yard_record.copy_from_slice(&YARD_RECORD);
    let choices = [
        number / (CHOICES * CHOICES),
        number / CHOICES % CHOICES,
        number % CHOICES,
    ];
    let (link_records, _) = link_records.as_chunks_mut();
    for (record, choice) in link_records.iter_mut().zip(choices) {
        *record = LINK_RECORDS[choice as usize];
    }
    Ok(())
}
