//! Planners that are wrong only where a survey has a yard record with a link count, and others that
//! are wrong only where it has no known yard mark.

use crate::reading::Reading;
use compare::planner::Planner;
use peer::records::{YardRecord, COUNTED, PLAIN, YARD_RECORDS};
use peer::Refusal;

/// Whether a survey opens with a yard record that has a link count.
pub fn is_counted(survey: &[u8]) -> bool {
    YardRecord::of(survey).count_at.is_some()
}

/// Whether a survey opens with the mark of some yard record.
pub fn is_known(survey: &[u8]) -> bool {
    YARD_RECORDS
        .iter()
        .any(|record| survey.starts_with(&record.mark))
}

/// Whether a survey is a yard record of that length and whole links.
fn is_measured_by(record: YardRecord, survey: &[u8]) -> bool {
    let links = survey.len().checked_sub(record.bytes);
    links.is_some_and(|bytes| bytes % record.link.bytes == 0)
}

/// The link count of a survey, and how many links are present, if it has a count.
fn counts(survey: &[u8]) -> Option<[usize; 2]> {
    let record = YardRecord::of(survey);
    if !is_counted(survey) || !is_measured_by(record, survey) {
        return None;
    }
    let present = (survey.len() - record.bytes) / record.link.bytes;
    let written = record.written_count(survey)?;
    Some([written, present])
}

/// Takes the link count for another, which it makes of the count and the links present.
pub fn recounting(count: fn([usize; 2]) -> usize) -> impl Planner {
    Reading(move |survey: &[u8]| {
        let mut survey = survey.to_vec();
        let at = YardRecord::of(&survey).count_at;
        if let Some((at, counts)) = at.zip(counts(&survey)) {
            survey[at] = count(counts).min(255) as u8;
        }
        Ok(survey)
    })
}

/// Compares the count before it asks whether there are too many links.
pub fn count_before_4(survey: &[u8], refusal: Refusal) -> Refusal {
    match counts(survey) {
        Some([written, present]) if refusal.number == 4 && written != present => Refusal::whole(15),
        _ => refusal,
    }
}

/// Compares the count after it has asked for the ceilings.
pub fn count_after_5(survey: &[u8], refusal: Refusal) -> Refusal {
    match survey {
        [_, _, _, 3..=255, ..] if refusal.number == 15 => Refusal::whole(5),
        _ => refusal,
    }
}

/// Gives a wrong count the place of the first link that is not there.
pub fn count_with_place(survey: &[u8], refusal: Refusal) -> Refusal {
    match counts(survey) {
        Some([_, present]) if refusal.number == 15 => Refusal {
            place: present as u8 + 1,
            ..refusal
        },
        _ => refusal,
    }
}

/// Asks for the length that a survey has without a count.
pub fn measured_as_plain(survey: &[u8]) -> Result<Vec<u8>, Refusal> {
    if is_counted(survey) && !is_measured_by(PLAIN, survey) {
        return Err(Refusal::whole(1));
    }
    Ok(survey.to_vec())
}

/// Does not know the marks of the records with a count.
pub fn without_counted_mark(survey: &[u8]) -> Result<Vec<u8>, Refusal> {
    let mut survey = survey.to_vec();
    if is_counted(&survey) {
        survey[..2].fill(0);
    }
    Ok(survey)
}

/// Clears the list buffer where the count is wrong.
pub struct ClearedByCount;

impl Planner for ClearedByCount {
    fn list(&self, survey: &[u8], allowance: u32, buffer: &mut [u8]) -> Result<(), Refusal> {
        let reply = peer::list(survey, allowance, buffer);
        if reply.is_err_and(|refusal| refusal.number == 15) {
            buffer.fill(0);
        }
        reply
    }
}

/// Measures a survey without a known mark as if it had a count.
pub fn unknown_measured_as_counted(survey: &[u8], refusal: Refusal) -> Refusal {
    if is_known(survey) {
        return refusal;
    }
    let number = if is_measured_by(COUNTED, survey) {
        2
    } else {
        1
    };
    Refusal::whole(number)
}

/// Looks at the mark before the length.
pub fn mark_before_length(survey: &[u8], refusal: Refusal) -> Refusal {
    if is_known(survey) {
        return refusal;
    }
    Refusal::whole(2)
}
