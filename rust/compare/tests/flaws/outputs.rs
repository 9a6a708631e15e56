//! Planners that spoil the output of a survey.

use compare::planner::Planner;
use compare::write_rules::Request;
use peer::records::{YardRecord, COUNTED, PLAIN, TWO_COSTS};
use peer::{Figures, Refusal};

/// Does more to the survey that was written, and to the bytes after it.
pub struct Spoiling(pub fn(&mut [u8], &mut [u8]));

impl Planner for Spoiling {
    fn write_survey(&self, kind: u32, figures: &Figures, survey: &mut [u8]) -> Result<(), Refusal> {
        peer::write_survey(kind, figures, survey)?;
        let figures = *figures;
        let (written, after) = survey.split_at_mut(Request { kind, figures }.need());
        (self.0)(written, after);
        Ok(())
    }
}

/// Wrong things done to what was written, or after it.
pub const SPOILS: [(&str, Spoiling); 11] = [
    (
        "the count off by one",
        Spoiling(|survey, _| {
            if survey.starts_with(&COUNTED.mark) {
                survey[6] += 1;
            }
        }),
    ),
    (
        "the mark of the other kind",
        Spoiling(|survey, _| survey[1] ^= PLAIN.mark[1] ^ COUNTED.mark[1]),
    ),
    (
        "k1 and k2 exchanged",
        Spoiling(|survey, _| survey.swap(4, 5)),
    ),
    (
        "a link's mark turned round",
        Spoiling(|survey, _| in_links(survey, |link| link.swap(0, 1))),
    ),
    (
        "ends exchanged",
        Spoiling(|survey, _| in_links(survey, |link| link.swap(2, 3))),
    ),
    (
        "s high byte first",
        Spoiling(|survey, _| in_links(survey, |link| link[4..8].reverse())),
    ),
    (
        "costs high byte first",
        Spoiling(|survey, _| {
            in_links(survey, |link| {
                link.swap(8, 9);
                link.swap(10, 11);
            });
        }),
    ),
    (
        "c1 and c2 exchanged",
        Spoiling(|survey, _| in_links(survey, |link| link[8..].rotate_left(2))),
    ),
    (
        "links in another order",
        Spoiling(|survey, _| links_of(survey).reverse()),
    ),
    (
        "the byte after the survey touched",
        Spoiling(|_, after| after.iter_mut().take(1).for_each(|byte| *byte = !*byte)),
    ),
    (
        "bytes after the survey cleared",
        Spoiling(|_, after| after.fill(0)),
    ),
];

/// The link records of a survey.
fn links_of(survey: &mut [u8]) -> &mut [[u8; TWO_COSTS.bytes]] {
    let first = YardRecord::of(survey).bytes;
    survey[first..].as_chunks_mut().0
}

/// Changes each link record of a survey.
pub fn in_links(survey: &mut [u8], change: fn(&mut [u8; TWO_COSTS.bytes])) {
    links_of(survey).iter_mut().for_each(change);
}

/// Touches the output where it refuses by some numbers.
pub struct TouchedBy(pub &'static [u8]);

impl Planner for TouchedBy {
    fn write_survey(&self, kind: u32, figures: &Figures, survey: &mut [u8]) -> Result<(), Refusal> {
        let reply = peer::write_survey(kind, figures, survey);
        if let (Err(refusal), [first, ..]) = (reply, survey) {
            if self.0.contains(&refusal.number) {
                *first = !*first;
            }
        }
        reply
    }
}

/// Refusals after which the output is not as it was.
pub const TOUCHES: [(&str, TouchedBy); 4] = [
    ("the output touched with 2", TouchedBy(&[2])),
    ("the output touched with 3 to 6", TouchedBy(&[3, 4, 5, 6])),
    ("the output touched with 7 and 8", TouchedBy(&[7, 8])),
    ("the output touched with 17", TouchedBy(&[17])),
];
