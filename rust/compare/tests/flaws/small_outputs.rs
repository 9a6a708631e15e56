//! Planners that give small surveys rightly, but not in every output, or refuse in another way.

use compare::planner::Planner;
use peer::{small_survey, Refusal, SMALL_SURVEY_BYTES};

/// Gives small surveys in its own way.
pub struct SmallBy(pub fn(u32, &mut [u8]) -> Result<(), Refusal>);

impl Planner for SmallBy {
    fn small_survey(&self, number: u32, survey: &mut [u8]) -> Result<(), Refusal> {
        (self.0)(number, survey)
    }
}

/// Flaws that show in outputs of some lengths or contents.
pub const SMALL_OUTPUTS: [(&str, SmallBy); 9] = [
    (
        "17 at 42 bytes",
        SmallBy(|number, survey| match survey.len() {
            SMALL_SURVEY_BYTES => small_survey(number, &mut survey[1..]),
            _ => small_survey(number, survey),
        }),
    ),
    (
        "41 bytes filled",
        SmallBy(|number, survey| match survey.len() {
            41 => {
                let mut whole = [0; SMALL_SURVEY_BYTES];
                small_survey(number, &mut whole)?;
                survey.copy_from_slice(&whole[..41]);
                Ok(())
            }
            _ => small_survey(number, survey),
        }),
    ),
    (
        "an empty output taken for none",
        SmallBy(|number, survey| match survey {
            [] => small_survey(number, &mut [0; SMALL_SURVEY_BYTES]),
            _ => small_survey(number, survey),
        }),
    ),
    (
        "bytes that are 0 not written",
        SmallBy(|number, survey| {
            let before = survey.to_vec();
            small_survey(number, survey)?;
            let bytes = survey.iter_mut().zip(before);
            bytes.for_each(|(byte, before)| *byte = if *byte == 0 { before } else { *byte });
            Ok(())
        }),
    ),
    (
        "the byte after the survey touched",
        SmallBy(|number, survey| {
            small_survey(number, survey)?;
            let after = survey[SMALL_SURVEY_BYTES..].first_mut();
            after.into_iter().for_each(|byte| *byte = !*byte);
            Ok(())
        }),
    ),
    (
        "bytes after the survey cleared",
        SmallBy(|number, survey| {
            small_survey(number, survey)?;
            survey[SMALL_SURVEY_BYTES..].fill(0);
            Ok(())
        }),
    ),
    (
        "the output cleared before any test",
        SmallBy(|number, survey| {
            survey.fill(0);
            small_survey(number, survey)
        }),
    ),
    (
        "the output cleared with 20",
        SmallBy(|number, survey| cleared_with(20, number, survey)),
    ),
    (
        "the output cleared with 17",
        SmallBy(|number, survey| cleared_with(17, number, survey)),
    ),
];

/// Clears the output where it refuses by a number.
fn cleared_with(refused_by: u8, number: u32, survey: &mut [u8]) -> Result<(), Refusal> {
    let reply = small_survey(number, survey);
    if reply == Err(Refusal::whole(refused_by)) {
        survey.fill(0);
    }
    reply
}

/// Refuses where the peer does, in its own way; it knows the length of the output.
pub struct RefusingSmall(pub fn(usize, Refusal) -> Refusal);

impl Planner for RefusingSmall {
    fn small_survey(&self, number: u32, survey: &mut [u8]) -> Result<(), Refusal> {
        let room = survey.len();
        small_survey(number, survey).map_err(|refusal| (self.0)(room, refusal))
    }
}

/// Wrong refusals.
pub const SMALL_REFUSALS: [(&str, RefusingSmall); 6] = [
    (
        "17 before 20",
        RefusingSmall(|room, refusal| match room < SMALL_SURVEY_BYTES {
            true => Refusal::whole(17),
            false => refusal,
        }),
    ),
    (
        "17 before 20 where the output is empty",
        RefusingSmall(|room, refusal| match room {
            0 => Refusal::whole(17),
            _ => refusal,
        }),
    ),
    (
        "20 with a place",
        RefusingSmall(|_, refusal| Refusal {
            place: u8::from(refusal.number == 20),
            ..refusal
        }),
    ),
    (
        "17 with a place",
        RefusingSmall(|_, refusal| Refusal {
            place: u8::from(refusal.number == 17),
            ..refusal
        }),
    ),
    (
        "13 for 20",
        RefusingSmall(|_, refusal| match refusal.number {
            20 => Refusal::whole(13),
            _ => refusal,
        }),
    ),
    (
        "9 for 17",
        RefusingSmall(|_, refusal| match refusal.number {
            17 => Refusal::whole(9),
            _ => refusal,
        }),
    ),
];
