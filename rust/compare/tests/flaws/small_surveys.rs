//! Planners that give small surveys other than those that are due.

use crate::outputs::in_links;
use compare::planner::Planner;
use peer::records::{COUNTED, THREE_COSTS};
use peer::{small_survey, Refusal, SMALL_SURVEYS, SMALL_SURVEY_BYTES};

/// Takes a number for another, and is right about that.
pub struct TakingNumber(pub fn(u32) -> u32);

impl Planner for TakingNumber {
    fn small_survey(&self, number: u32, survey: &mut [u8]) -> Result<(), Refusal> {
        small_survey((self.0)(number), survey)
    }
}

/// Surveys in another order, or not each once.
pub const SMALL_ORDERS: [(&str, TakingNumber); 10] = [
    (
        "links 0 and 2 exchanged",
        TakingNumber(|number| with_choices(number, |[a, b, c]| [c, b, a])),
    ),
    (
        "links 1 and 2 exchanged",
        TakingNumber(|number| with_choices(number, |[a, b, c]| [a, c, b])),
    ),
    (
        "ends 0–2 and 1–2 exchanged",
        TakingNumber(|number| with_choice(number, |[ends, s, c1]| [[0, 2, 1][ends], s, c1])),
    ),
    (
        "ends 0–2 taken for 1–2",
        TakingNumber(|number| with_choice(number, |[ends, s, c1]| [[0, 2, 2][ends], s, c1])),
    ),
    (
        "s and c1 exchanged",
        TakingNumber(|number| with_choice(number, |[ends, s, c1]| [ends, c1, s])),
    ),
    (
        "choices by s, then c1, then ends",
        TakingNumber(|number| with_choices(number, |choices| choices.map(|c| 4 * (c % 3) + c / 3))),
    ),
    (
        "choices in falling order",
        TakingNumber(|number| with_choices(number, |choices| choices.map(|choice| 11 - choice))),
    ),
    (
        "surveys numbered from 1",
        TakingNumber(|number| number.wrapping_sub(1)),
    ),
    (
        "the first survey left out",
        TakingNumber(|number| number.saturating_add(1)),
    ),
    (
        "a number cut to 8 bits",
        TakingNumber(|number| number & 0xff),
    ),
];

/// Numbers of no survey that are taken for those of some.
pub const SMALL_NUMBERS: [(&str, TakingNumber); 7] = [
    (
        "1,728 taken for 0",
        TakingNumber(|number| if number == SMALL_SURVEYS { 0 } else { number }),
    ),
    (
        "numbers go round",
        TakingNumber(|number| number % SMALL_SURVEYS),
    ),
    (
        "the last survey for every number after it",
        TakingNumber(|number| number.min(SMALL_SURVEYS - 1)),
    ),
    (
        "a number cut to 11 bits",
        TakingNumber(|number| number & 0x7ff),
    ),
    (
        "a number cut to 16 bits",
        TakingNumber(|number| number & 0xffff),
    ),
    (
        "a number cut to 31 bits",
        TakingNumber(|number| number & 0x7fff_ffff),
    ),
    (
        "a number read with a sign",
        TakingNumber(|number| (number as i32).max(0) as u32),
    ),
];

/// The number of the survey with other choices for its links. A number of no survey stays.
fn with_choices(number: u32, change: fn([usize; 3]) -> [usize; 3]) -> u32 {
    if number >= SMALL_SURVEYS {
        return number;
    }
    let choices = [144, 12, 1].map(|unit| (number / unit % 12) as usize);
    let [a, b, c] = change(choices);
    (144 * a + 12 * b + c) as u32
}

/// The number of the survey with other ends, s and c1 for its link 2.
fn with_choice(number: u32, change: fn([usize; 3]) -> [usize; 3]) -> u32 {
    if number >= SMALL_SURVEYS {
        return number;
    }
    let choice = number as usize % 12;
    let [ends, s, c1] = change([choice / 4, choice / 2 % 2, choice % 2]);
    number / 12 * 12 + (4 * ends + 2 * s + c1) as u32
}

/// Does more to the survey that was written.
pub struct SpoilingSmall(pub fn(&mut [u8]));

impl Planner for SpoilingSmall {
    fn small_survey(&self, number: u32, survey: &mut [u8]) -> Result<(), Refusal> {
        small_survey(number, survey)?;
        (self.0)(&mut survey[..SMALL_SURVEY_BYTES]);
        Ok(())
    }
}

/// Wrong things done to what was written.
pub const SMALL_SPOILS: [(&str, SpoilingSmall); 14] = [
    (
        "ends higher first",
        SpoilingSmall(|survey| in_links(survey, |link| link.swap(2, 3))),
    ),
    (
        "the ends of link 1 exchanged",
        SpoilingSmall(|survey| survey.swap(20, 21)),
    ),
    (
        "s and c1 at each other's place",
        SpoilingSmall(|survey| in_links(survey, |link| link.swap(4, 8))),
    ),
    (
        "s high byte first",
        SpoilingSmall(|survey| in_links(survey, |link| link[4..8].reverse())),
    ),
    (
        "c1 high byte first",
        SpoilingSmall(|survey| in_links(survey, |link| link.swap(8, 9))),
    ),
    (
        "c1 below 0",
        SpoilingSmall(|survey| {
            in_links(survey, |link| {
                [link[8], link[9]] = (-i16::from(link[8])).to_le_bytes();
            })
        }),
    ),
    (
        "c1 written as c2 too",
        SpoilingSmall(|survey| in_links(survey, |link| link[10] = link[8])),
    ),
    (
        "c2 of the last link 1",
        SpoilingSmall(|survey| survey[40] = 1),
    ),
    (
        "the mark of the longer link record",
        SpoilingSmall(|survey| {
            in_links(survey, |link| link[..2].copy_from_slice(&THREE_COSTS.mark))
        }),
    ),
    (
        "the counted yard record",
        SpoilingSmall(|survey| {
            survey.copy_within(6..41, 7);
            survey[..2].copy_from_slice(&COUNTED.mark);
            survey[6] = 3;
        }),
    ),
    ("four stations", SpoilingSmall(|survey| survey[2] = 4)),
    (
        "two ceilings",
        SpoilingSmall(|survey| survey[3..6].copy_from_slice(&[2, 1, 1])),
    ),
    ("k1 = 2", SpoilingSmall(|survey| survey[4] = 2)),
    ("k2 = 1", SpoilingSmall(|survey| survey[5] = 1)),
];
