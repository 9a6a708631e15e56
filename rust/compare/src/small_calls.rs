//! The calls for small surveys.

use crate::comparison::{Comparison, Difference};
use crate::rng::Rng;
use crate::small_tally::{OVER, ROOMS};
use peer::SMALL_SURVEYS;

/// What outputs are filled with, besides random bytes.
const FILLINGS: [u8; 3] = [0, 0xaa, 0xff];

/// Random numbers that are asked for besides `OVER`.
const RANDOM_NUMBERS: usize = 1_000;

/// Asks for every small survey.
pub fn calls_in_order(c: &mut Comparison, rng: &mut Rng) -> Result<(), Difference> {
    (0..SMALL_SURVEYS).try_for_each(|number| in_each_room(c, number, rng))
}

/// Asks for numbers of no small survey, and for random ones.
pub fn calls_with_any(c: &mut Comparison, rng: &mut Rng) -> Result<(), Difference> {
    OVER.into_iter()
        .try_for_each(|number| in_each_room(c, number, rng))?;
    (0..RANDOM_NUMBERS).try_for_each(|_| {
        let number = rng.bits() as u32 >> rng.below(32);
        in_each_room(c, number, rng)
    })
}

/// Asks for the survey of a number in outputs of all lengths, each with several fillings.
fn in_each_room(c: &mut Comparison, number: u32, rng: &mut Rng) -> Result<(), Difference> {
    c.tally().samples += 1;
    for room in ROOMS {
        for filling in FILLINGS {
            c.small_survey(number, &vec![filling; room])?;
        }
        c.small_survey(number, &rng.bytes(room))?;
    }
    Ok(())
}
