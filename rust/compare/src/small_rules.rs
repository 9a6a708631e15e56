//! What any planner owes to a call for a small survey.

use peer::Refusal;
use std::sync::LazyLock;

/// Every small survey, in order.
pub static SMALL: LazyLock<Vec<Vec<u8>>> = LazyLock::new(|| {
    let yard = [0x59, 0x44, 3, 1, 1, 0];
    let (links, mut surveys) = (links(), Vec::new());
    for first in &links {
        for second in &links {
            for third in &links {
                surveys.push([&yard[..], first, second, third].concat());
            }
        }
    }
    surveys
});

/// Every link of a small survey, in order.
fn links() -> Vec<[u8; 12]> {
    let mut links = Vec::new();
    for [a, b] in [[0, 1], [0, 2], [1, 2]] {
        for s in [0, 1] {
            for c1 in [0, 1] {
                links.push([0x4c, 0x4b, a, b, s, 0, 0, 0, c1, 0, 0, 0]);
            }
        }
    }
    links
}

/// The survey that is due in an output of `room` bytes, or the refusal.
pub fn due_small_survey(number: u32, room: usize) -> Result<Vec<u8>, Refusal> {
    let survey = SMALL.get(number as usize).ok_or(Refusal::whole(20))?;
    match survey.len() <= room {
        true => Ok(survey.clone()),
        false => Err(Refusal::whole(17)),
    }
}
