//! All small surveys, in order.

use crate::{Survey, SMALL_SURVEYS};
use std::iter::FusedIterator;
use std::ops::Range;

/// The small surveys by rising number: a complete set to run.
///
/// They are the 1,728 surveys with the plain yard record, three stations, one ceiling of rank 1 and
/// three links, each link with ends 0–1, 0–2 or 1–2, lower end first, a sum of 0 or 1 and a ceiling
/// cost of 0 or 1. They are numbered from 0, by link 0, then link 1, then link 2; links are ordered
/// by ends, then sum, then cost. Each has 42 bytes.
///
/// ```
/// use ranqustei::small_surveys;
///
/// let mut without_plan = 0;
/// for survey in small_surveys() {
///     without_plan += u32::from(survey.plans()?.is_empty());
/// }
/// // All three links between the same two stations: three pairs, and 64 surveys of each.
/// assert_eq!(without_plan, 192);
///
/// // The number of a survey is its place.
/// assert_eq!(small_surveys().nth(70), Some(ranqustei::Survey::small(70)?));
/// assert_eq!(small_surveys().len(), 1728);
/// # Ok::<(), ranqustei::Refusal>(())
/// ```
#[derive(Clone, Debug)]
pub struct SmallSurveys {
    numbers: Range<u32>,
}

/// All small surveys.
pub fn small_surveys() -> SmallSurveys {
    SmallSurveys {
        numbers: 0..SMALL_SURVEYS,
    }
}

/// The small survey of a number below [`SMALL_SURVEYS`]: there always is one.
fn numbered(number: u32) -> Option<Survey> {
    Survey::small(number).ok()
}

impl Iterator for SmallSurveys {
    type Item = Survey;

    fn next(&mut self) -> Option<Survey> {
        self.numbers.next().and_then(numbered)
    }

    fn nth(&mut self, n: usize) -> Option<Survey> {
        self.numbers.nth(n).and_then(numbered)
    }

    fn size_hint(&self) -> (usize, Option<usize>) {
        self.numbers.size_hint()
    }
}

impl DoubleEndedIterator for SmallSurveys {
    fn next_back(&mut self) -> Option<Survey> {
        self.numbers.next_back().and_then(numbered)
    }

    fn nth_back(&mut self, n: usize) -> Option<Survey> {
        self.numbers.nth_back(n).and_then(numbered)
    }
}

impl ExactSizeIterator for SmallSurveys {}

impl FusedIterator for SmallSurveys {}
