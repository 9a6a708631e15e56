//! What any planner owes to a call that writes a survey, found by a reader.

use crate::comparison::Outcome;
use crate::draft::Draft;
use crate::link_figures::first_without_cost;
use crate::records::kind_of;
use peer::records::{YardRecord, PLAIN, WRITTEN_RECORDS};
use peer::survey::Yard;
use peer::{Figures, Refusal};

/// What a planner is asked to write.
#[derive(Clone, Copy, Debug)]
pub struct Request<'a> {
    /// The number that asks for a yard record.
    pub kind: u32,
    /// The figures.
    pub figures: Figures<'a>,
}

impl Request<'_> {
    /// The yard record that is asked for, if it is one that is written.
    pub fn record(&self) -> Option<YardRecord> {
        let mut records = WRITTEN_RECORDS.into_iter();
        records.find(|&record| kind_of(record) == self.kind)
    }

    /// How many bytes the survey has; one of another kind is taken for a plain one.
    pub fn need(&self) -> usize {
        let record = self.record().unwrap_or(PLAIN);
        record.bytes + record.link.bytes * self.figures.sums.len()
    }

    /// Whether the figures are legal.
    pub fn is_legal(&self) -> bool {
        self.survey_with(PLAIN).is_ok()
    }

    /// The survey that is due in an output of `room` bytes, or the refusal.
    pub fn due(&self, room: usize) -> Result<Vec<u8>, Refusal> {
        let record = self.record().ok_or(Refusal::whole(2))?;
        let survey = self.survey_with(record)?;
        match survey.len() <= room {
            true => Ok(survey),
            false => Err(Refusal::whole(17)),
        }
    }

    /// The survey with a yard record, or the refusal: of that by a reader and that for a missing
    /// cost, the one at the earlier place, and at the same place the one of the lower number.
    fn survey_with(&self, record: YardRecord) -> Result<Vec<u8>, Refusal> {
        let survey = Draft::of(&self.figures, record).bytes();
        let by_reader = Yard::read(&survey).err();
        let for_cost = first_without_cost(&self.figures).map(|link| Refusal::at_link(link, 8));
        let refusals = by_reader.into_iter().chain(for_cost);
        let first = refusals.min_by_key(|refusal| (refusal.place, refusal.number));
        first.map_or(Ok(survey), Err)
    }
}

/// What is wrong with a call in an output that held the bytes of `lent`.
pub fn write_fault(
    due: &Result<Vec<u8>, Refusal>,
    lent: &[u8],
    outcome: &Outcome<()>,
) -> Option<String> {
    let reply = due.as_ref().map(|_| ()).map_err(|&refusal| refusal);
    if outcome.reply != reply {
        return Some(format!("the reply should be {reply:?}"));
    }
    let survey = due.as_deref().unwrap_or_default();
    let (written, rest) = outcome.bytes.split_at(survey.len());
    if rest != &lent[survey.len()..] {
        return Some("bytes changed that should stay".into());
    }
    (written != survey).then(|| format!("the survey should be {survey:x?}"))
}
