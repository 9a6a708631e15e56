//! Surveys that are read, written and read again.

use crate::columns::Columns;
use crate::comparison::{Comparison, Difference};
use crate::records::kind_of;
use crate::rng::Rng;
use crate::write_rules::Request;
use peer::records::{YardRecord, PLAIN, WRITTEN_RECORDS};
use peer::survey::Yard;
use std::fmt::Debug;

/// Writes a survey back with each yard record that is written, if it is legal: with its own, where
/// that is one of them, it has its former bytes, and with any it reads back as its figures. One with
/// a third ceiling is not written.
pub fn round_trip(c: &mut Comparison, survey: &[u8], rng: &mut Rng) -> Result<(), Difference> {
    let Ok(yard) = Yard::read(survey) else {
        return Ok(());
    };
    let columns = Columns::of_yard(&yard);
    if yard.ceilings > PLAIN.most_ceilings {
        return not_written(c, survey, &columns, rng);
    }
    for record in WRITTEN_RECORDS {
        let request = Request {
            kind: kind_of(record),
            figures: columns.figures(),
        };
        let need = request.need();
        let spare = rng.below(3);
        let output = c.write_survey(&request, &rng.bytes(need + spare))?.bytes;
        let written = &output[..need];
        if record == YardRecord::of(survey) && written != survey {
            return Err(altered(survey, written));
        }
        let read_again = Yard::read(written).map(|yard| Columns::of_yard(&yard));
        if read_again.as_ref() != Ok(&columns) {
            return Err(altered(&columns, read_again));
        }
    }
    c.tally().writes.round_trips += 1;
    Ok(())
}

/// Asks for a survey with a yard record of its own, which no figures are written with.
fn not_written(
    c: &mut Comparison,
    survey: &[u8],
    columns: &Columns,
    rng: &mut Rng,
) -> Result<(), Difference> {
    let request = Request {
        kind: kind_of(YardRecord::of(survey)),
        figures: columns.figures(),
    };
    c.write_survey(&request, &rng.bytes(survey.len()))?;
    c.tally().writes.not_written += 1;
    Ok(())
}

fn altered(before: impl Debug, after: impl Debug) -> Difference {
    Difference {
        call: "read and write".into(),
        replies: [format!("{before:x?}"), format!("{after:x?}")],
    }
}
