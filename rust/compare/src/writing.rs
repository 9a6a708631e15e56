//! The calls that write a survey from its figures.

use crate::columns::Columns;
use crate::comparison::{Comparison, Difference};
use crate::records::kind_of;
use crate::rng::Rng;
use crate::write_rules::Request;
use crate::write_tally::{LENGTHS, UNKNOWN_KINDS};
use peer::records::WRITTEN_RECORDS;
use peer::Figures;

/// More entries than any of `LENGTHS` adds to a column.
const SPARE: usize = 512;

/// Writes legal figures with either yard record in outputs of all lengths, with other columns, and
/// asks for unknown kinds.
pub fn write_calls(c: &mut Comparison, columns: &Columns, rng: &mut Rng) -> Result<(), Difference> {
    for record in WRITTEN_RECORDS {
        write_in_each(c, kind_of(record), columns.figures(), rng)?;
    }
    for kind in UNKNOWN_KINDS.into_iter().chain([longer_kind(rng)]) {
        write_in_any(c, kind, columns.figures(), rng)?;
    }
    column_calls(c, columns, rng)
}

/// Writes figures with either yard record, asks for two unknown kinds, and writes without some of
/// the costs.
pub fn few_write_calls(
    c: &mut Comparison,
    columns: &Columns,
    rng: &mut Rng,
) -> Result<(), Difference> {
    let unknown = [rng.pick(&UNKNOWN_KINDS), longer_kind(rng)];
    for kind in WRITTEN_RECORDS.map(kind_of).into_iter().chain(unknown) {
        write_in_any(c, kind, columns.figures(), rng)?;
    }
    let length = rng.below(columns.costs.len() + 1);
    write_in_any(c, known_kind(rng), with_costs(columns, length), rng)
}

fn known_kind(rng: &mut Rng) -> u32 {
    kind_of(rng.pick(&WRITTEN_RECORDS))
}

/// A number of no kind, of which the low 16 bits are that of one.
fn longer_kind(rng: &mut Rng) -> u32 {
    let high = rng.within(1..=0xffff) as u32;
    high << 16 | known_kind(rng)
}

/// The figures with the first of their costs alone, as many as are asked for.
fn with_costs(columns: &Columns, length: usize) -> Figures<'_> {
    Figures {
        costs: &columns.costs[..length],
        ..columns.figures()
    }
}

/// Writes figures whose ends are cut, at each place; and such whose costs are, in outputs of all
/// lengths.
pub fn cut_calls(c: &mut Comparison, columns: &Columns, rng: &mut Rng) -> Result<(), Difference> {
    let figures = columns.figures();
    for length in 0..columns.ends.len() {
        let ends = &columns.ends[..length];
        write_in_any(c, known_kind(rng), Figures { ends, ..figures }, rng)?;
    }
    for length in 0..columns.costs.len() {
        write_in_each(c, known_kind(rng), with_costs(columns, length), rng)?;
    }
    Ok(())
}

/// Writes figures whose costs are cut, at each place.
pub fn cost_cut_calls(
    c: &mut Comparison,
    columns: &Columns,
    rng: &mut Rng,
) -> Result<(), Difference> {
    for length in 0..columns.costs.len() {
        write_in_any(c, known_kind(rng), with_costs(columns, length), rng)?;
    }
    Ok(())
}

/// Writes with ends and costs of all lengths. In memory a short column is followed by what it
/// lacks; a long one has anything after the links.
fn column_calls(c: &mut Comparison, columns: &Columns, rng: &mut Rng) -> Result<(), Difference> {
    let mut longer = columns.clone();
    longer.ends.extend(rng.bytes(SPARE));
    longer.costs.extend((0..SPARE).map(|_| rng.bits() as i16));
    let figures = columns.figures();
    for (_, length) in LENGTHS {
        let ends = &longer.ends[..length(columns.ends.len())];
        let costs = &longer.costs[..length(columns.costs.len())];
        for figures in [
            Figures { ends, ..figures },
            Figures { costs, ..figures },
            Figures {
                ends,
                costs,
                ..figures
            },
        ] {
            write_in_any(c, known_kind(rng), figures, rng)?;
        }
    }
    Ok(())
}

/// Writes in outputs of all `LENGTHS`.
fn write_in_each(
    c: &mut Comparison,
    kind: u32,
    figures: Figures,
    rng: &mut Rng,
) -> Result<(), Difference> {
    for length in 0..LENGTHS.len() {
        write(c, kind, figures, length, rng)?;
    }
    Ok(())
}

/// Writes in an output of any of `LENGTHS`.
fn write_in_any(
    c: &mut Comparison,
    kind: u32,
    figures: Figures,
    rng: &mut Rng,
) -> Result<(), Difference> {
    let length = rng.below(LENGTHS.len());
    write(c, kind, figures, length, rng)
}

/// Writes in an output of one of `LENGTHS`.
fn write(
    c: &mut Comparison,
    kind: u32,
    figures: Figures,
    length: usize,
    rng: &mut Rng,
) -> Result<(), Difference> {
    let request = Request { kind, figures };
    let room = LENGTHS[length].1(request.need());
    c.write_survey(&request, &rng.bytes(room)).map(|_| ())
}
