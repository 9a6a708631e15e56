//! Figures, legal and not: the surveys written from them.

use crate::seeds::{over_seeds, Tallies};
use compare::columns::Columns;
use compare::comparison::{Comparison, Difference};
use compare::figure_kinds::{FigureKind, FIGURE_KINDS};
use compare::planner::{Archive, Peer};
use compare::rng::Rng;
use compare::tally::Tally;
use peer::survey::Yard;

/// Compares on the figures of all seeds, or of one.
pub fn compare_figures(seed: Option<u64>) -> Result<Tallies, String> {
    let mut tallies = Vec::new();
    for kind in &FIGURE_KINDS {
        let tally = over_seeds(kind.first_seed, kind.seeds, seed, |seed, tally| {
            compare_seed(kind, seed, tally)
                .map_err(|difference| format!("DIFFERENCE, seed {seed}\n{difference}"))
        })?;
        tallies.push((kind.name, tally));
    }
    Ok(tallies)
}

fn compare_seed(kind: &FigureKind, seed: u64, tally: &mut Tally) -> Result<(), Difference> {
    let mut rng = Rng::new(seed);
    for draft in kind.drafts(&mut rng) {
        if let Ok(yard) = Yard::read(&draft.bytes()) {
            tally.legal += 1;
            tally.sums.count_legal(&yard);
            tally.writes.count_legal(&yard);
        }
        tally.samples += 1;
        let mut comparison = Comparison::new(&Archive, &Peer, tally);
        kind.calls(&mut comparison, &Columns::of_draft(&draft), &mut rng)?;
    }
    Ok(())
}
