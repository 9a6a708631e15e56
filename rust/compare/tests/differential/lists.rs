//! Hand-made plan lists, and the lists of surveys: the index calls on them.

use crate::seeds::{over_seeds, Tallies};
use compare::comparison::{Comparison, Difference};
use compare::list_kinds::{ListKind, LIST_KINDS};
use compare::planner::{Archive, Peer};
use compare::rng::Rng;
use compare::tally::Tally;

/// Compares on the hand-made lists of all seeds, or of one.
pub fn compare_lists(seed: Option<u64>) -> Result<Tallies, String> {
    let mut tallies = Vec::new();
    for kind in &LIST_KINDS {
        let tally = over_seeds(kind.first_seed, kind.seeds, seed, |seed, tally| {
            compare_seed(kind, seed, tally)
                .map_err(|difference| format!("DIFFERENCE, seed {seed}\n{difference}"))
        })?;
        tallies.push((kind.name, tally));
    }
    Ok(tallies)
}

fn compare_seed(kind: &ListKind, seed: u64, tally: &mut Tally) -> Result<(), Difference> {
    let mut rng = Rng::new(seed);
    let list = kind.list(&mut rng);
    tally.samples += 1;
    let mut comparison = Comparison::new(&Archive, &Peer, tally);
    with_list(list, |list| kind.calls(&mut comparison, list, &mut rng))
}

/// Makes calls on a list, which has to stay as it was.
pub fn with_list(
    list: Vec<u8>,
    calls: impl FnOnce(&[u8]) -> Result<(), Difference>,
) -> Result<(), Difference> {
    let before = list.clone();
    calls(&list)?;
    if list == before {
        return Ok(());
    }
    Err(Difference {
        call: "index and lookup".into(),
        replies: [before, list].map(|list| format!("{list:02x?}")),
    })
}
