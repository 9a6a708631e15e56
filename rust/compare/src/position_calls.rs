//! The calls made on a survey with too many positions.

use crate::comparison::{Comparison, Difference};
use crate::positions::{usable_links, Counted};
use crate::rng::Rng;
use peer::kruskal::Groups;
use peer::records::MAX_CEILINGS;
use peer::survey::MAX_POSITIONS;

/// Makes each call so that it would succeed but for the positions, and so that it has reason for a
/// number that comes after 19.
pub fn calls_on_too_many(
    c: &mut Comparison,
    survey: &[u8],
    rng: &mut Rng,
) -> Result<(), Difference> {
    let tree = some_tree(survey);
    judge_calls(c, survey, &tree)?;
    best_calls(c, survey, tree.len(), rng)?;
    list_calls(c, survey, tree.len(), rng)
}

/// Judges a tree, and what is none.
fn judge_calls(c: &mut Comparison, survey: &[u8], tree: &[u8]) -> Result<(), Difference> {
    c.judge(survey, tree)?;
    let longer = [tree, &[u8::MAX]].concat();
    for drawn in [&[], &tree[1..], &longer[..]] {
        let reply = c.judge(survey, drawn)?.reply;
        c.tally().positions.count_after(11, reply.err());
    }
    Ok(())
}

/// Asks under bounds that trees fit and that none fits, in tree buffers of all lengths.
fn best_calls(
    c: &mut Comparison,
    survey: &[u8],
    tree_len: usize,
    rng: &mut Rng,
) -> Result<(), Difference> {
    let [lowest, any, highest] =
        [i16::MIN, rng.bits() as i16, i16::MAX].map(|bound| [bound; MAX_CEILINGS]);
    let spare = rng.below(3);
    let lent = rng.bytes(tree_len + spare);
    c.best(survey, any, &lent)?;
    c.best(survey, highest, &lent)?;
    let reply = c.best(survey, lowest, &lent)?.reply;
    c.tally().positions.count_after(14, reply.err());
    for len in 0..tree_len {
        let reply = c.best(survey, highest, &lent[..len])?.reply;
        c.tally().positions.count_after(9, reply.err());
    }
    Ok(())
}

/// Lists in buffers around the need by all positions and by as many as there may be.
fn list_calls(
    c: &mut Comparison,
    survey: &[u8],
    tree_len: usize,
    rng: &mut Rng,
) -> Result<(), Difference> {
    let positions = Counted::of(survey).map_or(0, |counted| counted.usable);
    let need = |positions: usize| 10 + positions * (12 + tree_len);
    let lengths = [0, 10, need(MAX_POSITIONS), need(positions) - 1];
    for len in lengths {
        let reply = c.list(survey, u32::MAX, &rng.bytes(len))?.reply;
        c.tally().positions.count_after(9, reply.err());
    }
    let enough = rng.bytes(need(positions));
    c.list(survey, u32::MAX, &enough)?;
    for allowance in [0, 1] {
        let reply = c.list(survey, allowance, &enough)?.reply;
        c.tally().positions.count_after(10, reply.err());
    }
    Ok(())
}

/// A tree of a yard that is connected.
fn some_tree(survey: &[u8]) -> Vec<u8> {
    let mut groups = Groups::apart();
    let mut links = usable_links(survey);
    links.retain(|(_, link)| groups.join([link[2], link[3]]));
    links.into_iter().map(|(number, _)| number).collect()
}
