//! The calls made on one survey: judge, best, list, and fetch on the list.

use crate::comparison::{Comparison, Difference};
use crate::fetching::fetch_calls;
use crate::list_bytes::solved_count;
use crate::rng::Rng;
use peer::plan_list;
use peer::positions::Positions;
use peer::records::MAX_CEILINGS;
use peer::survey::{Yard, MAX_LINKS};

/// How many trees of a survey are drawn, each in several variants.
const DRAWN_TREES: usize = 6;

/// Makes all calls on a legal survey; gives its list.
pub fn all_calls(c: &mut Comparison, survey: &[u8], rng: &mut Rng) -> Result<Vec<u8>, Difference> {
    let list = survey_calls(c, survey, rng)?;
    fetch_calls(c, &list, rng)?;
    Ok(list)
}

/// Makes all calls that take a survey on a legal one; gives its list.
pub fn survey_calls(
    c: &mut Comparison,
    survey: &[u8],
    rng: &mut Rng,
) -> Result<Vec<u8>, Difference> {
    let yard = Yard::read(survey).map_err(|refusal| Difference {
        call: "the peer's reader".into(),
        replies: ["meant to be legal".into(), format!("{refusal:?}")],
    })?;
    let list = list_calls(c, survey, &yard, rng)?;
    let trees = best_calls(c, survey, &yard, rng)?;
    judge_calls(c, survey, &yard, trees, rng)?;
    Ok(list)
}

/// Makes one call of each kind that takes a survey, with any arguments.
pub fn few_calls(c: &mut Comparison, survey: &[u8], rng: &mut Rng) -> Result<(), Difference> {
    let lent = rng.bytes(MAX_LINKS);
    let allowance = rng.pick(&[0, 1, 5, u32::MAX]);
    let buffer_len = rng.pick(&[0, 9, 10, 46, 2000]);
    let bounds = [(); MAX_CEILINGS].map(|()| rng.bits() as i16);
    c.judge(survey, &lent[..rng.below(5)])?;
    c.best(survey, bounds, &lent[rng.below(MAX_LINKS)..])?;
    c.list(survey, allowance, &rng.bytes(buffer_len))?;
    Ok(())
}

/// Lists with allowances and buffers around their limits; gives the list.
fn list_calls(
    c: &mut Comparison,
    survey: &[u8],
    yard: &Yard,
    rng: &mut Rng,
) -> Result<Vec<u8>, Difference> {
    let positions = Positions::of(yard).count();
    let need = plan_list::need(yard, positions);
    let list = c.list(survey, u32::MAX, &rng.bytes(need))?.bytes;
    let solved = solved_count(&list);
    for len in [0, need - 1, need + 1 + rng.below(60)] {
        c.list(survey, positions as u32, &rng.bytes(len))?;
    }
    let [any, below_all] = [rng.bits() as u32, rng.below(positions + 1) as u32];
    for allowance in [0, 1, solved.saturating_sub(1), solved, any, below_all] {
        let spare = rng.below(3);
        c.list(survey, allowance, &rng.bytes(need + spare))?;
    }
    Ok(list)
}

/// Asks under bounds at and around every value, in buffers of all lengths; gives the trees found.
fn best_calls(
    c: &mut Comparison,
    survey: &[u8],
    yard: &Yard,
    rng: &mut Rng,
) -> Result<Vec<Vec<u8>>, Difference> {
    let tree_len = yard.tree_len();
    let mut trees = Vec::new();
    for bounds in questions(yard, rng) {
        let longer = tree_len + rng.below(5);
        let len = rng.pick(&[tree_len, longer, MAX_LINKS, tree_len.saturating_sub(1)]);
        let outcome = c.best(survey, bounds, &rng.bytes(len))?;
        if outcome.reply.is_ok() {
            trees.push(outcome.bytes[..tree_len].to_vec());
        }
    }
    Ok(trees)
}

/// Bounds at and around every value of each ceiling, with any bounds of the other ceilings and with
/// none.
fn questions(yard: &Yard, rng: &mut Rng) -> Vec<[i16; MAX_CEILINGS]> {
    let around: [Vec<i16>; MAX_CEILINGS] =
        std::array::from_fn(|ceiling| bounds_around(yard, ceiling, rng));
    let mut questions = Vec::new();
    for (ceiling, bounds) in around.iter().enumerate() {
        for &bound in bounds {
            let any = around.each_ref().map(|bounds| rng.pick(bounds));
            for mut question in [any, [i16::MAX; MAX_CEILINGS]] {
                question[ceiling] = bound;
                questions.push(question);
            }
        }
    }
    questions
}

/// Each value of a ceiling with its neighbours, the extremes, and a random one.
fn bounds_around(yard: &Yard, ceiling: usize, rng: &mut Rng) -> Vec<i16> {
    let mut bounds = vec![i16::MIN, -1, 0, i16::MAX, rng.bits() as i16];
    for link in yard.links() {
        let cost = link.costs[ceiling];
        bounds.extend([cost.saturating_sub(1), cost, cost.saturating_add(1)]);
    }
    bounds.sort();
    bounds.dedup();
    bounds
}

/// Judges some of the trees, random sets of links, and what comes of both when changed.
fn judge_calls(
    c: &mut Comparison,
    survey: &[u8],
    yard: &Yard,
    mut trees: Vec<Vec<u8>>,
    rng: &mut Rng,
) -> Result<(), Difference> {
    rng.shuffle(&mut trees);
    trees.truncate(DRAWN_TREES);
    for _ in 0..DRAWN_TREES {
        let mut links: Vec<u8> = (0..yard.links().len() as u8).collect();
        rng.shuffle(&mut links);
        links.truncate(yard.tree_len());
        links.sort();
        trees.push(links);
    }
    for tree in trees {
        for drawn in variants(&tree, yard.links().len() as u8, rng) {
            c.judge(survey, &drawn)?;
        }
    }
    Ok(())
}

/// A drawn tree as it is, and with one thing wrong or random.
fn variants(tree: &[u8], link_count: u8, rng: &mut Rng) -> Vec<Vec<u8>> {
    let mut all = vec![tree.to_vec(), Vec::new(), rng.bytes(tree.len())];
    for more in [0, tree.last().map_or(0, |&last| last + 1), link_count, 255] {
        all.push([tree, &[more]].concat());
    }
    if tree.is_empty() {
        return all;
    }
    let [i, j] = [0, 1].map(|_| rng.below(tree.len()));
    all.push(tree[1..].to_vec());
    all.push(tree[..tree.len() - 1].to_vec());
    for link in [
        tree[j],
        link_count,
        rng.below(usize::from(link_count) + 2) as u8,
        255,
    ] {
        let mut changed = tree.to_vec();
        changed[i] = link;
        all.push(changed.clone());
        changed.sort();
        all.push(changed);
    }
    let mut unsorted = tree.to_vec();
    unsorted.swap(i, j);
    all.push(unsorted);
    all
}
