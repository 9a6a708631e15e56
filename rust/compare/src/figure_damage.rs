//! Figures that break rules, each rule in many ways.

use crate::damage::COSTS_NOT_0;
use crate::draft::Draft;
use crate::rng::Rng;

/// Numbers of stations, legal and not.
const STATIONS: [u8; 9] = [0, 1, 2, 3, 4, 5, 24, 25, 255];
/// Numbers of ceilings, legal and not.
const CEILINGS: [u8; 5] = [0, 1, 2, 3, 255];
/// Ranks of a ceiling, legal and not.
const RANKS: [u8; 7] = [0, 1, 2, 3, 4, 24, 255];
/// Numbers of links that are too high; some have a low byte that is not.
const LINK_COUNTS: [usize; 7] = [41, 42, 255, 256, 296, 300, 65_576];

/// Something done to a link of a draft.
type LinkDamage = fn(&mut Draft, usize, &mut Rng);

/// The kinds of damage to ends and costs for which a link is refused.
const LINK_DAMAGES: [LinkDamage; 8] = [
    |draft, link, _| draft.links[link].ends[0] = draft.stations,
    |draft, link, _| draft.links[link].ends[1] = draft.stations,
    |draft, link, _| draft.links[link].ends[0] = 255,
    |draft, link, _| draft.links[link].ends[1] = 255,
    |draft, link, _| draft.links[link].ends[1] = draft.links[link].ends[0],
    |draft, link, rng| absent_cost(draft, link, [0, 0], rng),
    |draft, link, rng| absent_cost(draft, link, [0, 1], rng),
    |draft, link, rng| absent_cost(draft, link, [1, 1], rng),
];

/// All drafts that differ from one in their stations, ceilings and ranks.
pub fn each_head(draft: &Draft) -> Vec<Draft> {
    let mut drafts = Vec::new();
    for stations in STATIONS {
        for ceilings in CEILINGS {
            for ranks in RANKS.iter().flat_map(|&k1| RANKS.map(|k2| [k1, k2, 0])) {
                drafts.push(Draft {
                    stations,
                    ceilings,
                    ranks,
                    ..draft.clone()
                });
            }
        }
    }
    drafts
}

/// The drafts that differ from one in their number of ceilings, and that one.
pub fn each_ceiling_count(draft: &Draft) -> Vec<Draft> {
    let counts = 0..=draft.room;
    counts
        .map(|ceilings| with_ceilings(draft, ceilings))
        .collect()
}

/// All drafts that have the links of one over and over, and so too many of them.
pub fn each_link_count(draft: &Draft) -> Vec<Draft> {
    let links = draft.links.iter().copied().cycle();
    let counts = LINK_COUNTS.iter();
    counts
        .map(|&count| Draft {
            links: links.clone().take(count).collect(),
            ..draft.clone()
        })
        .collect()
}

/// All drafts that differ from one by the ends or costs of a link.
pub fn each_link(draft: &Draft, rng: &mut Rng) -> Vec<Draft> {
    let mut drafts = Vec::new();
    for link in 0..draft.links.len() {
        for damage in LINK_DAMAGES {
            let mut draft = draft.clone();
            damage(&mut draft, link, rng);
            drafts.push(draft);
        }
    }
    drafts
}

/// Gives a link a cost for a ceiling that the yard then does not have.
fn absent_cost(draft: &mut Draft, link: usize, [ceilings, ceiling]: [usize; 2], rng: &mut Rng) {
    *draft = with_ceilings(draft, ceilings);
    draft.links[link].costs[ceiling] = rng.pick(&COSTS_NOT_0);
}

/// The draft with so many ceilings; one that it did not have is of rank 1, with costs of 0.
fn with_ceilings(draft: &Draft, ceilings: usize) -> Draft {
    let mut draft = draft.clone();
    draft.ceilings = ceilings as u8;
    for (i, rank) in draft.ranks.iter_mut().enumerate() {
        *rank = if i < ceilings { (*rank).max(1) } else { 0 };
    }
    for link in &mut draft.links {
        link.costs[ceilings..].fill(0);
    }
    draft
}
