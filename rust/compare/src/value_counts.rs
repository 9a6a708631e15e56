//! How many different values the ceilings of generated yards have.

use crate::draft::{Draft, LinkDraft};
use crate::rng::Rng;
use crate::site::set_bit;
use crate::sums::{HIGHEST, LOWEST};
use peer::records::{MAX_CEILINGS, TWO_COSTS};
use peer::survey::{MAX_LINKS, MAX_POSITIONS, MAX_STATIONS};

/// Numbers of values that three ceilings can have on 40 links: 1,600 positions, the next numbers
/// below and above that there can be, and others above.
pub const VALUE_COUNTS: [[usize; MAX_CEILINGS]; 20] = [
    [10, 10, 16],
    [16, 10, 10],
    [10, 16, 10],
    [40, 40, 1],
    [40, 1, 40],
    [1, 40, 40],
    [40, 20, 2],
    [5, 8, 40],
    [2, 32, 25],
    [38, 6, 7],
    [7, 6, 38],
    [7, 10, 23],
    [23, 7, 10],
    [10, 23, 7],
    [35, 2, 23],
    [12, 12, 12],
    [2, 40, 40],
    [40, 40, 2],
    [40, 2, 40],
    [40, 40, 40],
];

/// How far apart the values of a ceiling are.
const STEP: i64 = 17;
/// Links to a station at rest that are added to a yard.
const ADDED: usize = 10;
/// The ceiling costs of the first of them, higher than those of the other links.
const FIRST_ADDED: i16 = 32_700;

/// Numbers of values for that many ceilings on so many links, with which there are not too many
/// positions; none if any are legal.
pub fn legal_counts(links: usize, ceilings: usize, rng: &mut Rng) -> Option<Vec<usize>> {
    if links.pow(ceilings as u32) <= MAX_POSITIONS {
        return None;
    }
    let mut counts = Vec::new();
    let mut left = MAX_POSITIONS;
    for _ in 0..ceilings {
        let most = left.min(links);
        let any = rng.within(1..=most as i64) as usize;
        counts.push(rng.pick(&[any, most.min(12), most]));
        left /= counts.last().unwrap_or(&1);
    }
    rng.shuffle(&mut counts);
    Some(counts)
}

/// Leaves at most so many different values of each ceiling: a value becomes the next higher of
/// those that stay, or the highest.
pub fn thin(costs: &mut [Vec<i64>], counts: &[usize], rng: &mut Rng) {
    for (costs, &count) in costs.iter_mut().zip(counts) {
        let staying = some_of(costs, count, rng);
        costs.iter_mut().for_each(|cost| {
            let next = staying.iter().find(|staying| *staying >= cost);
            *cost = next.or(staying.last()).copied().unwrap_or(*cost);
        });
    }
}

/// At most so many different values of some, rising.
fn some_of(values: &[i64], count: usize, rng: &mut Rng) -> Vec<i64> {
    let mut some = values.to_vec();
    some.sort();
    some.dedup();
    rng.shuffle(&mut some);
    some.truncate(count);
    some.sort();
    some
}

/// All drafts that differ from one by their ceiling costs and have one of `VALUE_COUNTS` that there
/// are links for; each as it is, and with links to a station at rest where there is room.
pub fn each_value_count(draft: &Draft, rng: &mut Rng) -> Vec<Draft> {
    let links = draft.links.len();
    let mut drafts = Vec::new();
    for counts in VALUE_COUNTS {
        if counts.iter().all(|&count| count <= links) {
            let draft = with_values(draft.clone(), counts, rng);
            drafts.extend(with_links_at_rest(&draft, rng));
            drafts.push(draft);
        }
    }
    drafts.extend(with_links_at_rest(draft, rng).map(without_usable));
    drafts
}

/// All drafts that differ from one by a wrong field of the last link.
pub fn with_last_link_wrong(draft: &Draft) -> Vec<Draft> {
    let wrongs: [fn(&mut LinkDraft); 5] = [
        |link| link.mark = TWO_COSTS.mark,
        |link| link.ends[0] = u8::MAX,
        |link| link.ends[1] = link.ends[0],
        |link| link.sum = HIGHEST + 1,
        |link| link.sum = LOWEST - 1,
    ];
    let changed = wrongs.iter().map(|wrong| {
        let mut draft = draft.clone();
        draft.links.last_mut().into_iter().for_each(wrong);
        draft
    });
    changed.collect()
}

/// The draft with so many different values of each ceiling, each on some link.
fn with_values(mut draft: Draft, counts: [usize; MAX_CEILINGS], rng: &mut Rng) -> Draft {
    for (ceiling, count) in counts.into_iter().enumerate() {
        let start = rng.within(i16::MIN.into()..=i64::from(FIRST_ADDED) - STEP * count as i64);
        let value = |link: usize| (start + STEP * (link % count) as i64) as i16;
        let mut values: Vec<i16> = (0..draft.links.len()).map(value).collect();
        rng.shuffle(&mut values);
        for (link, value) in draft.links.iter_mut().zip(values) {
            link.costs[ceiling] = value;
        }
    }
    draft
}

/// The draft with a station more, which rests, and links to it that have other values.
fn with_links_at_rest(draft: &Draft, rng: &mut Rng) -> Option<Draft> {
    let (mut draft, station) = (draft.clone(), draft.stations);
    if draft.links.len() + ADDED > MAX_LINKS || usize::from(station) == MAX_STATIONS {
        return None;
    }
    draft.stations += 1;
    set_bit(draft.rest.as_mut()?, station);
    for i in 0..ADDED as i16 {
        let link = LinkDraft {
            ends: [rng.below(station.into()) as u8, station],
            costs: [FIRST_ADDED + i; MAX_CEILINGS],
            ..*draft.links.first()?
        };
        let at = rng.below(draft.links.len() + 1);
        draft.links.insert(at, link);
    }
    draft.write_count();
    Some(draft)
}

/// The draft with each link at the last station, which rests: no link is usable.
fn without_usable(mut draft: Draft) -> Draft {
    let station = draft.stations - 1;
    for link in &mut draft.links {
        link.ends = [link.ends[0] % station, station];
    }
    draft
}
