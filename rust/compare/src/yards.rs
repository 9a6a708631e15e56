//! The generator of legal yards.

use crate::draft::{Draft, LinkDraft};
use crate::ranks::{present, ranks_with};
use crate::rng::Rng;
use crate::site::Site;
use crate::value_counts::{legal_counts, thin};
use crate::values::{put_limit, Signs, Values, SIGNS};
use peer::records::{YardRecord, MAX_CEILINGS, PLAIN, RESTING, YARD_RECORDS};
use std::ops::RangeInclusive;

/// How a yard's links lie.
#[derive(Clone, Copy)]
pub enum Layout {
    /// Anywhere.
    Any,
    /// So that there is a tree.
    Connected,
    /// So that there is no tree, but for a single station.
    Disconnected,
}

/// How many different values the ceilings of a yard have.
#[derive(Clone, Copy)]
enum ValueCounts {
    /// So few that there are not too many positions.
    Legal,
    /// As many as come.
    Any,
    /// At most so many of each ceiling.
    Most([usize; MAX_CEILINGS]),
}

impl ValueCounts {
    /// Leaves that many different values in the costs of a yard with so many links and ceilings.
    fn limit(self, costs: &mut [Vec<i64>], links: usize, ceilings: usize, rng: &mut Rng) {
        match self {
            ValueCounts::Any => {}
            ValueCounts::Most(counts) => thin(costs, &counts, rng),
            ValueCounts::Legal => {
                if let Some(counts) = legal_counts(links, ceilings, rng) {
                    thin(costs, &counts, rng);
                }
            }
        }
    }
}

/// What a yard is to be like.
pub struct Recipe {
    stations: RangeInclusive<i64>,
    links: RangeInclusive<i64>,
    layout: Layout,
    values: Values,
    /// The signs of every yard; without them each yard draws its own.
    signs: Option<Signs>,
    /// The yard record of every yard; without it each yard draws its own.
    record: Option<YardRecord>,
    /// One in how many stations rests where the record has rest bytes; without it each yard draws
    /// its own number.
    one_in: Option<u8>,
    /// How many different values the ceilings have.
    counts: ValueCounts,
}

impl Recipe {
    /// Yards of so many stations and links, without a sum cost below 0 and without a link count.
    /// A connected yard has at least a tree's links.
    pub const fn new(
        stations: RangeInclusive<i64>,
        links: RangeInclusive<i64>,
        layout: Layout,
        values: Values,
    ) -> Recipe {
        Recipe {
            stations,
            links,
            layout,
            values,
            signs: Some(Signs::Plus),
            record: Some(PLAIN),
            one_in: None,
            counts: ValueCounts::Legal,
        }
    }

    /// The recipe with other signs.
    pub const fn with_signs(self, signs: Signs) -> Recipe {
        let signs = Some(signs);
        Recipe { signs, ..self }
    }

    /// The recipe with signs that differ from yard to yard, and limits among the sum costs.
    pub const fn with_any_signs(self) -> Recipe {
        let signs = None;
        Recipe { signs, ..self }
    }

    /// The recipe with another yard record.
    pub const fn with_record(self, record: YardRecord) -> Recipe {
        let record = Some(record);
        Recipe { record, ..self }
    }

    /// The recipe with a yard record that differs from yard to yard.
    pub const fn with_any_record(self) -> Recipe {
        let record = None;
        Recipe { record, ..self }
    }

    /// The recipe with rest bytes in which one of so many stations rests.
    pub const fn with_rest(self, one_in: u8) -> Recipe {
        let one_in = Some(one_in);
        Recipe { one_in, ..self }.with_record(RESTING)
    }

    /// The recipe with values that can make too many positions of three ceilings.
    pub const fn with_any_values(self) -> Recipe {
        let counts = ValueCounts::Any;
        Recipe { counts, ..self }
    }

    /// The recipe with at most so many values of each ceiling.
    pub const fn with_value_counts(self, counts: [usize; MAX_CEILINGS]) -> Recipe {
        let counts = ValueCounts::Most(counts);
        Recipe { counts, ..self }
    }

    /// The yard records of its yards.
    pub fn records(&self) -> Vec<YardRecord> {
        self.record
            .map_or(YARD_RECORDS.to_vec(), |record| vec![record])
    }

    /// A yard with any legal number of ceilings and any legal ranks.
    pub fn draft(&self, rng: &mut Rng) -> Draft {
        let stations = rng.within(self.stations.clone()) as u8;
        let (record, site) = self.site(stations, rng);
        let is_legal = |&rank: &u8| usize::from(rank) < site.working.len();
        let mut legal = ranks_with(record);
        legal.retain(|ranks| ranks.iter().all(is_legal));
        self.draft_on(record, &site, rng.pick(&legal), rng)
    }

    /// A yard with these ranks; a ceiling is present if its rank is not 0.
    pub fn draft_with(&self, stations: u8, ranks: [u8; MAX_CEILINGS], rng: &mut Rng) -> Draft {
        let (record, site) = self.site(stations, rng);
        self.draft_on(record, &site, ranks, rng)
    }

    /// The yard record of a yard, and its stations.
    fn site(&self, stations: u8, rng: &mut Rng) -> (YardRecord, Site) {
        // A ceiling needs a tree with a link, and that two stations.
        let least_working = |record: YardRecord| 1 + u8::from(record.least_ceilings > 0);
        let mut records = self.records();
        records.retain(|&record| stations >= least_working(record));
        let record = match records[..] {
            [record] => record,
            _ => rng.pick(&records),
        };
        let site = match record.rest_at {
            None => Site::working(stations),
            Some(_) => Site::resting(stations, self.one_in, least_working(record), rng),
        };
        (record, site)
    }

    /// A yard of these stations with these ranks.
    fn draft_on(
        &self,
        record: YardRecord,
        site: &Site,
        ranks: [u8; MAX_CEILINGS],
        rng: &mut Rng,
    ) -> Draft {
        let (room, ceilings) = (record.most_ceilings, present(&ranks));
        let ends = self.ends(site, rng);
        let signs = self.signs.unwrap_or_else(|| rng.pick(&SIGNS));
        let mut sums = self.values.sums(ends.len(), signs, rng);
        if self.signs.is_none() && rng.once_in(4) {
            put_limit(&mut sums, signs, rng);
        }
        let mut costs = self.values.costs(&sums, signs, room, rng);
        self.counts.limit(&mut costs, ends.len(), ceilings, rng);
        costs.truncate(ceilings);
        let cost = |i: usize, ceiling: usize| costs.get(ceiling).map_or(0, |costs| costs[i] as i16);
        let link = |i: usize| LinkDraft {
            mark: record.link.mark,
            ends: ends[i],
            sum: sums[i] as i32,
            costs: std::array::from_fn(|ceiling| cost(i, ceiling)),
        };
        Draft {
            mark: record.mark,
            stations: site.stations,
            ceilings: ceilings as u8,
            room,
            ranks,
            count: record.count_at.map(|_| ends.len() as u8),
            rest: record.rest_at.map(|_| site.rest_bytes()),
            links: (0..ends.len()).map(link).collect(),
        }
    }

    /// The ends of all links.
    fn ends(&self, site: &Site, rng: &mut Rng) -> Vec<[u8; 2]> {
        let mut ends = Vec::new();
        if site.stations == 1 {
            return ends;
        }
        let cut = site.cut(rng);
        if let Layout::Connected = self.layout {
            let later = site.working.iter().enumerate().skip(1);
            ends.extend(later.map(|(i, &station)| [station, site.working[rng.below(i)]]));
        }
        let count = (rng.within(self.links.clone()) as usize).max(ends.len());
        while ends.len() < count {
            let parallel = matches!(self.values, Values::Tied) && rng.once_in(3);
            ends.push(match self.layout {
                _ if parallel && !ends.is_empty() => rng.pick(&ends),
                Layout::Disconnected => match side(cut, site.stations, rng) {
                    Some(range) => pair(range, rng),
                    None => break,
                },
                _ => pair_of(site, rng),
            });
        }
        rng.shuffle(&mut ends);
        ends
    }
}

/// The range of stations on one side of the cut that has two stations, if any has.
fn side(cut: u8, stations: u8, rng: &mut Rng) -> Option<[u8; 2]> {
    let mut sides = [[0, cut], [cut, stations]];
    rng.shuffle(&mut sides);
    sides.into_iter().find(|[start, end]| end - start >= 2)
}

/// Two different stations; where some rest, mostly two that work.
fn pair_of(site: &Site, rng: &mut Rng) -> [u8; 2] {
    let working = site.working.len() as u8;
    if working < 2 || site.has_rest() && rng.once_in(3) {
        return pair([0, site.stations], rng);
    }
    pair([0, working], rng).map(|i| site.working[usize::from(i)])
}

/// Two different stations of a range.
fn pair([start, end]: [u8; 2], rng: &mut Rng) -> [u8; 2] {
    let count = usize::from(end - start);
    let a = rng.below(count);
    let b = (a + 1 + rng.below(count - 1)) % count;
    [a, b].map(|station| start + station as u8)
}

#[cfg(test)]
mod tests {
    use super::*;
    use crate::kinds::exact;
    use peer::positions::Positions;
    use peer::records::{COUNTED, TRIPLE};
    use peer::survey::Yard;
    use peer::Refusal;

    #[test]
    fn all_legal_ranks_are_drawn() {
        for stations in 1..=5 {
            assert_legal_ranks_are_drawn(stations, PLAIN);
        }
        for stations in 2..=5 {
            assert_legal_ranks_are_drawn(stations, TRIPLE);
        }
    }

    fn assert_legal_ranks_are_drawn(stations: u8, record: YardRecord) {
        let recipe = exact(stations.into(), 6, Values::Free).with_record(record);
        let recipe = Recipe {
            one_in: Some(u8::MAX),
            ..recipe
        };
        let drafts = (0..500).map(|seed| recipe.draft(&mut Rng::new(seed)));
        let drawn: Vec<[u8; 3]> = drafts.map(|draft| draft.ranks).collect();
        for ranks in (0..125).map(|i| [i / 25, i / 5 % 5, i % 5]) {
            if ranks[record.most_ceilings..].iter().all(|&rank| rank == 0) {
                let draft = recipe.draft_with(stations, ranks, &mut Rng::new(0));
                let is_legal = Yard::read(&draft.bytes()).is_ok();
                assert_eq!(drawn.contains(&ranks), is_legal, "{stations} {ranks:?}");
            }
        }
    }

    #[test]
    fn three_ceilings_have_at_most_1600_positions() {
        let mut most = 0;
        for seed in 0..200 {
            let recipe = exact(6, 40, Values::Different).with_record(TRIPLE);
            let yard = Yard::read(&recipe.draft(&mut Rng::new(seed)).bytes());
            most = most.max(yard.map_or(0, |yard| Positions::of(&yard).count()));
            let recipe = recipe.with_any_values().with_rest(u8::MAX);
            let recipe = recipe.with_record(TRIPLE);
            let reply = Yard::read(&recipe.draft(&mut Rng::new(seed)).bytes());
            assert_eq!(reply.err(), Some(Refusal::whole(19)));
        }
        assert!((1500..=1600).contains(&most));
    }

    #[test]
    fn a_link_count_does_not_change_the_yard() {
        for seed in 0..50 {
            let [plain, counted] = [PLAIN, COUNTED].map(|record| {
                let recipe = exact(6, 9, Values::Free).with_record(record);
                recipe.draft(&mut Rng::new(seed)).bytes()
            });
            assert!(Yard::read(&plain).is_ok() && Yard::read(&counted).is_ok());
            assert_eq!(counted[2..6], plain[2..6]);
            assert_eq!(counted[COUNTED.bytes..], plain[PLAIN.bytes..]);
        }
    }

    #[test]
    fn one_in_four_stations_rests() {
        for (stations, resting) in [(3, 0), (4, 1), (16, 4), (23, 5), (24, 6)] {
            let recipe = exact(stations, 40, Values::Free).with_rest(4);
            let yard = Yard::read(&recipe.draft(&mut Rng::new(1)).bytes());
            assert!(yard.is_ok_and(|yard| yard.rest.count() == resting));
        }
    }
}
