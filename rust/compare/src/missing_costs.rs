//! Columns of costs that are too short: which there were, and what was replied to them.

use crate::link_figures::first_without_cost;
use crate::write_rules::Request;
use peer::link_set::LinkSet;
use peer::survey::{MAX_LINKS, SUMS};
use peer::{Figures, Refusal};
use std::cmp::Ordering::{self, Equal, Less};

/// How many numbers of ceilings a survey that is written may have: 0, 1 and 2.
pub const CEILING_COUNTS: usize = 3;

/// A call on figures with a short column of costs.
pub struct ShortCall<'a> {
    figures: Figures<'a>,
    /// Whether the output is shorter than the survey.
    lacks_room: bool,
    reply: Result<(), Refusal>,
}

/// A sort of calls: its name, the numbers of ceilings that it is for, and whether a call is of it.
type Sort = (&'static str, &'static [usize], fn(&ShortCall) -> bool);

/// The sorts of calls that the figures have to reach.
pub const SHORT_SORTS: [Sort; 11] = [
    ("written without any cost", &[0], |call| {
        call.reply.is_ok() && call.figures.costs.is_empty()
    }),
    ("written without the last cost", &[0, 1], |call| {
        call.reply.is_ok() && call.figures.costs.len() + 1 == call.entries()
    }),
    ("17, and no present cost missing", &[0, 1], |call| {
        call.reply == Err(Refusal::whole(17))
    }),
    ("8 for a missing cost", &[1, 2], |call| call.is_for_cost()),
    ("8 for it before 17", &[1, 2], |call| {
        call.is_for_cost() && call.lacks_room
    }),
    ("8 for it before 7 of a later link", &[1, 2], |call| {
        call.is_for_cost() && call.any_later(|call, link| !call.has_stations(link))
    }),
    (
        "8 for it before 8 for the sum of a later link",
        &[1, 2],
        |call| call.is_for_cost() && call.any_later(|call, link| !call.has_sum(link)),
    ),
    ("7 of the same link before it", &[1, 2], |call| {
        call.number_beside() == Some((7, Equal))
    }),
    ("7 of an earlier link before it", &[1, 2], |call| {
        call.number_beside() == Some((7, Less))
    }),
    ("8 of an earlier link before it", &[1, 2], |call| {
        call.number_beside() == Some((8, Less))
    }),
    ("a number of the kind or yard before it", &[1, 2], |call| {
        call.reply.is_err_and(|refusal| refusal.number < 7) && call.first().is_some()
    }),
];

impl ShortCall<'_> {
    /// How many costs there would be for all links.
    fn entries(&self) -> usize {
        2 * self.figures.sums.len()
    }

    /// The first link that lacks the cost of a present ceiling.
    fn first(&self) -> Option<u8> {
        first_without_cost(&self.figures)
    }

    /// The number of a refusal at a link, and where that link is beside the first that lacks the
    /// cost of a present ceiling.
    fn number_beside(&self) -> Option<(u8, Ordering)> {
        let Refusal { number, place } = self.reply.err()?;
        let link = place.checked_sub(1)?;
        Some((number, link.cmp(&self.first()?)))
    }

    /// Whether a missing cost is all that the refusal can be for.
    fn is_for_cost(&self) -> bool {
        let first = self.first().map(usize::from);
        self.number_beside() == Some((8, Equal)) && first.is_some_and(|link| self.has_sum(link))
    }

    /// Whether some link after the first that lacks the cost of a present ceiling is of a sort.
    fn any_later(&self, is_of_sort: fn(&Self, usize) -> bool) -> bool {
        let mut links = 0..self.figures.sums.len();
        let first = self.first().map(usize::from);
        links.any(|link| first.is_some_and(|first| first < link) && is_of_sort(self, link))
    }

    /// Whether the ends of a link are two stations.
    fn has_stations(&self, link: usize) -> bool {
        let stations = self.figures.stations;
        let ends = self.figures.ends.get(2 * link..2 * link + 2);
        ends.is_some_and(|ends| ends[0] != ends[1] && ends.iter().all(|&end| end < stations))
    }

    /// Whether the sum cost of a link is legal.
    fn has_sum(&self, link: usize) -> bool {
        SUMS.contains(&self.figures.sums[link])
    }
}

/// How much was compared, by short columns of costs.
#[derive(Clone, Copy, Default)]
pub struct MissingTally {
    /// Calls of each of `SHORT_SORTS`, by the number of ceilings.
    pub sorts: [[u64; CEILING_COUNTS]; SHORT_SORTS.len()],
    /// The links of 40 before whose first cost, and before whose second, the column ended in a call
    /// that wrote or was refused for a missing cost, by the number of ceilings.
    cuts: [[LinkSet; 2]; CEILING_COUNTS],
}

impl MissingTally {
    /// Counts a call with an output of `room` bytes, if costs are missing.
    pub fn count(&mut self, request: &Request, room: usize, reply: Result<(), Refusal>) {
        let call = ShortCall {
            figures: request.figures,
            lacks_room: room < request.need(),
            reply,
        };
        let ceilings = usize::from(call.figures.ceilings);
        if ceilings >= CEILING_COUNTS || call.figures.costs.len() >= call.entries() {
            return;
        }
        for (counts, (_, _, is_of_sort)) in self.sorts.iter_mut().zip(SHORT_SORTS) {
            counts[ceilings] += u64::from(is_of_sort(&call));
        }
        self.count_cut(&call, ceilings);
    }

    fn count_cut(&mut self, call: &ShortCall, ceilings: usize) {
        if call.figures.sums.len() == MAX_LINKS && (call.reply.is_ok() || call.is_for_cost()) {
            let length = call.figures.costs.len();
            let cuts = &mut self.cuts[ceilings][length % 2];
            *cuts = cuts.with((length / 2) as u8);
        }
    }

    /// How many different numbers of costs there were for 40 links, by the number of ceilings.
    pub fn lengths(&self) -> [usize; CEILING_COUNTS] {
        self.cuts
            .map(|[first, second]| first.links().count() + second.links().count())
    }

    /// Whether these are all numbers of costs that are too few.
    pub fn has_all_lengths(&self) -> bool {
        self.lengths() == [2 * MAX_LINKS; CEILING_COUNTS]
    }

    /// Adds what another tally has.
    pub fn add(&mut self, other: &MissingTally) {
        let cuts = self.cuts.as_flattened_mut().iter_mut();
        for (links, more) in cuts.zip(other.cuts.as_flattened()) {
            *links = links.or(*more);
        }
        let counts = self.sorts.as_flattened_mut().iter_mut();
        for (count, more) in counts.zip(other.sorts.as_flattened()) {
            *count += more;
        }
    }
}
