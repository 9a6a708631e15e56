//! The figures of a link, where they are handed in.

use peer::survey::MAX_LINKS;
use peer::Figures;

/// The ends of a link that are handed in.
pub fn ends_of(figures: &Figures, link: usize) -> [Option<u8>; 2] {
    pair_at(link, figures.ends)
}

/// The ceiling costs of a link that are handed in.
pub fn costs_of(figures: &Figures, link: usize) -> [Option<i16>; 2] {
    pair_at(link, figures.costs)
}

/// Whether an end of a link is missing.
pub fn lacks_end(figures: &Figures, link: usize) -> bool {
    ends_of(figures, link).contains(&None)
}

/// Whether the cost of a link for a present ceiling is missing.
pub fn lacks_cost(figures: &Figures, link: usize) -> bool {
    let costs = costs_of(figures, link).into_iter();
    let mut present = costs.take(figures.ceilings.into());
    present.any(|cost| cost.is_none())
}

/// The first link, of as many as a yard can have, that lacks the cost of a present ceiling.
pub fn first_without_cost(figures: &Figures) -> Option<u8> {
    let links = 0..figures.sums.len().min(MAX_LINKS);
    let mut lacking = links.filter(|&link| lacks_cost(figures, link));
    lacking.next().map(|link| link as u8)
}

/// The two entries of a link in a column, if they are there.
fn pair_at<T: Copy>(link: usize, column: &[T]) -> [Option<T>; 2] {
    [2 * link, 2 * link + 1].map(|entry| column.get(entry).copied())
}
