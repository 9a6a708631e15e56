//! The seeds of a kind, and the tallies of kinds.

use compare::tally::Tally;

/// What was compared, by the names of kinds.
pub type Tallies = Vec<(&'static str, Tally)>;

/// Compares on `count` seeds from the first on, or on the one among them that is asked for.
pub fn over_seeds(
    first: u64,
    count: u64,
    asked: Option<u64>,
    compare: impl Fn(u64, &mut Tally) -> Result<(), String>,
) -> Result<Tally, String> {
    let mut tally = Tally::default();
    for seed in (first..first + count).filter(|&seed| asked.is_none_or(|asked| asked == seed)) {
        compare(seed, &mut tally)?;
    }
    Ok(tally)
}

/// What was compared in all.
pub fn total_of(tallies: &[(&str, Tally)]) -> Tally {
    let mut total = Tally::default();
    tallies.iter().for_each(|(_, tally)| total.add(tally));
    total
}
