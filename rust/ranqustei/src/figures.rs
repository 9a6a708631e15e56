//! The figures that a survey is written from.

/// The figures that [`write_survey`](crate::write_survey) writes a survey from, those of the links
/// by column. There are as many links as sums; entries of other columns after the last link are not
/// looked at.
///
/// ```
/// use ranqustei::{write_survey, Cause, Figures, YardRecord};
///
/// let figures = Figures {
///     stations: 2,
///     ceilings: 1,
///     ranks: [1, 0],
///     ends: &[0, 1, 1, 0],
///     sums: &[4, -3],
///     costs: &[7, 0, 2, 0],
/// };
/// let mut survey = [0; 31];
/// write_survey(YardRecord::Counted.kind(), &figures, &mut survey)?;
/// assert_eq!(survey[..7], *b"YE\x02\x01\x01\x00\x02");
/// assert_eq!(survey[7..19], *b"LK\x00\x01\x04\x00\x00\x00\x07\x00\x00\x00");
/// assert_eq!(survey[19..], *b"LK\x01\x00\xFD\xFF\xFF\xFF\x02\x00\x00\x00");
///
/// // Link 1 ends at a station that the yard does not have.
/// let wrong = Figures { ends: &[0, 1, 1, 2], ..figures };
/// let refusal = write_survey(YardRecord::Counted.kind(), &wrong, &mut survey).unwrap_err();
/// assert_eq!((refusal.cause(), refusal.link()), (Cause::Ends, Some(1)));
///
/// // Link 1 has no cost for the ceiling; that it has none for the absent one does not matter.
/// let short = Figures { costs: &[7, 0], ..figures };
/// let refusal = write_survey(YardRecord::Counted.kind(), &short, &mut survey).unwrap_err();
/// assert_eq!((refusal.cause(), refusal.link()), (Cause::Figures, Some(1)));
/// let enough = Figures { costs: &[7, 0, 2], ..figures };
/// write_survey(YardRecord::Counted.kind(), &enough, &mut survey)?;
/// # Ok::<(), ranqustei::Refusal>(())
/// ```
#[derive(Clone, Copy, Debug)]
pub struct Figures<'a> {
    /// The number of stations.
    pub stations: u8,
    /// The number of ceilings.
    pub ceilings: u8,
    /// The ranks of both ceilings, 0 for an absent one.
    pub ranks: [u8; 2],
    /// The two stations of each link. One that is left out is no station of the yard.
    pub ends: &'a [u8],
    /// The sum cost of each link.
    pub sums: &'a [i32],
    /// The costs of each link for both ceilings, 0 for an absent one. One that is left out is 0 for
    /// an absent ceiling; for a present one the link is declined.
    pub costs: &'a [i16],
}
