//! Stations at rest, as the rest bytes of a yard record: station j rests if bit j % 8 of byte j / 8
//! is set.

use std::collections::BTreeSet;

/// The stations that rest bytes have a bit for.
const STATIONS: u8 = 24;

/// The stations that rest bytes name.
pub(crate) fn named_by([first, second, third]: [u8; 3]) -> BTreeSet<u8> {
    let bits = u32::from_le_bytes([first, second, third, 0]);
    let is_set = |station: &u8| bits >> station & 1 == 1;
    (0..STATIONS).filter(is_set).collect()
}

/// The rest bytes of resting stations, or a station that they have no bit for.
pub(crate) fn bytes_of(resting: &BTreeSet<u8>) -> Result<[u8; 3], u8> {
    if let Some(&station) = resting.range(STATIONS..).next() {
        return Err(station);
    }
    let bits = resting
        .iter()
        .fold(0, |bits: u32, station| bits | 1 << station);
    let [first, second, third, _] = bits.to_le_bytes();
    Ok([first, second, third])
}
