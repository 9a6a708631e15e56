//! The stations of generated yards, of which some can rest.

use crate::rng::Rng;
use peer::rest::REST_BYTES;

/// The numbers of the stations of a yard: how many there are, and those that work, rising.
pub struct Site {
    /// How many stations there are.
    pub stations: u8,
    /// The stations that work.
    pub working: Vec<u8>,
}

impl Site {
    /// Stations that all work.
    pub fn working(stations: u8) -> Site {
        Site {
            stations,
            working: (0..stations).collect(),
        }
    }

    /// Stations of which some rest, one in `one_in` or any number, and so many work at least.
    pub fn resting(stations: u8, one_in: Option<u8>, least_working: u8, rng: &mut Rng) -> Site {
        let count = match one_in {
            Some(one_in) => stations / one_in,
            None => resting_count(stations, rng).min(stations.saturating_sub(least_working)),
        };
        let mut site = Site::working(stations);
        rng.shuffle(&mut site.working);
        site.working.truncate((stations - count).into());
        site.working.sort();
        site
    }

    /// Whether some station rests.
    pub fn has_rest(&self) -> bool {
        self.working.len() < self.stations.into()
    }

    /// The bits of the stations at rest.
    pub fn rest_bytes(&self) -> [u8; REST_BYTES] {
        let mut bytes = [0; REST_BYTES];
        let all = 0..self.stations;
        for station in all.filter(|station| !self.working.contains(station)) {
            set_bit(&mut bytes, station);
        }
        bytes
    }

    /// A working station that has others below it; 0 if one works alone.
    pub fn cut(&self, rng: &mut Rng) -> u8 {
        match &self.working[1..] {
            [] => 0,
            later => rng.pick(later),
        }
    }
}

/// Sets the bit of a station that a yard can have.
pub fn set_bit(bytes: &mut [u8; REST_BYTES], station: u8) {
    bytes[usize::from(station / 8)] |= 1 << (station % 8);
}

/// How many of the stations rest: none, few, all but few, or any number, but never all.
fn resting_count(stations: u8, rng: &mut Rng) -> u8 {
    let any = rng.below(stations.into()) as u8;
    let [one, two, three] = [1, 2, 3].map(|working| stations.saturating_sub(working));
    let counts = [0, 1, 1, 2, any, any, stations / 2, three, two, one];
    rng.pick(&counts).min(one)
}
