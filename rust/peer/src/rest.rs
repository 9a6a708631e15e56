//! The stations at rest.

/// The bytes that hold a bit for each station.
pub const REST_BYTES: usize = 3;

/// A set of stations that rest: bit j stands for station j. No station is in it by default.
#[derive(Clone, Copy, PartialEq, Eq, Debug, Default)]
pub struct Rest(u32);

impl Rest {
    /// The set that the bytes of a yard record hold, low bit of the first byte first.
    pub fn read([low, middle, high]: [u8; REST_BYTES]) -> Rest {
        Rest(u32::from_le_bytes([low, middle, high, 0]))
    }

    /// Whether no station rests.
    pub fn is_empty(self) -> bool {
        self.0 == 0
    }

    /// How many stations rest.
    pub fn count(self) -> usize {
        self.0.count_ones() as usize
    }

    /// Whether a station that a yard can have rests.
    pub fn has(self, station: u8) -> bool {
        self.0 >> station & 1 == 1
    }

    /// Whether each of the set is among that many stations, and some other of these works.
    pub fn is_legal(self, stations: usize) -> bool {
        self.0 >> stations == 0 && self.count() < stations
    }
}
