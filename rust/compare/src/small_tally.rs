//! Which small surveys were asked for, and in which outputs.

use peer::{Refusal, SMALL_SURVEYS, SMALL_SURVEY_BYTES};

/// The lengths that outputs have.
pub const ROOMS: [usize; 6] = [0, 1, 41, 42, 43, 100];

/// Numbers of no small survey. With fewer bits many of them are numbers of one.
pub const OVER: [u32; 16] = [
    1_728,
    1_729,
    1_727 + 256,
    2_048,
    2 * 1_728,
    4_096 + 5,
    65_535,
    65_536,
    65_536 + 5,
    65_536 + 1_727,
    1 << 24,
    1 << 31,
    (1 << 31) + 5,
    u32::MAX - 1_727,
    u32::MAX - 1,
    u32::MAX,
];

/// A set of small surveys, a bit for each.
type Numbers = [u64; SMALL_SURVEYS.div_ceil(u64::BITS) as usize];

/// How much was compared, by small surveys and outputs.
#[derive(Clone, Copy, Default)]
pub struct SmallTally {
    /// Calls with an output of each of `ROOMS` that wrote, and that were refused by 17 and by 20.
    pub rooms: [[u64; 3]; ROOMS.len()],
    /// Calls refused by 20 for each of `OVER`.
    pub over: [u64; OVER.len()],
    /// The surveys that were written, and that were refused by 17.
    numbers: [Numbers; 2],
}

impl SmallTally {
    /// Counts a call with an output of `room` bytes.
    pub fn count(&mut self, number: u32, room: usize, reply: Result<(), Refusal>) {
        let sort = match reply {
            Ok(()) => 0,
            Err(refusal) => 1 + usize::from(refusal.number == 20),
        };
        let rooms = self.rooms.iter_mut().zip(ROOMS);
        for (counts, _) in rooms.filter(|(_, length)| *length == room) {
            counts[sort] += 1;
        }
        let over = self.over.iter_mut().zip(OVER);
        for (count, _) in over.filter(|(_, over)| *over == number) {
            *count += u64::from(sort == 2);
        }
        if let Some(numbers) = self.numbers.get_mut(sort) {
            numbers[(number / u64::BITS) as usize] |= 1 << (number % u64::BITS);
        }
    }

    /// How many different surveys were written, and refused by 17.
    pub fn surveys(&self) -> [u32; 2] {
        self.numbers
            .map(|numbers| numbers.map(u64::count_ones).iter().sum())
    }

    /// Adds what another tally has.
    pub fn add(&mut self, other: &SmallTally) {
        let counts = self
            .rooms
            .as_flattened_mut()
            .iter_mut()
            .chain(&mut self.over);
        let more = other.rooms.as_flattened().iter().chain(&other.over);
        for (count, more) in counts.zip(more) {
            *count += more;
        }
        let numbers = self.numbers.as_flattened_mut().iter_mut();
        for (numbers, more) in numbers.zip(other.numbers.as_flattened()) {
            *numbers |= more;
        }
    }
}

/// Whether an output of `room` bytes can get each reply: written, refused by 17 and by 20.
pub fn due_replies(room: usize) -> [bool; 3] {
    [room >= SMALL_SURVEY_BYTES, room < SMALL_SURVEY_BYTES, true]
}
