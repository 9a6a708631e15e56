//! The positions of a walk, and marks on them.

use crate::records::MAX_CEILINGS;
use crate::survey::{Yard, MAX_LINKS};

/// The different values of one ceiling on usable links, in falling order. An absent ceiling has the
/// value 0 alone.
struct Places {
    values: [i16; MAX_LINKS],
    count: usize,
}

impl Places {
    fn of(yard: &Yard, ceiling: usize) -> Places {
        let mut values = [0; MAX_LINKS];
        if ceiling >= yard.ceilings {
            return Places { values, count: 1 };
        }
        let mut count = 0;
        for link in yard.usable_links() {
            let cost = link.costs[ceiling];
            let place = place_of(&values[..count], cost);
            if place == count || values[place] != cost {
                values.copy_within(place..count, place + 1);
                values[place] = cost;
                count += 1;
            }
        }
        Places { values, count }
    }

    fn values(&self) -> &[i16] {
        &self.values[..self.count]
    }
}

/// How many of the falling values are above this one: its place, counted from 0.
fn place_of(values: &[i16], value: i16) -> usize {
    values.partition_point(|&other| other > value)
}

/// A place of each ceiling.
pub type Position = [usize; MAX_CEILINGS];

/// The positions of a walk: the places of all ceilings.
pub struct Positions {
    places: [Places; MAX_CEILINGS],
    /// The last present ceiling. The places of those after it are all 0.
    last: usize,
}

impl Positions {
    /// Gathers the places of a yard's ceilings.
    pub fn of(yard: &Yard) -> Positions {
        Positions {
            places: std::array::from_fn(|ceiling| Places::of(yard, ceiling)),
            last: yard.ceilings.saturating_sub(1),
        }
    }

    /// How many positions there are.
    pub fn count(&self) -> usize {
        self.places.iter().map(|places| places.count).product()
    }

    /// The values that a position picks.
    pub fn bounds(&self, position: Position) -> [i16; MAX_CEILINGS] {
        std::array::from_fn(|i| self.places[i].values[position[i]])
    }

    /// The position that picks these costs, which are among the values.
    pub fn position_of(&self, costs: [i16; MAX_CEILINGS]) -> Position {
        std::array::from_fn(|i| place_of(self.places[i].values(), costs[i]))
    }

    /// The position that is the last in each ceiling.
    pub fn end(&self) -> Position {
        std::array::from_fn(|i| self.places[i].count - 1)
    }
}

/// A mark for each position. A row of bits has the places of the last present ceiling; there is a
/// row for each choice of places before it, in dictionary order.
pub struct Marks<'p> {
    positions: &'p Positions,
    rows: Vec<u64>,
}

impl<'p> Marks<'p> {
    /// Marks on no position.
    pub fn none(positions: &'p Positions) -> Marks<'p> {
        let before = positions.places[..positions.last].iter();
        let rows = before.map(|places| places.count).product();
        Marks {
            positions,
            rows: vec![0; rows],
        }
    }

    /// How many rows there are.
    pub fn row_count(&self) -> usize {
        self.rows.len()
    }

    /// The first position of a row that is not marked.
    pub fn first_unmarked(&self, row: usize) -> Option<Position> {
        let last = self.positions.last;
        let place = self.rows[row].trailing_ones() as usize;
        (place < self.positions.places[last].count).then(|| {
            let mut position = [0; MAX_CEILINGS];
            position[last] = place;
            let mut rest = row;
            for i in (0..last).rev() {
                let count = self.positions.places[i].count;
                (rest, position[i]) = (rest / count, rest % count);
            }
            position
        })
    }

    /// Whether a position is marked.
    pub fn has(&self, position: Position) -> bool {
        let last = self.positions.last;
        let places = self.positions.places[..last].iter().zip(position);
        let row = places.fold(0, |row, (places, place)| row * places.count + place);
        self.rows[row] >> position[last] & 1 == 1
    }

    /// Marks each position that is from one through another in each ceiling.
    pub fn mark(&mut self, first: Position, end: Position) {
        let last = self.positions.last;
        let bits = (2 << end[last]) - (1 << first[last]);
        let before = &self.positions.places[..last];
        set_bits(&mut self.rows, bits, before, &first, &end);
    }
}

/// Sets bits in the rows for places from the first through the end of each ceiling that the rows
/// are arranged by.
fn set_bits(rows: &mut [u64], bits: u64, by: &[Places], first: &[usize], end: &[usize]) {
    let Some((places, later)) = by.split_first() else {
        rows.iter_mut().for_each(|row| *row |= bits);
        return;
    };
    let size = rows.len() / places.count;
    let within = &mut rows[first[0] * size..(end[0] + 1) * size];
    match later {
        [] => set_bits(within, bits, later, &[], &[]),
        _ => within
            .chunks_exact_mut(size)
            .for_each(|part| set_bits(part, bits, later, &first[1..], &end[1..])),
    }
}

/// Whether a yard has more positions than a number. It has at most as many as if each link had
/// ceiling costs of its own.
pub fn has_more_than(most: usize, yard: &Yard) -> bool {
    let links = yard.links().len();
    let mut at_most = links.pow(yard.ceilings as u32);
    for ceiling in 0..yard.ceilings {
        if at_most <= most {
            return false;
        }
        at_most = at_most / links * different(yard, ceiling);
    }
    at_most > most
}

/// How many slots a table of values has: a power of 2, of which most stay empty.
const SLOTS: usize = 128;

/// How many different values a ceiling has on usable links.
fn different(yard: &Yard, ceiling: usize) -> usize {
    // A slot holds the number of a value in order of coming, from 1 on; 0 is an empty one.
    let mut slots = [0_u8; SLOTS];
    let mut values = [0; MAX_LINKS + 1];
    let mut count = 0;
    for link in yard.usable_links() {
        let value = link.costs[ceiling];
        let mut slot = usize::from((value as u16).wrapping_mul(0x9e37) >> 9);
        while slots[slot] != 0 && values[usize::from(slots[slot])] != value {
            slot = (slot + 1) % SLOTS;
        }
        if slots[slot] == 0 {
            count += 1;
            slots[slot] = count;
            values[usize::from(count)] = value;
        }
    }
    count.into()
}
