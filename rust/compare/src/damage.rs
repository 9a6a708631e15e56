//! Surveys that break rules.

use crate::draft::{Draft, LinkDraft};
use crate::rng::Rng;
use crate::site::set_bit;
use crate::sums::LIMITS_AND_OUTSIDE;
use peer::records::{MAX_CEILINGS, THREE_COSTS, TWO_COSTS, YARD_RECORDS};
use peer::rest::REST_BYTES;
use peer::survey::MAX_STATIONS;

/// Costs that an absent ceiling must not have.
pub const COSTS_NOT_0: [i16; 4] = [1, -1, 256, i16::MIN];

/// A yard mark that no kind of yard record has.
const UNKNOWN_MARK: [u8; 2] = [0x59, 0x48];

/// The sum of how many ceilings the records of either size have room for.
const TWO_AND_THREE: usize = 5;

/// Something done to the fields of a survey.
type FieldDamage = fn(&mut Draft, &mut Rng);

/// The kinds of damage to the fields of any survey.
const FIELD_DAMAGES: [FieldDamage; 19] = [
    yard_mark,
    other_mark,
    unknown_mark,
    stations,
    ceilings,
    any_ranks,
    ranks_above_1,
    other_rank,
    link_mark,
    link_mark_of_other_size,
    link_marks_of_other_size,
    end_out_of_range,
    equal_ends,
    sum,
    cost_of_any_ceiling,
    too_many_links,
    link_dropped,
    link_added,
    wrong_count,
];

/// The kinds of damage to rest bytes.
const REST_DAMAGES: [FieldDamage; 4] =
    [other_bit_of_rest, rest_past_stations, all_at_rest, any_rest];

/// The kinds of damage to the bytes of a survey.
const BYTE_DAMAGES: [fn(&mut Vec<u8>, &mut Rng); 5] = [
    truncate,
    lengthen,
    |bytes, rng| flip_bits(bytes, rng),
    randomize,
    clear,
];

/// The kinds of damage to the fields that a survey has.
fn field_damages(draft: &Draft) -> Vec<FieldDamage> {
    let of_rest = draft.rest.iter().flat_map(|_| REST_DAMAGES);
    FIELD_DAMAGES.into_iter().chain(of_rest).collect()
}

/// The bytes of a survey with one to four damages.
pub fn damaged(mut draft: Draft, rng: &mut Rng) -> Vec<u8> {
    let damages = field_damages(&draft);
    let in_fields = rng.below(4);
    for _ in 0..in_fields {
        rng.pick(&damages)(&mut draft, rng);
    }
    let mut bytes = draft.bytes();
    if in_fields == 0 || rng.once_in(4) {
        rng.pick(&BYTE_DAMAGES)(&mut bytes, rng);
    }
    bytes
}

/// All drafts with two damages to their fields, in either order.
pub fn damaged_in_pairs(draft: &Draft, rng: &mut Rng) -> Vec<Draft> {
    let damages = field_damages(draft);
    let mut drafts = Vec::new();
    for first in &damages {
        for second in &damages {
            let mut draft = draft.clone();
            first(&mut draft, rng);
            second(&mut draft, rng);
            drafts.push(draft);
        }
    }
    drafts
}

/// All parts of a survey or a list, from its start.
pub fn cuts(whole: &[u8]) -> Vec<Vec<u8>> {
    let lengths = 0..whole.len();
    lengths.map(|len| whole[..len].to_vec()).collect()
}

/// All bytes that differ from a survey or a list by a cut or a single bit.
pub fn cuts_and_flips(whole: &[u8]) -> Vec<Vec<u8>> {
    let flips = (0..whole.len() * 8).map(|bit| {
        let mut bytes = whole.to_vec();
        bytes[bit / 8] ^= 1 << (bit % 8);
        bytes
    });
    cuts(whole).into_iter().chain(flips).collect()
}

/// All drafts that differ from one by a sum cost at a limit or outside, on any link.
pub fn sums_at_limits(draft: &Draft) -> Vec<Draft> {
    let mut drafts = Vec::new();
    for link in 0..draft.links.len() {
        for sum in LIMITS_AND_OUTSIDE {
            let mut draft = draft.clone();
            draft.links[link].sum = sum;
            drafts.push(draft);
        }
    }
    drafts
}

/// Changes a byte to any other.
pub fn wrong_byte(byte: &mut u8, rng: &mut Rng) {
    *byte = byte.wrapping_add(rng.within(1..=255) as u8);
}

fn yard_mark(draft: &mut Draft, rng: &mut Rng) {
    wrong_byte(&mut draft.mark[rng.below(2)], rng);
}

/// The mark of another kind of yard record, so that the survey is measured by that kind.
fn other_mark(draft: &mut Draft, rng: &mut Rng) {
    let mut marks = YARD_RECORDS.map(|record| record.mark).to_vec();
    marks.retain(|&mark| mark != draft.mark);
    draft.mark = rng.pick(&marks);
}

fn unknown_mark(draft: &mut Draft, _: &mut Rng) {
    draft.mark = UNKNOWN_MARK;
}

fn stations(draft: &mut Draft, rng: &mut Rng) {
    draft.stations = rng.pick(&[0, 1, 2, 24, 25, 26, 128, 255]);
}

fn ceilings(draft: &mut Draft, rng: &mut Rng) {
    draft.ceilings = rng.pick(&[0, 1, 2, 3, 4, 255]);
}

fn any_ranks(draft: &mut Draft, rng: &mut Rng) {
    let past_tree = draft.stations;
    draft.ranks = [(); MAX_CEILINGS].map(|()| rng.pick(&[0, 1, 2, 3, 4, past_tree, 255]));
}

/// At least two of the ranks are above 1.
fn ranks_above_1(draft: &mut Draft, rng: &mut Rng) {
    let (room, spared) = (draft.room, rng.below(2 * draft.room));
    for (i, rank) in draft.ranks[..room].iter_mut().enumerate() {
        if room < 3 || i != spared {
            *rank = rng.pick(&[2, 2, 3]);
        }
    }
}

/// The last rank that there is room for, which can be that of an absent ceiling.
fn other_rank(draft: &mut Draft, rng: &mut Rng) {
    draft.ranks[draft.room - 1] = rng.pick(&[0, 1, 2, 255]);
}

fn link_mark(draft: &mut Draft, rng: &mut Rng) {
    let byte = rng.below(2);
    if let Some(link) = any_link(draft, rng) {
        wrong_byte(&mut link.mark[byte], rng);
    }
}

/// The other mark that links can have.
fn other_link_mark(mark: [u8; 2]) -> [u8; 2] {
    if mark == TWO_COSTS.mark {
        THREE_COSTS.mark
    } else {
        TWO_COSTS.mark
    }
}

fn link_mark_of_other_size(draft: &mut Draft, rng: &mut Rng) {
    if let Some(link) = any_link(draft, rng) {
        link.mark = other_link_mark(link.mark);
    }
}

/// Each link has the other mark, the length of the records is as it was or of the other size too.
fn link_marks_of_other_size(draft: &mut Draft, rng: &mut Rng) {
    for link in &mut draft.links {
        link.mark = other_link_mark(link.mark);
    }
    if rng.once_in(2) {
        draft.room = TWO_AND_THREE - draft.room;
    }
}

fn end_out_of_range(draft: &mut Draft, rng: &mut Rng) {
    let station = rng.pick(&[draft.stations, draft.stations.wrapping_add(1), 24, 255]);
    let end = rng.below(2);
    if let Some(link) = any_link(draft, rng) {
        link.ends[end] = station;
    }
}

fn equal_ends(draft: &mut Draft, rng: &mut Rng) {
    if let Some(link) = any_link(draft, rng) {
        link.ends[1] = link.ends[0];
    }
}

fn sum(draft: &mut Draft, rng: &mut Rng) {
    let sum = rng.pick(&LIMITS_AND_OUTSIDE);
    if let Some(link) = any_link(draft, rng) {
        link.sum = sum;
    }
}

fn cost_of_any_ceiling(draft: &mut Draft, rng: &mut Rng) {
    let (ceiling, cost) = (rng.below(draft.room), rng.pick(&COSTS_NOT_0));
    if let Some(link) = any_link(draft, rng) {
        link.costs[ceiling] = cost;
    }
}

fn too_many_links(draft: &mut Draft, rng: &mut Rng) {
    let count = rng.pick(&[40, 41, 42, 255, 256, 300]);
    if let Some(&link) = draft.links.first() {
        draft.links.resize(count, link);
    }
    if rng.once_in(2) {
        draft.write_count();
    }
}

fn link_dropped(draft: &mut Draft, rng: &mut Rng) {
    let count = draft.links.len();
    if count > 0 {
        draft.links.remove(rng.below(count));
    }
}

fn link_added(draft: &mut Draft, rng: &mut Rng) {
    if let Some(&mut link) = any_link(draft, rng) {
        draft.links.push(link);
    }
}

fn wrong_count(draft: &mut Draft, rng: &mut Rng) {
    if let Some(count) = &mut draft.count {
        let [before, after] = [count.wrapping_sub(1), count.wrapping_add(1)];
        let any = rng.bits() as u8;
        *count = rng.pick(&[before, after, 0, 255, any]);
    }
}

fn other_bit_of_rest(draft: &mut Draft, rng: &mut Rng) {
    let (byte, bit) = (rng.below(REST_BYTES), rng.below(8));
    if let Some(rest) = &mut draft.rest {
        rest[byte] ^= 1 << bit;
    }
}

fn rest_past_stations(draft: &mut Draft, rng: &mut Rng) {
    let [first, last] = [draft.stations, MAX_STATIONS as u8 - 1];
    if let (Some(rest), true) = (&mut draft.rest, first <= last) {
        let any = rng.within(first.into()..=last.into()) as u8;
        set_bit(rest, rng.pick(&[first, last, any]));
    }
}

fn all_at_rest(draft: &mut Draft, _: &mut Rng) {
    let stations = draft.stations.min(MAX_STATIONS as u8);
    if let Some(rest) = &mut draft.rest {
        (0..stations).for_each(|station| set_bit(rest, station));
    }
}

fn any_rest(draft: &mut Draft, rng: &mut Rng) {
    let bytes = [(); REST_BYTES].map(|()| rng.bits() as u8);
    draft.rest = draft.rest.map(|_| bytes);
}

fn any_link<'a>(draft: &'a mut Draft, rng: &mut Rng) -> Option<&'a mut LinkDraft> {
    let count = draft.links.len();
    draft.links.get_mut(rng.below(count.max(1)))
}

fn truncate(bytes: &mut Vec<u8>, rng: &mut Rng) {
    bytes.truncate(rng.below(bytes.len() + 1));
}

fn lengthen(bytes: &mut Vec<u8>, rng: &mut Rng) {
    let count = rng.within(1..=24) as usize;
    bytes.extend(rng.bytes(count));
}

/// Turns one to three bits.
pub fn flip_bits(bytes: &mut [u8], rng: &mut Rng) {
    for _ in 0..rng.within(1..=3) {
        let at = rng.below(bytes.len());
        bytes[at] ^= 1 << rng.below(8);
    }
}

/// Puts random bytes in place of all.
pub fn randomize(bytes: &mut Vec<u8>, rng: &mut Rng) {
    *bytes = rng.bytes(bytes.len());
}

fn clear(bytes: &mut Vec<u8>, _: &mut Rng) {
    bytes.clear();
}
