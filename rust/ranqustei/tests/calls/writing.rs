//! Writing a survey from its figures: its bytes, and what is declined in which order.

use crate::samples::{bytes_of, figures_a, told, yards, RECORDS};
use ranqustei::{write_survey, Figures, Survey, YardRecord};

const PLAIN: u32 = 0x5944;
const COUNTED: u32 = 0x5945;
/// The kinds of yard record that are written.
pub const KINDS: [u32; 2] = [PLAIN, COUNTED];
/// The kind that is only read.
pub const RESTING: u32 = 0x5946;

/// The survey of figures, accepted or not, with all stations at work; every link has two ends and
/// two costs.
pub fn encoded(kind: u32, figures: &Figures) -> Vec<u8> {
    let [k1, k2] = figures.ranks;
    let mut bytes = (kind as u16).to_be_bytes().to_vec();
    bytes.extend([figures.stations, figures.ceilings, k1, k2]);
    if kind != PLAIN {
        bytes.push(figures.sums.len() as u8);
    }
    if kind == RESTING {
        bytes.extend([0; 3]);
    }
    let (ends, costs) = (figures.ends.chunks(2), figures.costs.chunks(2));
    for ((ends, sum), costs) in ends.zip(figures.sums).zip(costs) {
        bytes.extend(b"LK");
        bytes.extend(ends);
        bytes.extend(sum.to_le_bytes());
        bytes.extend(costs.iter().flat_map(|cost| cost.to_le_bytes()));
    }
    bytes
}

/// What a room of bytes holds after writing into it; or the refusal, which leaves every byte.
pub fn written(kind: u32, figures: &Figures, room: usize) -> Result<Vec<u8>, (u8, u8)> {
    let mut survey = vec![0xA5; room];
    let reply = write_survey(kind, figures, &mut survey);
    assert!(reply.is_ok() || survey == vec![0xA5; room]);
    reply.map(|()| survey).map_err(told)
}

/// What figures are declined with, whatever the kind and the room.
fn declined(figures: &Figures) -> Option<(u8, u8)> {
    let rooms = [0, 41, 42, 43, 487, 1_000];
    let refusals = KINDS.map(|kind| rooms.map(|room| written(kind, figures, room).err()));
    assert_eq!(refusals, [[refusals[0][0]; 6]; 2]);
    refusals[0][0]
}

#[test]
fn survey_a() {
    let links = b"\
        LK\x00\x01\x04\x00\x00\x00\x07\x00\x00\x00\
        LK\x01\x02\x03\x00\x00\x00\x02\x00\x00\x00\
        LK\x00\x02\x01\x00\x00\x00\x09\x00\x00\x00";
    let plain = [b"YD\x03\x01\x01\x00", &links[..]].concat();
    let counted = [b"YE\x03\x01\x01\x00\x03", &links[..]].concat();
    assert_eq!(written(PLAIN, &figures_a(), 42), Ok(plain));
    assert_eq!(written(COUNTED, &figures_a(), 43), Ok(counted));
    assert_eq!(RECORDS.map(YardRecord::kind), [PLAIN, COUNTED, RESTING]);
}

#[test]
fn every_room() {
    for kind in KINDS {
        let survey = encoded(kind, &figures_a());
        for room in 0..survey.len() {
            assert_eq!(written(kind, &figures_a(), room), Err((17, 0)));
        }
        for room in survey.len()..survey.len() + 20 {
            let mut whole = survey.clone();
            whole.resize(room, 0xA5);
            assert_eq!(written(kind, &figures_a(), room), Ok(whole));
        }
    }
}

#[test]
fn unknown_kinds() {
    let bad = Figures {
        stations: 0,
        ..figures_a()
    };
    let wide = KINDS.map(|kind| [kind << 16, kind | 1 << 16, kind | 1 << 31]);
    let kinds = (0..1 << 16).chain(wide.concat()).chain([u32::MAX]);
    for kind in kinds.filter(|kind| !KINDS.contains(kind)) {
        for (figures, room) in [(figures_a(), 50), (figures_a(), 0), (bad, 50)] {
            assert_eq!(written(kind, &figures, room), Err((2, 0)), "{kind:X}");
        }
    }
}

/// Figures with a fault for every number, and what they are declined with as one fault after the
/// other is mended.
#[test]
fn the_order_of_numbers() {
    let mut figures = Figures {
        stations: 25,
        ceilings: 3,
        ranks: [3, 3],
        ends: &[0, 0, 0, 3, 0, 2],
        sums: &[2_000_000; 41],
        costs: &[7, 0, 2, 0, 9, 1],
    };
    assert_eq!(written(RESTING, &figures, 0), Err((2, 0)));
    assert_eq!(declined(&figures), Some((3, 0)));
    figures.stations = 3;
    assert_eq!(declined(&figures), Some((4, 0)));
    figures.sums = &[2_000_000; 3];
    assert_eq!(declined(&figures), Some((5, 0)));
    figures.ceilings = 1;
    assert_eq!(declined(&figures), Some((6, 0)));
    figures.ranks = [1, 0];
    assert_eq!(declined(&figures), Some((7, 1)));
    figures.ends = &[0, 1, 0, 3, 0, 2];
    assert_eq!(declined(&figures), Some((8, 1)));
    figures.sums = &[4, 2_000_000, 1];
    assert_eq!(declined(&figures), Some((7, 2)));
    figures.ends = &[0, 1, 1, 2, 0, 2];
    assert_eq!(declined(&figures), Some((8, 2)));
    figures.sums = &[4, 3, 1];
    assert_eq!(declined(&figures), Some((8, 3)));
    figures.costs = &[7, 0, 2, 0, 9, 0];
    assert_eq!(written(COUNTED, &figures, 42), Err((17, 0)));
    assert_eq!(
        written(COUNTED, &figures, 43),
        Ok(encoded(COUNTED, &figures))
    );
}

#[test]
fn yards_that_are_declined() {
    let a = figures_a();
    for stations in [0, 25, u8::MAX] {
        assert_eq!(declined(&Figures { stations, ..a }), Some((3, 0)));
    }
    for ceilings in [3, u8::MAX] {
        assert_eq!(declined(&Figures { ceilings, ..a }), Some((5, 0)));
    }
    // No rank, one above the links of a tree, and one of a ceiling that is absent.
    for ranks in [[0, 0], [3, 0], [u8::MAX, 0], [1, 1], [1, u8::MAX]] {
        assert_eq!(declined(&Figures { ranks, ..a }), Some((6, 0)));
    }
    for ranks in [[2, 3], [3, 2], [3, 3], [1, 0]] {
        let two = Figures {
            stations: 4,
            ceilings: 2,
            ranks,
            ..a
        };
        assert_eq!(declined(&two), Some((6, 0)));
    }
}

#[test]
fn links_that_are_declined() {
    let a = figures_a();
    for (place, link) in (1..).zip(0..3) {
        for bad in [[0, 0], [0, 3], [3, 0], [1, u8::MAX], [u8::MAX; 2]] {
            let mut ends = a.ends.to_vec();
            ends[2 * link..][..2].copy_from_slice(&bad);
            let figures = Figures { ends: &ends, ..a };
            assert_eq!(declined(&figures), Some((7, place)));
        }
        for bad in [-1_000_001, 1_000_001, i32::MIN, i32::MAX] {
            let mut sums = a.sums.to_vec();
            sums[link] = bad;
            let figures = Figures { sums: &sums, ..a };
            assert_eq!(declined(&figures), Some((8, place)));
        }
        for bad in [-1, 1, 256, i16::MIN] {
            let mut costs = a.costs.to_vec();
            costs[2 * link + 1] = bad;
            let figures = Figures { costs: &costs, ..a };
            assert_eq!(declined(&figures), Some((8, place)));
        }
    }
    let without_ceilings = Figures {
        ceilings: 0,
        ranks: [0, 0],
        ..a
    };
    assert_eq!(declined(&without_ceilings), Some((8, 1)));
}

#[test]
fn numbers_of_links() {
    let pair = Figures {
        stations: 2,
        ceilings: 0,
        ranks: [0, 0],
        ends: &[0, 1].repeat(100_000),
        sums: &[],
        costs: &[],
    };
    for links in 0..=40 {
        let sums = vec![-1_000_000; links];
        let figures = Figures {
            sums: &sums,
            costs: &[0; 80],
            ..pair
        };
        for kind in KINDS {
            let survey = encoded(kind, &figures);
            assert_eq!(written(kind, &figures, survey.len()), Ok(survey));
        }
    }
    for links in [41, 255, 256, 296, 65_536, 100_000] {
        let sums = vec![1; links];
        let figures = Figures {
            sums: &sums,
            ..pair
        };
        assert_eq!(declined(&figures), Some((4, 0)));
    }
}

#[test]
fn ends_of_other_lengths() {
    let a = figures_a();
    for length in 0..6 {
        let short = Figures {
            ends: &a.ends[..length],
            ..a
        };
        let place = length as u8 / 2 + 1;
        assert_eq!(declined(&short), Some((7, place)));
    }
    let longer = Figures {
        ends: &[0, 1, 1, 2, 0, 2, 9, 9, 9],
        ..a
    };
    assert_eq!(written(PLAIN, &longer, 42), Ok(encoded(PLAIN, &a)));
}

/// The figures of survey A with so many ceilings; for absent ones the costs are 0.
fn with_ceilings(ceilings: u8) -> Figures<'static> {
    let (ranks, costs) = match ceilings {
        0 => ([0, 0], &[0; 6]),
        1 => ([1, 0], &[7, 0, 2, 0, 9, 0]),
        _ => ([1, 1], &[7, 1, 2, 6, 9, 3]),
    };
    Figures {
        ceilings,
        ranks,
        costs,
        ..figures_a()
    }
}

/// The place of the first link that lacks the cost of a present ceiling, by the number of ceilings
/// and that of the costs.
const LACKING: [[Option<u8>; 7]; 3] = [
    [None; 7],
    [Some(1), Some(2), Some(2), Some(3), Some(3), None, None],
    [Some(1), Some(1), Some(2), Some(2), Some(3), Some(3), None],
];

#[test]
fn costs_of_other_lengths() {
    for (ceilings, places) in (0..).zip(LACKING) {
        let whole = with_ceilings(ceilings);
        for (length, place) in places.into_iter().enumerate() {
            let costs = &whole.costs[..length];
            let short = Figures { costs, ..whole };
            if place.is_some() {
                assert_eq!(declined(&short), place.map(|place| (8, place)));
                continue;
            }
            for kind in KINDS {
                let survey = encoded(kind, &whole);
                assert_eq!(written(kind, &short, survey.len()), Ok(survey));
                assert_eq!(written(kind, &short, 41), Err((17, 0)));
            }
        }
        let costs = [whole.costs, &[5; 3]].concat();
        let longer = Figures {
            costs: &costs,
            ..whole
        };
        assert_eq!(written(PLAIN, &longer, 42), Ok(encoded(PLAIN, &whole)));
    }
}

/// A cost that is missing at link 1, beside faults of that link, of the one before and of the one
/// after.
#[test]
fn a_missing_cost_beside_other_faults() {
    let short = Figures {
        costs: &[7, 0],
        ..figures_a()
    };
    for (ends, sums, refusal) in [
        ([0, 1, 1, 1, 0, 2], [4, 3, 1], (7, 2)),
        ([0, 0, 1, 2, 0, 2], [4, 3, 1], (7, 1)),
        ([0, 1, 1, 2, 0, 2], [2_000_000, 3, 1], (8, 1)),
        ([0, 1, 1, 2, 2, 2], [4, 3, 2_000_000], (8, 2)),
        ([0, 1, 1, 2, 0, 2], [4, 2_000_000, 1], (8, 2)),
    ] {
        let figures = Figures {
            ends: &ends,
            sums: &sums,
            ..short
        };
        assert_eq!(declined(&figures), Some(refusal));
    }
    let bad_rank = Figures {
        ranks: [3, 0],
        ..short
    };
    assert_eq!(declined(&bad_rank), Some((6, 0)));
    assert_eq!(written(RESTING, &short, 42), Err((2, 0)));
}

#[test]
fn surveys_that_were_read_keep_their_bytes() {
    for yard in yards() {
        for record in RECORDS {
            let bytes = bytes_of(&yard, record);
            let survey = Survey::new(bytes.clone()).expect("it was accepted");
            assert_eq!(survey.yard(), &yard);
            let again = survey.yard().survey_with(survey.record());
            assert_eq!(again.as_ref(), Ok(&survey));
            assert_eq!(bytes_of(survey.yard(), record), bytes);
        }
    }
}
