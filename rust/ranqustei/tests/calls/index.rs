//! What building an index and looking up in it decline, and in which order.

use crate::samples::{largest, list_of, told, yard, yard_a};
use ranqustei::{index, index_lookup, PlanIndex, PlanList, Yard};

/// Three plans, their numbers by rising first ceiling cost, and the bytes of that index.
fn three() -> (Vec<u8>, [u8; 6]) {
    let list = list_of(2, 2, &[(1, [9, 0]), (2, [7, 0]), (3, [8, 0])]);
    (list, [1, 0, 2, 0, 0, 0])
}

/// What building declines a list with; it leaves every byte that it was lent.
fn declined(list: &[u8], room: usize) -> Option<(u8, u8)> {
    let mut buffer = vec![0xA5; room];
    let refusal = index(list, &mut buffer).err()?;
    assert_eq!(buffer, vec![0xA5; room]);
    Some(told(refusal))
}

/// What building and a lookup decline a list with, whatever the room.
fn check_damaged(list: &[u8]) {
    for room in [0, 5, 6, 3_200] {
        assert_eq!(declined(list, room), Some((12, 0)));
        let answer = index_lookup(list, &vec![0; room], 0).map_err(told);
        assert_eq!(answer, Err((12, 0)));
    }
}

#[test]
fn damaged_lists() {
    let (list, _) = three();
    for length in 0..list.len() {
        check_damaged(&list[..length]);
    }
    // Both marks of the head, and both of each plan.
    for at in [0, 1, 10, 11, 22, 23, 34, 35] {
        let mut damaged = list.clone();
        damaged[at] ^= 0x20;
        check_damaged(&damaged);
    }
    for (at, byte) in [(8, 24), (9, 3), (9, 4), (2, 4)] {
        let mut damaged = list.clone();
        damaged[at] = byte;
        check_damaged(&damaged);
    }
}

#[test]
fn limits_of_a_list() {
    for (t, p) in [(0, 0), (23, 2)] {
        let longest = list_of(t, p, &[(0, [0, 0]); 1_600]);
        assert_eq!(declined(&longest, 3_200), None);
        assert_eq!(declined(&longest, 3_199), Some((16, 0)));
        check_damaged(&list_of(t, p, &[(0, [0, 0]); 1_601]));
    }
    let longest = list_of(23, 3, &[(0, [0, 0, 0]); 1_600]);
    assert_eq!(longest.len(), 56_010);
    assert_eq!(declined(&longest, 3_200), None);
    assert_eq!(declined(&longest, 3_199), Some((16, 0)));
    check_damaged(&longest[..56_009]);
    check_damaged(&list_of(23, 3, &[(0, [0, 0, 0]); 1_601]));
    check_damaged(&list_of(24, 1, &[(0, [0, 0])]));
    for p in [4, u8::MAX] {
        check_damaged(&list_of(2, p, &[(0, [0, 0])]));
        check_damaged(&list_of(2, p, &[(0, [0, 0, 0])]));
    }
}

#[test]
fn nothing_else_is_looked_at() {
    let (mut list, built) = three();
    // The solved count, a link, and bytes after the list.
    list[4..8].fill(0xFF);
    list[20] = 0xFF;
    list.extend([0xFF; 9]);
    let mut buffer = [0; 6];
    assert_eq!(index(&list, &mut buffer), Ok(()));
    assert_eq!(buffer, built);
    assert_eq!(index_lookup(&list, &built, 8), Ok(1));
}

#[test]
fn every_room() {
    let (list, built) = three();
    for room in 0..6 {
        assert_eq!(declined(&list, room), Some((16, 0)));
        // A short index is not compared, and no plan is looked for.
        for index in [&built[..room], &[0xFF; 6][..room]] {
            let answer = index_lookup(&list, index, i16::MIN).map_err(told);
            assert_eq!(answer, Err((16, 0)));
        }
    }
    for room in 6..20 {
        let mut buffer = vec![0xA5; room];
        assert_eq!(index(&list, &mut buffer), Ok(()));
        assert_eq!(buffer[..6], built);
        assert!(buffer[6..].iter().all(|&byte| byte == 0xA5));
        assert_eq!(index_lookup(&list, &buffer, 8), Ok(1));
    }
}

#[test]
fn any_other_index_is_declined() {
    let (list, built) = three();
    for at in 0..6 {
        for byte in 0..=u8::MAX {
            let mut other = built;
            other[at] = byte;
            for value in [i16::MIN, 8] {
                let right = if value == 8 { Ok(1) } else { Err((13, 0)) };
                let answer = index_lookup(&list, &other, value).map_err(told);
                let is_right = other == built;
                assert_eq!(answer, if is_right { right } else { Err((12, 0)) });
            }
        }
    }
}

#[test]
fn every_three_numbers() {
    let (list, built) = three();
    let numbers = [0, 1, 2, 3, 256, u16::MAX];
    let count = numbers.len();
    for round in 0..count.pow(3) {
        let places = [round, round / count, round / count.pow(2)];
        let bytes = places.map(|place| numbers[place % count].to_le_bytes());
        let bytes = bytes.concat();
        let answer = index_lookup(&list, &bytes, i16::MAX).map_err(told);
        let is_right = bytes == built;
        assert_eq!(answer, if is_right { Ok(0) } else { Err((12, 0)) });
    }
}

#[test]
fn empty_lists() {
    for p in 0..4 {
        let list = list_of::<2>(2, p, &[]);
        assert_eq!((declined(&list, 0), declined(&list, 5)), (None, None));
        let mut buffer = [0xA5; 5];
        assert_eq!(index(&list, &mut buffer), Ok(()));
        assert_eq!(buffer, [0xA5; 5]);
        for index in [&[][..], &buffer] {
            let answer = index_lookup(&list, index, i16::MAX).map_err(told);
            assert_eq!(answer, Err((13, 0)));
        }
    }
}

fn plans_of(yard: &Yard) -> PlanList {
    let survey = yard.survey().expect("the yard is accepted");
    survey.plans().expect("an accepted survey lists")
}

#[test]
fn stored_indexes() {
    for yard in [yard_a(1), largest(), yard(1, &[], &[]), yard(2, &[1], &[])] {
        let plans = plans_of(&yard);
        let index = plans.index().expect("a list has an index");
        assert_eq!(index.as_bytes().len(), 2 * plans.len() as usize);
        assert_eq!(index.iter().count(), plans.len() as usize);
        let stored = |bytes: &[u8]| PlanIndex::from_bytes(&plans, bytes.to_vec());
        assert_eq!(stored(index.as_bytes()), Ok(index.clone()));
        let longer = [index.as_bytes(), &[1, 2, 3]].concat();
        assert_eq!(stored(&longer), Ok(index.clone()));
        if let [shorter @ .., last] = index.as_bytes() {
            assert_eq!(stored(shorter).map_err(told), Err((16, 0)));
            let other = [shorter, &[last ^ 1]].concat();
            assert_eq!(stored(&other).map_err(told), Err((12, 0)));
        }
    }
}

#[test]
fn cheapest_on_figures() {
    let plans = plans_of(&yard_a(1));
    let index = plans.index().expect("survey A's list has an index");
    let cheapest = |value| {
        let found = index.cheapest(value);
        found.map(|(number, plan)| (number, plan.to_string()))
    };
    assert_eq!(cheapest(9), Ok((0, "4 9 links 1 2".to_string())));
    assert_eq!(cheapest(8), Ok((1, "7 7 links 0 1".to_string())));
    assert_eq!(cheapest(6).map_err(told), Err((13, 0)));
    let empty = plans_of(&yard(2, &[1], &[]));
    let none = empty.index().and_then(|index| index.cheapest(i16::MAX));
    assert_eq!(none.map_err(told), Err((13, 0)));
}
