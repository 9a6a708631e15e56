//! Indexes of plan lists: stored, and the cheapest plan looked up.

use crate::tool::{misused, repository, run, run_bytes, scratch, text_a, Answer};

/// The list of a yard, stored under a name of the test's own.
fn stored_list(name: &str, yard: &str) -> String {
    let list = run_bytes(&["list", "-"], yard).expect("the yard lists");
    scratch(&format!("{name}.list"), list)
}

/// The list of a yard and its index, stored.
fn stored(name: &str, yard: &str) -> [String; 2] {
    let list = stored_list(name, yard);
    let index = run_bytes(&["index", &list], "").expect("a list has an index");
    [list, scratch(&format!("{name}.index"), index)]
}

fn cheapest([list, index]: &[String; 2], bound: &str) -> Answer {
    run(&["cheapest", list, index, bound], "")
}

fn refused(file: &str, words: &str) -> Answer {
    Err((1, format!("{file}: {words}")))
}

#[test]
fn survey_a() {
    let files = stored("index-a", &text_a());
    assert_eq!(std::fs::read(&files[1]).ok(), Some(vec![1, 0, 0, 0]));
    let head = "plan  sum  ceiling 1  links\n";
    for bound in ["9", "10", "32767"] {
        let plan = format!("{head}   0    4          9  1, 2\n");
        assert_eq!(cheapest(&files, bound), Ok(plan));
    }
    for bound in ["7", "8"] {
        let plan = format!("{head}   1    7          7  0, 1\n");
        assert_eq!(cheapest(&files, bound), Ok(plan));
    }
    for bound in ["6", "0", "-1", "-32768"] {
        let none = refused(&files[0], "the list has no such plan (number 13, place 0)");
        assert_eq!(cheapest(&files, bound), none);
    }
}

#[test]
fn the_orchard() {
    let yard = std::fs::read_to_string(repository("examples/yards/orchard.txt"));
    let files = stored("index-orchard", &yard.expect("the example is there"));
    let index = std::fs::read(&files[1]).expect("the test wrote it");
    let numbers: Vec<u8> = index.iter().step_by(2).copied().collect();
    assert_eq!(numbers, [3, 2, 5, 8, 1, 4, 6, 7, 0]);
    assert!(index.iter().skip(1).step_by(2).all(|&high| high == 0));
    let plan = "\
plan  sum  ceiling 1  ceiling 2  links
   2  253         77         30  1, 3, 5, 6, 7, 9, 11, 17, 18
";
    assert_eq!(cheapest(&files, "80"), Ok(plan.to_string()));
}

#[test]
fn yards_without_ceilings_or_plans() {
    let one = stored("index-one", "stations 1");
    for bound in ["-32768", "0", "32767"] {
        let plan = "plan  sum  links\n   0    0  none\n";
        assert_eq!(cheapest(&one, bound), Ok(plan.to_string()));
    }
    for (name, yard) in [
        ("index-none", "stations 2"),
        ("index-no-plan", "stations 2 ceilings 1"),
    ] {
        let files = stored(name, yard);
        assert_eq!(std::fs::read(&files[1]).ok(), Some(Vec::new()));
        let none = refused(&files[0], "the list has no such plan (number 13, place 0)");
        assert_eq!(cheapest(&files, "32767"), none);
    }
}

#[test]
fn indexes_that_do_not_go_with_the_list() {
    let list = stored_list("index-wrong", &text_a());
    let with = |name: &str, index: &[u8]| {
        let index = scratch(name, index);
        let answer = cheapest(&[list.clone(), index.clone()], "8");
        (answer, index)
    };
    let (answer, index) = with("index-short.index", &[1, 0, 0]);
    let words = "the index has fewer than 2 bytes for each plan (number 16, place 0)";
    assert_eq!(answer, refused(&index, words));
    let others = [[0, 0, 1, 0], [1, 0, 1, 0], [1, 0, 0, 1], [2, 0, 1, 0]];
    for other in others {
        let (answer, index) = with("index-other.index", &other);
        let words = "the index is not that of the plan list (number 12, place 0)";
        assert_eq!(answer, refused(&index, words));
    }
    let (answer, _) = with("index-longer.index", &[1, 0, 0, 0, 9, 9]);
    assert!(answer.is_ok());
}

#[test]
fn damaged_lists() {
    let list = stored_list("index-damaged", &text_a());
    let mut bytes = std::fs::read(&list).expect("the test wrote it");
    // The mark of plan 1: plan 0 can still be fetched, and the list has no index.
    bytes[22] = 0;
    let list = scratch("index-damaged.list", bytes);
    assert_eq!(run(&["fetch", &list, "0"], ""), Ok("1 2\n".to_string()));
    let damaged = refused(&list, "the plan list is damaged (number 12, place 0)");
    assert_eq!(run(&["index", &list], ""), damaged);
    let index = scratch("index-damaged.index", [1, 0, 0, 0]);
    assert_eq!(cheapest(&[list, index], "8"), damaged);
}

#[test]
fn names_of_files() {
    let [list, index] = stored("index-names", &text_a());
    let no_list = refused(&index, "the name of a plan list ends in .list");
    assert_eq!(run(&["index", &index], ""), no_list);
    assert_eq!(cheapest(&[index.clone(), list.clone()], "8"), no_list);
    let no_index = refused("standard input", "the name of an index ends in .index");
    assert_eq!(cheapest(&[list, "-".to_string()], "8"), no_index);
}

#[test]
fn wrong_words() {
    let index = misused("the command is `yard index FILE.list [-o FILE]`");
    for words in [&["index"][..], &["index", "a.list", "0"]] {
        assert_eq!(run(words, ""), index);
    }
    let cheapest = misused("the command is `yard cheapest FILE.list FILE.index BOUND [-o FILE]`");
    for operands in [&["a.list", "8"][..], &["a.list", "a.index", "8", "8"]] {
        assert_eq!(run(&[&["cheapest"], operands].concat(), ""), cheapest);
    }
    let bound = misused("`32768` is no bound, a number from -32768 to 32767");
    assert_eq!(run(&["cheapest", "a.list", "a.index", "32768"], ""), bound);
}
