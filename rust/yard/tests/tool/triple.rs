//! Three ceilings: in texts, in surveys, in lists and in answers.

use crate::tool::{repository, run, run_bytes, scratch, text_a};

const YARD: &str = "\
stations 4 ceilings 1 1 2
resting 3
0 1 4 7 1 5  # link 0
1 2 3 2 6 8  # link 1
0 2 1 9 3 4  # link 2
2 3 0 9 9 9  # link 3
";

const HEAD: &str = "sum  ceiling 1  ceiling 2  ceiling 3  links\n";

/// Holds the message for a wrong text against its line and words.
fn check(text: &str, line: usize, words: &str) {
    let message = format!("standard input:{line}: {words}");
    assert_eq!(run(&["plans", "-"], text), Err((1, message)));
}

#[test]
fn texts_and_surveys_keep_everything() {
    assert_eq!(run(&["text", "-"], YARD), Ok(YARD.to_string()));
    let survey = run_bytes(&["survey", "-"], YARD).expect("the yard is accepted");
    assert_eq!(survey[..11], *b"YG\x04\x03\x01\x01\x02\x04\x08\x00\x00");
    assert_eq!(survey.len(), 11 + 4 * 14);
    let file = scratch("triple.survey", &survey);
    assert_eq!(run(&["text", &file], ""), Ok(YARD.to_string()));
    for options in [&[][..], &["--record", "triple"]] {
        let again = run_bytes(&[&["survey", &file], options].concat(), "");
        assert_eq!(again.as_ref(), Ok(&survey));
    }
}

#[test]
fn other_records_have_no_room() {
    for record in ["plain", "counted", "resting"] {
        let answer = run(&["survey", "-", "--record", record], YARD);
        let words = "standard input: the yard record has room for 2 ceilings: found 3";
        assert_eq!(answer, Err((1, words.to_string())));
    }
    let answer = run(&["survey", "-", "--record", "triple"], text_a());
    let words =
        "standard input: a yard has at most 2 ceilings, and with the triple yard record it \
                 has 3 (number 5, place 0)";
    assert_eq!(answer, Err((1, words.to_string())));
}

#[test]
fn plans_questions_and_drawn_trees() {
    let table = "\
plan  sum  ceiling 1  ceiling 2  ceiling 3  links
   0    4          9          6          4  1: 1–2, 2: 0–2
   1    5          9          3          4  0: 0–1, 2: 0–2
   2    7          7          6          5  0: 0–1, 1: 1–2
3 plans, 7 positions solved
";
    assert_eq!(run(&["plans", "-"], YARD), Ok(table.to_string()));
    let best = |bounds: [&str; 3]| run(&[&["best", "-"], &bounds[..]].concat(), YARD);
    let first = format!("{HEAD}  4          9          6          4  1: 1–2, 2: 0–2\n");
    assert_eq!(best(["9", "6", "4"]), Ok(first));
    let third = format!("{HEAD}  7          7          6          5  0: 0–1, 1: 1–2\n");
    assert_eq!(best(["8", "6", "5"]), Ok(third));
    let none = "standard input: no tree fits the ceilings (number 14, place 0)";
    assert_eq!(best(["8", "6", "4"]), Err((1, none.to_string())));
    let drawn = format!("{HEAD}  5          9          3          4  0: 0–1, 2: 0–2\n");
    assert_eq!(run(&["judge", "-", "0", "2"], YARD), Ok(drawn));
    for bounds in [&["9", "6"][..], &["9", "6", "4", "4"]] {
        let (status, message) =
            run(&[&["best", "-"], bounds].concat(), YARD).expect_err("three bounds are needed");
        let words = "standard input: the yard has 3 ceilings: found ";
        assert_eq!((status, message.starts_with(words)), (2, true));
    }
}

#[test]
fn lists_and_indexes() {
    let list = run_bytes(&["list", "-"], YARD).expect("the yard lists");
    assert_eq!(list.len(), 10 + 3 * 14);
    let file = scratch("triple.list", &list);
    for (plan, links) in [("0", "1 2\n"), ("1", "0 2\n"), ("2", "0 1\n")] {
        assert_eq!(run(&["fetch", &file, plan], ""), Ok(links.to_string()));
    }
    let index = run_bytes(&["index", &file], "").expect("a list has an index");
    assert_eq!(index, [2, 0, 0, 0, 1, 0]);
    let index = scratch("triple.index", index);
    let cheapest = run(&["cheapest", &file, &index, "8"], "");
    let plan = format!("plan  {HEAD}   2    7          7          6          5  0, 1\n");
    assert_eq!(cheapest, Ok(plan));
    // Plans of two ceilings in a list of three.
    let mut other = list;
    other[11] = b'L';
    let other = scratch("triple-other.list", other);
    let damaged = format!("{other}: the plan list is damaged (number 12, place 0)");
    assert_eq!(run(&["index", &other], ""), Err((1, damaged)));
}

#[test]
fn wrong_texts() {
    let rank = "a rank is 1 to 3 and not above the links of a tree, what the ranks have above 1 \
                adds up to at most 2, and an absent ceiling has rank 0 (number 6, place 0)";
    for ranks in ["2 2 2", "3 2 1", "1 2 3", "1 0 1", "1 1 4"] {
        check(&format!("stations 9 ceilings {ranks}\n"), 1, rank);
    }
    let need = "a link needs two stations, a sum and 3 ceiling costs: found 5 numbers";
    check("stations 2 ceilings 1 1 1\n0 1 4 7 1\n", 2, need);
    let links = (0..12).map(|cost| format!("0 1 1 {cost} {cost} -{cost}\n"));
    let many = format!(
        "# many values\nstations 2 ceilings 1 1 1\n{}",
        links.collect::<String>()
    );
    let over =
        "the yard has over 1,600 positions: the different costs of usable links by ceiling, \
                multiplied (number 19, place 0)";
    check(&many, 2, over);
}

#[test]
fn a_survey_of_too_many_positions() {
    let file = repository("examples/positions.survey");
    for command in ["plans", "text", "survey", "list", "draw", "frontier"] {
        let (status, message) = run(&[command, &file], "").expect_err("it is refused");
        assert_eq!(
            (status, message.ends_with("(number 19, place 0)")),
            (1, true)
        );
    }
}

#[test]
fn the_valley_as_text_is_the_survey() {
    let text = repository("examples/yards/valley.txt");
    let survey = std::fs::read(repository("examples/valley.survey"));
    assert_eq!(run_bytes(&["survey", &text], "").ok(), survey.ok());
}
