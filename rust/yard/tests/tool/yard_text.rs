//! The text of a yard, and what is said of wrong lines.

use crate::tool::{run, scratch};

/// The message for a wrong text.
fn message(text: impl AsRef<[u8]>) -> String {
    match run(&["plans", "-"], text) {
        Err((1, message)) => message,
        other => panic!("the text should be refused, with status 1: {other:?}"),
    }
}

/// Holds the message for a wrong text against its line and words.
fn check(text: &str, line: usize, words: &str) {
    assert_eq!(message(text), format!("standard input:{line}: {words}"));
}

#[test]
fn heads() {
    check("", 1, "the text has no line `stations N ceilings K1 K2 K3`");
    check(
        "# nothing\n\n",
        1,
        "the text has no line `stations N ceilings K1 K2 K3`",
    );
    for head in [
        "0 1 4",
        "stations",
        "stations 3 1",
        "Stations 3",
        "stations 3 ceiling 1",
        "ceilings 1",
    ] {
        let words = format!("the first line is `stations N ceilings K1 K2 K3`: found `{head}`");
        check(&format!("\n# a yard\n  {head}  # so\n"), 3, &words);
    }
    check(
        "stations x",
        1,
        "the number of stations is a number from 1 to 24: found `x`",
    );
    check(
        "stations 256",
        1,
        "the number of stations is a number from 1 to 24: found `256`",
    );
    check(
        "stations 3 ceilings -1",
        1,
        "a rank is a number from 1 to 3: found `-1`",
    );
    check(
        "stations 3 ceilings 1 1 1 1",
        1,
        "a yard has at most 3 ceilings: found 4 ranks",
    );
}

#[test]
fn links() {
    let head = "stations 3 ceilings 1\n0 1 4 7\n";
    let need = "a link needs two stations, a sum and 1 ceiling cost";
    check(
        &format!("{head}\n1 2 3\n"),
        4,
        &format!("{need}: found 3 numbers"),
    );
    check(&format!("{head}1\n"), 3, &format!("{need}: found 1 number"));
    check(
        &format!("{head}1 2 3 4 5\n"),
        3,
        &format!("{need}: found 5 numbers"),
    );
    check(
        "stations 3\n0 1 2 3\n",
        2,
        "a link needs two stations and a sum: found 4 numbers",
    );
    let two = "a link needs two stations, a sum and 2 ceiling costs: found 4 numbers";
    check("stations 3 ceilings 1 1\n0 1 2 3\n", 2, two);
    check(
        &format!("{head}a 2 3 4"),
        3,
        "a station is a number from 0 to 23: found `a`",
    );
    check(
        &format!("{head}1 256 3 4"),
        3,
        "a station is a number from 0 to 23: found `256`",
    );
    for sum in ["x", "2147483648", "-2147483649"] {
        let words = format!("a sum is a number from -1000000 to 1000000: found `{sum}`");
        check(&format!("{head}1 2 {sum} 4"), 3, &words);
    }
    let cost = "a ceiling cost is a number from -32768 to 32767: found `32768`";
    check(&format!("{head}1 2 3 32768"), 3, cost);
}

#[test]
fn refusals_name_the_line_of_the_record() {
    let ends = "joins a station that the yard does not have, or joins a station to itself";
    let text = "# a yard\nstations 3\n0 1 4\n\n# a link\n0 3 4\n";
    check(text, 6, &format!("link 1 {ends} (number 7, place 2)"));
    check(
        "stations 3\n1 1 4\n",
        2,
        &format!("link 0 {ends} (number 7, place 1)"),
    );
    let figures = "has a sum outside -1,000,000 to 1,000,000, a cost for a ceiling that the yard \
                   does not have, or, in figures to be written, none for one that it has";
    for sum in ["1000001", "-1000001", "2147483647", "-2147483648"] {
        check(
            &format!("stations 3\n0 1 {sum}\n"),
            2,
            &format!("link 0 {figures} (number 8, place 1)"),
        );
    }
    check(
        "\nstations 25\n",
        2,
        "a yard has 1 to 24 stations (number 3, place 0)",
    );
    let many = format!("stations 2\n{}", "0 1 1\n".repeat(41));
    check(&many, 1, "a yard has at most 40 links (number 4, place 0)");
    for head in ["stations 3 ceilings 3", "stations 4 ceilings 2 3"] {
        assert!(message(head).starts_with("standard input:1: a rank is 1 to 3 and"));
    }
}

#[test]
fn messages_name_the_file() {
    let file = scratch("wrong.txt", "stations 3\n0 1\n");
    let words = "a link needs two stations and a sum: found 2 numbers";
    assert_eq!(
        run(&["draw", &file], ""),
        Err((1, format!("{file}:2: {words}")))
    );
    assert_eq!(
        message(b"stations 2\n0 1 \xff\n"),
        "standard input:2: the line is no UTF-8 text"
    );
}

#[test]
fn forms_of_the_same_yard() {
    let plain = run(&["text", "-"], "stations 2\n0 1 5\n");
    assert_eq!(plain, Ok("stations 2\n0 1 5  # link 0\n".to_string()));
    for text in [
        "stations 2 ceilings\n0 1 5",
        "# a\r\nstations\t2\r\n\r\n  0 1 5 # b\r\n",
        "stations 02\n0 1 +5#",
    ] {
        assert_eq!(run(&["text", "-"], text), plain);
    }
    for sum in ["1000000", "-1000000", "-1"] {
        let full = format!("stations 3 ceilings 2 1\n0 1 {sum} -32768 32767  # link 0\n");
        assert_eq!(run(&["text", "-"], &full), Ok(full));
    }
}
