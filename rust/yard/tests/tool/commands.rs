//! Every command, on the examples and on wrong words.

use crate::tool::{example_yards, misused, repository, run, run_bytes, scratch, text_a};

/// The answer of a command on survey A.
fn on_a(command: &str, rest: &[&str]) -> Result<String, (u8, String)> {
    run(&[&[command, "-"], rest].concat(), text_a())
}

fn refused(message: &str) -> Result<String, (u8, String)> {
    Err((1, message.to_string()))
}

#[test]
fn plans_of_survey_a() {
    let table = "\
plan  sum  ceiling 1  links
   0    4          9  1: 1–2, 2: 0–2
   1    7          7  0: 0–1, 1: 1–2
2 plans, 3 positions solved
";
    assert_eq!(on_a("plans", &[]), Ok(table.to_string()));
    assert_eq!(
        run(&["plans", &repository("examples/survey-a.survey")], ""),
        Ok(table.to_string())
    );
}

#[test]
fn plans_of_small_yards() {
    let one = "plan  sum  links\n   0    0  none\n1 plan, 1 position solved\n";
    assert_eq!(run(&["plans", "-"], "stations 1"), Ok(one.to_string()));
    let none = "0 plans, 0 positions solved\n";
    assert_eq!(
        run(&["plans", "-"], "stations 2 ceilings 1"),
        Ok(none.to_string())
    );
}

#[test]
fn best_and_judge_on_survey_a() {
    let head = "sum  ceiling 1  links\n";
    assert_eq!(
        on_a("best", &["8"]),
        Ok(format!("{head}  7          7  0: 0–1, 1: 1–2\n"))
    );
    assert_eq!(
        on_a("judge", &["0", "2"]),
        Ok(format!("{head}  5          9  0: 0–1, 2: 0–2\n"))
    );
    let none = refused("standard input: no tree fits the ceilings (number 14, place 0)");
    assert_eq!(on_a("best", &["6"]), none);
    assert_eq!(on_a("best", &["-32768"]), none);
    let no_tree = refused(
        "standard input: the drawn links are no tree of the yard: they must be one fewer than the \
         working stations, rising, in the survey, at no resting station, and without a ring \
         (number 11, place 0)",
    );
    assert_eq!(on_a("judge", &["2", "0"]), no_tree);
    assert_eq!(on_a("judge", &[]), no_tree);
}

#[test]
fn a_list_is_stored_and_its_plans_fetched() {
    let list = run_bytes(&["list", "-"], text_a()).expect("survey A lists");
    assert_eq!(list.len(), 34);
    let file = scratch("fetched.list", &list);
    assert_eq!(run(&["fetch", &file, "0"], ""), Ok("1 2\n".to_string()));
    assert_eq!(run(&["fetch", &file, "1"], ""), Ok("0 1\n".to_string()));
    let none = format!("{file}: the list has no such plan (number 13, place 0)");
    assert_eq!(run(&["fetch", &file, "2"], ""), refused(&none));
    let short = scratch("short.list", &list[..33]);
    let damaged = format!("{short}: the plan list is damaged (number 12, place 0)");
    assert_eq!(run(&["fetch", &short, "0"], ""), refused(&damaged));
}

#[test]
fn surveys_and_texts_keep_everything() {
    for name in example_yards() {
        let text = run(&["text", &name], "").expect("the example is accepted");
        assert_eq!(run(&["text", "-"], &text), Ok(text.clone()), "{name}");
        let head = text.lines().next().unwrap_or_default();
        let has_three = head.split_whitespace().count() == 6;
        let records = match (has_three, text.contains("\nresting ")) {
            (true, _) => &["triple"][..],
            (false, true) => &["resting"],
            (false, false) => &["plain", "counted", "resting"],
        };
        for record in records {
            let survey = |file| {
                let written = run_bytes(&["survey", file, "--record", record], &text);
                written.expect("the example is accepted")
            };
            assert_eq!(survey(&name), survey("-"), "{name}");
        }
        if name.ends_with(".survey") {
            let survey = run_bytes(&["survey", &name], "");
            assert_eq!(std::fs::read(&name).ok(), survey.ok(), "{name}");
        }
    }
}

#[test]
fn every_command_answers_on_every_example() {
    for name in example_yards() {
        let plans = run(&["plans", &name], "").expect("an example lists");
        let list = run_bytes(&["list", &name], "").expect("an example lists");
        let list = scratch("example.list", list);
        let index = run_bytes(&["index", &list], "").expect("a list has an index");
        let index = scratch("example.index", index);
        assert!(run(&["draw", &name], "").is_ok(), "{name}");
        let first = run(&["fetch", &list, "0"], "");
        assert_eq!(first.is_ok(), !plans.starts_with("0 plans"), "{name}");
        let cheapest = run(&["cheapest", &list, &index, "32767"], "");
        assert_eq!(cheapest.is_ok(), first.is_ok(), "{name}");
        let Ok(first) = first else { continue };
        let links: Vec<&str> = first.split_whitespace().collect();
        assert!(
            run(&[&["judge", &name], &links[..]].concat(), "").is_ok(),
            "{name}"
        );
        assert!(run(&["draw", &name, "--plan", "0"], "").is_ok(), "{name}");
        let heading = plans.lines().next().unwrap_or_default();
        let bounds = vec!["32767"; heading.matches("ceiling").count()];
        assert!(
            run(&[&["best", &name], &bounds[..]].concat(), "").is_ok(),
            "{name}"
        );
        assert_eq!(
            run(&["frontier", &name], "").is_ok(),
            !bounds.is_empty(),
            "{name}"
        );
    }
}

#[test]
fn yards_without_a_frontier() {
    let no_ceiling =
        "standard input: the yard has no ceiling: it has one plan at most, and there is no \
                      frontier to draw";
    assert_eq!(run(&["frontier", "-"], "stations 1"), refused(no_ceiling));
    let no_tree = "standard input: no tree connects the working stations: there is no plan to draw";
    assert_eq!(
        run(&["frontier", "-"], "stations 2 ceilings 1"),
        refused(no_tree)
    );
    let no_plan = "standard input: the list has no such plan (number 13, place 0)";
    assert_eq!(on_a("draw", &["--plan", "2"]), refused(no_plan));
}

#[test]
fn files_that_are_not_what_a_command_needs() {
    for command in [
        "plans", "best", "judge", "text", "survey", "list", "draw", "frontier",
    ] {
        for (name, what) in [("needs.list", "a plan list"), ("needs.index", "an index")] {
            let needs = format!("{name}: a yard is needed here, and this name is that of {what}");
            assert_eq!(run(&[command, name], ""), refused(&needs));
        }
        let missing = run(&[command, "no/such.txt"], "").expect_err("there is no such file");
        assert_eq!(
            (missing.0, missing.1.starts_with("no/such.txt: ")),
            (1, true)
        );
        let bad = repository("examples/refused.survey");
        let answer = run(&[command, &bad], "").expect_err("the survey is refused");
        let words =
            "link 1 joins a station that the yard does not have, or joins a station to itself";
        assert_eq!(answer, (1, format!("{bad}: {words} (number 7, place 2)")));
    }
    let no_list = "x.txt: the name of a plan list ends in .list";
    assert_eq!(run(&["fetch", "x.txt", "0"], ""), refused(no_list));
    let long = vec![b'#'; (1 << 20) + 1];
    assert_eq!(
        run(&["plans", "-"], long),
        refused("standard input: the file is too long")
    );
}

#[test]
fn wrong_words() {
    assert_eq!(run(&[], ""), misused("a command is needed"));
    assert_eq!(run(&["plan", "-"], ""), misused("`plan` is no command"));
    for (command, takes) in [
        ("plans", "YARD"),
        ("text", "YARD"),
        ("survey", "YARD [--record plain|counted|resting|triple]"),
        ("list", "YARD"),
        ("frontier", "YARD"),
    ] {
        let takes = misused(&format!(
            "the command is `yard {command} {takes} [-o FILE]`"
        ));
        assert_eq!(run(&[command], ""), takes);
        assert_eq!(run(&[command, "-", "-"], ""), takes);
        assert_eq!(run(&[command, "-", "--plan", "1"], ""), takes);
    }
    assert_eq!(
        run(&["best"], ""),
        misused("the command is `yard best YARD BOUND... [-o FILE]`")
    );
    assert_eq!(
        run(&["judge"], ""),
        misused("the command is `yard judge YARD LINK... [-o FILE]`")
    );
    let fetch = misused("the command is `yard fetch FILE.list PLAN [-o FILE]`");
    assert_eq!(run(&["fetch", "a.list"], ""), fetch);
    assert_eq!(run(&["fetch", "a.list", "0", "1"], ""), fetch);
    let draw = misused("the command is `yard draw YARD [--plan PLAN] [-o FILE]`");
    assert_eq!(run(&["draw", "-", "1"], ""), draw);
}

#[test]
fn options_of_other_commands() {
    for words in [
        &["plans", "-"][..],
        &["best", "-", "8"],
        &["judge", "-", "0", "2"],
        &["text", "-"],
        &["list", "-"],
        &["fetch", "a.list", "0"],
        &["index", "a.list"],
        &["cheapest", "a.list", "a.index", "8"],
        &["draw", "-", "--plan", "0"],
        &["frontier", "-"],
    ] {
        for option in [&["--record", "plain"][..], &["--all"]] {
            let answer = run(&[words, option].concat(), text_a());
            let (status, message) = answer.expect_err("the option is of another command");
            let command = format!("the command is `yard {} ", words[0]);
            assert_eq!((status, message.starts_with(&command)), (2, true));
        }
    }
    let survey = run(&["survey", "-", "--all"], text_a());
    let takes = "YARD [--record plain|counted|resting|triple] [-o FILE]";
    let takes = format!("the command is `yard survey {takes}`");
    assert_eq!(survey, misused(&takes));
}

#[test]
fn wrong_yard_records() {
    for record in ["", "x", "Plain", "59 45"] {
        let words = format!("`{record}` is no yard record, plain, counted, resting or triple");
        assert_eq!(on_a("survey", &["--record", record]), misused(&words));
    }
    assert_eq!(
        on_a("survey", &["--record"]),
        misused("`--record` needs a word after it")
    );
}

#[test]
fn wrong_numbers_and_options() {
    assert_eq!(
        on_a("best", &[]),
        misused("standard input: the yard has 1 ceiling: found 0 bounds")
    );
    assert_eq!(
        on_a("best", &["1", "2"]),
        misused("standard input: the yard has 1 ceiling: found 2 bounds")
    );
    let bound = misused("`32768` is no bound, a number from -32768 to 32767");
    assert_eq!(on_a("best", &["32768"]), bound);
    assert_eq!(on_a("judge", &["0", "x"]), misused("`x` is no link number"));
    assert_eq!(on_a("judge", &["256"]), misused("`256` is no link number"));
    assert_eq!(
        run(&["fetch", "a.list", "-1"], ""),
        misused("`-1` is no plan number")
    );
    assert_eq!(
        on_a("draw", &["--plan", "x"]),
        misused("`x` is no plan number")
    );
    assert_eq!(
        on_a("draw", &["--plan"]),
        misused("`--plan` needs a word after it")
    );
    assert_eq!(
        on_a("plans", &["-o"]),
        misused("`-o` needs a word after it")
    );
    assert_eq!(on_a("plans", &["-x"]), misused("`-x` is no option"));
    assert_eq!(on_a("plans", &["--new"]), misused("`--new` is no option"));
}

#[test]
fn help_names_every_command() {
    let help = run(&["help"], "").expect("help is there");
    assert_eq!(run(&["--help"], ""), Ok(help.clone()));
    for command in [
        "plans", "best", "judge", "text", "survey", "list", "fetch", "index", "cheapest", "draw",
        "frontier", "small", "help",
    ] {
        assert!(help.contains(&format!("  yard {command}")), "{command}");
    }
}
