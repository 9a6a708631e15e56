//! The pictures: those of the documents, and yards at the limits.

use crate::tool::{repository, run, text_a};

/// Holds a picture of the documents against what the tool draws.
fn check(words: &[&str], yard: &str, picture: &str) {
    let file = repository(yard);
    let drawn =
        run(&[&words[..1], &[file.as_str()], &words[1..]].concat(), "").expect("the yard is drawn");
    let kept = std::fs::read_to_string(repository(picture)).expect("the picture is there");
    let make = format!(
        "yard {} {yard} {} -o {picture}",
        words[0],
        words[1..].join(" ")
    );
    assert!(
        drawn == kept,
        "the picture is not what the tool draws: `{make}` makes it anew"
    );
}

#[test]
fn pictures_of_the_documents() {
    let yards = ["orchard", "orchard-winter", "solar", "valley"];
    let [orchard, winter, solar, valley] = yards.map(|yard| format!("examples/yards/{yard}.txt"));
    let plan = |number| ["draw", "--plan", number];
    check(&plan("5"), &orchard, "docs/pictures/orchard-plan.svg");
    check(&plan("1"), &winter, "docs/pictures/orchard-winter-plan.svg");
    check(
        &["frontier"],
        &orchard,
        "docs/pictures/orchard-frontier.svg",
    );
    check(&["frontier"], &solar, "docs/pictures/solar-frontier.svg");
    check(&["frontier"], &valley, "docs/pictures/valley-frontier.svg");
}

/// Draws a yard both ways; the pictures have numbers alone as coordinates.
fn draw(text: &str) -> [String; 2] {
    let pictures =
        [&["draw", "-", "--plan", "0"][..], &["frontier", "-"]].map(|words| run(words, text));
    let pictures = pictures.map(|picture| picture.expect("the yard is drawn"));
    for picture in &pictures {
        assert!(picture.starts_with("<svg ") && picture.ends_with("</svg>\n"));
        assert!(!picture.contains("NaN") && !picture.contains("inf"));
    }
    pictures
}

#[test]
fn survey_a() {
    let [plan, frontier] = draw(&text_a());
    assert!(plan.contains(">Plan 0: sum 4, ceiling cost 9</text>"));
    assert!(plan.contains(">3 stations; 2 of 3 links</text>"));
    assert_eq!(plan.matches("class=\"planned\"").count(), 2);
    assert_eq!(plan.matches("class=\"link\"").count(), 1);
    assert_eq!(frontier.matches("class=\"dot\"").count(), 2);
    assert!(frontier.contains(">ceiling cost 1: the largest over the links</text>"));
    let bare = run(&["draw", "-"], text_a()).expect("the yard is drawn");
    assert!(bare.contains(">The yard</text>") && bare.contains(">3 stations, 3 links</text>"));
    assert!(!bare.contains("class=\"planned\""));
}

#[test]
fn stations_at_rest() {
    let text = "stations 4 ceilings 1\nresting 1 3\n0 1 4 7\n0 2 1 9\n1 3 3 2\n2 0 1 8\n";
    let [plan, frontier] = draw(text);
    assert!(plan.contains(">4 stations, 2 at rest; 1 of 4 links</text>"));
    assert!(plan.contains(">hollow: at rest; dashed: links that end at a station at rest</text>"));
    for (class, count) in [
        ("station", 2),
        ("resting", 2),
        ("planned", 1),
        ("link", 1),
        ("unusable", 2),
        ("unusable-number", 2),
    ] {
        let class = format!("class=\"{class}\"");
        assert_eq!(plan.matches(&class).count(), count, "{class}");
    }
    assert_eq!(frontier.matches("class=\"dot\"").count(), 1);
    let working = run(&["draw", "-"], text_a()).expect("the yard is drawn");
    assert!(!working.contains("rest") && !working.contains("unusable"));
}

#[test]
fn parallel_links_are_separate_curves() {
    let text = format!(
        "stations 2 ceilings 1\n{}{}",
        "0 1 1 1\n".repeat(20),
        "1 0 1 1\n".repeat(20)
    );
    let [plan, _] = draw(&text);
    let mut curves: Vec<&str> = plan.lines().filter(|line| line.contains(" Q")).collect();
    assert_eq!(curves.len(), 40);
    curves.sort_unstable();
    curves.dedup();
    assert_eq!(curves.len(), 40);
}

#[test]
fn yards_at_the_limits() {
    let [plan, _] = draw("stations 2 ceilings 1 1\n0 1 1000000 -32768 32767\n");
    assert!(plan.contains(">Plan 0: sum 1,000,000, ceiling costs −32,768 and 32,767</text>"));
    let [plan, frontier] = draw("stations 2 ceilings 1 1 1\n0 1 1000000 -32768 32767 0\n");
    assert!(plan.contains(">Plan 0: sum 1,000,000, ceiling costs −32,768, 32,767 and 0</text>"));
    assert_eq!(frontier.matches(">sum</text>").count(), 3);
    assert!(frontier.contains(">ceiling cost 3: the largest over the links</text>"));
    let chain: String = (0..23)
        .map(|end| format!("{end} {} 1000000 {end} 1\n", end + 1))
        .collect();
    let ring: String = (0..17)
        .map(|end| format!("{} {end} 0 -{end} 2\n", end + 2))
        .collect();
    let [plan, frontier] = draw(&format!("stations 24 ceilings 3 1\n{chain}{ring}"));
    assert_eq!(plan.matches("class=\"planned\"").count(), 23);
    assert_eq!(frontier.matches(">sum</text>").count(), 2);
    assert!(frontier.contains(">ceiling cost 1: the 3rd largest over the links</text>"));
    let one = run(&["draw", "-", "--plan", "0"], "stations 1");
    assert!(one.is_ok_and(|picture| picture.contains(">1 station; 0 of 0 links</text>")));
}
