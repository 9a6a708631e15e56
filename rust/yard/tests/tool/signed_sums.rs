//! Sums below 0 in tables and pictures.

use crate::tool::run;

/// A yard of two stations with a link for each sum and ceiling cost.
fn parallel(links: &[[i32; 2]]) -> String {
    let links = links
        .iter()
        .map(|[sum, cost]| format!("0 1 {sum} {cost}\n"));
    format!("stations 2 ceilings 1\n{}", links.collect::<String>())
}

#[test]
fn figures_stand_to_the_right() {
    let yard = parallel(&[[-12_345, 9], [-1, 5], [300, -10]]);
    let table = "\
plan     sum  ceiling 1  links
   0  -12345          9  0: 0–1
   1      -1          5  1: 0–1
   2     300        -10  2: 0–1
3 plans, 3 positions solved
";
    assert_eq!(run(&["plans", "-"], &yard), Ok(table.to_string()));
    let drawn = "   sum  ceiling 1  links\n-12345          9  0: 0–1\n";
    assert_eq!(run(&["judge", "-", "0"], &yard), Ok(drawn.to_string()));
    assert_eq!(run(&["best", "-", "9"], &yard), Ok(drawn.to_string()));
}

#[test]
fn titles_group_digits() {
    let yard = "stations 2 ceilings 1 1\n0 1 -1000000 -32768 32767\n";
    let plan = run(&["draw", "-", "--plan", "0"], yard).expect("the yard is drawn");
    assert!(plan.contains(">Plan 0: sum −1,000,000, ceiling costs −32,768 and 32,767</text>"));
}

fn frontier(links: &[[i32; 2]]) -> String {
    let picture = run(&["frontier", "-"], parallel(links)).expect("the plans are drawn");
    assert_eq!(picture.matches("class=\"dot\"").count(), links.len());
    picture
}

/// The paths of the lines at 0: they are drawn as the axes are, and have no corner.
fn zero_lines(picture: &str) -> Vec<&str> {
    let paths = picture.lines().filter_map(|line| {
        let path = line.strip_prefix("<path class=\"axis\" d=\"")?;
        path.strip_suffix("\"/>")
    });
    paths
        .filter(|path| path.matches('L').count() == 1)
        .collect()
}

/// The ticks of the sums.
fn sum_ticks(picture: &str) -> Vec<&str> {
    let ticks = picture.lines().filter_map(|line| {
        let text = line.strip_prefix("<text class=\"sum-tick\" ")?;
        text.split(['<', '>']).nth(1)
    });
    ticks.collect()
}

#[test]
fn a_line_at_0_where_sums_are_on_both_sides() {
    let picture = frontier(&[[-400, 9], [-100, 5], [300, 1]]);
    assert_eq!(sum_ticks(&picture), ["−400", "−200", "0", "200", "400"]);
    assert_eq!(zero_lines(&picture), ["M104 298 L504 298"]);
    // Two below the line and one above it.
    for place in [
        "cx=\"446.4\" cy=\"466\"",
        "cx=\"304\" cy=\"340\"",
        "cx=\"161.6\" cy=\"172\"",
    ] {
        assert!(picture.contains(place), "{place}");
    }
}

#[test]
fn a_line_at_0_where_ceiling_costs_are_on_both_sides() {
    let picture = frontier(&[[300, 5], [400, -5]]);
    assert_eq!(zero_lines(&picture), ["M304 108 L304 488"]);
    let both = frontier(&[[-400, 5], [400, -5]]);
    assert_eq!(
        zero_lines(&both),
        ["M304 108 L304 488", "M104 298 L504 298"]
    );
}

#[test]
fn no_line_at_0_where_all_sums_are_on_one_side() {
    let below = frontier(&[[-700, 9], [-420, 5]]);
    assert_eq!(
        sum_ticks(&below),
        ["−700", "−650", "−600", "−550", "−500", "−450", "−400"]
    );
    assert!(zero_lines(&below).is_empty());
    let one = frontier(&[[-5, -5]]);
    assert_eq!(sum_ticks(&one), ["−5", "−4"]);
    assert!(zero_lines(&one).is_empty());
    let up_to_0 = frontier(&[[-5, 3], [0, 1]]);
    assert_eq!(sum_ticks(&up_to_0), ["−5", "−4", "−3", "−2", "−1", "0"]);
    assert!(zero_lines(&up_to_0).is_empty());
}

#[test]
fn the_widest_range_of_sums() {
    let chain = |sum: i32, cost: i32| -> String {
        let link = |end| format!("{end} {} {sum} {cost}\n", end + 1);
        (0..20).map(link).collect()
    };
    let yard = format!(
        "stations 21 ceilings 1\n{}{}",
        chain(-1_000_000, 9),
        chain(1_000_000, 1)
    );
    let picture = run(&["frontier", "-"], yard).expect("the plans are drawn");
    let ticks = [
        "−20,000,000",
        "−10,000,000",
        "0",
        "10,000,000",
        "20,000,000",
    ];
    assert_eq!(sum_ticks(&picture), ticks);
    assert_eq!(zero_lines(&picture), ["M104 298 L504 298"]);
}
