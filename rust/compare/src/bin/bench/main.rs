//! Times the proved planner against the independent one, and prints Markdown tables.

mod index;
mod small;
mod timing;
mod triple;
mod writing;

use compare::kinds::{hard, large};
use compare::list_bytes::{plan_count, solved_count, used_bytes};
use compare::rng::Rng;
use compare::values::{Signs, Values};
use compare::yards::{Layout, Recipe};
use peer::plan_list;
use peer::positions::Positions;
use peer::records::{COUNTED, MAX_CEILINGS};
use peer::survey::{Link, Yard, MAX_LINKS};
use std::hint::black_box;
use timing::{fastest, print_ratios, RUNS};

/// The rank of each ceiling; 0 where it is absent.
type Ranks = [u8; MAX_CEILINGS];

/// Yards of a row.
const YARDS: u64 = 6;
/// Ceilings questions of a run.
const QUESTIONS: usize = 64;
const STATIONS: [u8; 7] = [6, 8, 10, 12, 16, 20, 24];
const RANKS: [Ranks; 5] = [[1, 1, 0], [2, 1, 0], [3, 1, 0], [1, 3, 0], [2, 2, 0]];
/// The ranks of yards with one ceiling.
const SINGLE_RANKS: [Ranks; 3] = [[1, 0, 0], [2, 0, 0], [3, 0, 0]];
const HARD_LINKS: i64 = MAX_LINKS as i64;
const SETS: [(&str, Values); 2] = [("hard", Values::Different), ("opposed", Values::Opposed)];
/// The stations of the yards with signed sums or a link count.
const VARIANT_STATIONS: [u8; 1] = [16];
/// The stations of the yards of which some rest.
const RESTING_STATIONS: [u8; 2] = [16, 24];
/// One station in so many rests there.
const ONE_IN: u8 = 4;

fn main() {
    println!(
        "Times are in microseconds: the fastest of {RUNS} runs on a yard, archive and peer by"
    );
    println!("turns; a row is the mean over its yards. The ratio is archive / peer. A list buffer");
    println!("is of exactly its need and is not cleared between calls.");
    println!("Sets: large, any connected yard; hard, {HARD_LINKS} links and no value twice;");
    println!("opposed, {HARD_LINKS} links, the lower the sum the higher the ceiling costs.");
    println!("Their sums are not below 0; signed is hard with sums on both sides of 0.");
    println!(
        "Their yard record has no link count; counted is hard with one. In resting, which is hard"
    );
    println!("with a link count and rest bytes, one station in {ONE_IN} rests.");
    println!(
        "With three ceilings hard and opposed have at most as many values of each as is said."
    );
    compare_planners();
    let yards = || hard(HARD_LINKS, Values::Different);
    let [signed, counted, resting] = [
        yards().with_signs(Signs::Mixed),
        yards().with_record(COUNTED),
        yards().with_rest(ONE_IN),
    ];
    compare_variant("Signed sums", "signed", &signed, &VARIANT_STATIONS);
    compare_variant("Link counts", "counted", &counted, &VARIANT_STATIONS);
    compare_variant("Stations at rest", "resting", &resting, &RESTING_STATIONS);
    triple::print_table();
    growth();
    compare_indexes();
    writing::print_table();
    small::print_table();
}

/// The tables of the list call and the ceilings question.
fn compare_planners() {
    let mut rows = vec![Row::new("large | 2–24 | any".into(), &large_yards())];
    for (set, values) in SETS {
        for stations in STATIONS {
            for ranks in RANKS {
                let surveys = yards_of(&hard(HARD_LINKS, values), stations, ranks);
                rows.push(Row::new(label(set, stations, ranks), &surveys));
            }
        }
    }
    println!("\n## The list call\n");
    println!("| set | n | k | solved | archive | peer | ratio |\n|---|---|---|---|---|---|---|");
    for row in &rows {
        let [archive, peer] = row.list;
        let (label, solved, ratio) = (&row.label, row.solved, archive / peer);
        println!("| {label} | {solved:.0} | {archive:.1} | {peer:.1} | {ratio:.2} |");
    }
    print_ratios("a list call", &ratios(&rows, |row| row.list));
    println!("\n## The ceilings question\n");
    println!("| set | n | k | archive | peer | ratio |\n|---|---|---|---|---|---|");
    for row in &rows {
        let [archive, peer] = row.best;
        let (label, ratio) = (&row.label, archive / peer);
        println!("| {label} | {archive:.2} | {peer:.2} | {ratio:.2} |");
    }
    print_ratios("a question", &ratios(&rows, |row| row.best));
}

/// The ratios of rows in one of their calls.
fn ratios(rows: &[Row], call: fn(&Row) -> [f64; 2]) -> Vec<f64> {
    let times = rows.iter().map(call);
    times.map(|[archive, peer]| archive / peer).collect()
}

/// The table of both calls on a variant of the hard set.
fn compare_variant(title: &str, set: &str, recipe: &Recipe, stations: &[u8]) {
    print_both_heading(title);
    let rows = stations
        .iter()
        .flat_map(|&stations| RANKS.map(|ranks| (stations, ranks)));
    for (stations, ranks) in rows {
        let surveys = yards_of(recipe, stations, ranks);
        print_both(&Row::new(label(set, stations, ranks), &surveys));
    }
}

/// The heading of a table of both calls.
fn print_both_heading(title: &str) {
    println!("\n## {title}: the list call, then the ceilings question\n");
    println!("| set | n | k | solved | archive | peer | ratio | archive | peer | ratio |");
    println!("|---|---|---|---|---|---|---|---|---|---|");
}

/// A row of a table of both calls.
fn print_both(row: &Row) {
    let (label, solved) = (&row.label, row.solved);
    let ([list, peer_list], [best, peer_best]) = (row.list, row.best);
    let [list_ratio, best_ratio] = [list / peer_list, best / peer_best];
    println!(
        "| {label} | {solved:.0} | {list:.1} | {peer_list:.1} | {list_ratio:.2} \
         | {best:.2} | {peer_best:.2} | {best_ratio:.2} |"
    );
}

/// The table of the list call's time for a solved position, by links and by stations.
fn growth() {
    println!("\n## Growth of the list call, hard set: microseconds for a solved position\n");
    println!("| links | n | k | solved | archive | peer |\n|---|---|---|---|---|---|");
    let by_links = [10, 20, 30, 40].map(|links| (links, 10));
    let by_stations = STATIONS.map(|stations| (HARD_LINKS, stations));
    for ranks in RANKS {
        for (links, stations) in by_links.into_iter().chain(by_stations) {
            let surveys = yards_of(&hard(links, Values::Different), stations, ranks);
            let row = Row::new(label(&links.to_string(), stations, ranks), &surveys);
            let [archive, peer] = row.list.map(|time| time / row.solved);
            let (label, solved) = (&row.label, row.solved);
            println!("| {label} | {solved:.0} | {archive:.3} | {peer:.3} |");
        }
    }
}

/// The table of the index, on the longest lists of both sets and on hand-made ones.
fn compare_indexes() {
    let mut lists = Vec::new();
    for (set, values) in SETS {
        for (ceilings, ranks) in [(1, &SINGLE_RANKS[..]), (2, &RANKS)] {
            let name = format!("{set}, p = {ceilings}");
            lists.push((name, longest_list(&hard(HARD_LINKS, values), ranks)));
        }
        let recipe = triple::recipe(values, triple::MANY);
        let name = format!("{set}, p = 3");
        lists.push((name, longest_list(&recipe, &triple::RANKS)));
    }
    lists.extend(index::hand_made_lists());
    index::print_table(&lists);
}

/// The longest list of yards with some ranks.
fn longest_list(recipe: &Recipe, ranks: &[Ranks]) -> Vec<u8> {
    let mut lists = Vec::new();
    for stations in STATIONS {
        for &ranks in ranks {
            let surveys = yards_of(recipe, stations, ranks);
            lists.extend(surveys.iter().map(|survey| list_of(survey)));
        }
    }
    let longest = lists.into_iter().max_by_key(|list| plan_count(list));
    longest.expect("a set has yards")
}

/// The list of a yard, without bytes after its last plan.
fn list_of(survey: &[u8]) -> Vec<u8> {
    let yard = Yard::read(survey).expect("generated yards are legal");
    let mut list = vec![0; list_need(&yard)];
    peer::list(survey, u32::MAX, &mut list).expect("buffer and allowance are enough");
    list.truncate(used_bytes(&list));
    list
}

fn list_need(yard: &Yard) -> usize {
    plan_list::need(yard, Positions::of(yard).count())
}

fn label(set: &str, stations: u8, ranks: Ranks) -> String {
    let present = ranks.iter().filter(|&&rank| rank > 0);
    let ranks: Vec<String> = present.map(u8::to_string).collect();
    format!("{set} | {stations} | {}", ranks.join(", "))
}

fn large_yards() -> Vec<Vec<u8>> {
    let recipe = large(Layout::Connected, Values::Free);
    let survey = |seed| recipe.draft(&mut Rng::new(seed)).bytes();
    (0..YARDS * 10).map(survey).collect()
}

fn yards_of(recipe: &Recipe, stations: u8, ranks: Ranks) -> Vec<Vec<u8>> {
    let draft = |seed| recipe.draft_with(stations, ranks, &mut Rng::new(seed));
    (0..YARDS).map(|seed| draft(seed).bytes()).collect()
}

/// A set of yards and its mean figures.
struct Row {
    label: String,
    solved: f64,
    list: [f64; 2],
    best: [f64; 2],
}

impl Row {
    fn new(label: String, surveys: &[Vec<u8>]) -> Row {
        let mut row = Row {
            label,
            solved: 0.0,
            list: [0.0; 2],
            best: [0.0; 2],
        };
        let share = 1.0 / surveys.len() as f64;
        for survey in surveys {
            let yard = Yard::read(survey).expect("generated yards are legal");
            let (solved, list) = time_list(survey, &yard);
            let best = time_best(survey, &yard);
            row.solved += share * solved;
            for planner in 0..2 {
                row.list[planner] += share * list[planner];
                row.best[planner] += share * best[planner];
            }
        }
        row
    }
}

/// The solved count, and the time of a list call.
fn time_list(survey: &[u8], yard: &Yard) -> (f64, [f64; 2]) {
    let mut buffer = vec![0; list_need(yard)];
    let times = fastest(|planner| {
        let _ = black_box(planner.list(black_box(survey), u32::MAX, &mut buffer));
    });
    (f64::from(solved_count(&buffer)), times)
}

/// The time of a ceilings question, the mean over positions of the yard's walk.
fn time_best(survey: &[u8], yard: &Yard) -> [f64; 2] {
    let mut rng = Rng::new(1);
    let links: Vec<Link> = yard.usable_links().copied().collect();
    let mut bound = |ceiling: usize| match links[..] {
        [] => 0,
        _ => rng.pick(&links).costs[ceiling],
    };
    let questions = (0..QUESTIONS).map(|_| std::array::from_fn(&mut bound));
    let questions: Vec<[i16; MAX_CEILINGS]> = questions.collect();
    let mut tree = [0; MAX_LINKS];
    let times = fastest(|planner| {
        for &bounds in &questions {
            let _ = black_box(planner.best(black_box(survey), bounds, &mut tree));
        }
    });
    times.map(|time| time / QUESTIONS as f64)
}
