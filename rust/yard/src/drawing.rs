//! The picture of a yard: stations on a circle, hollow at rest, links between them, one plan in
//! colour.

use crate::figures::{counted, grouped, joined};
use crate::labels::{Area, Taken};
use crate::layout::{link_curves, station_places, CENTRE, STATION};
use crate::svg::{along, at, Curve, Point, Svg};
use ranqustei::{Plan, Yard};

const WIDTH: f64 = 720.0;
const HEIGHT: f64 = 740.0;
/// The height of a link number.
const LABEL_SIZE: f64 = 13.0;
/// Where along a link its number may stand, best first.
const LABEL_PLACES: [f64; 13] = [
    0.5, 0.45, 0.55, 0.4, 0.6, 0.35, 0.65, 0.3, 0.7, 0.25, 0.75, 0.2, 0.8,
];
/// How many points of a link are held against the number of another.
const SAMPLES: usize = 60;

const STYLE: &str = "\
text { text-anchor: middle; }
.title { font-size: 20px; font-weight: bold; fill: #222; }
.note { font-size: 14px; fill: #666; }
.link { fill: none; stroke: #b8b8b8; stroke-width: 1.4; }
.planned { fill: none; stroke: #e09a1a; stroke-width: 5; stroke-linecap: round; }
.blank { fill: #fff; }
.number { font-size: 13px; fill: #777; }
.planned-number { font-size: 13px; font-weight: bold; fill: #8a5200; }
.station { fill: #26455f; }
.name { font-size: 15px; font-weight: bold; fill: #fff; }
";

/// The rules for stations at rest and the links that end at them.
const RESTING_STYLE: &str = "\
.unusable { fill: none; stroke: #c4c4c4; stroke-width: 1; stroke-dasharray: 3 4; }
.unusable-number { font-size: 13px; fill: #b4b4b4; }
.resting { fill: #fff; stroke: #9aa5ae; stroke-width: 1.6; }
.resting-name { font-size: 15px; font-weight: bold; fill: #9aa5ae; }
";
/// What hollow circles and dashed lines mean.
const RESTING_NOTE: &str = "hollow: at rest; dashed: links that end at a station at rest";

/// How a link is drawn.
#[derive(Clone, Copy, PartialEq, Eq)]
enum Look {
    Unusable,
    Usable,
    Planned,
}

impl Look {
    /// Every look, from the one drawn first to the one drawn over all others.
    const ALL: [Look; 3] = [Look::Unusable, Look::Usable, Look::Planned];

    /// The classes of the link and of its number.
    fn classes(self) -> [&'static str; 2] {
        match self {
            Look::Unusable => ["unusable", "unusable-number"],
            Look::Usable => ["link", "number"],
            Look::Planned => ["planned", "planned-number"],
        }
    }
}

/// Draws a yard, and a plan of it with its number in the list.
pub fn draw(yard: &Yard, plan: Option<(u32, &Plan)>) -> String {
    let all_work = yard.resting.is_empty();
    let more_style = if all_work { "" } else { RESTING_STYLE };
    let mut svg = Svg::new(WIDTH, HEIGHT, &[STYLE, more_style].concat());
    svg.text("title", at(CENTRE.x, 40.0), &title(plan));
    svg.text("note", at(CENTRE.x, 64.0), &note(yard, plan));
    if !all_work {
        svg.text("note", at(CENTRE.x, 84.0), RESTING_NOTE);
    }
    let places = station_places(yard.stations);
    let curves = link_curves(yard, &places);
    let looks = looks(yard, plan.map_or(&[][..], |(_, plan)| &plan.links));
    draw_links(&mut svg, &curves, &looks);
    draw_numbers(&mut svg, &number_areas(&places, &curves), &looks);
    draw_stations(&mut svg, yard, &places);
    svg.finish()
}

/// How each link is drawn.
fn looks(yard: &Yard, planned: &[u8]) -> Vec<Look> {
    let numbered = (0..).zip(&yard.links);
    let look = |(number, link)| match (planned.contains(&number), yard.is_usable(link)) {
        (true, _) => Look::Planned,
        (false, true) => Look::Usable,
        (false, false) => Look::Unusable,
    };
    numbered.map(look).collect()
}

fn draw_links(svg: &mut Svg, curves: &[Curve], looks: &[Look]) {
    for drawn in Look::ALL {
        let [class, _] = drawn.classes();
        for (&curve, &look) in curves.iter().zip(looks) {
            if look == drawn {
                svg.curve(class, curve);
            }
        }
    }
}

fn draw_numbers(svg: &mut Svg, areas: &[Area], looks: &[Look]) {
    for (link, (area, look)) in areas.iter().zip(looks).enumerate() {
        let [_, class] = look.classes();
        svg.rect("blank", area);
        svg.text(class, area.centre.moved(0.0, 4.5), &link.to_string());
    }
}

fn draw_stations(svg: &mut Svg, yard: &Yard, places: &[Point]) {
    for (number, &place) in (0..).zip(places) {
        let [circle, name] = match yard.works(number) {
            true => ["station", "name"],
            false => ["resting", "resting-name"],
        };
        svg.circle(circle, place, STATION);
        svg.text(name, place.moved(0.0, 5.5), &number.to_string());
    }
}

fn title(plan: Option<(u32, &Plan)>) -> String {
    let Some((number, plan)) = plan else {
        return "The yard".to_string();
    };
    let sum = grouped(plan.costs.sum.into());
    let costs: Vec<String> = plan
        .ceiling_costs()
        .into_iter()
        .map(|cost| grouped(cost.into()))
        .collect();
    match costs.as_slice() {
        [] => format!("Plan {number}: sum {sum}"),
        [cost] => format!("Plan {number}: sum {sum}, ceiling cost {cost}"),
        _ => format!("Plan {number}: sum {sum}, ceiling costs {}", joined(&costs)),
    }
}

fn note(yard: &Yard, plan: Option<(u32, &Plan)>) -> String {
    let mut stations = counted(usize::from(yard.stations), "station");
    if !yard.resting.is_empty() {
        stations += &format!(", {} at rest", yard.resting.len());
    }
    let links = counted(yard.links.len(), "link");
    match plan {
        Some((_, plan)) => format!("{stations}; {} of {links}", plan.links.len()),
        None => format!("{stations}, {links}"),
    }
}

/// Where the number of each link stands: on the link, clear of all else if there is such a place.
fn number_areas(stations: &[Point], curves: &[Curve]) -> Vec<Area> {
    let mut taken = Taken::default();
    for &station in stations {
        taken.take(Area::of_circle(station, STATION));
    }
    let mut areas = Vec::new();
    for (link, &curve) in curves.iter().enumerate() {
        let label = link.to_string();
        let area = |part| Area::of_label(along(curve, part), &label, LABEL_SIZE);
        let clutter = |&part: &f64| {
            let area = area(part);
            let others = curves
                .iter()
                .enumerate()
                .filter(|&(other, _)| other != link);
            let crossed: usize = others.map(|(_, &other)| points_within(other, &area)).sum();
            taken.overlap(&area) * 10.0 + crossed as f64
        };
        let least = LABEL_PLACES
            .into_iter()
            .min_by(|a, b| clutter(a).total_cmp(&clutter(b)));
        let chosen = area(least.unwrap_or(0.5));
        taken.take(chosen);
        areas.push(chosen);
    }
    areas
}

/// How many points of a curve lie in an area or close to it.
fn points_within(curve: Curve, area: &Area) -> usize {
    let points = (0..=SAMPLES).map(|sample| along(curve, sample as f64 / SAMPLES as f64));
    points.filter(|&point| area.holds(point, 2.0)).count()
}
