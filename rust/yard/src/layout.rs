//! Where the stations and the links of a yard lie on its picture.

use crate::svg::{Curve, Point};
use ranqustei::Yard;
use std::f64::consts::PI;

/// The middle of the circle of stations.
pub const CENTRE: Point = Point { x: 360.0, y: 412.0 };
/// The radius of the circle of stations.
const RADIUS: f64 = 280.0;
/// The radius of a station.
pub const STATION: f64 = 17.0;
/// How far the middle of a link keeps from the circle of stations that it passes by.
const CLEARANCE: f64 = STATION + 12.0;
/// The distance of links between the same two stations.
const SPACING: f64 = 34.0;

/// The stations clockwise from the top; a single one in the middle, two side by side.
pub fn station_places(stations: u8) -> Vec<Point> {
    let (radius, start) = match stations {
        1 => (0.0, 0.0),
        2 => (RADIUS, -PI),
        _ => (RADIUS, -PI / 2.0),
    };
    let step = 2.0 * PI / f64::from(stations.max(1));
    let angle = |station| start + step * f64::from(station);
    (0..stations)
        .map(|s| CENTRE.moved(radius * angle(s).cos(), radius * angle(s).sin()))
        .collect()
}

/// The curve of each link. Links between the same two stations lie side by side.
pub fn link_curves(yard: &Yard, places: &[Point]) -> Vec<Curve> {
    let place = |station: u8| places.get(usize::from(station)).copied().unwrap_or(CENTRE);
    let pairs: Vec<[u8; 2]> = yard.links.iter().map(|link| rising(link.ends)).collect();
    let curve = |(link, &[a, b]): (usize, &[u8; 2])| {
        let same = |pairs: &[[u8; 2]]| pairs.iter().filter(|&&pair| pair == [a, b]).count();
        let before = same(pairs.get(..link).unwrap_or_default());
        let chord = [place(a), place(b)];
        let middle = if are_neighbours(a, b, yard.stations) {
            middle(chord)
        } else {
            bent_middle(chord)
        };
        curve_through(chord, aside(chord, middle, before, same(&pairs)))
    };
    pairs.iter().enumerate().map(curve).collect()
}

fn rising([a, b]: [u8; 2]) -> [u8; 2] {
    [a.min(b), a.max(b)]
}

/// Whether no station lies between two on the circle.
fn are_neighbours(a: u8, b: u8, stations: u8) -> bool {
    let apart = b.abs_diff(a);
    apart == 1 || apart + 1 == stations
}

fn middle([from, to]: [Point; 2]) -> Point {
    from.towards(to, 0.5)
}

/// The middle of a link, moved inwards where it would touch stations that it passes by.
fn bent_middle(chord: [Point; 2]) -> Point {
    let middle = middle(chord);
    let depth = middle.distance(CENTRE);
    let missing = (CLEARANCE - (RADIUS - depth)).max(0.0);
    middle.towards(CENTRE, missing / depth.max(1.0))
}

/// The middle of one of `count` links between the same two stations.
fn aside([from, to]: [Point; 2], middle: Point, index: usize, count: usize) -> Point {
    let length = from.distance(to).max(1.0);
    let spacing = SPACING.min(0.6 * length / count as f64);
    let shift = spacing * (index as f64 - (count as f64 - 1.0) / 2.0) / length;
    middle.moved((from.y - to.y) * shift, (to.x - from.x) * shift)
}

/// The curve between two points through a middle: it goes half as far as it is pulled.
fn curve_through([from, to]: [Point; 2], through: Point) -> Curve {
    [from, middle([from, to]).towards(through, 2.0), to]
}
