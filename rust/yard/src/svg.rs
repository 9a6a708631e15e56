//! The few shapes of SVG that the pictures need.

use crate::labels::Area;
use std::fmt::{self, Write};

/// A place on the picture; y grows downwards.
#[derive(Clone, Copy, PartialEq, Debug)]
pub struct Point {
    /// Pixels from the left.
    pub x: f64,
    /// Pixels from the top.
    pub y: f64,
}

/// A place on the picture.
pub fn at(x: f64, y: f64) -> Point {
    Point { x, y }
}

impl Point {
    /// The point that is `dx` to the right and `dy` below.
    pub fn moved(self, dx: f64, dy: f64) -> Point {
        at(self.x + dx, self.y + dy)
    }

    /// How far another point is.
    pub fn distance(self, other: Point) -> f64 {
        (other.x - self.x).hypot(other.y - self.y)
    }

    /// The point at `part` of the way to another.
    pub fn towards(self, other: Point, part: f64) -> Point {
        self.moved((other.x - self.x) * part, (other.y - self.y) * part)
    }
}

/// A curve: its start, the point that pulls it, its end.
pub type Curve = [Point; 3];

/// The point at `part` of the way along a curve.
pub fn along([from, pull, to]: Curve, part: f64) -> Point {
    from.towards(pull, part)
        .towards(pull.towards(to, part), part)
}

/// Coordinates to a tenth of a pixel, without a zero behind the point.
impl fmt::Display for Point {
    fn fmt(&self, f: &mut fmt::Formatter) -> fmt::Result {
        write!(f, "{} {}", tenth(self.x), tenth(self.y))
    }
}

/// A length rounded to a tenth of a pixel; never minus zero.
fn tenth(length: f64) -> f64 {
    (length * 10.0).round() / 10.0 + 0.0
}

/// A picture under way. Classes name the rules of its style sheet.
pub struct Svg {
    text: String,
}

impl Svg {
    /// An empty white picture.
    pub fn new(width: f64, height: f64, style: &str) -> Svg {
        let mut svg = Svg {
            text: String::new(),
        };
        svg.add(format_args!(
            "<svg xmlns=\"http://www.w3.org/2000/svg\" width=\"{width}\" height=\"{height}\" \
             viewBox=\"0 0 {width} {height}\" font-family=\"Helvetica, Arial, sans-serif\">"
        ));
        svg.add(format_args!("<style>\n{style}</style>"));
        svg.add(format_args!(
            "<rect width=\"{width}\" height=\"{height}\" fill=\"#fff\"/>"
        ));
        svg
    }

    /// A straight line.
    pub fn line(&mut self, class: &str, from: Point, to: Point) {
        self.add(format_args!(
            "<path class=\"{class}\" d=\"M{from} L{to}\"/>"
        ));
    }

    /// A line through several points.
    pub fn polyline(&mut self, class: &str, points: &[Point]) {
        let points: Vec<String> = points.iter().map(Point::to_string).collect();
        self.add(format_args!(
            "<path class=\"{class}\" d=\"M{}\"/>",
            points.join(" L")
        ));
    }

    /// A curve.
    pub fn curve(&mut self, class: &str, [from, pull, to]: Curve) {
        self.add(format_args!(
            "<path class=\"{class}\" d=\"M{from} Q{pull} {to}\"/>"
        ));
    }

    /// A circle.
    pub fn circle(&mut self, class: &str, centre: Point, radius: f64) {
        let (x, y) = (tenth(centre.x), tenth(centre.y));
        self.add(format_args!(
            "<circle class=\"{class}\" cx=\"{x}\" cy=\"{y}\" r=\"{radius}\"/>"
        ));
    }

    /// A rectangle with round corners.
    pub fn rect(&mut self, class: &str, area: &Area) {
        let (x, y) = (
            tenth(area.centre.x - area.width / 2.0),
            tenth(area.centre.y - area.height / 2.0),
        );
        let (width, height) = (tenth(area.width), tenth(area.height));
        self.add(format_args!(
            "<rect class=\"{class}\" x=\"{x}\" y=\"{y}\" width=\"{width}\" height=\"{height}\" rx=\"3\"/>"
        ));
    }

    /// A line of text; its class says how it is anchored.
    pub fn text(&mut self, class: &str, place: Point, text: &str) {
        let (x, y, text) = (tenth(place.x), tenth(place.y), escaped(text));
        self.add(format_args!(
            "<text class=\"{class}\" x=\"{x}\" y=\"{y}\">{text}</text>"
        ));
    }

    /// A line of text that runs upwards.
    pub fn upright_text(&mut self, class: &str, place: Point, text: &str) {
        let text = escaped(text);
        self.add(format_args!(
            "<text class=\"{class}\" transform=\"translate({place}) rotate(-90)\">{text}</text>"
        ));
    }

    /// The whole picture.
    pub fn finish(mut self) -> String {
        self.add(format_args!("</svg>"));
        self.text
    }

    fn add(&mut self, element: fmt::Arguments) {
        // Writing to a string cannot fail.
        let _ = writeln!(self.text, "{element}");
    }
}

fn escaped(text: &str) -> String {
    text.replace('&', "&amp;")
        .replace('<', "&lt;")
        .replace('>', "&gt;")
}
