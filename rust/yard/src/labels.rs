//! Places for labels that keep clear of each other.

use crate::svg::Point;

/// A rectangle on the picture.
#[derive(Clone, Copy, Debug)]
pub struct Area {
    /// The middle.
    pub centre: Point,
    /// The width.
    pub width: f64,
    /// The height.
    pub height: f64,
}

impl Area {
    /// The room that a label in letters of height `size` takes.
    pub fn of_label(centre: Point, text: &str, size: f64) -> Area {
        let letters = text.chars().count() as f64;
        Area {
            centre,
            width: letters * size * 0.62 + 6.0,
            height: size + 3.0,
        }
    }

    /// The square around a circle.
    pub fn of_circle(centre: Point, radius: f64) -> Area {
        Area {
            centre,
            width: 2.0 * radius,
            height: 2.0 * radius,
        }
    }

    /// The rectangle with two opposite corners; at least one pixel wide and high.
    pub fn between(a: Point, b: Point) -> Area {
        let [width, height] = [a.x - b.x, a.y - b.y].map(|length| length.abs().max(1.0));
        Area {
            centre: a.towards(b, 0.5),
            width,
            height,
        }
    }

    /// Whether a point lies in the rectangle or at most `margin` beside it.
    pub fn holds(&self, point: Point, margin: f64) -> bool {
        let reaches = |a: f64, b: f64, length: f64| (a - b).abs() <= length / 2.0 + margin;
        reaches(self.centre.x, point.x, self.width) && reaches(self.centre.y, point.y, self.height)
    }

    /// The area that two rectangles share.
    fn overlap(&self, other: &Area) -> f64 {
        let width = shared(self.centre.x, self.width, other.centre.x, other.width);
        let height = shared(self.centre.y, self.height, other.centre.y, other.height);
        width * height
    }
}

/// The length that two stretches share, given their middles and lengths.
fn shared(a: f64, a_length: f64, b: f64, b_length: f64) -> f64 {
    let reach = (a_length + b_length) / 2.0 - (a - b).abs();
    reach.min(a_length).min(b_length).max(0.0)
}

/// The areas that are taken already.
#[derive(Default)]
pub struct Taken(Vec<Area>);

impl Taken {
    /// Takes an area.
    pub fn take(&mut self, area: Area) {
        self.0.push(area);
    }

    /// How much of an area is taken already.
    pub fn overlap(&self, area: &Area) -> f64 {
        self.0.iter().map(|taken| taken.overlap(area)).sum()
    }
}
