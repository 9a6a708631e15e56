//! The picture of a list of plans: sums against ceiling costs.

use crate::axis::Axis;
use crate::figures::{counted, grouped};
use crate::labels::{Area, Taken};
use crate::svg::{at, Point, Svg};
use ranqustei::{Plan, Yard};

/// The room left of a panel, for its ticks and the name of its axis.
const LEFT: f64 = 104.0;
/// The room above the panels, for the title.
const TOP: f64 = 108.0;
/// The room below the panels, for the ticks and the names of the axes.
const BOTTOM: f64 = 66.0;
/// The room right of the last panel.
const RIGHT: f64 = 32.0;
const PANEL_WIDTH: f64 = 400.0;
const PANEL_HEIGHT: f64 = 380.0;
/// How far the first and the last tick keep from the edges of a panel.
const INSET: f64 = 22.0;
/// The radius of a plan's point.
const DOT: f64 = 5.5;
/// The height of a plan's number.
const LABEL_SIZE: f64 = 13.0;
/// On which sides of its point a plan's number may stand, best first.
const LABEL_SIDES: [[f64; 2]; 8] = [
    [1.0, -1.0],
    [-1.0, 1.0],
    [1.0, 1.0],
    [-1.0, -1.0],
    [1.0, 0.0],
    [-1.0, 0.0],
    [0.0, -1.0],
    [0.0, 1.0],
];
/// About how many steps an axis has.
const STEPS: i64 = 6;
/// What the dashed line means.
const DASHES: &str = "dashed: the least sum under a bound on this ceiling alone";

const STYLE: &str = "\
.title { font-size: 20px; font-weight: bold; fill: #222; }
.note { font-size: 14px; fill: #666; }
.name { font-size: 14px; fill: #333; text-anchor: middle; }
.tick { font-size: 12px; fill: #666; text-anchor: middle; }
.sum-tick { font-size: 12px; fill: #666; text-anchor: end; }
.grid { stroke: #ebebeb; stroke-width: 1; }
.axis { fill: none; stroke: #999; stroke-width: 1.2; }
.steps { fill: none; stroke: #e0b060; stroke-width: 1.5; stroke-dasharray: 4 4; }
.dot { fill: #c97800; stroke: #fff; stroke-width: 1.2; }
.number { font-size: 13px; fill: #222; text-anchor: middle; }
";

/// Draws the plans of a yard that has a ceiling, one panel for each.
pub fn chart(yard: &Yard, plans: &[Plan]) -> String {
    let width = yard.ranks.len() as f64 * (LEFT + PANEL_WIDTH) + RIGHT;
    let mut svg = Svg::new(width, TOP + PANEL_HEIGHT + BOTTOM, STYLE);
    svg.text("title", at(LEFT, 40.0), "Sum against ceiling cost");
    let plan_count = counted(plans.len(), "plan");
    svg.text(
        "note",
        at(LEFT, 62.0),
        &format!("{plan_count}, labelled by number"),
    );
    svg.text("note", at(LEFT, 82.0), DASHES);
    for (ceiling, &rank) in yard.ranks.iter().enumerate() {
        let rank = ordinal(rank);
        let name = format!("ceiling cost {}: the {rank} over the links", ceiling + 1);
        let panel = Panel::new(ceiling, plans);
        panel.draw_axes(&mut svg);
        panel.draw_names(&mut svg, &name);
        panel.draw_plans(&mut svg);
    }
    svg.finish()
}

fn ordinal(rank: u8) -> &'static str {
    match rank {
        2 => "2nd largest",
        3 => "3rd largest",
        _ => "largest",
    }
}

/// The plans against one ceiling cost.
struct Panel {
    corner: Point,
    costs: Axis,
    sums: Axis,
    /// The ceiling cost and the sum of each plan, by rising sum.
    figures: Vec<[i64; 2]>,
}

impl Panel {
    fn new(ceiling: usize, plans: &[Plan]) -> Panel {
        let figures = plans.iter().filter_map(|plan| {
            let cost = *plan.ceiling_costs().get(ceiling)?;
            Some([i64::from(cost), i64::from(plan.costs.sum)])
        });
        let figures: Vec<[i64; 2]> = figures.collect();
        Panel {
            corner: at(LEFT + ceiling as f64 * (LEFT + PANEL_WIDTH), TOP),
            costs: Axis::covering(figures.iter().map(|[cost, _]| *cost), STEPS),
            sums: Axis::covering(figures.iter().map(|[_, sum]| *sum), STEPS),
            figures,
        }
    }

    /// Where each plan lies.
    fn points(&self) -> Vec<Point> {
        let point = |&[cost, sum]: &[i64; 2]| at(self.x(cost), self.y(sum));
        self.figures.iter().map(point).collect()
    }

    /// Where a ceiling cost lies from the left.
    fn x(&self, cost: i64) -> f64 {
        self.corner.x + INSET + self.costs.part(cost) * (PANEL_WIDTH - 2.0 * INSET)
    }

    /// Where a sum lies from the top.
    fn y(&self, sum: i64) -> f64 {
        self.corner.y + PANEL_HEIGHT - INSET - self.sums.part(sum) * (PANEL_HEIGHT - 2.0 * INSET)
    }

    /// The line through the panel at a ceiling cost.
    fn cost_line(&self, cost: i64) -> [Point; 2] {
        let top = at(self.x(cost), self.corner.y);
        [top, top.moved(0.0, PANEL_HEIGHT)]
    }

    /// The line through the panel at a sum.
    fn sum_line(&self, sum: i64) -> [Point; 2] {
        let left = at(self.corner.x, self.y(sum));
        [left, left.moved(PANEL_WIDTH, 0.0)]
    }

    /// The lines at a ceiling cost of 0 and a sum of 0, where there are plans on both sides.
    fn zero_lines(&self) -> Vec<[Point; 2]> {
        let cost_line = self.costs.spans_zero().then(|| self.cost_line(0));
        let sum_line = self.sums.spans_zero().then(|| self.sum_line(0));
        cost_line.into_iter().chain(sum_line).collect()
    }

    fn draw_axes(&self, svg: &mut Svg) {
        for cost in self.costs.ticks() {
            let [top, foot] = self.cost_line(cost);
            svg.line("grid", top, foot);
            svg.text("tick", foot.moved(0.0, 18.0), &grouped(cost));
        }
        for sum in self.sums.ticks() {
            let [left, right] = self.sum_line(sum);
            svg.line("grid", left, right);
            svg.text("sum-tick", left.moved(-8.0, 4.0), &grouped(sum));
        }
        for [from, to] in self.zero_lines() {
            svg.line("axis", from, to);
        }
        let foot = self.corner.moved(0.0, PANEL_HEIGHT);
        svg.polyline("axis", &[self.corner, foot, foot.moved(PANEL_WIDTH, 0.0)]);
    }

    fn draw_names(&self, svg: &mut Svg, cost_name: &str) {
        svg.text(
            "name",
            self.corner.moved(PANEL_WIDTH / 2.0, PANEL_HEIGHT + 44.0),
            cost_name,
        );
        svg.upright_text("name", self.corner.moved(-88.0, PANEL_HEIGHT / 2.0), "sum");
    }

    fn draw_plans(&self, svg: &mut Svg) {
        let points = self.points();
        let steps = steps(&points);
        svg.polyline("steps", &steps);
        for &point in &points {
            svg.circle("dot", point, DOT);
        }
        let segments = steps.iter().zip(steps.iter().skip(1));
        let segments = segments.map(|(&from, &to)| [from, to]);
        let lines: Vec<[Point; 2]> = segments.chain(self.zero_lines()).collect();
        for (number, area) in label_areas(&points, &lines) {
            svg.text("number", area.centre.moved(0.0, 4.5), &number);
        }
    }
}

/// The corners of the stairs from the least sum up: the least sum under each bound.
fn steps(points: &[Point]) -> Vec<Point> {
    let mut corners: Vec<Point> = Vec::new();
    for &point in points {
        match corners.last() {
            Some(last) if last.x <= point.x => {}
            Some(last) => corners.extend([at(last.x, point.y), point]),
            None => corners.push(point),
        }
    }
    corners
}

/// The numbers of the plans for which there is a place clear of points and lines, each with it.
fn label_areas(points: &[Point], lines: &[[Point; 2]]) -> Vec<(String, Area)> {
    let mut taken = Taken::default();
    for &point in points {
        taken.take(Area::of_circle(point, DOT));
    }
    for &[from, to] in lines {
        taken.take(Area::between(from, to));
    }
    let mut placed = Vec::new();
    for (number, &point) in points.iter().enumerate() {
        let number = number.to_string();
        let places = LABEL_SIDES.map(|side| beside(point, side, &number));
        let clear =
            |area: &Area| taken.overlap(area) == 0.0 && is_nearest(point, area.centre, points);
        if let Some(area) = places.into_iter().find(clear) {
            taken.take(area);
            placed.push((number, area));
        }
    }
    placed
}

/// Whether no other point is as near to a label: the label would seem to be the other's.
fn is_nearest(point: Point, label: Point, points: &[Point]) -> bool {
    let near = |other: &&Point| other.distance(label) <= point.distance(label);
    points.iter().filter(near).count() == 1
}

/// The room of a label close to its point's dot on one side.
fn beside(point: Point, [right, down]: [f64; 2], label: &str) -> Area {
    let area = Area::of_label(point, label, LABEL_SIZE);
    let [dx, dy] = [area.width, area.height].map(|length| length / 2.0 + DOT + 0.5);
    Area {
        centre: point.moved(right * dx, down * dy),
        ..area
    }
}
