//! Plans as a table for people.

use ranqustei::{Link, Plan};

/// A table of plans: their numbers from `first` on if they stand in a list, costs and links. The
/// links have their stations where the yard's links are known.
pub fn table(yard_links: &[Link], plans: &[Plan], first: Option<u32>) -> String {
    let ceilings = plans.first().map_or(0, |plan| plan.ceilings);
    let mut rows = vec![heading(ceilings, first.is_some())];
    for (plan, place) in plans.iter().zip(0..) {
        rows.push(row(yard_links, plan, first.map(|first| first + place)));
    }
    let widths = widths(&rows);
    rows.iter().map(|row| aligned(row, &widths)).collect()
}

fn heading(ceilings: usize, numbered: bool) -> Vec<String> {
    let mut row = Vec::new();
    row.extend(numbered.then(|| "plan".to_string()));
    row.push("sum".to_string());
    row.extend((1..=ceilings).map(|ceiling| format!("ceiling {ceiling}")));
    row.push("links".to_string());
    row
}

fn row(yard_links: &[Link], plan: &Plan, number: Option<u32>) -> Vec<String> {
    let mut row = Vec::new();
    row.extend(number.map(|number| number.to_string()));
    row.push(plan.costs.sum.to_string());
    row.extend(plan.ceiling_costs().iter().map(i16::to_string));
    row.push(links(yard_links, plan));
    row
}

/// The links of a plan with their stations, as in `0: 0–1, 1: 1–2`, or without, as in `0, 1`.
fn links(yard_links: &[Link], plan: &Plan) -> String {
    if plan.links.is_empty() {
        return "none".to_string();
    }
    let with_ends = |&link: &u8| match yard_links.get(usize::from(link)) {
        Some(found) => format!("{link}: {}–{}", found.ends[0], found.ends[1]),
        None => link.to_string(),
    };
    let links: Vec<String> = plan.links.iter().map(with_ends).collect();
    links.join(", ")
}

/// The width of each column.
fn widths(rows: &[Vec<String>]) -> Vec<usize> {
    let mut widths = Vec::new();
    for row in rows {
        widths.resize(row.len(), 0);
        for (width, cell) in widths.iter_mut().zip(row) {
            *width = cell.chars().count().max(*width);
        }
    }
    widths
}

/// A line of the table: figures to the right, and the links last, to the left.
fn aligned(row: &[String], widths: &[usize]) -> String {
    let Some((links, figures)) = row.split_last() else {
        return String::new();
    };
    let figures = figures
        .iter()
        .zip(widths)
        .map(|(cell, &width)| format!("{cell:>width$}  "));
    figures.chain([format!("{links}\n")]).collect()
}
