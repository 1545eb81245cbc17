//! The legend: tenants by colour, then the shapes of spans and marks.

use crate::span::Sort;
use crate::svg::{width, Svg};
use crate::{look, sign};

const LINE: f64 = 18.0;
/// Of a shape.
const WIDE: f64 = 22.0;

const SHAPES: [(Sort, &str); 6] = [
    (Sort::Waiting, "waits"),
    (Sort::Held, "holds its GPUs or slices, starts later"),
    (Sort::Running, "runs"),
    (Sort::Evicted(0), "evicted: makes way for job →"),
    (Sort::Completed, "done"),
    (Sort::Failed, "failed: waited longer than its timeout"),
];

/// Draws the legend between two edges and answers where it ends.
pub fn draw(svg: &mut Svg, tenants: &[Option<u64>], edges: [f64; 2], top: f64) -> f64 {
    let mut at = [edges[0], top + LINE / 2.0];
    for &tenant in tenants {
        let text = tenant.map_or("no tenant".to_string(), |it| format!("tenant {it}"));
        at = entry(svg, Sort::Running, &look::class(tenant), &text, edges, at);
    }
    at = [edges[0], at[1] + LINE];
    for (sort, text) in SHAPES {
        at = entry(svg, sort, "none", text, edges, at);
    }
    at[1] + LINE / 2.0
}

/// Draws an entry, on a new line where it does not fit, and answers the place of the next.
fn entry(
    svg: &mut Svg,
    sort: Sort,
    colour: &str,
    text: &str,
    edges: [f64; 2],
    at: [f64; 2],
) -> [f64; 2] {
    let [mut x, mut y] = at;
    let end = WIDE + 5.0 + width(text);
    if x + end > edges[1] {
        (x, y) = (edges[0], y + LINE);
    }
    sign::draw(svg, sort, colour, [x, x + WIDE], [y, LINE]);
    svg.text("start", [x + WIDE + 5.0, y], text);
    [x + end + 18.0, y]
}
