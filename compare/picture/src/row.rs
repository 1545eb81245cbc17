//! One row: what the job asks for, its spans and its marks.

use crate::axis::Axis;
use crate::span::{Sort, Span};
use crate::svg::{width, Svg};
use crate::trace::Job;
use crate::{look, sign};

pub const HEADS: [&str; 4] = ["job", "tenant", "priority", "asks for"];
/// Where the texts under the first three heads end and the last one begins.
pub const COLUMNS: [f64; 4] = [36.0, 84.0, 186.0, 198.0];
/// Where the tenant's colour stands.
const SWATCH: f64 = 88.0;

/// The size of the text in a row.
pub fn size(height: f64) -> f64 {
    f64::min(0.95 * height, 12.0)
}

/// Draws the row of a job around y.
pub fn draw(svg: &mut Svg, axis: &Axis, number: usize, job: &Job, row: &[Span], place: [f64; 2]) {
    let [y, height] = place;
    let told: String = row.iter().map(told).collect();
    svg.add(&format!(
        "<g class='row' id='job-{number}'><title>job {number}{told}</title>"
    ));
    let tenant = job.tenant.map_or("–".to_string(), |it| it.to_string());
    let priority = job.priority.to_string();
    write(
        svg,
        y,
        [&number.to_string(), &tenant, &priority, &job.wants()],
    );
    let (colour, side) = (look::class(job.tenant), 0.6 * height);
    svg.rect(
        &format!("run {colour}"),
        [SWATCH, y - side / 2.0, side, side],
    );
    // marks lie over the spans
    let (marks, spans): (Vec<&Span>, _) = row.iter().partition(|span| span.is_mark());
    for span in spans.iter().chain(&marks) {
        let ends = [axis.x(span.from), axis.x(span.to)];
        sign::draw(svg, span.sort, &colour, ends, place);
    }
    for at in 0..row.len() {
        made_way(svg, axis, number, &row[at..], place);
    }
    svg.add("</g>");
}

/// Writes the texts of the columns.
pub fn write(svg: &mut Svg, y: f64, texts: [&str; 4]) {
    for (column, text) in texts.into_iter().enumerate() {
        let class = if column < 3 { "end" } else { "start" };
        svg.text(class, [COLUMNS[column], y], text);
    }
}

/// After an eviction, names the job made way for where the wait leaves room.
fn made_way(svg: &mut Svg, axis: &Axis, number: usize, row: &[Span], [y, height]: [f64; 2]) {
    let [evicted, wait, rest @ ..] = row else {
        return;
    };
    let (Sort::Evicted(by), Sort::Waiting) = (evicted.sort, wait.sort) else {
        return;
    };
    let held = rest.first().filter(|next| next.sort == Sort::Held);
    let end = held.map_or(wait.to, |held| held.from);
    let r = sign::radius(height) + 1.0;
    let (from, to, size) = (axis.x(wait.from) + r, axis.x(end) - r, size(height));
    let text = format!("→{by}");
    let wide = width(&text) * size / 11.0;
    if from + wide <= to {
        svg.rect(ground(number), [from, y - size / 2.0, wide, size]);
        svg.text("start", [from, y], &text);
    }
}

/// The class of the colour behind a row.
pub fn ground(number: usize) -> &'static str {
    ["shade", "white"][number % 2]
}

/// What is told on pointing at a row: a line a span.
fn told(span: &Span) -> String {
    let Span { sort, from, to } = span;
    let until = if to.is_finite() && !span.is_mark() {
        format!(" to {to}")
    } else {
        String::new()
    };
    format!("\n{from}{until} s: {sort:?}")
}
