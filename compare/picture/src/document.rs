//! The whole picture: title, legend, rows, panels and time axis.

use crate::axis::Axis;
use crate::plan::Plan;
use crate::row;
use crate::span::{Sort, Span};
use crate::svg::{width, Svg};
use crate::trace::{counted, Job, Trace};
use crate::{legend, look, panel};

const WIDTH: f64 = 1200.0;
const EDGES: [f64; 2] = [16.0, WIDTH - 16.0];
/// Room for the time axis' texts, above the rows and below the panels, and between rows and panels.
const TEXTS: f64 = 26.0;
const GAP: f64 = 16.0;

pub fn draw(name: &str, trace: &Trace, plan: &Plan, rows: &[Vec<Span>]) -> String {
    // many jobs have low rows, so that they fit a page
    let height = (1120.0 / rows.len().max(1) as f64).clamp(9.0, 22.0);
    let mut svg = Svg::default();
    let tenants = tenants(trace);
    look::define(&mut svg, &tenants, row::size(height));
    let title = title(name, plan, rows);
    svg.text("title", [EDGES[0], 22.0], &title);
    let top = legend::draw(&mut svg, &tenants, EDGES, 38.0) + TEXTS;
    let axis = axis(trace, plan, row::size(height));
    let mut over = Svg::default();
    for (number, row) in rows.iter().enumerate() {
        let upper = top + number as f64 * height;
        svg.rect(
            row::ground(number),
            [EDGES[0], upper, axis.right - EDGES[0], height],
        );
        let place = [upper + height / 2.0, height];
        row::draw(&mut over, &axis, number, &trace.jobs[number], row, place);
    }
    let below = top + rows.len() as f64 * height + GAP;
    let foot = panels(&mut over, &axis, trace, plan, below);
    times(&mut svg, &axis, top, foot);
    svg.append(over);
    svg.finish([WIDTH, foot + TEXTS], &title)
}

/// Those that have jobs, by number, and none last.
fn tenants(trace: &Trace) -> Vec<Option<u64>> {
    let mut tenants: Vec<_> = trace.jobs.iter().map(|job| job.tenant).collect();
    tenants.sort_by_key(|tenant| tenant.unwrap_or(u64::MAX));
    tenants.dedup();
    tenants
}

fn title(name: &str, plan: &Plan, rows: &[Vec<Span>]) -> String {
    let count = |wanted: fn(&&Span) -> bool| rows.iter().flatten().filter(wanted).count() as u64;
    let name: String = name.chars().take(24).collect();
    let jobs = counted(rows.len() as u64, "job");
    let decisions = counted(plan.decisions.len() as u64, "decision");
    let evictions = count(|span| matches!(span.sort, Sort::Evicted(_)));
    let evictions = counted(evictions, "eviction");
    let failed = count(|span| span.sort == Sort::Failed);
    let waiting = count(|span| span.sort == Sort::Waiting && span.to.is_infinite());
    let stopped = ["", ", stopped by refusal 12"][usize::from(plan.stopped)];
    let counts = format!("{jobs}, {decisions}, {evictions}, {failed} failed");
    format!("{name}: {counts}, {waiting} still waiting{stopped}")
}

/// The axis begins where the widest text of the last column leaves room.
fn axis(trace: &Trace, plan: &Plan, size: f64) -> Axis {
    let wants = |wide: f64, job: &Job| wide.max(width(&job.wants()) * size / 11.0);
    let widest = trace.jobs.iter().fold(width(row::HEADS[3]), wants);
    let times: Vec<f64> = plan.decisions.iter().map(|one| one.time).collect();
    Axis::new(&times, row::COLUMNS[3] + widest + 1.5 * GAP, EDGES[1])
}

/// Draws the panels and answers where they end.
fn panels(svg: &mut Svg, axis: &Axis, trace: &Trace, plan: &Plan, top: f64) -> f64 {
    let (left, whole) = (EDGES[0], panel::steps(trace, plan, false));
    panel::draw(svg, axis, "use", &whole, Some(trace.gpus), [top, 76.0]);
    svg.text("bold", [left, top + 30.0], "GPUs in use");
    svg.text(
        "start",
        [left, top + 46.0],
        &format!("of {} (dashed)", trace.gpus),
    );
    if !trace.jobs.iter().any(|job| job.sliced) {
        return top + 76.0;
    }
    let (top, slices) = (top + 76.0 + GAP, panel::steps(trace, plan, true));
    panel::draw(svg, axis, "use thin", &slices, None, [top, 40.0]);
    svg.text("bold", [left, top + 20.0], "Slices in use");
    top + 40.0
}

/// The heads of the columns, and the lines of the named times with their texts at both ends.
fn times(svg: &mut Svg, axis: &Axis, top: f64, foot: f64) {
    row::write(svg, top - 12.0, row::HEADS);
    let (ticks, unit) = axis.ticks();
    for tick in ticks {
        let way = format!("M{:.1} {:.1}V{foot:.1}", tick.x, top - 4.0);
        svg.path("line", &way);
        svg.text("middle", [tick.middle, top - 12.0], &tick.text);
        svg.text("middle", [tick.middle, foot + 14.0], &tick.text);
    }
    svg.text("start", [EDGES[0], foot + 14.0], &format!("time in {unit}"));
}
