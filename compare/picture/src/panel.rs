//! A panel below the rows: a step line of the GPUs, or of the slices, in use.

use crate::axis::Axis;
use crate::plan::{Plan, What};
use crate::svg::Svg;
use crate::trace::Trace;

/// The number in use from each time on. A job holds what it is given from the clock on, also where it starts later.
pub fn steps(trace: &Trace, plan: &Plan, sliced: bool) -> Vec<(f64, u64)> {
    let mut steps: Vec<(f64, u64)> = Vec::new();
    let mut level = 0;
    for one in &plan.decisions {
        let job = &trace.jobs[one.job];
        match one.what {
            _ if job.sliced != sliced => continue,
            What::Started(_) => level += job.count,
            What::Evicted(_) | What::Completed(_) => level -= job.count,
            What::Arrived | What::Failed => continue,
        }
        steps.pop_if(|step| step.0 == one.clock);
        steps.push((one.clock, level));
    }
    steps
}

/// Draws a step line, against the total where that is known.
pub fn draw(
    svg: &mut Svg,
    axis: &Axis,
    class: &str,
    steps: &[(f64, u64)],
    total: Option<u64>,
    [top, height]: [f64; 2],
) {
    let counts = steps.iter().map(|step| step.1).chain(total);
    let most = counts.max().unwrap_or(0).max(1);
    let y = |count: u64| top + height * (1.0 - count as f64 / most as f64);
    let flat = |count: u64| format!("M{:.1} {:.1}H{:.1}", axis.left, y(count), axis.right);
    for count in numbers(most, height / most as f64) {
        svg.path("line", &flat(count));
        svg.text("end", [axis.left - 6.0, y(count)], &count.to_string());
    }
    let mut way = format!("M{:.1} {:.1}", axis.left, y(0));
    for &(time, count) in steps {
        way += &format!("H{:.1}V{:.1}", axis.x(time), y(count));
    }
    way += &format!("H{:.1}", axis.right);
    svg.path("area", &format!("{way}V{:.1}H{:.1}Z", y(0), axis.left));
    svg.path(class, &way);
    if let Some(total) = total {
        svg.path("total", &flat(total));
    }
}

/// The numbers at the side: the greatest, and even steps below that stand apart, at so many pixels a unit.
fn numbers(most: u64, unit: f64) -> Vec<u64> {
    let apart = |step: &u64| *step as f64 * unit >= 16.0;
    let step = [1, 2, 5, 10, 20, 50, 100, 200].into_iter().find(apart);
    let below = (0..most).step_by(step.unwrap_or(most) as usize);
    let below = below.filter(|&count| (most - count) as f64 * unit >= 14.0);
    below.chain([most]).collect()
}
