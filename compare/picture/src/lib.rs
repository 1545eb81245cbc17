//! The picture of a plan: a row a job over time, and below them what is in use.

pub mod axis;
mod document;
mod legend;
mod look;
pub mod panel;
pub mod plan;
mod row;
mod sign;
pub mod span;
mod svg;
pub mod trace;

/// The SVG of a trace and the plan printed for it, or why there is none; `name` stands in its title.
pub fn picture(name: &str, trace: &[u8], plan: &str) -> Result<String, String> {
    let trace = trace::read(trace)?;
    let plan = plan::read(plan)?;
    let rows = span::rows(&trace, &plan)?;
    Ok(document::draw(name, &trace, &plan, &rows))
}
