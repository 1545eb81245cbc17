//! The shapes of spans and marks, the same in the rows and in the legend.

use crate::span::Sort;
use crate::svg::Svg;

/// Draws a span from x to x, or a mark between them, in a row around y.
pub fn draw(svg: &mut Svg, sort: Sort, colour: &str, [from, to]: [f64; 2], [y, height]: [f64; 2]) {
    let (x, r) = ((from + to) / 2.0, radius(height));
    let (left, right, top, foot) = (x - r, x + r, y - r, y + r);
    let mut bar = |class: &str, part: f64| {
        // what is too short to be seen is drawn a pixel wide
        let (wide, tall) = (f64::max(1.0, to - from), f64::max(2.0, part * height));
        svg.rect(class, [from, y - tall / 2.0, wide, tall]);
    };
    match sort {
        Sort::Waiting => bar("wait", 0.2),
        Sort::Held => bar(&format!("held {colour}"), 0.6),
        Sort::Running => bar(&format!("run {colour}"), 0.7),
        Sort::Completed => svg.rect("done", [x - 1.0, y - 0.43 * height, 2.0, 0.86 * height]),
        Sort::Evicted(_) => {
            let upper = format!("M{left:.1} {y:.1}L{x:.1} {top:.1}L{right:.1} {y:.1}");
            svg.path("evicted", &format!("{upper}L{x:.1} {foot:.1}Z"));
        }
        Sort::Failed => {
            let falling = format!("M{left:.1} {top:.1}L{right:.1} {foot:.1}");
            let rising = format!("M{left:.1} {foot:.1}L{right:.1} {top:.1}");
            svg.path("failed", &(falling + &rising));
        }
    }
}

/// Half the width of a mark.
pub fn radius(height: f64) -> f64 {
    f64::min(0.4 * height, 5.0)
}
