//! The looks: the style sheet, and the tenants' colours and patterns.

use crate::svg::Svg;

/// Eight hues that colour-blind readers can tell apart: those of Okabe and Ito, with indigo for their black, which the marks have.
const HUES: [&str; 8] = [
    "#0072b2", "#e69f00", "#009e73", "#cc79a7", "#56b4e9", "#d55e00", "#f0e442", "#332288",
];

/// What lies over the hue, of tenants 8 to 15, 16 to 23 and 24 to 31.
const PATTERNS: [&str; 3] = ["M-1 7L7 -1M-1 1L1 -1M5 7L7 5", "M0 3H6", "M3 0V6"];

const SHEET: &str = "
.title{font-size:15px;font-weight:bold} .bold{font-weight:bold} .middle{text-anchor:middle} .end{text-anchor:end}
.none{fill:#5f5f5f} .white{fill:#fff} .shade{fill:#f1f4f8} .line{stroke:#d5dae1;stroke-width:.8}
.wait{fill:#b4bbc6} .held{fill-opacity:.3;stroke:#5f5f5f;stroke-width:.8}
.run{stroke:#1c1f24;stroke-opacity:.55;stroke-width:.6} .over{fill:none;stroke:#fff;stroke-width:1.5}
.evicted{fill:#fff;stroke:#1c1f24;stroke-width:1.3} .failed{fill:none;stroke:#b00020;stroke-width:2.2}
.use{fill:none;stroke:#1b4f72;stroke-width:2} .thin{stroke-width:1}
.area{fill:#1b4f72;fill-opacity:.12} .total{stroke:#1c1f24;stroke-dasharray:6 4}
";

/// The class of a tenant's colour.
pub fn class(tenant: Option<u64>) -> String {
    tenant.map_or("none".to_string(), |number| format!("tenant-{number}"))
}

/// Writes the style sheet, with the size of the rows' text and the colours of these tenants.
pub fn define(svg: &mut Svg, tenants: &[Option<u64>], size: f64) {
    let mut sheet = format!(".row{{font-size:{size:.1}px}}");
    for &number in tenants.iter().flatten() {
        let hue = HUES[number as usize % 8];
        if number < 8 {
            sheet += &format!("\n.tenant-{number}{{fill:{hue}}}");
            continue;
        }
        sheet += &format!("\n.tenant-{number}{{fill:url(#pattern-{number})}}");
        let size = "width='6' height='6'";
        svg.add(&format!(
            "<pattern id='pattern-{number}' {size} patternUnits='userSpaceOnUse'>"
        ));
        svg.add(&format!("<rect {size} fill='{hue}'/>"));
        svg.path("over", PATTERNS[number as usize / 8 - 1]);
        svg.add("</pattern>");
    }
    svg.add(&format!("<style>{sheet}{SHEET}</style>"));
}
