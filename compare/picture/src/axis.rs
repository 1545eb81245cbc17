//! The time axis: where a time lies, and which times are named.

use crate::svg::width;

pub struct Axis {
    pub from: f64,
    pub to: f64,
    pub left: f64,
    pub right: f64,
}

/// A named time: where its line stands, where its text is centred, and the text.
pub struct Tick {
    pub x: f64,
    pub middle: f64,
    pub text: String,
}

const MINUTE: f64 = 60.0;
const DAY: f64 = 86400.0;
/// Room at the right for what nothing ends.
const BEYOND: f64 = 16.0;
/// In milliseconds, under a day.
const STEPS: [u64; 27] = [
    1, 2, 5, 10, 20, 50, 100, 200, 500, 1000, 2000, 5000, 10_000, 15_000, 30_000, 60_000, 120_000,
    300_000, 600_000, 900_000, 1_800_000, 3_600_000, 7_200_000, 10_800_000, 14_400_000, 21_600_000,
    43_200_000,
];

impl Axis {
    /// From the first time to the last; a plan under ten milliseconds is drawn as if it took a second.
    pub fn new(times: &[f64], left: f64, right: f64) -> Axis {
        let from = times.iter().copied().reduce(f64::min).unwrap_or(0.0);
        let last = times.iter().copied().fold(from, f64::max);
        let to = if last - from < 0.01 { from + 1.0 } else { last };
        Axis {
            from,
            to,
            left,
            right,
        }
    }

    /// Where a time lies; infinity lies at the right edge.
    pub fn x(&self, time: f64) -> f64 {
        let part = (time - self.from) / (self.to - self.from);
        f64::min(
            self.right,
            self.left + part * (self.right - BEYOND - self.left),
        )
    }

    /// The named times, and their unit.
    pub fn ticks(&self) -> (Vec<Tick>, &'static str) {
        let step = self.step();
        let (first, last) = ((self.from / step).ceil() as u64, (self.to / step) as u64);
        let ticks = (first..=last).map(|number| self.tick(number as f64 * step, step));
        let unit = match step {
            DAY.. => "days",
            MINUTE.. => "h:mm",
            _ => "seconds",
        };
        (ticks.collect(), unit)
    }

    /// The outermost texts stay within the picture.
    fn tick(&self, time: f64, step: f64) -> Tick {
        let (x, text) = (self.x(time), label(time, step));
        let half = width(&text) / 2.0;
        let middle = x.max(self.left + half - 16.0).min(self.right - half + 8.0);
        Tick { x, middle, text }
    }

    /// The least step whose texts stand apart, also where the outermost are moved inwards.
    fn step(&self) -> f64 {
        let short = STEPS.iter().map(|&step| step as f64 / 1000.0);
        let tens = (0..8).map(|power| DAY * 10u64.pow(power) as f64);
        let long = tens.flat_map(|ten| [ten, 2.0 * ten, 5.0 * ten]);
        let apart = |step: &f64| {
            let room = self.x(self.from + step) - self.left;
            room >= f64::max(64.0, 1.5 * width(&label(self.to, *step)) + 16.0)
        };
        short.chain(long).find(apart).unwrap_or(f64::INFINITY)
    }
}

fn label(time: f64, step: f64) -> String {
    let minutes = (time / MINUTE).round();
    match step {
        DAY.. => format!("{:.0}", time / DAY),
        MINUTE.. => format!("{}:{:02}", (minutes / 60.0).floor(), minutes % 60.0),
        1.0.. => format!("{time:.0}"),
        0.1.. => format!("{time:.1}"),
        0.01.. => format!("{time:.2}"),
        _ => format!("{time:.3}"),
    }
}
