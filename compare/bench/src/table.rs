//! Times the planners in turn and prints one row a kind.

use crate::clock;
use crate::planners::{bench_plan, lent, present, Told, Who, ALL};
use crate::traces::{Kind, Shape, TRACES};
use std::time::Duration;

/// One figure a planner, in the order of `ALL`; none for one that is not there.
type Figures = [Option<f64>; 4];

pub fn print(title: &str, kinds: &[Kind], rounds: usize) -> Result<(), String> {
    let names = ALL.map(|(_, name)| format!("{name:>9}"));
    println!(
        "{title:<12} {:>6} {:>7} {:>7} {:>7} | {} | orig/ours ord/ours ours/sec",
        "steps",
        "visits",
        "preempt",
        "in vain",
        names.join(" ")
    );
    for kind in kinds {
        let traces = kind.traces();
        agree(kind, &traces)?;
        let shape = Shape::of(&traces);
        // a refused trace takes no step: there the figure is of a load
        let parts = if shape.steps > 0 { shape.steps } else { TRACES } as f64;
        let micros = timed(&traces, rounds).map(|all| Some(all? / parts));
        println!(
            "{:<12} {} | {}",
            kind.name,
            counted(&shape),
            compared(&micros)
        );
    }
    println!();
    Ok(())
}

/// Steps, preempting visits and those in vain of a trace, visits of a step, on the average.
fn counted(shape: &Shape) -> String {
    format!(
        "{:>6} {:>7.1} {:>7} {:>7}",
        shape.steps / TRACES,
        shape.visits as f64 / shape.steps.max(1) as f64,
        shape.preempting / TRACES as u64,
        shape.in_vain / TRACES as u64
    )
}

/// The figures, then the ratios that count.
fn compared(micros: &Figures) -> String {
    let [ours, second, original, ordered] = *micros;
    let ratio = |one: Option<f64>, other: Option<f64>| Some(one? / other?);
    let ratios = [
        ratio(original, ours),
        ratio(ordered, ours),
        ratio(ours, second),
    ];
    let show = |figure: &Option<f64>| {
        figure.map_or("        -".to_string(), |figure| format!("{figure:>9.2}"))
    };
    let both =
        [&micros[..], &ratios].map(|list| list.iter().map(show).collect::<Vec<_>>().join(" "));
    both.join(" | ")
}

/// Every planner has to say of each trace what the second program says.
fn agree(kind: &Kind, traces: &[Vec<u8>]) -> Result<(), String> {
    for (number, trace) in traces.iter().enumerate() {
        let expected = told(Who::Second, trace);
        for (who, name) in present() {
            let mut said = told(who, trace);
            said.head = said.head.or(expected.head);
            if said != expected {
                let place = format!("trace {number} of {}", kind.name);
                return Err(format!("{name} and second differ on {place}"));
            }
        }
    }
    Ok(())
}

fn told(who: Who, trace: &[u8]) -> Told {
    let mut words = lent();
    bench_plan(who, trace, &mut words).told(&words)
}

/// Microseconds to plan all the traces once, each by its median over the rounds. In a round the planners take turns on a trace.
fn timed(traces: &[Vec<u8>], rounds: usize) -> Figures {
    let mut sums = Figures::default();
    for trace in traces {
        let mut turns = ALL.map(|_| Vec::new());
        for _ in 0..rounds {
            for (who, _) in present() {
                turns[who as usize].push(turn(who, trace));
            }
        }
        for (who, _) in present() {
            turns[who as usize].sort();
            let median = turns[who as usize][rounds / 2].as_secs_f64() * 1e6;
            *sums[who as usize].get_or_insert(0.0) += median;
        }
    }
    sums
}

/// A planner's turn takes at least so long: a short planning is repeated, and is over the first touch of its caches.
const TURN: Duration = Duration::from_millis(1);

/// The time of one planning in a turn; what a planner leaves is freed outside of it.
fn turn(who: Who, trace: &[u8]) -> Duration {
    let mut words = lent();
    let mut spent = Duration::ZERO;
    let mut times = 0;
    while spent < TURN {
        let begun = clock::spent();
        let left = bench_plan(who, trace, &mut words);
        spent += clock::spent() - begun;
        drop(left);
        times += 1;
    }
    spent / times
}
