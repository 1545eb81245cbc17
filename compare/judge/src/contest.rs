//! Two programs over many generated traces, in blocks that threads share.

use crate::draw::Draw;
use crate::program::{Program, Show};
use generate::Kind;
use std::panic::resume_unwind;
use std::thread;

/// What is compared, on which traces.
pub struct Contest {
    pub programs: [Program; 2],
    pub show: Show,
    pub draw: Draw,
    pub threads: usize,
}

/// One trace on which the programs differ.
pub struct Difference {
    pub number: u64,
    pub kind: Kind,
    pub trace: Vec<u8>,
}

/// How far a contest came.
pub struct Outcome {
    pub generated: u64,
    pub compared: u64,
    pub difference: Option<Difference>,
}

/// What became of one generated trace.
enum Verdict {
    LeftOut,
    Agree,
    Differ(Box<Difference>),
}

/// Traces that one thread takes at a time; a batch program is started once for them.
const SHARE: u64 = 256;

impl Contest {
    /// Compares until enough traces were, or a difference is found, or hardly any trace is admitted.
    pub fn run(&self) -> Outcome {
        let mut outcome = Outcome {
            generated: 0,
            compared: 0,
            difference: None,
        };
        let Draw { traces, .. } = self.draw;
        while outcome.compared < traces && outcome.generated < self.draw.most() {
            for verdict in self.block(outcome.generated) {
                outcome.generated += 1;
                outcome.compared += u64::from(!matches!(verdict, Verdict::LeftOut));
                if let Verdict::Differ(difference) = verdict {
                    outcome.difference = Some(*difference);
                    return outcome;
                }
                if outcome.compared == traces {
                    return outcome;
                }
            }
        }
        outcome
    }

    /// The verdicts of the next traces in order; one share a thread.
    fn block(&self, from: u64) -> Vec<Verdict> {
        let threads = self.threads.max(1) as u64;
        thread::scope(|scope| {
            let work = |place: u64| scope.spawn(move || self.share(from + place * SHARE));
            let handles: Vec<_> = (0..threads).map(work).collect();
            handles
                .into_iter()
                .flat_map(|handle| handle.join().unwrap_or_else(|what| resume_unwind(what)))
                .collect()
        })
    }

    fn share(&self, from: u64) -> Vec<Verdict> {
        let drawn: Vec<(Kind, Vec<u8>)> = (from..from + SHARE)
            .map(|number| self.draw.trace(number))
            .collect();
        let admitted: Vec<bool> = drawn
            .iter()
            .map(|(_, trace)| self.draw.admits(trace))
            .collect();
        let list: Vec<&[u8]> = drawn
            .iter()
            .zip(&admitted)
            .filter(|(_, &ok)| ok)
            .map(|((_, t), _)| &t[..])
            .collect();
        let mut started = [0, 1].map(|side| self.programs[side].start(&list, self.show));
        let mut verdicts = Vec::with_capacity(drawn.len());
        for (place, (kind, trace)) in drawn.iter().enumerate() {
            if !admitted[place] {
                verdicts.push(Verdict::LeftOut);
                continue;
            }
            let [left, right] = &mut started;
            if left.next(trace) == right.next(trace) {
                verdicts.push(Verdict::Agree);
                continue;
            }
            let number = from + place as u64;
            verdicts.push(Verdict::Differ(Box::new(Difference {
                number,
                kind: *kind,
                trace: trace.clone(),
            })));
            return verdicts;
        }
        verdicts
    }
}
