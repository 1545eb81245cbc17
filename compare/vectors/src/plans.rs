//! Whole plans: traces with every line that has to be printed, each by the judge that decides there.
//!
//! Traces are drawn of all kinds by turns, from a fixed seed, and sorted into classes by what the second program observes in them. A
//! class keeps a trace that brings a feature which few kept so far have, until it has enough; short ones only. The samples come last,
//! with their stored lines.

use std::collections::HashMap;
use std::fs;
use std::path::{Path, PathBuf};

use generate::KINDS;
use original::Build;
use second::{observe, Observed};

/// A trace and what has to be printed for it, by whom.
pub struct Planned {
    pub trace: Vec<u8>,
    pub lines: String,
    pub by: &'static str,
}

/// Who says what has to be printed.
#[derive(Clone, Copy)]
enum Judge {
    Original(Build),
    Second,
}

/// Traces of one sort: how many are kept, and who says their lines.
struct Class {
    judge: Judge,
    wanted: usize,
    belongs: fn(&Observed) -> bool,
}

const SEED: u64 = 20_001;
/// Bytes of a trace, and of its lines, at most.
const SHORT: usize = 700;
const FEW: usize = 1_400;
/// Traces that are drawn for a class, and those of them among which a feature has to be rare.
const DRAWN: u64 = 60_000;
const CHOOSY: u64 = 30_000;
/// How many kept traces of a class make a feature common.
const COMMON: usize = 3;

const CLASSES: [Class; 7] = [
    Class {
        judge: Judge::Original(Build::Published),
        wanted: 120,
        belongs: |seen| accepted(seen) && !tied(seen) && !apart(seen),
    },
    Class {
        judge: Judge::Original(Build::Ordered),
        wanted: 100,
        belongs: |seen| accepted(seen) && tied(seen) && !apart(seen),
    },
    // D, J and K
    Class {
        judge: Judge::Second,
        wanted: 30,
        belongs: |seen| accepted(seen) && seen.domain.pass_quota,
    },
    Class {
        judge: Judge::Second,
        wanted: 30,
        belongs: |seen| accepted(seen) && seen.domain.too_many,
    },
    Class {
        judge: Judge::Second,
        wanted: 30,
        belongs: |seen| accepted(seen) && seen.domain.recut,
    },
    Class {
        judge: Judge::Second,
        wanted: 30,
        belongs: |seen| seen.refusal == Some(12),
    },
    Class {
        judge: Judge::Second,
        wanted: 20,
        belongs: |seen| seen.refusal.is_some_and(|number| number < 10),
    },
];

fn accepted(seen: &Observed) -> bool {
    seen.refusal.is_none()
}

fn tied(seen: &Observed) -> bool {
    seen.domain.tie || seen.domain.choice
}

fn apart(seen: &Observed) -> bool {
    seen.domain.pass_quota || seen.domain.too_many || seen.domain.recut
}

/// What the second program prints.
pub fn asked(trace: &[u8]) -> String {
    second::run(trace, second::Show::default())
}

impl Judge {
    fn planned(self, trace: Vec<u8>) -> Planned {
        let show = original::Show::default();
        let (by, lines) = match self {
            Judge::Original(Build::Published) => {
                ("original", original::run(&trace, show, Build::Published))
            }
            Judge::Original(Build::Ordered) => {
                ("ordered build", original::run(&trace, show, Build::Ordered))
            }
            Judge::Second => ("second", asked(&trace)),
        };
        Planned { trace, lines, by }
    }
}

/// The kept traces of a class.
#[derive(Default)]
struct Kept {
    traces: Vec<Vec<u8>>,
    met: HashMap<&'static str, usize>,
}

impl Kept {
    /// Whether a feature of the trace is still rare here.
    fn lacks(&self, seen: &Observed) -> bool {
        let rare = |name: &str| self.met.get(name).is_none_or(|&met| met < COMMON);
        seen.features.iter().any(|(name, n)| *n > 0 && rare(name))
    }

    fn keep(&mut self, trace: Vec<u8>, seen: &Observed) {
        for (name, _) in seen.features.iter().filter(|(_, n)| *n > 0) {
            *self.met.entry(name).or_default() += 1;
        }
        self.traces.push(trace);
    }
}

/// Every drawn trace goes to the first class that it belongs to.
fn drawn() -> Vec<Kept> {
    let mut kept: Vec<Kept> = CLASSES.iter().map(|_| Kept::default()).collect();
    let full = |kept: &[Kept]| {
        let mut each = CLASSES.iter().zip(kept);
        each.all(|(class, kept)| kept.traces.len() == class.wanted)
    };
    for number in 0..DRAWN {
        if full(&kept) {
            break;
        }
        let kind = KINDS[(number % KINDS.len() as u64) as usize].0;
        let trace = generate::trace(kind, generate::seed_of(SEED, number));
        if trace.len() > SHORT || asked(&trace).len() > FEW {
            continue;
        }
        let seen = observe(&trace);
        let Some(at) = CLASSES.iter().position(|class| (class.belongs)(&seen)) else {
            continue;
        };
        let open = kept[at].traces.len() < CLASSES[at].wanted;
        if open && (number >= CHOOSY || kept[at].lacks(&seen)) {
            kept[at].keep(trace, &seen);
        }
    }
    kept
}

/// The samples, in the order of their names; of their stored lines those that begin with `#` are no part of the plan.
fn samples(folder: &Path) -> Result<Vec<Planned>, String> {
    let told =
        |path: &Path, what: &dyn ToString| format!("{}: {}", path.display(), what.to_string());
    let listed = fs::read_dir(folder).map_err(|error| told(folder, &error))?;
    let mut paths: Vec<PathBuf> = listed.flatten().map(|entry| entry.path()).collect();
    paths.retain(|path| path.extension().is_some_and(|ending| ending == "txt"));
    paths.sort();
    let one = |path: &PathBuf| {
        let text = |path: &Path| fs::read_to_string(path).map_err(|error| told(path, &error));
        let expected = text(&path.with_extension("expected"))?;
        let plan = expected.lines().filter(|line| !line.starts_with('#'));
        Ok(Planned {
            trace: form::encode(&text(path)?).map_err(|fault| told(path, &fault))?,
            lines: plan.map(|line| format!("{line}\n")).collect(),
            by: "sample",
        })
    };
    paths.iter().map(one).collect()
}

/// All of them; none without the original.
pub fn all() -> Result<Vec<Planned>, String> {
    if !original::present() {
        return Err("built without the original, which says what many plans are".to_string());
    }
    let mut out = Vec::new();
    for (class, kept) in CLASSES.iter().zip(drawn()) {
        out.extend(kept.traces.into_iter().map(|t| class.judge.planned(t)));
    }
    let folder = concat!(env!("CARGO_MANIFEST_DIR"), "/../../samples");
    out.extend(samples(Path::new(folder))?);
    Ok(out)
}

#[cfg(test)]
mod tests {
    use super::*;

    #[test]
    fn every_feature_is_met_and_every_class_is_full() {
        let kept = drawn();
        for (class, kept) in CLASSES.iter().zip(&kept) {
            assert_eq!(kept.traces.len(), class.wanted);
        }
        for (name, _) in observe(&[0]).features {
            let met = kept.iter().any(|kept| kept.met.contains_key(name));
            // only a long trace meets it, which `lengths` has
            assert!(met || name == "refusal 9", "{name}");
        }
    }
}
