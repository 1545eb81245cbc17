//! The programs that are compared: in this process, or started.

use crate::child::{self, Batch};
use original::Build;
use std::cell::Cell;
use std::panic;

/// What the programs are asked to print besides the plan.
#[derive(Clone, Copy, Default)]
pub struct Show {
    pub details: bool,
    pub events: bool,
}

/// A program by the word that names it.
#[derive(Clone)]
pub enum Program {
    Second,
    Original(Build),
    /// started for many traces, with these words
    Batch(Vec<String>),
    /// started for each trace, with these words
    Each(Vec<String>),
}

impl Program {
    pub fn named(text: &str) -> Result<Program, String> {
        let words =
            |rest: &str| -> Vec<String> { rest.split_whitespace().map(str::to_string).collect() };
        let program = match text.split_once(':') {
            None if text == "second" => Program::Second,
            None if text == "original" => Program::Original(Build::Published),
            None if text == "original-ordered" => Program::Original(Build::Ordered),
            Some(("batch", rest)) if !words(rest).is_empty() => Program::Batch(words(rest)),
            Some(("each", rest)) if !words(rest).is_empty() => Program::Each(words(rest)),
            _ => {
                return Err(format!(
                "no program `{text}`: second, original, original-ordered, batch:PATH or each:PATH"
            ))
            }
        };
        if program.is_original() && !original::present() {
            return Err("the original's files were not there when this was built".to_string());
        }
        Ok(program)
    }

    pub fn is_original(&self) -> bool {
        matches!(self, Program::Original(_))
    }

    /// Whether two runs on one trace may differ: the order of a map is drawn anew for each.
    pub fn wavers(&self) -> bool {
        matches!(self, Program::Original(Build::Published))
    }

    /// Gets ready to answer these traces in their order.
    pub fn start<'a>(&'a self, traces: &[&[u8]], show: Show) -> Session<'a> {
        let batch = match self {
            Program::Batch(words) if !traces.is_empty() => Some(Batch::start(words, traces, show)),
            _ => None,
        };
        Session {
            program: self,
            show,
            batch,
        }
    }

    /// The output for a single trace.
    pub fn answer(&self, trace: &[u8], show: Show) -> String {
        self.start(&[trace], show).next(trace)
    }
}

/// A program at work on a list of traces.
pub struct Session<'a> {
    program: &'a Program,
    show: Show,
    batch: Option<Result<Batch, String>>,
}

impl Session<'_> {
    /// The output for the next trace of the list, which is given again.
    pub fn next(&mut self, trace: &[u8]) -> String {
        let Show { details, events } = self.show;
        match (self.program, &mut self.batch) {
            (Program::Second, _) => {
                guarded(|| second::run(trace, second::Show { details, events }))
            }
            (Program::Original(build), _) => {
                guarded(|| original::run(trace, original::Show { details, events }, *build))
            }
            (Program::Each(words), _) => child::each(words, trace, self.show),
            (Program::Batch(_), Some(Ok(batch))) => batch.next(),
            (Program::Batch(_), Some(Err(what))) => format!("({what})\n"),
            (Program::Batch(_), None) => "(not started)\n".to_string(),
        }
    }
}

thread_local! {
    static GUARDED: Cell<bool> = const { Cell::new(false) };
}

/// Keeps a compared program's panic off the terminal: it becomes its output.
pub fn quiet_panics() {
    let usual = panic::take_hook();
    panic::set_hook(Box::new(move |info| {
        if !GUARDED.get() {
            usual(info);
        }
    }));
}

fn guarded(run: impl FnOnce() -> String) -> String {
    GUARDED.set(true);
    let answer = panic::catch_unwind(panic::AssertUnwindSafe(run));
    GUARDED.set(false);
    answer.unwrap_or_else(|what| {
        let text = what.downcast_ref::<String>().cloned();
        let text = text.or_else(|| what.downcast_ref::<&str>().map(|s| s.to_string()));
        format!("(panicked: {})\n", text.unwrap_or_default())
    })
}
