//! Plans the trace on standard input and prints its lines: what the program `plan` prints.

use std::io::{stdin, stdout, BufWriter, Read, Result, Write};
use std::process::ExitCode;

use gpu_planner::{plan, Decision, End, Planned};

/// One byte over what a trace may have is enough to refuse it by.
const KEPT: u64 = 65_537;

fn main() -> ExitCode {
    match print_plan() {
        Ok(()) => ExitCode::SUCCESS,
        Err(error) => {
            eprintln!("print_plan: {error}");
            ExitCode::FAILURE
        }
    }
}

fn print_plan() -> Result<()> {
    let mut trace = Vec::new();
    stdin().lock().take(KEPT).read_to_end(&mut trace)?;
    let mut out = BufWriter::new(stdout().lock());
    match plan(&trace) {
        Ok(planned) => lines(&mut out, &planned)?,
        Err(refused) => {
            writeln!(out, "refused {} at {}", refused.number, refused.place)?;
            eprintln!("print_plan: {refused}");
        }
    }
    out.flush()
}

fn lines(out: &mut impl Write, planned: &Planned) -> Result<()> {
    for decision in &planned.decisions {
        line(out, decision)?;
    }
    match planned.end {
        End::NoEvent => writeln!(out, "end {}", planned.steps),
        End::NotPermitted => writeln!(out, "refused 12"),
    }
}

fn line(out: &mut impl Write, decision: &Decision) -> Result<()> {
    match *decision {
        Decision::Arrived { time, job } => writeln!(out, "{} arrived {job}", bits(time)),
        Decision::Failed { time, job } => writeln!(out, "{} failed {job}", bits(time)),
        Decision::Completed { time, job, size } => {
            writeln!(out, "{} completed {job} {size}", bits(time))
        }
        Decision::Evicted { time, job, sake } => {
            writeln!(out, "{} evicted {job} {sake}", bits(time))
        }
        Decision::Started { time, job, size } => {
            writeln!(out, "{} started {job} {size}", bits(time))
        }
    }
}

fn bits(time: f64) -> String {
    format!("{:016x}", time.to_bits())
}
