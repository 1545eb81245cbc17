//! The command: times the planners on traces of each kind, in one process, and prints tables; or runs one planner alone.

mod clock;
mod planners;
mod table;
mod traces;

use planners::{bench_plan, lent, present};
use std::path::Path;
use std::process::ExitCode;
use traces::{Kind, TRACES};

const USAGE: &str =
    "usage: bench [--rounds N] [KIND..]   time these kinds; without one, all and the growth
       bench --write FOLDER [KIND..]   write each trace as FOLDER/KIND-N.trace
       bench --who                     print which planners are here
       bench --one WHO TIMES FILE..    plan the files so often by one of them, or by none";

/// Rounds over all planners, of which the median counts.
const ROUNDS: usize = 9;

fn main() -> ExitCode {
    let words: Vec<String> = std::env::args().skip(1).collect();
    let words: Vec<&str> = words.iter().map(String::as_str).collect();
    let done = match words.as_slice() {
        ["--who"] => {
            present().for_each(|(_, name)| println!("{name}"));
            Ok(())
        }
        ["--one", who, times, files @ ..] => one(who, times, files),
        ["--write", folder, names @ ..] => write(Path::new(folder), names),
        ["--rounds", rounds, names @ ..] => whole(rounds).and_then(|rounds| time(rounds, names)),
        names => time(ROUNDS, names),
    };
    match done {
        Ok(()) => ExitCode::SUCCESS,
        Err(what) => {
            eprintln!("bench: {what}");
            ExitCode::FAILURE
        }
    }
}

fn whole(text: &str) -> Result<usize, String> {
    text.parse()
        .map_err(|_| format!("`{text}` is not a whole number\n{USAGE}"))
}

/// The kinds of these names, or all.
fn chosen(names: &[&str]) -> Result<Vec<Kind>, String> {
    let mut kinds = traces::kinds();
    if let Some(name) = names
        .iter()
        .find(|name| kinds.iter().all(|kind| kind.name != **name))
    {
        let known: Vec<&str> = kinds.iter().map(|kind| kind.name.as_str()).collect();
        return Err(format!("no kind `{name}`: {}\n{USAGE}", known.join(" ")));
    }
    kinds.retain(|kind| names.is_empty() || names.contains(&kind.name.as_str()));
    Ok(kinds)
}

fn time(rounds: usize, names: &[&str]) -> Result<(), String> {
    let here: Vec<&str> = present().map(|(_, name)| name).collect();
    println!(
        "{}: a trace on which they differ ends this",
        here.join(", ")
    );
    println!("microseconds a step, of `loading` a load: {TRACES} traces a kind, each the median of {rounds} rounds\n");
    table::print("kind", &chosen(names)?, rounds)?;
    if names.is_empty() {
        table::print("at 128 GPUs", &traces::by_jobs(), rounds)?;
        table::print("at 128 jobs", &traces::by_gpus(), rounds)?;
    }
    Ok(())
}

fn write(folder: &Path, names: &[&str]) -> Result<(), String> {
    for kind in chosen(names)? {
        for (number, trace) in kind.traces().iter().enumerate() {
            let path = folder.join(format!("{}-{number}.trace", kind.name));
            std::fs::write(&path, trace).map_err(|error| format!("{}: {error}", path.display()))?;
        }
    }
    Ok(())
}

/// Plans files by one planner, and says how many steps that took and how much memory the process held at most.
fn one(who: &str, times: &str, files: &[&str]) -> Result<(), String> {
    let planner = present().find(|(_, name)| *name == who);
    if planner.is_none() && who != "none" {
        return Err(format!("no planner `{who}`\n{USAGE}"));
    }
    let mut words = lent();
    let mut steps = 0;
    for file in files {
        let trace = std::fs::read(file).map_err(|error| format!("{file}: {error}"))?;
        for _ in 0..whole(times)? {
            if let Some((who, _)) = planner {
                steps += bench_plan(who, &trace, &mut words).told(&words).steps;
            }
        }
    }
    println!("steps {steps} kilobytes {}", most_memory()?);
    Ok(())
}

/// The most memory that this process ever held, as the system counts it.
fn most_memory() -> Result<String, String> {
    let status = std::fs::read_to_string("/proc/self/status").map_err(|error| error.to_string())?;
    let line = status.lines().find_map(|line| line.strip_prefix("VmHWM:"));
    let word = line.and_then(|line| line.split_whitespace().next());
    word.map(str::to_string)
        .ok_or_else(|| "the system does not tell the memory held".to_string())
}
