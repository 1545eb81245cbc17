//! The command `judge`: compares two programs on generated or stored traces and reduces what they differ on.

mod admit;
mod child;
mod contest;
mod draw;
mod frames;
mod program;
mod reduce;
mod report;
mod samples;
mod words;

use contest::{Contest, Difference};
use program::Program;
use std::io::Write;
use std::path::Path;
use std::process::ExitCode;
use std::time::Instant;
use words::Words;

/// Runs of one trace after which two programs, one of which wavers, are held to agree on it.
const TRIES: u32 = 12;

fn main() -> ExitCode {
    program::quiet_panics();
    let list: Vec<String> = std::env::args().skip(1).collect();
    let list: Vec<&str> = list.iter().map(String::as_str).collect();
    let done = match list.as_slice() {
        ["frames", rest @ ..] => {
            frames::frames(rest).and_then(|bytes| written(&bytes).map(|()| (String::new(), true)))
        }
        ["samples", folder] => samples::check(Path::new(folder)).map(|text| (text, true)),
        ["one", rest @ ..] => Words::read(rest).and_then(|words| one(&words)),
        ["reduce", rest @ ..] => Words::read(rest).and_then(|words| smallest(&words)),
        _ => Words::read(&list).and_then(|words| compare(&words)),
    };
    match done {
        Ok((text, agree)) => {
            print!("{text}");
            ExitCode::from(u8::from(!agree))
        }
        Err(what) => {
            eprintln!("judge: {what}");
            ExitCode::from(2)
        }
    }
}

fn written(bytes: &[u8]) -> Result<(), String> {
    let done = std::io::stdout().lock().write_all(bytes);
    done.map_err(|error| error.to_string())
}

fn tries(programs: &[Program; 2]) -> u32 {
    if programs.iter().any(Program::wavers) {
        TRIES
    } else {
        1
    }
}

fn differ(words: &Words, trace: &[u8]) -> bool {
    (0..tries(&words.programs)).any(|_| {
        let answers = [0, 1].map(|side| words.programs[side].answer(trace, words.show));
        answers[0] != answers[1]
    })
}

fn shown(words: &Words, trace: &[u8]) -> String {
    let names = [words.names[0].as_str(), words.names[1].as_str()];
    report::difference(
        &words.programs,
        names,
        trace,
        words.show,
        4 * tries(&words.programs),
    )
}

fn reduced(words: &Words, trace: &[u8]) -> Vec<u8> {
    reduce::reduce(trace, &mut |smaller| {
        words.draw.admits(smaller) && differ(words, smaller)
    })
}

fn compare(words: &Words) -> Result<(String, bool), String> {
    if words.file.is_some() {
        return Err(words::usage());
    }
    let begun = Instant::now();
    let outcome = contest(words).run();
    let counted = format!(
        "generated {}, compared {}, {:.1} s\n",
        outcome.generated,
        outcome.compared,
        begun.elapsed().as_secs_f64()
    );
    match &outcome.difference {
        Some(found) => Ok((counted + &told(words, found), false)),
        None if outcome.compared < words.draw.traces => {
            Err(format!("{counted}too few traces are admitted"))
        }
        None => Ok((counted + "all agree\n", true)),
    }
}

fn contest(words: &Words) -> Contest {
    Contest {
        programs: words.programs.clone(),
        show: words.show,
        draw: words.draw,
        threads: words.threads,
    }
}

fn told(words: &Words, found: &Difference) -> String {
    let mut text = format!(
        "difference at trace {} of seed {} (kind {})\n",
        found.number,
        words.draw.seed,
        found.kind.name()
    );
    if words.reduce {
        let small = reduced(words, &found.trace);
        let lengths = format!(
            "reduced from {} bytes to {}",
            found.trace.len(),
            small.len()
        );
        text.push_str(&format!("{lengths}:\n{}", shown(words, &small)));
    }
    text
}

/// A stored trace: bytes, or readable text where the name ends in `.txt`.
fn stored(words: &Words) -> Result<Vec<u8>, String> {
    let name = words.file.as_ref().ok_or_else(words::usage)?;
    let bytes = std::fs::read(name).map_err(|error| format!("{name}: {error}"))?;
    if !name.ends_with(".txt") {
        return Ok(bytes);
    }
    let text = String::from_utf8(bytes).map_err(|_| format!("{name}: not UTF-8"))?;
    form::encode(&text).map_err(|fault| format!("{name}: {fault}"))
}

fn one(words: &Words) -> Result<(String, bool), String> {
    let trace = stored(words)?;
    if differ(words, &trace) {
        return Ok((shown(words, &trace), false));
    }
    Ok(("agree\n".to_string(), true))
}

fn smallest(words: &Words) -> Result<(String, bool), String> {
    let trace = stored(words)?;
    if !words.draw.admits(&trace) {
        return Err("the trace is not in the domain asked for".to_string());
    }
    if !differ(words, &trace) {
        return Ok(("agree\n".to_string(), true));
    }
    Ok((shown(words, &reduced(words, &trace)), false))
}
