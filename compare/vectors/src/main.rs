//! The command `vectors FILE`: writes the stored cases that the program `replay` is run on; FILE is `crates/replay/stdin`.
//!
//! Cases of a load are made here by hand, family by family (`fields`, `records`, `lengths`), each with the refusal that document 01
//! gives it, or none; the numbers are encoded by `form`, as the generated traces are. Cases of a whole plan (`plans`) are generated
//! traces with the lines that the original, its ordered build or, where neither decides, the second program prints, and the samples.
//! The second program is asked for the answer of every case, and nothing is written if it says otherwise than the case. `stored`
//! describes the file. `vectors --list` shows the cases as text.

mod fields;
mod lengths;
mod plans;
mod records;
mod shape;
mod stored;

use plans::Planned;
use std::process::ExitCode;
use stored::Pieces;

/// A trace and the number and place of its refusal, none where it is accepted.
pub struct Case {
    trace: Pieces,
    told: Option<(u32, usize)>,
}

impl Case {
    pub fn of(bytes: &[u8], told: Option<(u32, usize)>) -> Case {
        Case::made(Pieces::default().once(bytes), told)
    }

    pub fn made(trace: Pieces, told: Option<(u32, usize)>) -> Case {
        Case { trace, told }
    }

    /// What the second program says.
    fn asked(&self) -> Option<(u32, usize)> {
        let refusal = second::load(&self.trace.bytes()).refusal;
        refusal.map(|refusal| (refusal.number, refusal.place))
    }
}

fn all() -> Vec<Case> {
    let mut cases = fields::cases();
    cases.extend(records::cases());
    cases.extend(lengths::cases());
    cases
}

fn shown(told: Option<(u32, usize)>) -> String {
    match told {
        Some((number, place)) => format!("refused {number} at {place}"),
        None => "loaded".to_string(),
    }
}

/// The file, or the first case on which the second program says otherwise.
fn file(cases: &[Case], planned: &[Planned]) -> Result<Vec<u8>, String> {
    let mut out = Vec::new();
    for (number, case) in cases.iter().enumerate() {
        let asked = case.asked();
        if asked != case.told {
            let [told, asked] = [case.told, asked].map(shown);
            return Err(format!(
                "case {number}: made to be {told}, second says {asked}"
            ));
        }
        let (refusal, place) = case.told.unwrap_or_default();
        let answer = stored::load_answer(refusal, place);
        stored::write(stored::LOAD, &case.trace, &answer, &mut out);
    }
    for (number, plan) in planned.iter().enumerate() {
        if plans::asked(&plan.trace) != plan.lines {
            let number = cases.len() + number;
            return Err(format!("case {number}: {} and second differ", plan.by));
        }
        let trace = Pieces::default().once(&plan.trace);
        stored::write(stored::PLAN, &trace, plan.lines.as_bytes(), &mut out);
    }
    Ok(out)
}

fn list(cases: &[Case], planned: &[Planned]) -> String {
    let loads = cases
        .iter()
        .map(|case| (shown(case.told), case.trace.bytes()));
    let plans = planned.iter().map(|plan| {
        let last = plan.lines.lines().last().unwrap_or_default();
        (format!("{last}, by {}", plan.by), plan.trace.clone())
    });
    let line = |(number, (told, bytes)): (usize, (String, Vec<u8>))| {
        let shown: String = bytes.iter().take(48).map(|b| format!(" {b:02x}")).collect();
        let more = if bytes.len() > 48 { " .." } else { "" };
        format!("{number}: {told}, {} bytes:{shown}{more}\n", bytes.len())
    };
    loads.chain(plans).enumerate().map(line).collect()
}

fn done(words: &[&str]) -> Result<(), String> {
    let cases = all();
    let planned = plans::all()?;
    match words {
        ["--list"] => {
            print!("{}", list(&cases, &planned));
            Ok(())
        }
        [name] => {
            let bytes = file(&cases, &planned)?;
            println!(
                "{} cases, {} bytes",
                cases.len() + planned.len(),
                bytes.len()
            );
            std::fs::write(name, bytes).map_err(|error| format!("{name}: {error}"))
        }
        _ => Err("usage: vectors FILE | vectors --list".to_string()),
    }
}

fn main() -> ExitCode {
    let words: Vec<String> = std::env::args().skip(1).collect();
    let words: Vec<&str> = words.iter().map(String::as_str).collect();
    match done(&words) {
        Ok(()) => ExitCode::SUCCESS,
        Err(what) => {
            eprintln!("vectors: {what}");
            ExitCode::from(2)
        }
    }
}

#[cfg(test)]
mod tests {
    use super::*;
    use std::fs;

    /// The room that `replay` has for its cases.
    const ROOM: usize = 524_288;

    #[test]
    fn the_second_program_says_what_every_load_was_made_for() {
        assert!(file(&all(), &[]).is_ok());
    }

    /// What `replay` is run on is what is made here, and all of it fits.
    #[test]
    fn the_stored_file_is_the_one_made() {
        let Ok(planned) = plans::all() else {
            return;
        };
        let cases = all();
        let made = file(&cases, &planned).unwrap_or_else(|what| panic!("{what}"));
        assert!(made.len() < ROOM, "{}", made.len());
        let replay = concat!(env!("CARGO_MANIFEST_DIR"), "/../../crates/replay");
        let stored = fs::read(format!("{replay}/stdin"));
        assert!(stored.is_ok_and(|stored| stored == made), "make it again");
        let told = fs::read_to_string(format!("{replay}/stdout"));
        let number = cases.len() + planned.len();
        assert_eq!(told.ok(), Some(format!("{number} vectors, 0 wrong\n")));
    }

    #[test]
    fn every_refusal_of_a_load_is_met() {
        let cases = all();
        for number in 1..=9 {
            let met = |case: &&Case| case.told.is_some_and(|told| told.0 == number);
            assert!(cases.iter().filter(met).count() > 8, "{number}");
        }
        assert!(cases.iter().any(|case| case.told.is_none()));
    }
}
