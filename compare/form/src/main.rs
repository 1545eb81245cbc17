//! The command `trace-form encode|decode [--short]`: standard input to standard output.

use std::io::{self, Read, Write};
use std::process::ExitCode;

const USAGE: &str = "usage: trace-form encode | trace-form decode [--short]";

fn main() -> ExitCode {
    let words: Vec<String> = std::env::args().skip(1).collect();
    let words: Vec<&str> = words.iter().map(String::as_str).collect();
    let mut input = Vec::new();
    let done = match io::stdin().read_to_end(&mut input) {
        Ok(_) => convert(&words, &input)
            .and_then(|out| io::stdout().write_all(&out).map_err(|e| e.to_string())),
        Err(error) => Err(error.to_string()),
    };
    match done {
        Ok(()) => ExitCode::SUCCESS,
        Err(what) => {
            eprintln!("trace-form: {what}");
            ExitCode::from(2)
        }
    }
}

fn convert(words: &[&str], input: &[u8]) -> Result<Vec<u8>, String> {
    match words {
        ["decode"] => Ok(form::decode(input).into_bytes()),
        ["decode", "--short"] => Ok(form::brief(input).into_bytes()),
        ["encode"] => form::encode(text(input)?).map_err(|fault| fault.to_string()),
        _ => Err(USAGE.to_string()),
    }
}

fn text(input: &[u8]) -> Result<&str, String> {
    std::str::from_utf8(input).map_err(|error| {
        let line = input[..error.valid_up_to()]
            .iter()
            .filter(|&&b| b == b'\n')
            .count()
            + 1;
        format!("line {line}: not UTF-8")
    })
}
