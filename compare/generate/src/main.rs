//! The command `generate KIND SEED`, or `generate --survey COUNT SEED`.

use std::io::{self, Write};
use std::process::ExitCode;

fn main() -> ExitCode {
    let words: Vec<String> = std::env::args().skip(1).collect();
    let words: Vec<&str> = words.iter().map(String::as_str).collect();
    match answer(&words) {
        Ok(bytes) => match io::stdout().write_all(&bytes) {
            Ok(()) => ExitCode::SUCCESS,
            Err(_) => ExitCode::from(2),
        },
        Err(what) => {
            eprintln!("generate: {what}");
            ExitCode::from(2)
        }
    }
}

fn answer(words: &[&str]) -> Result<Vec<u8>, String> {
    match words {
        ["--survey", count, seed] => {
            Ok(generate::survey::survey(whole(count)?, whole(seed)?).into_bytes())
        }
        ["any", seed] => Ok(generate::any(whole(seed)?).1),
        [name, seed] => {
            let kind = generate::Kind::named(name)
                .ok_or_else(|| format!("no kind `{name}`; {}", usage()))?;
            Ok(generate::trace(kind, whole(seed)?))
        }
        _ => Err(usage()),
    }
}

fn whole(text: &str) -> Result<u64, String> {
    text.parse()
        .map_err(|_| format!("`{text}` is not a whole number"))
}

fn usage() -> String {
    let names: Vec<&str> = generate::KINDS.iter().map(|row| row.1).collect();
    format!(
        "usage: generate KIND SEED | generate --survey COUNT SEED; kinds: any {}",
        names.join(" ")
    )
}
