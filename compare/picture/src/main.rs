//! The command `picture TRACE < PLAN > out.svg`.

use std::io::{self, Write};
use std::path::Path;
use std::process::ExitCode;

fn main() -> ExitCode {
    match answer() {
        Ok(svg) if io::stdout().write_all(svg.as_bytes()).is_ok() => ExitCode::SUCCESS,
        Ok(_) => ExitCode::from(2),
        Err(what) => {
            eprintln!("picture: {what}");
            ExitCode::from(2)
        }
    }
}

fn answer() -> Result<String, String> {
    let words: Vec<_> = std::env::args_os().skip(1).collect();
    let [word] = words.as_slice() else {
        return Err("usage: picture TRACE < PLAN > out.svg".to_string());
    };
    let path = Path::new(word);
    let trace = std::fs::read(path).map_err(|error| format!("{}: {error}", path.display()))?;
    let plan = io::read_to_string(io::stdin()).map_err(|error| format!("plan: {error}"))?;
    let name = path.file_stem().unwrap_or_default().to_string_lossy();
    picture::picture(&name, &trace, &plan)
}
