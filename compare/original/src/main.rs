//! The command: a trace, or many with `--batch`, on standard input; the original's plan on standard output.

use std::io::{self, Read, Write};
use std::process::ExitCode;

use original::{digested, present, run, Build, Show};

struct Words {
    show: Show,
    build: Build,
    digest: bool,
    batch: bool,
}

fn main() -> ExitCode {
    match words().and_then(obey) {
        Ok(()) => ExitCode::SUCCESS,
        Err(text) => {
            eprintln!("original: {text}");
            ExitCode::FAILURE
        }
    }
}

fn words() -> Result<Words, String> {
    let mut words = Words {
        show: Show::default(),
        build: Build::Published,
        digest: false,
        batch: false,
    };
    for word in std::env::args().skip(1) {
        match word.as_str() {
            "--details" => words.show.details = true,
            "--digest" => words.digest = true,
            "--batch" => words.batch = true,
            "--ordered" => words.build = Build::Ordered,
            _ => {
                return Err(format!(
                    "no such word: {word} (--details, --digest, --batch, --ordered)"
                ))
            }
        }
    }
    Ok(words)
}

fn obey(words: Words) -> Result<(), String> {
    if !present() {
        return Err("built without the original".to_string());
    }
    let done = if words.batch {
        many(&words)
    } else {
        one(&words)
    };
    done.map_err(|error| error.to_string())
}

fn answer(trace: &[u8], words: &Words) -> String {
    let text = run(trace, words.show, words.build);
    if words.digest {
        digested(&text)
    } else {
        text
    }
}

fn one(words: &Words) -> io::Result<()> {
    let mut trace = Vec::new();
    io::stdin().lock().read_to_end(&mut trace)?;
    let lines = answer(&trace, words);
    io::stdout().lock().write_all(lines.as_bytes())
}

/// Each answer goes out at once, so that a caller may wait for it before it sends the next trace.
fn many(words: &Words) -> io::Result<()> {
    let mut input = io::stdin().lock();
    let mut output = io::stdout().lock();
    while let Some(trace) = next(&mut input)? {
        let lines = answer(&trace, words);
        writeln!(output, "{lines}.")?;
        output.flush()?;
    }
    Ok(())
}

/// The next trace of a batch; `None` where the input ends between two. The top bit of a length is about event lines, of which there
/// are none here.
fn next(input: &mut impl Read) -> io::Result<Option<Vec<u8>>> {
    let mut length = [0; 4];
    if input.read(&mut length[..1])? == 0 {
        return Ok(None);
    }
    input.read_exact(&mut length[1..])?;
    let mut trace = vec![0; (u32::from_le_bytes(length) & !(1 << 31)) as usize];
    input.read_exact(&mut trace)?;
    Ok(Some(trace))
}
