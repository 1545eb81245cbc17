//! The command: one trace, or many, from standard input to lines on standard output.

use std::io::{self, Read, Write};
use std::process::ExitCode;

use second::trace::TRACE_BYTES;
use second::{digested, run, Show};

const USAGE: &str = "usage: second [--details] [--events] [--digest] [--batch] < trace";

/// The bit of a frame's length that asks for no event lines.
const BARE: u32 = 1 << 31;

#[derive(Clone, Copy, Default)]
struct Words {
    show: Show,
    digest: bool,
    batch: bool,
}

fn main() -> ExitCode {
    let mut words = Words::default();
    for word in std::env::args_os().skip(1) {
        match word.to_str() {
            Some("--details") => words.show.details = true,
            Some("--events") => {
                words.show.details = true;
                words.show.events = true;
            }
            Some("--digest") => words.digest = true,
            Some("--batch") => words.batch = true,
            _ => {
                eprintln!("{USAGE}");
                return ExitCode::from(2);
            }
        }
    }
    let done = if words.batch { many(words) } else { one(words) };
    match done {
        Ok(()) => ExitCode::SUCCESS,
        Err(error) => {
            eprintln!("second: {error}");
            ExitCode::FAILURE
        }
    }
}

fn answer(trace: &[u8], words: Words) -> String {
    let text = run(trace, words.show);
    if words.digest {
        digested(&text)
    } else {
        text
    }
}

/// One byte over the limit is enough to refuse by, however many follow.
fn one(words: Words) -> io::Result<()> {
    let mut trace = Vec::new();
    io::stdin()
        .lock()
        .take(TRACE_BYTES as u64 + 1)
        .read_to_end(&mut trace)?;
    io::stdout()
        .lock()
        .write_all(answer(&trace, words).as_bytes())
}

/// Traces one after another, each after its length; a line with a dot ends each output.
fn many(words: Words) -> io::Result<()> {
    let mut input = io::stdin().lock();
    let mut output = io::stdout().lock();
    while let Some(word) = next_word(&mut input)? {
        let length = u64::from(word & !BARE);
        let mut these = words;
        these.show.events &= word & BARE == 0;
        let mut trace = Vec::new();
        input.by_ref().take(length).read_to_end(&mut trace)?;
        if trace.len() as u64 != length {
            return Err(io::ErrorKind::UnexpectedEof.into());
        }
        output.write_all(answer(&trace, these).as_bytes())?;
        output.write_all(b".\n")?;
        output.flush()?;
    }
    Ok(())
}

/// The word before the next trace; none at the end of the input.
fn next_word(input: &mut impl Read) -> io::Result<Option<u32>> {
    let mut word = Vec::new();
    input.by_ref().take(4).read_to_end(&mut word)?;
    match <[u8; 4]>::try_from(word.as_slice()) {
        Ok(bytes) => Ok(Some(u32::from_le_bytes(bytes))),
        Err(_) if word.is_empty() => Ok(None),
        Err(_) => Err(io::ErrorKind::UnexpectedEof.into()),
    }
}
