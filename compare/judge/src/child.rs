//! Programs that are started: fed traces in a batch, or one by one, with a limit on how long they may take.

use crate::program::Show;
use std::io::{BufRead, BufReader, Write};
use std::process::{Child, Command, Stdio};
use std::sync::mpsc::{sync_channel, Receiver, SyncSender};
use std::thread;
use std::time::Duration;

/// A program that says nothing for so long has no answer.
const PATIENCE: Duration = Duration::from_secs(20);

/// A program started for a list of traces.
pub struct Batch {
    child: Child,
    answers: Receiver<String>,
}

fn command(words: &[String], show: Show, batch: bool) -> Command {
    let mut command = Command::new(&words[0]);
    command.args(&words[1..]);
    for (wanted, word) in [
        (batch, "--batch"),
        (show.details, "--details"),
        (show.events, "--events"),
    ] {
        if wanted {
            command.arg(word);
        }
    }
    command
        .stdin(Stdio::piped())
        .stdout(Stdio::piped())
        .stderr(Stdio::null());
    command
}

impl Batch {
    pub fn start(words: &[String], traces: &[&[u8]], show: Show) -> Result<Batch, String> {
        let mut frames = Vec::new();
        for trace in traces {
            frames.extend_from_slice(&(trace.len() as u32).to_le_bytes());
            frames.extend_from_slice(trace);
        }
        let answers = run(command(words, show, true), frames, send_parts);
        answers
            .map(|(child, answers)| Batch { child, answers })
            .map_err(|what| format!("{}: {what}", words[0]))
    }

    /// The output for the next trace.
    pub fn next(&mut self) -> String {
        match self.answers.recv_timeout(PATIENCE) {
            Ok(answer) => answer,
            Err(_) => {
                let _ = self.child.kill();
                "(no answer)\n".to_string()
            }
        }
    }
}

impl Drop for Batch {
    fn drop(&mut self) {
        let _ = self.child.kill();
        let _ = self.child.wait();
    }
}

/// Starts a program; threads write its input and read its output, so that neither side waits for the other.
fn run<S>(
    mut command: Command,
    input: Vec<u8>,
    send: S,
) -> Result<(Child, Receiver<String>), String>
where
    S: FnOnce(&mut dyn BufRead, SyncSender<String>) + Send + 'static,
{
    let mut child = command.spawn().map_err(|error| error.to_string())?;
    let (Some(mut stdin), Some(stdout)) = (child.stdin.take(), child.stdout.take()) else {
        return Err("no pipes".to_string());
    };
    let (sender, receiver) = sync_channel(8);
    // a program may end without reading all; then writing fails and its answers are missing
    thread::spawn(move || stdin.write_all(&input));
    thread::spawn(move || send(&mut BufReader::with_capacity(1 << 16, stdout), sender));
    Ok((child, receiver))
}

/// Sends each part that ends with a line of a single dot.
fn send_parts(output: &mut dyn BufRead, sender: SyncSender<String>) {
    let mut part = Vec::new();
    loop {
        let from = part.len();
        if !matches!(output.read_until(b'\n', &mut part), Ok(length) if length > 0) {
            return;
        }
        if part[from..] == *b".\n" {
            part.truncate(from);
            if sender
                .send(String::from_utf8_lossy(&part).into_owned())
                .is_err()
            {
                return;
            }
            part.clear();
        }
    }
}

fn send_all(output: &mut dyn BufRead, sender: SyncSender<String>) {
    let mut all = Vec::new();
    if output.read_to_end(&mut all).is_ok() {
        let _ = sender.send(String::from_utf8_lossy(&all).into_owned());
    }
}

/// The output of a program started for one trace.
pub fn each(words: &[String], trace: &[u8], show: Show) -> String {
    match run(command(words, show, false), trace.to_vec(), send_all) {
        Ok((child, answers)) => Batch { child, answers }.next(),
        Err(what) => format!("({}: {what})\n", words[0]),
    }
}
