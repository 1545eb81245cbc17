//! The command itself: samples, agreement, a difference that is found and reduced, and wrong words.

use std::process::{Command, Output};

fn judge(words: &[&str]) -> Output {
    Command::new(env!("CARGO_BIN_EXE_judge"))
        .args(words)
        .output()
        .expect("the command starts")
}

fn text(output: &Output) -> String {
    String::from_utf8_lossy(&output.stdout).into_owned()
}

#[test]
fn every_sample_prints_what_is_expected() {
    let samples = concat!(env!("CARGO_MANIFEST_DIR"), "/../../samples");
    let output = judge(&["samples", samples]);
    let told = String::from_utf8_lossy(&output.stderr).into_owned();
    assert!(output.status.success(), "{told}");
    assert!(text(&output).contains("worked-example.txt"));
}

#[test]
fn a_program_agrees_with_itself() {
    let output = judge(&["second", "second", "--events", "--traces", "300"]);
    assert_eq!(output.status.code(), Some(0));
    assert!(text(&output).contains("compared 300") && text(&output).ends_with("all agree\n"));
}

#[test]
fn traces_to_load_are_compared() {
    let output = judge(&["second", "second", "--loads", "--traces", "300"]);
    assert_eq!(output.status.code(), Some(0));
    assert!(text(&output).contains("compared 300"), "{}", text(&output));
}

/// The length of a frame stands before it, low byte first.
#[test]
fn frames_are_written() {
    let output = judge(&["frames", "--traces", "1", "--kind", "domain"]);
    assert_eq!(output.status.code(), Some(0));
    let (word, trace) = output.stdout.split_at(4);
    assert_eq!(word, (trace.len() as u32).to_le_bytes());
}

#[test]
fn a_program_that_prints_its_input_is_found_out() {
    let output = judge(&["second", "each:cat", "--traces", "20", "--kind", "domain"]);
    assert_eq!(output.status.code(), Some(1));
    // of a readable trace the end record stays
    assert!(text(&output).contains("to 1:\nend\n"), "{}", text(&output));
}

#[test]
fn a_program_without_answers_is_found_out() {
    for program in ["batch:true", "batch:no-such-program", "each:false"] {
        let output = judge(&["second", program, "--traces", "5", "--no-reduce"]);
        assert_eq!(output.status.code(), Some(1), "{program}");
        assert!(
            text(&output).contains("difference at trace 0 "),
            "{program}"
        );
    }
}

#[test]
fn the_numbers_of_compared_traces_are_those_asked_for() {
    let output = judge(&["second", "second", "--domain", "--traces", "77"]);
    assert!(
        text(&output).contains(", compared 77,"),
        "{}",
        text(&output)
    );
}

#[test]
fn wrong_words_are_refused() {
    for words in [
        &["second"][..],
        &["second", "nobody"],
        &["one", "second", "second"],
        &["samples", "no-such-folder"],
        &["frames", "--details"],
    ] {
        assert_eq!(judge(words).status.code(), Some(2), "{words:?}");
    }
}
