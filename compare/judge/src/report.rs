//! Texts about differences.

use crate::program::{Program, Show};

/// Lines shown before the first one that differs.
const BEFORE: usize = 4;

/// Where two outputs part, with the lines before.
pub fn parting(names: [&str; 2], outputs: [&str; 2]) -> String {
    let lines = outputs.map(|output| output.lines().collect::<Vec<_>>());
    let at = lines[0]
        .iter()
        .zip(&lines[1])
        .take_while(|(one, two)| one == two)
        .count();
    let mut out = format!("line {} is the first that differs:\n", at + 1);
    for line in &lines[0][at.saturating_sub(BEFORE)..at] {
        out.push_str(&format!("    {line}\n"));
    }
    let width = names[0].len().max(names[1].len());
    for (name, list) in names.iter().zip(&lines) {
        let line = list.get(at).copied().unwrap_or("(no more lines)");
        out.push_str(&format!("  {name:width$} | {line}\n"));
    }
    out
}

/// A trace on which two programs differ: its records, its bytes, and where the outputs part.
pub fn difference(
    programs: &[Program; 2],
    names: [&str; 2],
    trace: &[u8],
    show: Show,
    tries: u32,
) -> String {
    let mut out = format!("{}\nbytes:", form::brief(trace).trim_end());
    trace
        .iter()
        .take(600)
        .for_each(|byte| out.push_str(&format!(" {byte:02x}")));
    out.push_str(if trace.len() > 600 { " ..\n" } else { "\n" });
    let seen = second::observe(trace);
    out.push_str(&format!("outside the domain by:{}\n", outside(&seen)));
    for _ in 0..tries.max(1) {
        let answers = [0, 1].map(|side| programs[side].answer(trace, show));
        if answers[0] != answers[1] {
            out.push_str(&parting(names, [&answers[0], &answers[1]]));
            return out;
        }
    }
    out.push_str("no difference this time\n");
    out
}

fn outside(seen: &second::Observed) -> String {
    let flags = crate::admit::flags(seen);
    let names: String = crate::admit::FLAGS
        .iter()
        .zip(flags)
        .filter(|(_, set)| *set)
        .map(|(name, _)| format!(" {name}"))
        .collect();
    match seen.refusal {
        Some(number) => format!("{names} refusal {number}"),
        None if names.is_empty() => " nothing".to_string(),
        None => names,
    }
}

#[cfg(test)]
mod tests {
    use super::parting;

    #[test]
    fn the_first_line_that_differs_is_shown_with_those_before() {
        let text = parting(
            ["a", "bee"],
            ["1\n2\n3\n4\n5\n6\nx\n", "1\n2\n3\n4\n5\n6\ny\n"],
        );
        assert_eq!(
            text,
            "line 7 is the first that differs:\n    3\n    4\n    5\n    6\n  a   | x\n  bee | y\n"
        );
    }

    #[test]
    fn a_missing_line_is_a_difference() {
        assert!(
            parting(["a", "b"], ["1\n", "1\n2\n"]).ends_with("  a | (no more lines)\n  b | 2\n")
        );
    }
}
