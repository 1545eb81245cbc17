//! Admitted traces as frames, for a program that others run on them.

use crate::draw::Draw;
use crate::words::usage;

/// The bit of a frame's length that asks for no event lines.
const BARE: u32 = 1 << 31;

/// The frames that the words ask for.
pub fn frames(list: &[&str]) -> Result<Vec<u8>, String> {
    let mut draw = Draw::default();
    let mut bare = 0;
    let mut rest = list.iter();
    while let Some(&word) = rest.next() {
        let mut value = || {
            let next = rest.next().copied();
            next.ok_or_else(|| format!("{word} wants a value"))
        };
        if word == "--bare" {
            bare = BARE;
        } else if !draw.take(word, &mut value)? {
            return Err(usage());
        }
    }
    drawn(&draw, bare)
}

fn drawn(draw: &Draw, bare: u32) -> Result<Vec<u8>, String> {
    let mut out = Vec::new();
    let mut number = 0;
    for _ in 0..draw.traces {
        let trace = loop {
            if number == draw.most() {
                return Err("too few traces are admitted".to_string());
            }
            let (_, trace) = draw.trace(number);
            number += 1;
            if draw.admits(&trace) {
                break trace;
            }
        };
        out.extend_from_slice(&(trace.len() as u32 | bare).to_le_bytes());
        out.extend_from_slice(&trace);
    }
    Ok(out)
}

#[cfg(test)]
mod tests {
    use super::*;

    fn lengths(mut bytes: &[u8]) -> Vec<u32> {
        let mut found = Vec::new();
        while let Some((word, rest)) = bytes.split_first_chunk() {
            let word = u32::from_le_bytes(*word);
            found.push(word);
            bytes = &rest[(word & !BARE) as usize..];
        }
        found
    }

    #[test]
    fn as_many_frames_as_asked_for() {
        let plain = frames(&["--traces", "40", "--domain"]).unwrap_or_default();
        let bare = frames(&["--traces", "40", "--bare", "--domain"]).unwrap_or_default();
        assert_eq!(lengths(&plain).len(), 40);
        let marked: Vec<u32> = lengths(&plain).iter().map(|word| word | BARE).collect();
        assert_eq!(lengths(&bare), marked);
    }

    #[test]
    fn wrong_words_and_empty_domains_are_told() {
        assert!(frames(&["--what"]).is_err());
        assert!(frames(&["--traces"]).is_err());
        let none = ["--kind", "ties", "--jobs", "0", "--traces", "1"];
        assert!(frames(&none).is_err());
    }
}
