//! The stored form of the cases, which the program that replays them reads.
//!
//! A case is a byte of kind, its trace, and its expected answer: a word of length, then that many bytes. A trace is pieces, each a
//! word of how often it stands there, a word of length and its bytes; a word 0 ends them. A word is four bytes, low byte first. The
//! answer of kind 1, a load, is a byte for its number, 0 where the trace is accepted, and a word for its place; that of kind 2, a plan,
//! is the text that has to be printed. A reader can pass over a kind that it does not know.

/// The kind of a case that asks for the answer of a load.
pub const LOAD: u8 = 1;
/// The kind of a case that asks for all lines of a plan.
pub const PLAN: u8 = 2;

/// A trace as bytes that stand there more than once.
#[derive(Clone, Default)]
pub struct Pieces(Vec<(u32, Vec<u8>)>);

impl Pieces {
    pub fn once(self, bytes: &[u8]) -> Pieces {
        self.times(1, bytes)
    }

    pub fn times(mut self, times: usize, bytes: &[u8]) -> Pieces {
        match self.0.last_mut() {
            Some((1, last)) if times == 1 => last.extend_from_slice(bytes),
            _ if times > 0 && !bytes.is_empty() => self.0.push((times as u32, bytes.to_vec())),
            _ => {}
        }
        self
    }

    /// All bytes of the trace.
    pub fn bytes(&self) -> Vec<u8> {
        let repeated = |(times, bytes): &(u32, Vec<u8>)| bytes.repeat(*times as usize);
        self.0.iter().flat_map(repeated).collect()
    }

    pub fn length(&self) -> usize {
        let size = |(times, bytes): &(u32, Vec<u8>)| *times as usize * bytes.len();
        self.0.iter().map(size).sum()
    }
}

fn word(number: usize, out: &mut Vec<u8>) {
    out.extend_from_slice(&(number as u32).to_le_bytes());
}

/// Appends a case.
pub fn write(kind: u8, trace: &Pieces, answer: &[u8], out: &mut Vec<u8>) {
    out.push(kind);
    for (times, bytes) in &trace.0 {
        word(*times as usize, out);
        word(bytes.len(), out);
        out.extend_from_slice(bytes);
    }
    word(0, out);
    word(answer.len(), out);
    out.extend_from_slice(answer);
}

/// The answer of a load.
pub fn load_answer(number: u32, place: usize) -> Vec<u8> {
    let mut out = vec![number as u8];
    word(place, &mut out);
    out
}

#[cfg(test)]
mod tests {
    use super::*;

    #[test]
    fn pieces_join_and_repeat() {
        let trace = Pieces::default()
            .once(&[1])
            .once(&[0])
            .times(3, &[7, 8])
            .times(0, &[9]);
        assert_eq!(trace.bytes(), [1, 0, 7, 8, 7, 8, 7, 8]);
        assert_eq!(trace.length(), 8);
        let mut out = Vec::new();
        write(LOAD, &trace, &load_answer(3, 258), &mut out);
        let pieces = [1, 0, 0, 0, 2, 0, 0, 0, 1, 0, 3, 0, 0, 0, 2, 0, 0, 0, 7, 8];
        let rest = [0, 0, 0, 0, 5, 0, 0, 0, 3, 2, 1, 0, 0];
        assert_eq!(out, [&[1][..], &pieces, &rest].concat());
    }
}
