//! Reading the words that come back: head and decisions, each number tested before it is trusted.

use crate::{Decision, End, Planned, Refused};

const HEAD: usize = 4;
const PLACE: usize = 1;
const STEPS: usize = 2;
const DECISIONS: usize = 3;

/// The bits of 2^40, the greatest time that a decision can have.
const MOST_TIME: u64 = 0x4270_0000_0000_0000;

/// The words are not what the header promises, and what it is that they break.
pub type Broken = &'static str;

/// What the words tell of a trace of that many bytes, for which `answer` was returned.
pub fn read(answer: u64, words: &[u64], bytes: usize) -> Result<Result<Planned, Refused>, Broken> {
    let Some((head, rest)) = words.split_first_chunk::<HEAD>() else {
        return Err("there are fewer words than the head has");
    };
    if answer == 10 {
        return Err("it wants more words");
    }
    if head[0] != answer {
        return Err("the answer is not the one in the words");
    }
    match answer {
        0 => planned(head, rest, End::NoEvent).map(Ok),
        12 => planned(head, rest, End::NotPermitted).map(Ok),
        1..=9 => refused(head, bytes).map(Err),
        _ => Err("there is no such answer"),
    }
}

fn refused(head: &[u64; HEAD], bytes: usize) -> Result<Refused, Broken> {
    let place = whole(head[PLACE])?;
    if place > bytes || head[STEPS] != 0 || head[DECISIONS] != 0 {
        return Err("a refused trace has a place behind its end, or steps or decisions");
    }
    let number = head[0];
    Ok(Refused { number, place })
}

fn planned(head: &[u64; HEAD], rest: &[u64], end: End) -> Result<Planned, Broken> {
    let (four, _) = rest.as_chunks();
    let Some(told) = four.get(..whole(head[DECISIONS])?) else {
        return Err("there are more decisions than words");
    };
    Ok(Planned {
        decisions: told.iter().map(decision).collect::<Result<_, _>>()?,
        steps: head[STEPS],
        end,
    })
}

fn decision(words: &[u64; 4]) -> Result<Decision, Broken> {
    let [bits, kind, job, other] = *words;
    if bits > MOST_TIME {
        return Err("a time is not permitted");
    }
    let time = f64::from_bits(bits);
    let (job, other) = (whole(job)?, whole(other)?);
    match kind {
        1 => Ok(Decision::Arrived { time, job }),
        2 => Ok(Decision::Failed { time, job }),
        3 => Ok(Decision::Completed {
            time,
            job,
            size: other,
        }),
        4 => Ok(Decision::Evicted {
            time,
            job,
            sake: other,
        }),
        5 => Ok(Decision::Started {
            time,
            job,
            size: other,
        }),
        _ => Err("there is no such kind of decision"),
    }
}

fn whole(word: u64) -> Result<usize, Broken> {
    usize::try_from(word).map_err(|_| "a number does not fit")
}

#[cfg(test)]
mod tests {
    use super::*;

    /// The words of two decisions, then room for one more.
    const GOOD: [u64; 16] = [0, 0, 2, 2, 0, 1, 7, 0, MOST_TIME, 5, 7, 3, 0, 0, 0, 0];

    fn broken(at: usize, word: u64) -> Option<Broken> {
        let mut words = GOOD;
        words[at] = word;
        read(words[0], &words, 9).err()
    }

    #[test]
    fn good_words_are_read() {
        let time = 1_099_511_627_776.0;
        let decisions = vec![
            Decision::Arrived { time: 0.0, job: 7 },
            Decision::Started {
                time,
                job: 7,
                size: 3,
            },
        ];
        for (answer, end) in [(0, End::NoEvent), (12, End::NotPermitted)] {
            let mut words = GOOD;
            words[0] = answer;
            let told = Planned {
                decisions: decisions.clone(),
                steps: 2,
                end,
            };
            assert_eq!(read(answer, &words, 9), Ok(Ok(told)));
        }
        let refused = Refused {
            number: 4,
            place: 9,
        };
        assert_eq!(read(4, &[4, 9, 0, 0], 9), Ok(Err(refused)));
    }

    #[test]
    fn wrong_heads_are_found() {
        assert!(read(0, &[0, 0, 0], 9).is_err());
        assert!(read(10, &[10, 0, 0, 0], 9).is_err());
        assert!(read(11, &[11, 0, 0, 0], 9).is_err());
        assert!(read(0, &[12, 0, 0, 0], 9).is_err());
        assert!(read(4, &[4, 10, 0, 0], 9).is_err());
        assert!(read(4, &[4, 9, 1, 0], 9).is_err());
        assert!(read(4, &[4, 9, 0, 1], 9).is_err());
    }

    #[test]
    fn wrong_decisions_are_found() {
        assert_eq!(broken(3, 3), Some("there is no such kind of decision"));
        assert_eq!(broken(3, 4), Some("there are more decisions than words"));
        assert_eq!(
            broken(3, u64::MAX),
            Some("there are more decisions than words")
        );
        assert_eq!(broken(5, 6), Some("there is no such kind of decision"));
        assert_eq!(broken(8, MOST_TIME + 1), Some("a time is not permitted"));
        assert_eq!(
            broken(8, (-0.0f64).to_bits()),
            Some("a time is not permitted")
        );
    }
}
