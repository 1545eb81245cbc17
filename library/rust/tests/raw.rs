//! The archive's own function: what it leaves alone.

use gpu_planner::raw::{run, RUN_WORDS};

/// No word of a plan has these bits.
const UNTOUCHED: u64 = 0xA5A5_5A5A_A5A5_5A5A;

fn words(number: usize) -> Vec<u64> {
    vec![UNTOUCHED; number]
}

#[test]
fn a_short_buffer_is_refused_and_every_word_left() {
    for trace in [&[][..], &[0], &[7], &[0; 70_000]] {
        for number in [0, 1, 3, 4, 516, RUN_WORDS - 1] {
            let mut lent = words(number);
            assert_eq!(run(trace, &mut lent), 10);
            assert_eq!(lent, words(number));
        }
    }
}

#[test]
fn enough_words_are_not_refused() {
    for more in [0, 1, 1000] {
        let mut lent = words(RUN_WORDS + more);
        assert_eq!(run(&[0], &mut lent), 0);
        assert_eq!(lent[..4], [0; 4]);
        assert_eq!(lent[4..], words(RUN_WORDS - 4 + more));
    }
}

#[test]
fn a_refused_trace_has_a_head_alone() {
    let mut lent = words(RUN_WORDS);
    assert_eq!(run(&[1, 65], &mut lent), 4);
    assert_eq!(lent[..4], [4, 1, 0, 0]);
    assert_eq!(lent[4..], words(RUN_WORDS - 4));
}

#[test]
fn the_header_says_the_same_number_of_words() {
    let header = include_str!("../../gpu_planner.h");
    let said = header
        .lines()
        .find_map(|line| line.strip_prefix("#define PLANNER_RUN_WORDS "));
    assert_eq!(said, Some(RUN_WORDS.to_string().as_str()));
}
