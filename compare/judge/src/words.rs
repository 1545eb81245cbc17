//! The words of the command.

use crate::draw::{whole, Draw};
use crate::program::{Program, Show};

/// What the command line asks for.
pub struct Words {
    pub names: [String; 2],
    pub programs: [Program; 2],
    pub file: Option<String>,
    pub show: Show,
    pub draw: Draw,
    pub threads: usize,
    pub reduce: bool,
}

pub fn usage() -> String {
    "usage: judge A B [DRAW] [--details] [--events] [--threads N] [--no-reduce]
       judge one A B FILE [--details] | judge reduce A B FILE [--details] [--without FLAG,..]
       judge frames [DRAW] [--bare] > FRAMES | judge samples FOLDER
       A, B: second, original, original-ordered, batch:PATH, each:PATH
       DRAW: [--traces N] [--seed S] [--kind K | --loads] [--jobs MOST] \
     [--domain | --ordered-domain | --beyond-domain | --without FLAG,.. | --all]"
        .to_string()
}

impl Words {
    pub fn read(list: &[&str]) -> Result<Words, String> {
        let [one, two, rest @ ..] = list else {
            return Err(usage());
        };
        let programs = [Program::named(one)?, Program::named(two)?];
        let threads = std::thread::available_parallelism().map_or(1, |n| n.get());
        let mut words = Words {
            names: [one.to_string(), two.to_string()],
            programs,
            file: None,
            show: Show::default(),
            draw: Draw::default(),
            threads,
            reduce: true,
        };
        let mut rest = rest.iter();
        while let Some(word) = rest.next() {
            words.take(word, &mut || {
                rest.next()
                    .copied()
                    .ok_or_else(|| format!("{word} wants a value"))
            })?;
        }
        words.settle()
    }

    fn take<'a>(
        &mut self,
        word: &str,
        value: &mut dyn FnMut() -> Result<&'a str, String>,
    ) -> Result<(), String> {
        if self.draw.take(word, value)? {
            return Ok(());
        }
        match word {
            "--details" => self.show.details = true,
            "--events" => {
                self.show.details = true;
                self.show.events = true;
            }
            "--no-reduce" => self.reduce = false,
            "--threads" => self.threads = whole(value()?)? as usize,
            _ if word.starts_with("--") || self.file.is_some() => return Err(usage()),
            _ => self.file = Some(word.to_string()),
        }
        Ok(())
    }

    /// The original is only asked for traces that load and are not refused, and cannot show its events.
    fn settle(mut self) -> Result<Words, String> {
        if self.programs.iter().any(Program::is_original) {
            self.draw.admit.accepted = true;
            if self.show.events {
                return Err("the original cannot show its events".to_string());
            }
        }
        Ok(self)
    }
}

#[cfg(test)]
mod tests {
    use super::Words;

    #[test]
    fn words_are_taken_in_any_order() {
        let words = Words::read(&[
            "second",
            "batch:x --y",
            "--seed",
            "7",
            "--domain",
            "--traces",
            "9",
            "--kind",
            "mig",
        ]);
        let words = words.unwrap_or_else(|what| panic!("{what}"));
        assert_eq!(
            (words.draw.seed, words.draw.traces, words.draw.kind),
            (7, 9, Some(generate::Kind::Mig))
        );
        let admit = words.draw.admit;
        assert!(admit.accepted && admit.without == [true; 5]);
    }

    #[test]
    fn wrong_words_are_told() {
        for list in [
            vec!["second"],
            vec!["second", "third"],
            vec!["second", "batch:"],
            vec!["second", "second", "--seed"],
            vec!["second", "second", "--kind", "x"],
            vec!["second", "second", "--what"],
        ] {
            assert!(Words::read(&list).is_err(), "{list:?}");
        }
    }
}
