//! Which traces are compared: all, or those that the domain of comparison does not leave out.

use second::Observed;

/// What may take a trace out of the domain of comparison, in document 01's order.
pub const FLAGS: [&str; 5] = ["tie", "choice", "pass_quota", "too_many", "recut"];

/// The test that a trace has to pass before it is compared.
#[derive(Clone, Copy, Default)]
pub struct Admit {
    /// the flags that leave a trace out
    pub without: [bool; 5],
    /// whether a trace in document 01's domain is left out
    pub beyond: bool,
    /// whether a refused trace is left out
    pub accepted: bool,
}

pub fn flags(seen: &Observed) -> [bool; 5] {
    let d = &seen.domain;
    [d.tie, d.choice, d.pass_quota, d.too_many, d.recut]
}

impl Admit {
    /// Document 01's domain of comparison.
    pub fn domain() -> Admit {
        Admit {
            without: [true; 5],
            accepted: true,
            ..Admit::default()
        }
    }

    /// With ties and choices decided, only D, J and K are left out.
    pub fn ordered_domain() -> Admit {
        Admit {
            without: [false, false, true, true, true],
            accepted: true,
            ..Admit::default()
        }
    }

    /// Of those the ones that hold a tie or a choice, for which the original as published has no one answer.
    pub fn beyond_domain() -> Admit {
        Admit {
            beyond: true,
            ..Admit::ordered_domain()
        }
    }

    /// Leaves out the flags named in a list parted by commas.
    pub fn without(list: &str) -> Result<Admit, String> {
        let mut admit = Admit {
            accepted: true,
            ..Admit::default()
        };
        for name in list.split(',').filter(|name| !name.is_empty()) {
            let place = FLAGS.iter().position(|flag| *flag == name);
            admit.without
                [place.ok_or_else(|| format!("no flag `{name}`: {}", FLAGS.join(" ")))?] = true;
        }
        Ok(admit)
    }

    pub fn admits(&self, trace: &[u8]) -> bool {
        if !self.accepted && !self.without.contains(&true) {
            return true;
        }
        let seen = second::observe(trace);
        let set = flags(&seen);
        let out = set.iter().zip(self.without).any(|(set, out)| *set && out);
        let inside = self.beyond && !set.contains(&true);
        !(out || inside || self.accepted && seen.refusal.is_some())
    }
}

#[cfg(test)]
mod tests {
    use super::*;

    #[test]
    fn lists_of_flags() {
        assert_eq!(
            Admit::without("tie,recut").map(|a| a.without),
            Ok([true, false, false, false, true])
        );
        assert_eq!(Admit::without("").map(|a| a.without), Ok([false; 5]));
        assert!(Admit::without("ties").is_err());
    }

    #[test]
    fn a_refused_trace_is_left_out_of_every_domain() {
        assert!(Admit::default().admits(&[9]));
        assert!(!Admit::domain().admits(&[9]));
        assert!(!Admit::ordered_domain().admits(&[9]));
        assert!(Admit::domain().admits(&[0]));
        assert!(!Admit::beyond_domain().admits(&[0]));
    }
}
