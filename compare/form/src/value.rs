//! One stored number to text and back.

use crate::shape::Sort;

/// The text of a stored number; every number has one.
pub fn show(sort: Sort, stored: u64) -> String {
    match (sort, stored) {
        (Sort::Maybe, 0) => "-".to_string(),
        (Sort::Maybe, _) => (stored - 1).to_string(),
        (Sort::Flag, 0) => "no".to_string(),
        (Sort::Flag, 1) => "yes".to_string(),
        (Sort::Fit, 0) => "first".to_string(),
        (Sort::Fit, 1) => "best".to_string(),
        (Sort::Signed, _) => signed(stored).to_string(),
        (Sort::Float, _) => float(stored),
        _ => stored.to_string(),
    }
}

/// The stored number of a text, or what is wrong with it.
pub fn read(sort: Sort, text: &str) -> Result<u64, String> {
    match (sort, text) {
        (Sort::Maybe, "-") | (Sort::Flag, "no") | (Sort::Fit, "first") => Ok(0),
        (Sort::Flag, "yes") | (Sort::Fit, "best") => Ok(1),
        (Sort::Maybe, _) => plain(text)?
            .checked_add(1)
            .ok_or_else(|| format!("{text} is too large")),
        (Sort::Signed, _) => unsigned(text),
        (Sort::Float, _) => bits(text),
        _ => plain(text),
    }
}

fn plain(text: &str) -> Result<u64, String> {
    if text.is_empty() || !text.bytes().all(|b| b.is_ascii_digit()) {
        return Err(format!("`{text}` is not a whole number"));
    }
    text.parse().map_err(|_| format!("{text} passes 64 bits"))
}

/// The priority that a stored number stands for; wide enough for every u64.
pub fn signed(stored: u64) -> i128 {
    let wide = i128::from(stored);
    if wide % 2 == 0 {
        wide / 2
    } else {
        -(wide + 1) / 2
    }
}

/// The stored number of a priority.
pub fn zigzag(priority: i64) -> u64 {
    ((priority << 1) ^ (priority >> 63)) as u64
}

fn unsigned(text: &str) -> Result<u64, String> {
    let digits = text.strip_prefix('-').unwrap_or(text);
    if digits.is_empty() || !digits.bytes().all(|b| b.is_ascii_digit()) {
        return Err(format!("`{text}` is not a whole number"));
    }
    let number: i128 = text.parse().map_err(|_| format!("{text} is too large"))?;
    let stored = number
        .checked_mul(2)
        .map(|twice| if number < 0 { -twice - 1 } else { twice });
    stored
        .and_then(|s| u64::try_from(s).ok())
        .ok_or_else(|| format!("{text} is too large"))
}

fn float(stored: u64) -> String {
    let long = format!("{:?}", f64::from_bits(stored));
    let short = long.strip_suffix(".0").unwrap_or(&long).to_string();
    // what has no decimal of its own (a NaN, an infinity) is shown by its bits
    if decimal(&short) == Some(stored) {
        short
    } else {
        format!("bits:{stored:016x}")
    }
}

fn decimal(text: &str) -> Option<u64> {
    let known = text
        .bytes()
        .all(|b| b.is_ascii_digit() || b"+-.eE".contains(&b));
    let value: f64 = if known {
        text.parse().ok()?
    } else {
        return None;
    };
    value.is_finite().then(|| value.to_bits())
}

fn bits(text: &str) -> Result<u64, String> {
    let Some(hex) = text.strip_prefix("bits:") else {
        return decimal(text).ok_or_else(|| format!("`{text}` is not a float"));
    };
    if hex.len() != 16 || !hex.bytes().all(|b| b.is_ascii_hexdigit()) {
        return Err(format!("`{text}` wants 16 hex digits after bits:"));
    }
    u64::from_str_radix(hex, 16).map_err(|_| format!("`{text}` is not hex"))
}

#[cfg(test)]
mod tests {
    use super::*;

    const SORTS: [Sort; 6] = [
        Sort::Plain,
        Sort::Maybe,
        Sort::Float,
        Sort::Flag,
        Sort::Fit,
        Sort::Signed,
    ];

    #[test]
    fn every_number_reads_back_in_every_sort() {
        let mut seed = 1u64;
        for _ in 0..20_000 {
            seed = seed
                .wrapping_mul(6364136223846793005)
                .wrapping_add(1442695040888963407);
            for stored in [seed, seed >> 40, seed >> 61, seed % 3, !seed >> 12] {
                for sort in SORTS {
                    assert_eq!(
                        read(sort, &show(sort, stored)),
                        Ok(stored),
                        "{sort:?} {stored}"
                    );
                }
            }
        }
    }

    #[test]
    fn extremes_read_back() {
        for stored in [
            0,
            1,
            2,
            u64::MAX,
            u64::MAX - 1,
            1 << 63,
            0x7ff0_0000_0000_0000,
            0x7ff8_0000_0000_0001,
        ] {
            for sort in SORTS {
                assert_eq!(
                    read(sort, &show(sort, stored)),
                    Ok(stored),
                    "{sort:?} {stored}"
                );
            }
        }
    }

    #[test]
    fn texts_are_the_expected_ones() {
        assert_eq!(show(Sort::Float, 1.5f64.to_bits()), "1.5");
        assert_eq!(show(Sort::Float, 30f64.to_bits()), "30");
        assert_eq!(
            show(Sort::Float, 0x7ff0_0000_0000_0000),
            "bits:7ff0000000000000"
        );
        assert_eq!(show(Sort::Flag, 7), "7");
        assert_eq!(show(Sort::Signed, 5), "-3");
        assert_eq!(zigzag(-3), 5);
        assert_eq!(zigzag(3), 6);
    }

    #[test]
    fn wrong_texts_are_refused() {
        for (sort, text) in [
            (Sort::Plain, "-"),
            (Sort::Plain, "+1"),
            (Sort::Plain, ""),
            (Sort::Plain, "18446744073709551616"),
            (Sort::Maybe, "18446744073709551615"),
            (Sort::Flag, "maybe"),
            (Sort::Fit, "worst"),
            (Sort::Signed, "9223372036854775808"),
            (Sort::Signed, "--1"),
            (Sort::Float, "inf"),
            (Sort::Float, "1e999"),
            (Sort::Float, "bits:1"),
            (Sort::Float, "nan"),
        ] {
            assert!(read(sort, text).is_err(), "{sort:?} {text}");
        }
    }
}
