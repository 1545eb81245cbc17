//! The digest of a text, for texts too long to keep: a layer over what is printed.

/// FNV-1a of 64 bits.
pub fn digest(text: &str) -> u64 {
    text.bytes().fold(0xcbf2_9ce4_8422_2325, |sum, byte| {
        (sum ^ u64::from(byte)).wrapping_mul(0x0000_0100_0000_01b3)
    })
}

/// What `--digest` prints in place of a text: the line that ends the plan, and the digest of all.
pub fn digested(text: &str) -> String {
    let last = text.lines().rfind(|line| !line.starts_with('#'));
    let last = last.unwrap_or_default();
    format!("{last}\n# digest {:016x}\n", digest(text))
}

#[cfg(test)]
mod tests {
    use super::*;

    /// The values that are published with the algorithm.
    #[test]
    fn published_values() {
        assert_eq!(digest(""), 0xcbf2_9ce4_8422_2325);
        assert_eq!(digest("a"), 0xaf63_dc4c_8601_ec8c);
        assert_eq!(digest("foobar"), 0x8594_4171_f739_67e8);
    }

    #[test]
    fn the_last_line_of_the_plan_stays() {
        let text = "# step 0\nrefused 12\n# step 0\n";
        let shown = format!("refused 12\n# digest {:016x}\n", digest(text));
        assert_eq!(digested(text), shown);
    }
}
