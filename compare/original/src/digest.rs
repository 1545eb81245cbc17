//! The digest of a text, in place of it.

/// The line that ends the plan, and FNV-1a of 64 bits over all bytes of the text.
pub fn digested(text: &str) -> String {
    let mut sum: u64 = 0xcbf29ce484222325;
    for byte in text.as_bytes() {
        sum ^= u64::from(*byte);
        sum = sum.wrapping_mul(0x100000001b3);
    }
    let plan = text.lines().filter(|line| !line.starts_with('#'));
    format!("{}\n# digest {sum:016x}\n", plan.last().unwrap_or_default())
}

#[cfg(test)]
mod tests {
    #[test]
    fn a_published_value_after_the_last_line() {
        assert_eq!(super::digested("a"), "a\n# digest af63dc4c8601ec8c\n");
    }
}
