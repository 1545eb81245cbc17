//! A trace's numbers: groups of seven bits, low group first, shortest form only.

/// Appends the one shortest form of `value`.
pub fn write(value: u64, out: &mut Vec<u8>) {
    let mut rest = value;
    while rest >= 128 {
        out.push(rest as u8 | 128);
        rest >>= 7;
    }
    out.push(rest as u8);
}

/// The number at the start of `bytes` and the bytes it takes; none if it ends early, is padded or passes 64 bits.
pub fn read(bytes: &[u8]) -> Option<(u64, usize)> {
    let mut value = 0u64;
    for (place, &byte) in bytes.iter().enumerate().take(10) {
        if byte == 0 && place > 0 || place == 9 && byte > 1 {
            return None;
        }
        value |= u64::from(byte & 127) << (7 * place);
        if byte < 128 {
            return Some((value, place + 1));
        }
    }
    None
}

#[cfg(test)]
mod tests {
    use super::{read, write};

    fn written(value: u64) -> Vec<u8> {
        let mut out = Vec::new();
        write(value, &mut out);
        out
    }

    #[test]
    fn the_numbers_that_the_scope_names() {
        assert_eq!(written(128), [0x80, 0x01]);
        assert_eq!(
            written(u64::MAX),
            [255, 255, 255, 255, 255, 255, 255, 255, 255, 1]
        );
        assert_eq!(read(&[0x80, 0x00]), None);
        assert_eq!(read(&[0x80, 0x01, 0x55]), Some((128, 2)));
    }

    #[test]
    fn every_width_reads_back() {
        for shift in 0..64 {
            for value in [1u64 << shift, (1u64 << shift) - 1, u64::MAX >> shift] {
                let bytes = written(value);
                assert_eq!(read(&bytes), Some((value, bytes.len())));
            }
        }
    }

    #[test]
    fn ends_early_or_passes_64_bits() {
        assert_eq!(read(&[]), None);
        assert_eq!(read(&[0x80]), None);
        assert_eq!(
            read(&[255, 255, 255, 255, 255, 255, 255, 255, 255, 2]),
            None
        );
        assert_eq!(
            read(&[255, 255, 255, 255, 255, 255, 255, 255, 255, 129, 0]),
            None
        );
    }
}
