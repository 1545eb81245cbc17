//! Seeded numbers: splitmix64, so that a seed names one trace for ever.

/// A stream of numbers that its seed determines.
pub struct Random {
    state: u64,
}

impl Random {
    pub fn new(seed: u64) -> Random {
        Random { state: seed }
    }

    pub fn draw(&mut self) -> u64 {
        self.state = self.state.wrapping_add(0x9e37_79b9_7f4a_7c15);
        let mixed = (self.state ^ (self.state >> 30)).wrapping_mul(0xbf58_476d_1ce4_e5b9);
        let mixed = (mixed ^ (mixed >> 27)).wrapping_mul(0x94d0_49bb_1331_11eb);
        mixed ^ (mixed >> 31)
    }

    /// From `low` to `high`, both included; `low` if the range is empty.
    pub fn range(&mut self, low: u64, high: u64) -> u64 {
        if high <= low {
            return low;
        }
        match (high - low).checked_add(1) {
            Some(width) => low + self.draw() % width,
            None => self.draw(),
        }
    }

    /// True in `percent` of a hundred cases.
    pub fn chance(&mut self, percent: u64) -> bool {
        self.draw() % 100 < percent
    }

    /// One of a non-empty list.
    pub fn pick<T: Copy>(&mut self, list: &[T]) -> T {
        list[(self.draw() % list.len() as u64) as usize]
    }

    /// At least 0 and under 1, with all 53 bits drawn.
    pub fn unit(&mut self) -> f64 {
        (self.draw() >> 11) as f64 / (1u64 << 53) as f64
    }
}

/// The seed of the trace with this number in the run with this seed.
pub fn seed_of(run: u64, number: u64) -> u64 {
    Random::new(run ^ number.wrapping_mul(0xd134_2543_de82_ef95)).draw()
}

#[cfg(test)]
mod tests {
    use super::*;

    #[test]
    fn a_seed_gives_one_stream() {
        let (mut one, mut two) = (Random::new(5), Random::new(5));
        assert!((0..100).all(|_| one.draw() == two.draw()));
        assert_ne!(Random::new(5).draw(), Random::new(6).draw());
    }

    #[test]
    fn ranges_are_kept_and_filled() {
        let mut random = Random::new(1);
        let drawn: Vec<u64> = (0..200).map(|_| random.range(3, 6)).collect();
        assert!((3..=6).all(|n| drawn.contains(&n)) && drawn.iter().all(|n| (3..=6).contains(n)));
        assert_eq!(random.range(4, 4), 4);
        assert!((0..200).all(|_| (0.0..1.0).contains(&random.unit())));
    }
}
