//! Random numbers that a seed and a case number fix (SplitMix64).

pub struct Generator {
    state: u64,
}

const STEP: u64 = 0x9E37_79B9_7F4A_7C15;

fn mixed(state: u64) -> u64 {
    let z = (state ^ (state >> 30)).wrapping_mul(0xBF58_476D_1CE4_E5B9);
    let z = (z ^ (z >> 27)).wrapping_mul(0x94D0_49BB_1331_11EB);
    z ^ (z >> 31)
}

impl Generator {
    /// The numbers of one case: each case of a seed has its own.
    pub fn of_case(seed: u64, case: u64) -> Generator {
        Generator {
            state: mixed(mixed(seed.wrapping_add(STEP)).wrapping_add(case)),
        }
    }

    pub fn number(&mut self) -> u64 {
        self.state = self.state.wrapping_add(STEP);
        mixed(self.state)
    }

    /// A number from 0 to one below the bound.
    pub fn below(&mut self, bound: usize) -> usize {
        (self.number() % bound as u64) as usize
    }

    pub fn coin(&mut self) -> bool {
        self.below(2) == 0
    }

    pub fn pick<T: Copy>(&mut self, list: &[T]) -> T {
        list[self.below(list.len())]
    }

    pub fn bytes(&mut self, length: usize) -> Vec<u8> {
        let mut bytes = Vec::with_capacity(length + 8);
        while bytes.len() < length {
            bytes.extend(self.number().to_le_bytes());
        }
        bytes.truncate(length);
        bytes
    }

    pub fn words(&mut self, length: usize) -> Vec<u16> {
        let bytes = self.bytes(2 * length);
        (bytes.chunks(2))
            .map(|pair| u16::from_le_bytes([pair[0], pair[1]]))
            .collect()
    }

    pub fn numbers(&mut self, length: usize) -> Vec<u64> {
        (0..length).map(|_| self.number()).collect()
    }
}

#[cfg(test)]
mod tests {
    use super::*;

    #[test]
    fn a_case_has_its_own_numbers_each_time() {
        let numbers = |seed, case| {
            let mut generator = Generator::of_case(seed, case);
            [(); 4].map(|()| generator.number())
        };
        assert_eq!(numbers(1, 2), numbers(1, 2));
        assert_ne!(numbers(1, 2), numbers(1, 3));
        assert_ne!(numbers(1, 2), numbers(2, 2));
        // Not the numbers of the case before, one late.
        assert_ne!(numbers(1, 3)[0], numbers(1, 2)[1]);
    }
}
