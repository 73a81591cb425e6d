//! Memory that is lent to a call, and what became of it.

use crate::generator::Generator;
use std::fmt::Display;

/// Elements on each side of the lent ones, which no call may touch.
const MARGIN: usize = 64;

/// A list lent to a call, with a margin on each side.
pub struct Lent<T> {
    memory: Vec<T>,
    before: Vec<T>,
    start: usize,
    length: usize,
}

impl Lent<u8> {
    pub fn new(generator: &mut Generator, list: &[u8]) -> Lent<u8> {
        let start = MARGIN + generator.below(16);
        let left = generator.bytes(start);
        let right = generator.bytes(MARGIN);
        Lent::between(left, list, right)
    }

    /// Random bytes: one that a call forgets is what it should write by chance
    /// alone, even where any byte may be due.
    pub fn filled(generator: &mut Generator, length: usize) -> Lent<u8> {
        let list = generator.bytes(length);
        Lent::new(generator, &list)
    }
}

impl Lent<u16> {
    pub fn words(generator: &mut Generator, list: &[u16]) -> Lent<u16> {
        let start = MARGIN + generator.below(8);
        let left = generator.words(start);
        let right = generator.words(MARGIN);
        Lent::between(left, list, right)
    }

    /// Random slots.
    pub fn filled_words(generator: &mut Generator, length: usize) -> Lent<u16> {
        let list = generator.words(length);
        Lent::words(generator, &list)
    }
}

impl Lent<u64> {
    /// Random bits of doubles, which compare as bits even where they are no number.
    pub fn filled_doubles(generator: &mut Generator, length: usize) -> Lent<u64> {
        let start = MARGIN + generator.below(4);
        let left = generator.numbers(start);
        let list = generator.numbers(length);
        let right = generator.numbers(MARGIN);
        Lent::between(left, &list, right)
    }
}

impl<T: Copy + PartialEq + Display> Lent<T> {
    fn between(left: Vec<T>, list: &[T], right: Vec<T>) -> Lent<T> {
        let memory = [&left, list, &right].concat();
        Lent {
            before: memory.clone(),
            memory,
            start: left.len(),
            length: list.len(),
        }
    }

    pub fn list(&self) -> &[T] {
        &self.memory[self.start..self.start + self.length]
    }

    pub fn list_mut(&mut self) -> &mut [T] {
        &mut self.memory[self.start..self.start + self.length]
    }

    /// The front of the list is to hold these elements, and all else what it
    /// held before: says where that fails first.
    pub fn holds(&self, name: &str, front: &[T]) -> Result<(), String> {
        let end = self.start + front.len();
        let parts = [
            (0, &self.before[..self.start]),
            (self.start, front),
            (end, &self.before[end..]),
        ];
        for (from, expected) in parts {
            let found = &self.memory[from..from + expected.len()];
            // Equal memory is seen fastest as a whole.
            if found != expected {
                let differs = |i: &usize| found[*i] != expected[*i];
                let i = (0..found.len()).find(differs).expect("they differ");
                return Err(format!(
                    "{name} at place {} holds {} instead of {}",
                    (from + i) as i64 - self.start as i64,
                    found[i],
                    expected[i]
                ));
            }
        }
        Ok(())
    }

    /// From here on what it held before is what it holds now.
    pub fn settle(&mut self) {
        self.before.copy_from_slice(&self.memory);
    }

    pub fn unchanged(&self, name: &str) -> Result<(), String> {
        self.holds(name, &[])
    }
}

#[cfg(test)]
mod tests {
    use super::*;

    fn zeros() -> Lent<u8> {
        Lent::between(vec![0; 3], &[0; 5], vec![0; 3])
    }

    #[test]
    fn untouched_memory_is_unchanged() {
        assert_eq!(zeros().unchanged("out"), Ok(()));
    }

    #[test]
    fn every_changed_element_is_found() {
        for at in 0..11 {
            let mut lent = zeros();
            lent.memory[at] = 1;
            assert!(lent.unchanged("out").is_err(), "{at}");
            assert_eq!(lent.holds("out", &[1]).is_ok(), at == 3, "{at}");
        }
    }

    #[test]
    fn settled_memory_is_unchanged() {
        let mut lent = zeros();
        lent.list_mut()[4] = 7;
        lent.settle();
        assert_eq!(lent.unchanged("out"), Ok(()));
        lent.list_mut()[4] = 0;
        assert!(lent.unchanged("out").is_err());
    }

    #[test]
    fn a_place_counts_from_the_list() {
        let mut lent = zeros();
        lent.list_mut()[2] = 7;
        let message = "out at place 2 holds 7 instead of 0";
        assert_eq!(lent.unchanged("out"), Err(message.into()));
    }
}
