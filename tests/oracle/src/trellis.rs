//! The four-state convolutional encoder of 4.2, by the state equations of
//! section 6.

/// A state of the trellis, or any column of two bits: x0, then x1.
pub type State = [u8; 2];

/// The zero state, 00.
pub const ZERO: State = [0, 0];

// Equation 6-4.
const A: [[u8; 2]; 2] = [[0, 1], [1, 1]];
const B: [u8; 2] = [0, 1];
const C: [[u8; 2]; 2] = [[0, 0], [0, 1]];
const D: [u8; 2] = [1, 1];

/// Equation 6-7: the powers of A from A^0 = A^3 = I on; those after the third
/// are the same again.
const POWERS: [[[u8; 2]; 2]; 3] = [[[1, 0], [0, 1]], A, [[1, 1], [1, 0]]];

/// Equation 6-3: matrix times column over GF(2).
fn product(matrix: [[u8; 2]; 2], column: [u8; 2]) -> [u8; 2] {
    matrix.map(|row| (row[0] * column[0] + row[1] * column[1]) % 2)
}

/// Equation 6-3: column times a single bit.
fn scaled(column: [u8; 2], bit: u8) -> [u8; 2] {
    column.map(|element| element * bit)
}

/// Equation 6-3: the sum of two columns.
fn sum(a: [u8; 2], b: [u8; 2]) -> [u8; 2] {
    [(a[0] + b[0]) % 2, (a[1] + b[1]) % 2]
}

/// Equation 6-1, first line: the state after x on input u.
pub fn next(x: State, u: u8) -> State {
    sum(product(A, x), scaled(B, u))
}

/// Equation 6-1, second line: the output c0, c1 in state x on input u; c0 is
/// the systematic bit, c1 the parity bit.
pub fn output(x: State, u: u8) -> [u8; 2] {
    sum(product(C, x), scaled(D, u))
}

/// Document 01's number of a state: 2 x0 + x1.
pub fn state_number(x: State) -> u64 {
    u64::from(2 * x[0] + x[1])
}

/// The state with this number, 0 to 3.
pub fn state_of(number: u64) -> Option<State> {
    [[0, 0], [0, 1], [1, 0], [1, 1]]
        .into_iter()
        .find(|&x| state_number(x) == number)
}

/// Every state a run over the bits u passes through, the first and the last
/// included.
pub fn states(start: State, u: &[u8]) -> Vec<State> {
    let mut x = vec![start];
    for &bit in u {
        x.push(next(x[x.len() - 1], bit));
    }
    x
}

/// Equation 6-6: the final state of a segment of n bits that starts in x, where
/// FS is its final state from zero: A^n x + FS.
pub fn final_state(x: State, n: usize, FS: State) -> State {
    sum(product(POWERS[n % 3], x), FS)
}

/// 4.1: the terminating bits drive the trellis to the zero state. Of the four
/// pairs of bits exactly one does so from x.
pub fn terminating_bits(x: State) -> [u8; 2] {
    let pairs = [[0, 0], [0, 1], [1, 0], [1, 1]];
    let found: Vec<[u8; 2]> = pairs
        .into_iter()
        .filter(|pair| states(x, pair)[2] == ZERO)
        .collect();
    assert_eq!(found.len(), 1, "one pair of bits ends the trellis");
    found[0]
}

/// The two output sequences of a run and the state it ends in.
#[derive(Clone, Debug, PartialEq, Eq)]
pub struct Run {
    pub systematic: Vec<u8>,
    pub parity: Vec<u8>,
    pub end: State,
}

impl Run {
    /// Each bit and its parity, as request L5 has them written.
    pub fn written(&self) -> Vec<u8> {
        let steps = self.systematic.iter().zip(&self.parity);
        steps.flat_map(|(&bit, &parity)| [bit, parity]).collect()
    }
}

/// A run over the bits u from a state, without termination.
pub fn run(start: State, u: &[u8]) -> Run {
    let x = states(start, u);
    let y: Vec<[u8; 2]> = u.iter().zip(&x).map(|(&u, &x)| output(x, u)).collect();
    Run {
        systematic: y.iter().map(|c| c[0]).collect(),
        parity: y.iter().map(|c| c[1]).collect(),
        end: x[u.len()],
    }
}

/// A run over the bits u from the zero state, terminated: two output pairs
/// more than u has bits.
pub fn terminated_run(u: &[u8]) -> Run {
    let before = states(ZERO, u)[u.len()];
    let with_termination = [u, &terminating_bits(before)].concat();
    run(ZERO, &with_termination)
}

#[cfg(test)]
mod tests {
    use super::*;

    #[test]
    fn termination_is_document_01s_rule() {
        for x in [[0, 0], [0, 1], [1, 0], [1, 1]] {
            let first = x[0] ^ x[1];
            let y = next(x, first);
            assert_eq!(terminating_bits(x), [first, y[0] ^ y[1]]);
        }
    }

    #[test]
    fn step_is_document_01s_rule() {
        for number in 0..4 {
            let x = state_of(number).unwrap();
            for u in 0..2 {
                assert_eq!(output(x, u), [u, u ^ x[1]]);
                assert_eq!(next(x, u), [x[1], x[0] ^ x[1] ^ u]);
            }
        }
        assert_eq!(state_of(4), None);
    }

    #[test]
    fn zeros_multiply_the_state_by_a() {
        for number in 0..4 {
            let x = state_of(number).unwrap();
            for (n, &end) in states(x, &[0; 7]).iter().enumerate() {
                assert_eq!(final_state(x, n, ZERO), end);
            }
        }
    }

    #[test]
    fn a_run_writes_each_bit_and_its_parity() {
        assert_eq!(run(ZERO, &[1, 1, 1]).written(), [1, 1, 1, 0, 1, 1]);
        assert_eq!(run([1, 1], &[0, 1]).written(), [0, 1, 1, 1]);
        assert_eq!(run([1, 0], &[]).written(), []);
    }

    #[test]
    fn two_zeros_do_not_terminate() {
        assert_eq!(run([0, 1], &[0, 0]).end, [1, 0]);
    }
}
