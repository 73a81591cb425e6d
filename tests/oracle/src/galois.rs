//! The field in which the BCH code's generator polynomial has its roots. Document
//! 004 does not name it: it is the one of 2^13 elements by the usual polynomial,
//! and that the printed generator comes out of it tells which way its digits run.

/// Bits of an element.
pub const DEGREE: usize = 13;

/// x^13 + x^4 + x^3 + x + 1, of which alpha is a root.
const MODULUS: u32 = 1 << 13 | 1 << 4 | 1 << 3 | 1 << 1 | 1;

/// An element: bit j is the coefficient of alpha^j.
pub type Element = u32;

/// alpha times an element.
fn times_alpha(a: Element) -> Element {
    let moved = a << 1;
    if moved >> DEGREE == 1 {
        moved ^ MODULUS
    } else {
        moved
    }
}

pub fn product(a: Element, b: Element) -> Element {
    let mut sum = 0;
    let mut moved = a;
    for j in 0..DEGREE {
        if b >> j & 1 == 1 {
            sum ^= moved;
        }
        moved = times_alpha(moved);
    }
    sum
}

/// alpha^n.
pub fn power(n: usize) -> Element {
    (0..n).fold(1, |a, _| times_alpha(a))
}

/// The value of a polynomial, the highest power's coefficient first.
pub fn value(polynomial: &[u8], at: Element) -> Element {
    (polynomial.iter()).fold(0, |sum, &bit| product(sum, at) ^ Element::from(bit))
}

/// The product of two polynomials over the field, the highest power first.
pub fn polynomial_product(a: &[Element], b: &[Element]) -> Vec<Element> {
    let mut sum = vec![0; a.len() + b.len() - 1];
    for (i, &x) in a.iter().enumerate() {
        for (j, &y) in b.iter().enumerate() {
            sum[i + j] ^= product(x, y);
        }
    }
    sum
}

/// The minimal polynomial of alpha^n: the product of x + c over its thirteen
/// conjugates c, each of which is the square of the one before.
pub fn minimal_polynomial(n: usize) -> Vec<Element> {
    let mut polynomial = vec![1];
    let mut conjugate = power(n);
    for _ in 0..DEGREE {
        polynomial = polynomial_product(&polynomial, &[1, conjugate]);
        conjugate = product(conjugate, conjugate);
    }
    polynomial
}

/// The least n above 0 for which a polynomial over 0 and 1, the highest power
/// first, divides x^n + 1: x^n is worked out power by power.
pub fn order(polynomial: &[u8]) -> usize {
    let degree = polynomial.len() - 1;
    let mut one = vec![0; degree];
    one[degree - 1] = 1;
    let mut power = one.clone();
    let mut n = 0;
    loop {
        let leads = power[0] == 1;
        power.rotate_left(1);
        power[degree - 1] = 0;
        if leads {
            let lower = power.iter_mut().zip(&polynomial[1..]);
            lower.for_each(|(bit, g)| *bit = (*bit + g) % 2);
        }
        n += 1;
        if power == one {
            return n;
        }
    }
}

#[cfg(test)]
mod tests {
    use super::*;

    /// So alpha's powers are all the elements but 0, and each has an inverse.
    #[test]
    fn alpha_has_8191_powers() {
        let mut powers: Vec<Element> = (0..8191)
            .scan(1, |a, _| {
                let this = *a;
                *a = times_alpha(this);
                Some(this)
            })
            .collect();
        powers.sort();
        assert_eq!(powers, (1..8192).collect::<Vec<Element>>());
        assert_eq!(power(8191), 1);
    }

    #[test]
    fn products_by_hand() {
        assert_eq!(power(13), 0b11011);
        assert_eq!(product(power(6), power(7)), power(13));
        // (alpha + 1)^2 = alpha^2 + 1
        assert_eq!(product(0b11, 0b11), 0b101);
        assert_eq!(product(power(8190), power(1)), 1);
    }

    /// x^2 + x + 1 at alpha, by its three terms.
    #[test]
    fn a_value_by_hand() {
        assert_eq!(value(&[1, 1, 1], power(1)), 0b111);
        assert_eq!(value(&[1, 0, 1], power(1)), 0b101);
        assert_eq!(value(&[], power(1)), 0);
    }

    /// alpha is a root of the field's polynomial, so that is alpha's own.
    #[test]
    fn alphas_minimal_polynomial_is_the_fields() {
        let modulus: Vec<Element> = (0..=DEGREE).rev().map(|j| MODULUS >> j & 1).collect();
        assert_eq!(minimal_polynomial(1), modulus);
        assert_eq!(minimal_polynomial(2), modulus);
        assert_ne!(minimal_polynomial(3), modulus);
    }

    /// x^2 + x + 1 divides x^3 + 1, and x^3 + x + 1 divides x^7 + 1.
    #[test]
    fn orders_by_hand() {
        assert_eq!(order(&[1, 1, 1]), 3);
        assert_eq!(order(&[1, 0, 1, 1]), 7);
        assert_eq!(order(&[1, 1]), 1);
    }
}
