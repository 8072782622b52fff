//! Generators, and words from their values at the roots of a generator.

use crate::field::Field;
use crate::linear;
use std::sync::OnceLock;

/// A polynomial over 0 and 1, the coefficient of x^0 first, the last one 1.
pub type Polynomial = Vec<bool>;

/// The polynomial of least degree that vanishes at α^j: the first, by number, of which this is true.
fn minimal(field: &Field, j: usize) -> Polynomial {
    let vanishes = |p: &u32| (0..=field.q).filter(|k| p >> k & 1 == 1).fold(0, |sum, k| sum ^ field.power(j * k)) == 0;
    let found = (1..2 << field.q).find(vanishes).unwrap();
    (0..=found.ilog2()).map(|k| found >> k & 1 == 1).collect()
}

fn trimmed(mut f: Polynomial) -> Polynomial {
    while f.last() == Some(&false) {
        f.pop();
    }
    f
}

fn multiply(f: &[bool], g: &[bool]) -> Polynomial {
    let mut product = vec![false; f.len() + g.len()];
    for (i, x) in f.iter().enumerate() {
        for (j, y) in g.iter().enumerate() {
            product[i + j] ^= x & y;
        }
    }
    trimmed(product)
}

/// Quotient and remainder, by long division.
pub fn divide(f: &[bool], g: &[bool]) -> (Polynomial, Polynomial) {
    let mut rest = f.to_vec();
    let mut quotient = vec![false; (f.len() + 1).saturating_sub(g.len())];
    for shift in (0..quotient.len()).rev() {
        if rest[shift + g.len() - 1] {
            quotient[shift] = true;
            for (k, y) in g.iter().enumerate() {
                rest[shift + k] ^= y;
            }
        }
    }
    (trimmed(quotient), trimmed(rest))
}

fn common_multiple(f: &[bool], g: &[bool]) -> Polynomial {
    let (mut a, mut b) = (f.to_vec(), g.to_vec());
    while !b.is_empty() {
        let rest = divide(&a, &b).1;
        (a, b) = (b, rest);
    }
    multiply(&divide(f, &a).0, g)
}

/// A level of strength t.
pub struct Level {
    pub t: usize,
    pub generator: Polynomial,
    /// Whether α^j is a root of the generator, by j.
    roots: Vec<bool>,
    /// The check bits, as sums of the bits of the values at α^1, α^3, ..; then the sums of these bits that must be 0.
    from_values: Vec<Vec<u64>>,
}

impl Level {
    /// The level of strength t, 1 ≤ t ≤ 64 and 2t ≤ n − 1.
    pub fn of(field: &'static Field, t: usize) -> &'static Level {
        static LEVELS: [[OnceLock<Level>; 65]; 3] = [const { [const { OnceLock::new() }; 65] }; 3];
        LEVELS[field.q / 4 - 1][t].get_or_init(|| Level::new(field, t))
    }

    fn new(field: &Field, t: usize) -> Level {
        let generator = (1..=2 * t).map(|j| minimal(field, j)).fold(vec![true], |g, f| common_multiple(&g, &f));
        let degree = generator.len() - 1;
        let mut as_word = vec![0; field.n.div_ceil(64)];
        for k in (0..=degree).filter(|&k| generator[k]) {
            linear::flip(&mut as_word, k);
        }
        let roots = (0..=crate::field::LAST_ROOT).map(|j| field.value(&as_word, j) == 0).collect();

        // The values' bits at the left are to be undone; which bits were summed is noted at the right.
        let bits = t * field.q;
        let mut rows = Vec::new();
        for j in odd(t) {
            for conditions in field.rows(j) {
                let mut row = vec![0; (degree + bits).div_ceil(64)];
                for k in (0..degree).filter(|&k| linear::get(conditions, k)) {
                    linear::flip(&mut row, k);
                }
                linear::flip(&mut row, degree + rows.len());
                rows.push(row);
            }
        }
        linear::eliminate(&mut rows, degree);
        let noted = |row: Vec<u64>| {
            let mut sum = vec![0; bits.div_ceil(64)];
            for r in (0..bits).filter(|r| linear::get(&row, degree + r)) {
                linear::flip(&mut sum, r);
            }
            sum
        };
        Level { t, generator, roots, from_values: rows.into_iter().map(noted).collect() }
    }

    pub fn degree(&self) -> usize {
        self.generator.len() - 1
    }

    pub fn is_root(&self, j: usize) -> bool {
        self.roots[j]
    }

    /// What long division of a word by the generator leaves.
    pub fn remainder(&self, field: &Field, word: &[u64]) -> Polynomial {
        let coefficients: Polynomial = (0..field.n).map(|k| linear::get(word, k)).collect();
        divide(&coefficients, &self.generator).1
    }

    /// The coefficients of the only polynomial of degree below this level's that has these values at α^1, α^3, ..
    pub fn interpolate(&self, field: &Field, values: &[u16]) -> Vec<bool> {
        let mut bits = vec![0; (self.t * field.q).div_ceil(64)];
        for (place, value) in values.iter().enumerate() {
            for b in (0..field.q).filter(|b| value >> b & 1 == 1) {
                linear::flip(&mut bits, place * field.q + b);
            }
        }
        let mut sums = self.from_values.iter().map(|row| linear::product(row, &bits) == 1);
        let coefficients = sums.by_ref().take(self.degree()).collect();
        assert!(!sums.any(|sum| sum), "no polynomial has these values");
        coefficients
    }
}

/// The odd numbers to 2t − 1: a polynomial over 0 and 1 that vanishes at α^j vanishes at α^2j.
pub fn odd(t: usize) -> impl Iterator<Item = usize> {
    (1..2 * t).step_by(2)
}
