//! The fields GF(2^q), q = 4, 8, 12. An element is a number below 2^q, bit k the coefficient of x^k; α is the class of x.
//!
//! A word is n = 2^q − 1 coefficients, packed 64 to a number, the coefficient of x^0 lowest.

use std::sync::OnceLock;

/// No strength is above 64, so no root beyond α^128 is asked for.
pub const LAST_ROOT: usize = 128;

pub struct Field {
    pub q: usize,
    pub n: usize,
    polynomial: u32,
    powers: Vec<u16>,
    /// For each j and each bit b of an element: the word whose coefficient k is bit b of α^(jk).
    planes: Vec<Vec<Vec<u64>>>,
}

impl Field {
    /// The field of q = 4, 8 or 12.
    pub fn of(q: u32) -> &'static Field {
        static FIELDS: [OnceLock<Field>; 3] = [const { OnceLock::new() }; 3];
        let (place, polynomial) = match q {
            4 => (0, 19),
            8 => (1, 285),
            12 => (2, 4179),
            _ => panic!("no field of q = {q}"),
        };
        FIELDS[place].get_or_init(|| Field::new(q as usize, polynomial))
    }

    fn new(q: usize, polynomial: u32) -> Field {
        let n = (1 << q) - 1;
        let mut field = Field { q, n, polynomial, powers: vec![1], planes: Vec::new() };
        while field.powers.len() < n {
            let last = *field.powers.last().unwrap();
            field.powers.push(field.multiply(last, 2));
        }
        assert_eq!(field.multiply(field.powers[n - 1], 2), 1);
        for j in 0..=LAST_ROOT {
            let mut rows = vec![vec![0; n.div_ceil(64)]; q];
            for k in 0..n {
                let element = field.power(j * k);
                for (b, row) in rows.iter_mut().enumerate() {
                    row[k / 64] |= u64::from(element >> b & 1) << (k % 64);
                }
            }
            field.planes.push(rows);
        }
        field
    }

    pub fn multiply(&self, a: u16, b: u16) -> u16 {
        let (mut a, mut product) = (u32::from(a), 0);
        for k in 0..self.q {
            if b >> k & 1 == 1 {
                product ^= a;
            }
            a <<= 1;
            if a >> self.q == 1 {
                a ^= self.polynomial;
            }
        }
        product as u16
    }

    /// The square of a polynomial of degree up to 15, an element or not: bit k goes to 2k, and long division by the field's
    /// polynomial leaves what is below x^q.
    pub fn square(&self, a: u16) -> u16 {
        let spread = (0..16).filter(|k| a >> k & 1 == 1).fold(0u32, |sum, k| sum | 1 << (2 * k));
        let divided = |rest: u32, k: usize| rest ^ ((rest >> k & 1) * (self.polynomial << (k - self.q)));
        (self.q..32).rev().fold(spread, divided) as u16
    }

    /// The inverse of a ≠ 0, which is a^(2^q − 2).
    pub fn inverse(&self, a: u16) -> u16 {
        (1..self.q).fold((a, 1), |(s, r), _| (self.multiply(s, s), self.multiply(r, self.multiply(s, s)))).1
    }

    /// α^e.
    pub fn power(&self, e: usize) -> u16 {
        self.powers[e % self.n]
    }

    /// The e below n with α^e = a, a ≠ 0.
    pub fn log(&self, a: u16) -> usize {
        self.powers.iter().position(|&power| power == a).unwrap()
    }

    /// The solution of a square system of equations over the field, if it has just one; the last entry of each equation is
    /// its right-hand side.
    pub fn solve(&self, mut equations: Vec<Vec<u16>>) -> Option<Vec<u16>> {
        for place in 0..equations.len() {
            let found = (place..equations.len()).find(|&r| equations[r][place] != 0)?;
            equations.swap(place, found);
            let scale = self.inverse(equations[place][place]);
            let pivot: Vec<u16> = equations[place].iter().map(|&x| self.multiply(scale, x)).collect();
            for equation in equations.iter_mut() {
                let factor = equation[place];
                for (x, &y) in equation.iter_mut().zip(&pivot).skip(place) {
                    *x ^= self.multiply(factor, y);
                }
            }
            equations[place] = pivot;
        }
        Some(equations.into_iter().map(|equation| *equation.last().unwrap()).collect())
    }

    /// The rank of a matrix over the field, by elimination.
    pub fn rank(&self, mut rows: Vec<Vec<u16>>) -> usize {
        let mut rank = 0;
        for place in 0..rows.first().map_or(0, Vec::len) {
            let Some(found) = (rank..rows.len()).find(|&r| rows[r][place] != 0) else { continue };
            rows.swap(rank, found);
            let scale = self.inverse(rows[rank][place]);
            let (above, below) = rows.split_at_mut(rank + 1);
            for row in below.iter_mut().filter(|row| row[place] != 0) {
                let factor = self.multiply(scale, row[place]);
                for (x, &y) in row.iter_mut().zip(&above[rank]).skip(place) {
                    *x ^= self.multiply(factor, y);
                }
            }
            rank += 1;
        }
        rank
    }

    /// The rows of the conditions that a word vanishes at α^j.
    pub fn rows(&self, j: usize) -> &[Vec<u64>] {
        &self.planes[j]
    }

    /// The value of a word at α^j: the sum of α^(jk) over the places k of its ones, bit by bit.
    pub fn value(&self, word: &[u64], j: usize) -> u16 {
        self.planes[j].iter().enumerate().fold(0, |sum, (b, row)| sum | (crate::linear::product(row, word) << b))
    }
}
