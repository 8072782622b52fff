//! Inputs drawn from a seed.

use crate::field::Field;
use crate::layout::set;
use crate::parameters::{Parameters, Sheet};

/// xorshift64*: the same seed draws the same numbers.
pub struct Random(u64);

impl Random {
    pub fn new(seed: u64) -> Random {
        // Any seed but one gives a state other than 0; the first numbers of neighbouring seeds are alike and are passed.
        let mut random = Random((seed ^ 0x9E37_79B9_7F4A_7C15).max(1));
        for _ in 0..16 {
            random.number();
        }
        random
    }

    pub fn number(&mut self) -> u64 {
        self.0 ^= self.0 >> 12;
        self.0 ^= self.0 << 25;
        self.0 ^= self.0 >> 27;
        self.0.wrapping_mul(0x2545_F491_4F6C_DD1D)
    }

    /// A number from `low` to `high`.
    pub fn from_to(&mut self, low: usize, high: usize) -> usize {
        low + ((self.number() >> 32) as usize) % (high - low + 1)
    }

    /// True once in `times`.
    pub fn once_in(&mut self, times: usize) -> bool {
        self.from_to(1, times) == 1
    }

    pub fn bytes(&mut self, length: usize) -> Vec<u8> {
        (0..length).map(|_| (self.number() >> 56) as u8).collect()
    }

    /// Accepted parameters of a field, with full sub-words.
    pub fn parameters(&mut self, q: u32) -> Parameters {
        loop {
            let v = self.from_to(1, 3);
            let m = self.from_to(v + 1, 8) as u32;
            let greatest = match q {
                4 => 7,
                _ => 64,
            };
            let top = self.from_to(2, greatest);
            let mut t = [0; 4];
            t[..=v].fill_with(|| self.from_to(1, top) as u32);
            t[..=v].sort();
            let drawn = Parameters::full(q, m, v as u32, t);
            if drawn.accepted() {
                return drawn;
            }
        }
    }

    /// Accepted parameters of full sub-words, shortened if they can be: a little, by any s, by the greatest or nearly, or so
    /// that the coefficients stored fill whole bytes or whole words of eight bytes, or are one less or one more.
    pub fn shortened(&mut self, p: &Parameters) -> Parameters {
        let (n, most) = (Field::of(p.q).n, p.most() as usize);
        if most == 0 {
            return *p;
        }
        let s = match self.from_to(0, 5) {
            0 => self.from_to(1, most.min(9)),
            1 => most,
            2 => most - self.from_to(0, most.min(9) - 1),
            3 => self.from_to(1, most),
            kind => {
                let unit = if kind == 4 { 8 } else { 64 };
                let stored = n - self.from_to(1, most);
                n + 1 - (stored / unit * unit + self.from_to(0, 2))
            }
        };
        p.shortened(s.clamp(1, most) as u32)
    }

    /// Accepted parameters of a field with shortened sub-words.
    pub fn shortened_parameters(&mut self, q: u32) -> Parameters {
        loop {
            let full = self.parameters(q);
            let drawn = self.shortened(&full);
            if drawn.s > 0 {
                return drawn;
            }
        }
    }

    /// Blocks that fit: all bits drawn, or few ones, or many.
    pub fn blocks(&mut self, sheet: &Sheet) -> Vec<u8> {
        let ones_in_eight = [0, 1, 4, 4, 4, 4, 7, 8][self.from_to(0, 7)];
        let mut blocks = vec![0; sheet.blocks_bytes()];
        for i in 0..sheet.m {
            let start = sheet.block_start(i);
            for r in 0..sheet.block_bits(i) {
                if self.from_to(1, 8) <= ones_in_eight {
                    set(&mut blocks, start + r);
                }
            }
        }
        blocks
    }

    /// A place of a page that is not spare.
    pub fn place(&mut self, sheet: &Sheet) -> usize {
        sheet.place(self.from_to(0, sheet.m - 1), self.from_to(0, sheet.stored() - 1))
    }
}

/// Every accepted set of parameters of a field whose strengths are at most `greatest`, with full sub-words.
pub fn all_parameters(q: u32, greatest: u32) -> Vec<Parameters> {
    let mut all = Vec::new();
    for v in 1..=3 {
        for m in v + 1..=8 {
            let places = (greatest + 1).pow(v + 1);
            for code in 0..places {
                let mut t = [0; 4];
                let mut rest = code;
                for place in &mut t[..=v as usize] {
                    *place = rest % (greatest + 1);
                    rest /= greatest + 1;
                }
                all.push(Parameters::full(q, m, v, t));
            }
        }
    }
    all.retain(Parameters::accepted);
    all
}

/// The parameters at every s that is accepted, from 0 up.
pub fn all_shortened(p: &Parameters) -> impl Iterator<Item = Parameters> + use<> {
    let p = *p;
    (0..=p.most()).map(move |s| p.shortened(s))
}
