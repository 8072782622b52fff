//! Pages by values at the roots.
//!
//! Let α^j be a root of g_a and of no generator before it. If a = 0, every sub-word vanishes there. If not, the nested
//! words 0 to v − a vanish there, v − a + 1 linear conditions on the values of the sub-words; sub-words 0 to v − a have
//! the check bits to meet them, the others are given. So for each root a square system, with a Vandermonde matrix, gives
//! the values of the sub-words that are not given, and the check bits of a sub-word are had back from its values.

use crate::generator::odd;
use crate::layout::set;
use crate::linear;
use crate::parameters::Sheet;

impl Sheet {
    /// The page of the data words: only check bits are added.
    pub fn encode(&self, data: &[Vec<u64>]) -> Vec<Vec<u64>> {
        let mut words = data.to_vec();
        for i in (0..self.m).rev() {
            let level = self.level(i);
            let missing: Vec<u16> =
                odd(level.t).map(|j| self.field.value(&data[i], j) ^ self.value_of_sub_word(&words, i, j)).collect();
            for (k, bit) in level.interpolate(self.field, &missing).into_iter().enumerate() {
                linear::put(&mut words[i], k, bit);
            }
        }
        words
    }

    /// The page of blocks that are all 0 but for bit r of block i.
    pub fn page_of_bit(&self, i: usize, r: usize) -> Vec<u8> {
        let mut blocks = vec![0; self.blocks_bytes()];
        set(&mut blocks, self.block_start(i) + r);
        let mut page = vec![0; self.page_bytes()];
        self.put_page(&self.encode(&self.words_of_blocks(&blocks)), &mut page);
        page
    }

    /// The value that sub-word i must have at α^j, a root of its level, where the sub-words after i are known.
    fn value_of_sub_word(&self, words: &[Vec<u64>], i: usize, j: usize) -> u16 {
        let a = self.levels.iter().position(|level| level.is_root(j)).unwrap();
        if a == 0 {
            return 0;
        }
        let unknowns = self.v - a + 1;
        let given: Vec<u16> = words[unknowns..].iter().map(|word| self.field.value(word, j)).collect();
        let equations = (0..unknowns).map(|l| {
            let power = |i: usize| self.field.power(j * l * i);
            let sum = given.iter().zip(unknowns..).fold(0, |sum, (&c, i)| sum ^ self.field.multiply(power(i), c));
            (0..unknowns).map(power).chain([sum]).collect()
        });
        self.field.solve(equations.collect()).expect("nodes coincide")[i]
    }
}
