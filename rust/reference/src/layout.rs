//! Bytes, words and places.

use crate::linear;
use crate::parameters::Sheet;

impl Sheet {
    /// Coefficients of a sub-word that a page stores: all but the top s.
    pub fn stored(&self) -> usize {
        self.field.n - self.s
    }

    /// Bytes of a sub-word.
    pub fn sub_word_bytes(&self) -> usize {
        self.stored().div_ceil(8)
    }

    pub fn page_bytes(&self) -> usize {
        self.m * self.sub_word_bytes()
    }

    /// The place in a page, counted in bits, of the coefficient of x^k of sub-word i.
    pub fn place(&self, i: usize, k: usize) -> usize {
        8 * self.sub_word_bytes() * i + k
    }

    /// The bits of a sub-word's last byte that are no coefficients: 0 to 7.
    pub fn spare_bits(&self) -> usize {
        8 * self.sub_word_bytes() - self.stored()
    }

    /// The places of a page that are spare, sub-word by sub-word, in each from the lowest up.
    pub fn spare_places(&self) -> impl Iterator<Item = usize> + '_ {
        (0..self.m).flat_map(move |i| (0..self.spare_bits()).map(move |b| self.place(i, self.stored() + b)))
    }

    /// Data bits of block i.
    pub fn block_bits(&self, i: usize) -> usize {
        self.stored() - self.level(i).degree()
    }

    pub fn blocks_bytes(&self) -> usize {
        (0..self.m).map(|i| self.block_bits(i).div_ceil(8)).sum()
    }

    /// The place in the blocks' bytes, counted in bits, at which block i begins.
    pub fn block_start(&self, i: usize) -> usize {
        (0..i).map(|k| self.block_bits(k).div_ceil(8) * 8).sum()
    }

    fn empty_words(&self) -> Vec<Vec<u64>> {
        vec![vec![0; self.field.n.div_ceil(64)]; self.m]
    }

    /// Whether a bit between the blocks is 1.
    pub fn blocks_stray(&self, blocks: &[u8]) -> bool {
        (0..self.m).any(|i| {
            let start = self.block_start(i);
            let bits = self.block_bits(i);
            (bits..bits.div_ceil(8) * 8).any(|r| bit(blocks, start + r))
        })
    }

    /// Whether a spare bit of a sub-word is 1.
    pub fn page_stray(&self, page: &[u8]) -> bool {
        self.spare_places().any(|place| bit(page, place))
    }

    /// Whether every stored coefficient of every sub-word is 1, whatever the spare bits are.
    pub fn blank(&self, page: &[u8]) -> bool {
        (0..self.m).all(|i| (0..self.stored()).all(|k| bit(page, self.place(i, k))))
    }

    /// The blank page in which the spare bits, from the first sub-word's lowest up, are the lowest bits of `spare`.
    pub fn erased(&self, spare: u64) -> Vec<u8> {
        let mut page = vec![0xFF; self.page_bytes()];
        for (_, place) in self.spare_places().enumerate().filter(|(b, _)| spare >> b & 1 == 0) {
            flip(&mut page, place);
        }
        page
    }

    /// The blocks in which every data bit is 1.
    pub fn ones(&self) -> Vec<u8> {
        let mut blocks = vec![0; self.blocks_bytes()];
        for i in 0..self.m {
            (0..self.block_bits(i)).for_each(|r| set(&mut blocks, self.block_start(i) + r));
        }
        blocks
    }

    /// The sub-words, n coefficients each, of which a page has the lower ones.
    pub fn words_of(&self, page: &[u8]) -> Vec<Vec<u64>> {
        (0..self.m).map(|i| self.word_of(page, i)).collect()
    }

    /// Sub-word i. Its bytes hold its coefficients in their order, and then spare bits, which are left out.
    pub fn word_of(&self, page: &[u8], i: usize) -> Vec<u64> {
        let mut word = vec![0; self.field.n.div_ceil(64)];
        let bytes = &page[i * self.sub_word_bytes()..][..self.sub_word_bytes()];
        for (k, &byte) in bytes.iter().enumerate() {
            word[k / 8] |= u64::from(byte) << (8 * (k % 8));
        }
        (self.stored()..8 * bytes.len()).for_each(|k| linear::put(&mut word, k, false));
        word
    }

    /// The page of some words, whose top s coefficients must be 0.
    pub fn put_page(&self, words: &[Vec<u64>], page: &mut [u8]) {
        page.fill(0);
        for (i, word) in words.iter().enumerate() {
            for k in (0..self.field.n).filter(|&k| linear::get(word, k)) {
                assert!(k < self.stored(), "the coefficient of x^{k} of sub-word {i} is not 0");
                set(page, self.place(i, k));
            }
        }
    }

    /// The words of the data alone, check bits 0: bit r of block i stands at x^(w + r).
    pub fn words_of_blocks(&self, blocks: &[u8]) -> Vec<Vec<u64>> {
        let mut words = self.empty_words();
        for (i, word) in words.iter_mut().enumerate() {
            let (start, w) = (self.block_start(i), self.level(i).degree());
            for r in (0..self.block_bits(i)).filter(|r| bit(blocks, start + r)) {
                linear::flip(word, w + r);
            }
        }
        words
    }

    pub fn put_blocks(&self, words: &[Vec<u64>], blocks: &mut [u8]) {
        blocks.fill(0);
        for (i, word) in words.iter().enumerate() {
            let (start, w) = (self.block_start(i), self.level(i).degree());
            for r in (0..self.block_bits(i)).filter(|r| linear::get(word, w + r)) {
                set(blocks, start + r);
            }
        }
    }

    /// Nested word l: the sum of the sub-words, sub-word i turned up by l × i of the n places.
    pub fn nested_word(&self, words: &[Vec<u64>], l: usize) -> Vec<u64> {
        let mut sum = vec![0; self.field.n.div_ceil(64)];
        for (i, word) in words.iter().enumerate() {
            for k in linear::ones(word) {
                linear::flip(&mut sum, (k + l * i) % self.field.n);
            }
        }
        sum
    }
}

/// Bit `place` of some bytes, the least of each byte first.
pub fn bit(bytes: &[u8], place: usize) -> bool {
    bytes[place / 8] >> (place % 8) & 1 == 1
}

pub fn set(bytes: &mut [u8], place: usize) {
    bytes[place / 8] |= 1 << (place % 8);
}

pub fn flip(bytes: &mut [u8], place: usize) {
    bytes[place / 8] ^= 1 << (place % 8);
}

/// Adds some bytes to others, bit by bit modulo 2.
pub fn add(bytes: &mut [u8], others: &[u8]) {
    bytes.iter_mut().zip(others).for_each(|(byte, other)| *byte ^= other);
}
