//! The error of given syndromes, and so the multiple of g_0 near a word, by Peterson's decoder.
//!
//! Let an error be at ν ≤ t places k. Then its S_j, for j to 2t, is the sum of α^(jk) over these k; so it is of a multiple of
//! g_0 with these places flipped, t being t_0. So the matrix of the S_(a+b−1), a and b from 1 to t, is the product of a
//! Vandermonde matrix of ν columns and its transpose, with a diagonal between them: it has rank ν, and its first ν rows and
//! columns have an inverse. So the locator, 1 + Λ_1 x + .. + Λ_ν x^ν, which vanishes just at the α^−k, is the only solution of
//! S_(ν+a) = Λ_1 S_(ν+a−1) + .. + Λ_ν S_a, a from 1 to ν.
//!
//! Any syndromes are taken as if they were so. Whether they were is then seen from what comes of it.

use crate::field::Field;
use crate::linear;
use crate::parameters::Sheet;

/// S_1 to S_2t of a word.
pub fn syndromes(field: &Field, t: usize, word: &[u64]) -> Vec<u16> {
    (1..=2 * t).map(|j| field.value(word, j)).collect()
}

/// The places, rising, at which the locator of syndromes, S_1 to S_2t, vanishes; none where there is no locator.
pub fn locate(field: &Field, syndromes: &[u16]) -> Option<Vec<usize>> {
    let t = syndromes.len() / 2;
    // Entry a is S_(a+1).
    let flips = field.rank((0..t).map(|a| syndromes[a..a + t].to_vec()).collect());
    let equation = |a: usize| syndromes[a..flips + a].iter().rev().chain([&syndromes[flips + a]]).copied().collect();
    let locator = field.solve((0..flips).map(equation).collect())?;
    let terms: Vec<(usize, usize)> =
        (1..).zip(locator).filter(|&(_, c)| c != 0).map(|(b, c)| (b, field.log(c))).collect();
    let value = |k: usize| terms.iter().fold(1, |sum, (b, log)| sum ^ field.power(log + b * (field.n - k)));
    Some((0..field.n).filter(|&k| value(k) == 0).collect())
}

impl Sheet {
    /// The places, rising, at which the multiple of g_0 that is 0 in its top s places and differs from a word in at most t_0
    /// places does so; none where there is no such multiple.
    pub fn mending(&self, word: &[u64]) -> Option<Vec<usize>> {
        let level = self.levels[0];
        let places = locate(self.field, &syndromes(self.field, level.t, word))?;
        let mut mended = word.to_vec();
        places.iter().for_each(|&k| linear::flip(&mut mended, k));
        let near = places.len() <= level.t && places.iter().all(|&k| k < self.stored());
        (near && level.remainder(self.field, &mended).is_empty()).then_some(places)
    }

    /// The places, rising, of the error of at most t stored places that has these syndromes, S_1 to S_2t; none where there is
    /// no such error.
    pub fn error(&self, syndromes: &[u16]) -> Option<Vec<usize>> {
        let places = locate(self.field, syndromes)?;
        let near = places.len() <= syndromes.len() / 2 && places.iter().all(|&k| k < self.stored());
        let sum = |j: usize| places.iter().fold(0, |sum, &k| sum ^ self.field.power(j * k));
        (near && (1..).zip(syndromes).all(|(j, &syndrome)| sum(j) == syndrome)).then_some(places)
    }

    /// How each word of the stored places is mended, by the definition alone: from every multiple of g_0 every set of at most
    /// t_0 places is flipped. A word and a set of places are numbers, bit k for place k; for sheets of q = 4.
    pub fn nearest(&self) -> Vec<Option<u64>> {
        let words = 0..1u64 << self.stored();
        let sets: Vec<u64> = words.clone().filter(|set| set.count_ones() as usize <= self.levels[0].t).collect();
        let mut found = vec![None; words.end as usize];
        for multiple in words.filter(|&word| self.levels[0].remainder(self.field, &[word]).is_empty()) {
            for &set in &sets {
                let of_word = &mut found[(multiple ^ set) as usize];
                assert!(of_word.is_none(), "two multiples are near");
                *of_word = Some(set);
            }
        }
        found
    }
}
