//! A page mended through its nested words.
//!
//! Every sub-word is mended alone, where it can be. Let b of them be broken then, sub-word i by an unknown error E_i, the
//! others being those of a member. Nested words 0 to b − 1 of that member vanish at α^j, j to 2 t_a, a = v − b + 1, since each
//! is held to level a or above. So at each of these j the page's have the values of the errors alone, Σ α^(jil) E_i(α^j):
//! b linear equations with b unknowns, whose matrix is a Vandermonde matrix of the α^(ji), which are different where nothing
//! clashes. Each error of at most t_a places is then decoded from its syndromes, and the next round has fewer to find.
//!
//! Any page is taken as if it were so. Whether it was is then seen from what comes of it.

use crate::linear;
use crate::parameters::Sheet;

/// What comes of the sub-words of a page, round by round.
pub struct Rounds {
    /// How many sub-words are broken at first, once each was mended alone, and after each round.
    pub broken: Vec<usize>,
    /// The sub-words in the end.
    pub words: Vec<Vec<u64>>,
}

impl Sheet {
    /// The rounds on these sub-words: as long as at least one and no more than v are broken, and the last round has mended one.
    pub fn rounds(&self, words: &[Vec<u64>]) -> Rounds {
        let mut words = words.to_vec();
        let mut broken: Vec<usize> = (0..self.m).collect();
        broken.retain(|&i| {
            let places = self.mending(&words[i]);
            !flip_all(&mut words[i], places)
        });
        let mut counts = vec![broken.len()];
        while (1..=self.v).contains(&broken.len()) {
            let errors = self.errors(&words, &broken);
            let left =
                broken.iter().zip(errors).filter_map(|(&i, error)| (!flip_all(&mut words[i], error)).then_some(i));
            broken = left.collect();
            counts.push(broken.len());
            if counts.ends_with(&[broken.len(); 2]) {
                break;
            }
        }
        Rounds { broken: counts, words }
    }

    /// The error of each of some sub-words, at most v of them, where the others are without faults: its places, if they are
    /// found.
    pub fn errors(&self, words: &[Vec<u64>], broken: &[usize]) -> Vec<Option<Vec<usize>>> {
        let (field, count) = (self.field, broken.len());
        let t = self.nested_level(count - 1).t;
        let nested: Vec<Vec<u64>> = (0..count).map(|l| self.nested_word(words, l)).collect();
        let mut syndromes = vec![Vec::new(); count];
        for j in 1..=2 * t {
            let equation = |l: usize| {
                let factors = broken.iter().map(|i| field.power(j * i * l));
                factors.chain([field.value(&nested[l], j)]).collect()
            };
            let values = field.solve((0..count).map(equation).collect()).expect("the nodes are different");
            syndromes.iter_mut().zip(values).for_each(|(list, value)| list.push(value));
        }
        syndromes.iter().map(|list| self.error(list)).collect()
    }
}

/// Flips these places of a word, if there are any to be had; whether there are.
fn flip_all(word: &mut [u64], places: Option<Vec<usize>>) -> bool {
    places.inspect(|places| places.iter().for_each(|&k| linear::flip(word, k))).is_some()
}
