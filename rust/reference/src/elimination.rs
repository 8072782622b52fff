//! Pages by elimination: every check bit of the page is an unknown, every condition of the code a row.

use crate::linear;
use crate::parameters::Sheet;

impl Sheet {
    /// The pages of some sets of data words. The conditions must determine all check bits and leave nothing over.
    pub fn encode_by_elimination(&self, sets: &[Vec<Vec<u64>>]) -> Vec<Vec<Vec<u64>>> {
        let starts: Vec<usize> = (0..self.m).map(|i| (0..i).map(|k| self.level(k).degree()).sum()).collect();
        let unknowns = starts[self.m - 1] + self.level(self.m - 1).degree();

        // That the word whose place is `place(i, k)` for coefficient k of sub-word i, where it has one, vanishes at α^1 to
        // α^2t: the unknowns at the left; at the right, for each set, the sum that its data, word `data`, has already.
        let conditions = |t: usize, place: &dyn Fn(usize, usize) -> Option<usize>, data: &[Vec<u64>]| {
            let row = |condition: &Vec<u64>| {
                let mut row = vec![0; (unknowns + sets.len()).div_ceil(64)];
                for (i, start) in starts.iter().enumerate() {
                    for k in 0..self.level(i).degree() {
                        if place(i, k).is_some_and(|place| linear::get(condition, place)) {
                            linear::flip(&mut row, start + k);
                        }
                    }
                }
                for (s, word) in data.iter().enumerate() {
                    linear::put(&mut row, unknowns + s, linear::product(condition, word) == 1);
                }
                row
            };
            (1..=2 * t).flat_map(|j| self.field.rows(j)).map(row).collect::<Vec<_>>()
        };
        let mut rows = Vec::new();
        for i in 0..self.m {
            let data: Vec<_> = sets.iter().map(|words| words[i].clone()).collect();
            rows.extend(conditions(self.levels[0].t, &|at, k| (at == i).then_some(k), &data));
        }
        for l in 0..self.v {
            let data: Vec<_> = sets.iter().map(|words| self.nested_word(words, l)).collect();
            rows.extend(conditions(self.nested_level(l).t, &|i, k| Some((k + l * i) % self.field.n), &data));
        }

        linear::eliminate(&mut rows, unknowns);
        for s in 0..sets.len() {
            assert!(
                rows[unknowns..].iter().all(|row| !linear::get(row, unknowns + s)),
                "conditions without a solution"
            );
        }
        let solved = |s: usize, words: &Vec<Vec<u64>>| {
            let mut page = words.clone();
            for (i, start) in starts.iter().enumerate() {
                for k in 0..self.level(i).degree() {
                    linear::put(&mut page[i], k, linear::get(&rows[start + k], unknowns + s));
                }
            }
            page
        };
        sets.iter().enumerate().map(|(s, words)| solved(s, words)).collect()
    }
}
