//! The parameters as given, and the rules on them.

use crate::field::Field;
use crate::generator::Level;

#[derive(Clone, Copy, Debug, PartialEq, Eq)]
pub struct Parameters {
    pub q: u32,
    pub m: u32,
    pub v: u32,
    pub t: [u32; 4],
    /// How many of the top coefficients of every sub-word are 0 and are not stored.
    pub s: u32,
}

/// A condition of refusal: its number, and whether it is met. It is asked only where no condition before it is met.
pub type Condition<'a> = (u32, &'a dyn Fn() -> bool);

/// The first condition that is met, or 0.
pub fn first(conditions: &[Condition]) -> u32 {
    conditions.iter().find(|(_, met)| met()).map_or(0, |(number, _)| *number)
}

impl Parameters {
    /// The parameters of full sub-words, s = 0.
    pub const fn full(q: u32, m: u32, v: u32, t: [u32; 4]) -> Parameters {
        Parameters { q, m, v, t, s: 0 }
    }

    /// The same parameters with another s.
    pub const fn shortened(self, s: u32) -> Parameters {
        Parameters { s, ..self }
    }

    /// 0, or the refusal 1 to 4 or 14, in this order.
    pub fn refusal(&self) -> u32 {
        let &Parameters { q, m, v, t, s } = self;
        let n = || (1u64 << q) - 1;
        let given = || &t[..=v as usize];
        let last = || u64::from(t[v as usize]);
        first(&[
            (1, &|| q != 4 && q != 8 && q != 12),
            (2, &|| !(1..=3).contains(&v) || !(v + 1..=8).contains(&m)),
            (3, &|| t[0] < 1 || t[0] >= t[1]),
            (3, &|| given()[1..].windows(2).any(|pair| pair[0] > pair[1])),
            (3, &|| last() > 64 || 2 * last() > n() - 1),
            (3, &|| t[v as usize + 1..].iter().any(|&place| place != 0)),
            (4, &|| (1..u64::from(m)).any(|d| (1..=2 * last()).any(|j| d * j % n() == 0))),
            (14, &|| s > self.most()),
        ])
    }

    /// The greatest s that is accepted, n − w_v − 1, where all other numbers are.
    pub fn most(&self) -> u32 {
        let field = Field::of(self.q);
        (field.n - Level::of(field, self.t[self.v as usize] as usize).degree() - 1) as u32
    }

    pub fn accepted(&self) -> bool {
        self.refusal() == 0
    }
}

/// Accepted parameters, with their field and levels.
pub struct Sheet {
    pub field: &'static Field,
    pub m: usize,
    pub v: usize,
    pub s: usize,
    pub levels: Vec<&'static Level>,
}

impl Sheet {
    pub fn of(p: &Parameters) -> Sheet {
        assert!(p.accepted());
        let field = Field::of(p.q);
        let levels = p.t[..=p.v as usize].iter().map(|&t| Level::of(field, t as usize)).collect();
        Sheet { field, m: p.m as usize, v: p.v as usize, s: p.s as usize, levels }
    }

    /// The level whose check bits sub-word i carries: v − i for i < v, else 0.
    pub fn level(&self, i: usize) -> &'static Level {
        self.levels[self.v.saturating_sub(i)]
    }

    /// The smallest of (v + 1)(2 t_0 + 1) and b (2 t_(v − b + 1) + 1), b from 1 to v.
    pub fn distance(&self) -> usize {
        let weight = |words: usize, level: usize| words * (2 * self.levels[level].t + 1);
        (1..=self.v).map(|b| weight(b, self.v - b + 1)).fold(weight(self.v + 1, 0), usize::min)
    }

    /// The level that nested word l is held to.
    pub fn nested_level(&self, l: usize) -> &'static Level {
        self.levels[self.v - l]
    }
}
