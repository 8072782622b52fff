//! Accepted parameters: every call on members, damaged pages and blank pages, archive and reference alike, with full
//! sub-words and with shortened ones.

use compare::call::{Call, NAMES, Name, Outcome};
use compare::draw::{alike, break_nested, count, exact, list_bytes, one_in, say, seed, with_shortened};
use reference::Parameters;
use reference::calls::BLANK;
use reference::layout::flip;
use reference::parameters::Sheet;
use reference::sample::{Random, all_parameters, all_shortened};
use std::collections::BTreeSet;
use std::ops::RangeInclusive;

/// What a test went through.
struct Run {
    random: Random,
    sheets: usize,
    calls: usize,
    widths: BTreeSet<u32>,
    verdicts: BTreeSet<u32>,
    /// How many spare bits a sub-word had.
    spare_bits: BTreeSet<usize>,
}

impl Run {
    fn new(offset: u64) -> Run {
        Run {
            random: Random::new(seed() + offset),
            sheets: 0,
            calls: 0,
            widths: BTreeSet::new(),
            verdicts: BTreeSet::new(),
            spare_bits: BTreeSet::new(),
        }
    }

    /// The outcome of a call, on which both sides agree.
    fn both(&mut self, call: &Call) -> Outcome {
        self.calls += 1;
        alike(&mut self.random, call)
    }

    /// The number and the lent bytes of a call that is not refused.
    fn compare(&mut self, call: &Call) -> (u32, Vec<u8>) {
        let Outcome { number, lent, .. } = self.both(call);
        assert!(!call.name.refuses(number), "{:?} of {:?} is refused by {number}", call.name, call.p);
        (number, lent)
    }

    /// Asks that a call is refused by this number, and leaves every byte.
    fn refused(&mut self, call: &Call, number: u32) {
        assert_eq!(self.both(call), call.refused(number), "{:?} of {:?}", call.name, call.p);
    }

    /// Write at some widths, then judge, read out and syndromes of the page and of pages damaged in many ways. Where no
    /// greater s is accepted, the next one is refused.
    fn sheet(&mut self, p: &Parameters, widths: &[u32], pages: usize) {
        let sheet = Sheet::of(p);
        self.sheets += 1;
        self.spare_bits.insert(sheet.spare_bits());
        let mut call = exact(&mut self.random, Name::Write, p);
        let mut page = Vec::new();
        for &width in widths {
            self.widths.insert(width);
            call.number = width;
            call.lent = self.random.bytes(sheet.page_bytes());
            page = self.compare(&call).1;
        }
        self.page(p, page.clone());

        for i in 0..sheet.m {
            let mut damaged = page.clone();
            flip(&mut damaged, sheet.place(i, self.random.from_to(0, sheet.stored() - 1)));
            self.page(p, damaged);
        }
        for _ in 0..3 {
            let mut damaged = page.clone();
            break_nested(&mut self.random, &sheet, &mut damaged);
            self.page(p, damaged);
        }
        let spare = self.random.number();
        self.blank_page(p, &sheet.erased(spare));
        let width = self.random.from_to(1, 64) as u32;
        self.ones_written(p, width);
        for _ in 0..pages {
            let drawn = compare::draw::page(&mut self.random, p);
            self.page(p, drawn);
        }
        for name in NAMES {
            let drawn = exact(&mut self.random, name, p);
            self.compare(&drawn);
            if p.s == p.most() {
                self.refused(&Call { p: p.shortened(p.s + 1), ..drawn }, name.refused_by(14));
            }
        }
    }

    /// Every call that reads this page; of the syndromes two sub-words and all nested words.
    fn page(&mut self, p: &Parameters, page: Vec<u8>) {
        let read_out = self.on_page(Name::ReadOut, p, &page, 0);
        let verdict = self.compare(&read_out).0;
        let judge = self.on_page(Name::Judge, p, &page, 0);
        assert_eq!(self.compare(&judge).0, verdict);
        self.verdicts.insert(verdict);
        for _ in 0..2 {
            let index = self.random.from_to(0, p.m as usize - 1) as u32;
            let syndromes = self.on_page(Name::Syndromes, p, &page, index);
            self.compare(&syndromes);
        }
        for l in 0..p.v {
            let syndromes = self.on_page(Name::NestedSyndromes, p, &page, l);
            self.compare(&syndromes);
        }
    }

    /// A call that reads this page, lent drawn bytes of exact length.
    fn on_page(&mut self, name: Name, p: &Parameters, page: &[u8], index: u32) -> Call {
        let lent = match name {
            Name::ReadOut => Sheet::of(p).blocks_bytes(),
            Name::Judge => 0,
            _ => list_bytes(p, name, index),
        };
        Call::new(name, p, index, page.to_vec(), self.random.bytes(lent))
    }

    /// Judge and read out on a blank page.
    fn blank_page(&mut self, p: &Parameters, page: &[u8]) {
        let judge = self.on_page(Name::Judge, p, page, 0);
        assert_eq!(self.compare(&judge).0, BLANK, "{p:?}");
        let read_out = self.on_page(Name::ReadOut, p, page, 0);
        assert_eq!(self.compare(&read_out), (BLANK, Sheet::of(p).ones()), "{p:?}");
        self.verdicts.insert(BLANK);
    }

    /// The blocks of ones: refused by 13 where s is 0; else written, a member that is not blank and gives them back.
    fn ones_written(&mut self, p: &Parameters, width: u32) {
        let mut write = exact(&mut self.random, Name::Write, p);
        (write.number, write.read) = (width, Sheet::of(p).ones());
        if p.s == 0 {
            return self.refused(&write, 13);
        }
        let page = self.compare(&write).1;
        let read_out = self.on_page(Name::ReadOut, p, &page, 0);
        assert_eq!(self.compare(&read_out), (0, write.read), "{p:?}");
    }

    /// Sets of spare bits: every one, where there are few bits; else every set of one sub-word's, with the others' drawn, and
    /// every one that all sub-words have alike. At q = 12, where pages take longest, of the first and the last sub-word alone.
    fn spare_sets(&mut self, sheet: &Sheet) -> Vec<u64> {
        let (m, bits) = (sheet.m, sheet.spare_bits());
        if m * bits <= 8 {
            return (0..1 << (m * bits)).collect();
        }
        let sets = 0..1 << bits;
        let all = sets.clone().map(|set| (0..m).fold(0, |spare, _| spare << bits | set));
        let one_in = if sheet.field.q == 12 { m - 1 } else { 1 };
        let of_one = (0..m).step_by(one_in).flat_map(|i| sets.clone().map(move |set| (i * bits, set)));
        let clear = !((1 << bits) - 1u64);
        let with_others = of_one.map(|(low, set)| self.random.number() & clear.rotate_left(low as u32) | set << low);
        all.chain(with_others).collect()
    }

    /// Blank pages with many sets of spare bits, and pages with one coefficient 0; at some widths blocks of ones, and blocks
    /// with one data bit 0.
    fn blank(&mut self, p: &Parameters, widths: &[u32]) {
        let sheet = Sheet::of(p);
        let (m, stored, spares) = (sheet.m, sheet.stored(), sheet.spare_places().count());
        for spare in self.spare_sets(&sheet) {
            self.blank_page(p, &sheet.erased(spare));
        }
        // None, one, all: fewer where there are no spare bits.
        let one = if spares == 0 { 0 } else { 1 << self.random.from_to(0, spares - 1) };
        let sets = BTreeSet::from([0, one, (1 << spares) - 1]);
        // The syndromes' calls know no blank page.
        for &spare in &sets {
            let indices = (0..p.m).map(|i| (Name::Syndromes, i)).chain((0..p.v).map(|l| (Name::NestedSyndromes, l)));
            for (name, index) in indices {
                let call = self.on_page(name, p, &sheet.erased(spare), index);
                if spare != 0 {
                    self.refused(&call, 8);
                } else if p.s == 0 {
                    assert_eq!(self.compare(&call).1, vec![0; call.lent.len()], "{p:?}");
                } else {
                    self.compare(&call);
                }
            }
        }
        for i in 0..m {
            for k in [0, stored - 1, self.random.from_to(0, stored - 1)] {
                for &spare in &sets {
                    let mut page = sheet.erased(spare);
                    flip(&mut page, sheet.place(i, k));
                    for name in [Name::Judge, Name::ReadOut] {
                        let call = self.on_page(name, p, &page, 0);
                        if spare != 0 {
                            self.refused(&call, 8);
                            continue;
                        }
                        // Where s is above 0 the sub-words of ones fail too.
                        let number = self.compare(&call).0;
                        let expected = if p.s == 0 { 32 + i as u32..=32 + i as u32 } else { 32..=33 };
                        assert!(expected.contains(&number), "{p:?}: {number}");
                    }
                }
            }
        }

        let mut write = exact(&mut self.random, Name::Write, p);
        for &width in widths {
            self.ones_written(p, width);
            (write.number, write.read) = (width, sheet.ones());
            let i = self.random.from_to(0, m - 1);
            flip(&mut write.read, sheet.block_start(i) + self.random.from_to(0, sheet.block_bits(i) - 1));
            self.compare(&write);
        }
        for i in 0..m {
            for r in [0, sheet.block_bits(i) - 1] {
                (write.number, write.read) = (self.random.from_to(1, 64) as u32, sheet.ones());
                flip(&mut write.read, sheet.block_start(i) + r);
                let page = self.compare(&write).1;
                let judge = self.on_page(Name::Judge, p, &page, 0);
                assert_eq!(self.compare(&judge).0, 0, "{p:?}");
            }
        }
    }

    /// Drawn sheets, with so many widths and pages of each; one in `blank_in` with blank pages.
    fn drawn(&mut self, draw: impl Fn(&mut Random) -> Parameters, sheets: usize, widths: usize, blank_in: usize) {
        for k in 0..sheets {
            let p = draw(&mut self.random);
            self.sheet(&p, &Run::widths_of(k, widths), widths);
            if k % blank_in == 0 {
                self.blank(&p, &Run::widths_of(k / blank_in, widths));
            }
        }
    }

    /// The widths of the k-th sheet: the least, the greatest, and `count` that take turns, so that every width has its.
    fn widths_of(k: usize, count: usize) -> Vec<u32> {
        (0..count).map(|c| 1 + ((k * count + c) % 64) as u32).chain([1, 64]).collect()
    }

    /// Says what was gone through, and asks that every width and every verdict of `verdicts` occurred, and sub-words with
    /// these numbers of spare bits.
    fn end(self, title: &str, verdicts: &[u32], spare_bits: RangeInclusive<usize>) {
        let Run { sheets, calls, widths, verdicts: met, spare_bits: spare, .. } = self;
        let line =
            format!("{title}: {sheets} sheets, {calls} calls, verdicts {met:?}, spare bits {spare:?}, seed {}", seed());
        say(&line);
        assert_eq!(widths.len(), 64);
        assert!(verdicts.iter().all(|verdict| met.contains(verdict)), "{line}");
        assert!(spare.into_iter().eq(spare_bits), "{line}");
    }
}

/// The verdicts of sheets with eight sub-words and three nested words; those of q = 4 have five sub-words at most.
const VERDICTS: [u32; 13] = [0, 32, 33, 34, 35, 36, 64, 65, 66, BLANK, 37, 38, 39];

/// Sheets of q = 8 and 12 that are gone through in any case: the greatest strengths, by the number of sub-words; equal
/// generators at levels 0 and 1; the sheet of the requirement.
const SHEETS_OF_Q_8: [Parameters; 7] = [
    Parameters::full(8, 2, 1, [63, 64, 0, 0]),
    Parameters::full(8, 3, 2, [62, 63, 64, 0]),
    Parameters::full(8, 4, 3, [1, 42, 42, 42]),
    Parameters::full(8, 5, 3, [39, 40, 41, 42]),
    Parameters::full(8, 8, 3, [22, 23, 24, 25]),
    Parameters::full(8, 8, 3, [1, 2, 2, 2]),
    Parameters::full(8, 8, 1, [16, 17, 0, 0]),
];
const SHEETS_OF_Q_12: [Parameters; 4] = [
    Parameters::full(12, 8, 3, [28, 32, 39, 58]),
    Parameters::full(12, 8, 3, [61, 62, 63, 64]),
    Parameters::full(12, 2, 1, [63, 64, 0, 0]),
    Parameters::full(12, 8, 3, [1, 2, 2, 2]),
];

#[test]
fn every_sheet_of_q_4() {
    let mut run = Run::new(4);
    let widths: Vec<u32> = (1..=64).collect();
    for p in all_parameters(4, 8) {
        run.sheet(&p, &widths, 40);
        run.blank(&p, &widths);
    }
    assert_eq!(run.sheets, 104);
    run.end("q = 4", &VERDICTS[..10], 1..=1);
}

#[test]
fn every_shortened_sheet_of_q_4() {
    let mut run = Run::new(5);
    let widths: Vec<u32> = (1..=64).collect();
    for p in all_parameters(4, 8).iter().flat_map(all_shortened).filter(|p| p.s > 0) {
        run.sheet(&p, &widths, 40);
        run.blank(&p, &widths);
    }
    assert_eq!(run.sheets, 82);
    // Nine to fourteen coefficients are stored.
    run.end("q = 4, shortened", &VERDICTS[..10], 2..=7);
}

#[test]
fn sheets_of_q_8() {
    let mut run = Run::new(8);
    for p in SHEETS_OF_Q_8 {
        run.sheet(&p, &[1, 8, 63, 64], 4);
        run.blank(&p, &[1, 8, 63, 64]);
    }
    run.drawn(|random| random.parameters(8), count(3000), 4, 150);
    run.end("q = 8", &VERDICTS, 1..=1);
}

#[test]
fn shortened_sheets_of_q_8() {
    let mut run = Run::new(9);
    for p in SHEETS_OF_Q_8.iter().flat_map(with_shortened).filter(|p| p.s > 0) {
        run.sheet(&p, &[1, 8, 63, 64], 4);
        run.blank(&p, &[1, 8, 63, 64]);
    }
    // Every s; or one in an odd number of them, so that every number of spare bits has its turn.
    let p = Parameters::full(8, 3, 2, [2, 3, 5, 0]);
    for (k, p) in all_shortened(&p).skip(1).step_by(one_in() | 1).enumerate() {
        run.sheet(&p, &Run::widths_of(k, 2), 2);
    }
    run.drawn(|random| random.shortened_parameters(8), count(3000), 4, 150);
    run.end("q = 8, shortened", &VERDICTS, 0..=7);
}

#[test]
fn sheets_of_q_12() {
    let mut run = Run::new(12);
    for p in SHEETS_OF_Q_12 {
        run.sheet(&p, &[1, 7, 8, 32, 63, 64], 4);
        run.blank(&p, &[1, 7, 8, 32, 63, 64]);
    }
    run.drawn(|random| random.parameters(12), count(1500), 2, 300);
    run.end("q = 12", &VERDICTS, 1..=1);
}

#[test]
fn shortened_sheets_of_q_12() {
    let mut run = Run::new(13);
    for p in SHEETS_OF_Q_12.iter().flat_map(with_shortened).filter(|p| p.s > 0) {
        run.sheet(&p, &[1, 7, 8, 32, 63, 64], 4);
        run.blank(&p, &[1, 7, 8, 32, 63, 64]);
    }
    // Every s near the greatest, and one in many below; or one in an odd number of these.
    let p = Parameters::full(12, 2, 1, [1, 2, 0, 0]);
    let some = all_shortened(&p).skip(1).filter(|p| p.s % 97 == 0 || p.s + 80 > p.most());
    for (k, p) in some.step_by(one_in() | 1).enumerate() {
        run.sheet(&p, &Run::widths_of(k, 1), 1);
    }
    run.drawn(|random| random.shortened_parameters(12), count(1000), 2, 200);
    run.end("q = 12, shortened", &VERDICTS, 0..=7);
}
