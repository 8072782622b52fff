//! Bursts, the requirement's scratched runs: a member changed in one sub-word alone, within w_v neighbouring places, is never
//! judged a member; where full sub-words are stored, place 0 follows place n − 1. One place more, and it can be one.

use compare::call::{Call, Name, sheet};
use compare::draw::{alike, count, member, one_in, say, seed};
use gii_bch::{Refusal, Verdict};
use reference::Parameters;
use reference::calls::BLANK;
use reference::layout::flip;
use reference::parameters::Sheet;
use reference::sample::{Random, all_parameters, all_shortened};

/// The degree w_v.
fn longest(sheet: &Sheet) -> usize {
    sheet.levels[sheet.v].degree()
}

/// The `length` neighbouring places from a on; those behind the last stored one are left out where s is above 0.
fn places(sheet: &Sheet, a: usize, length: usize) -> Vec<usize> {
    (a..a + length).filter(|&k| sheet.s == 0 || k < sheet.stored()).map(|k| k % sheet.field.n).collect()
}

/// The remainder of a polynomial by another, as numbers.
fn remainder(mut f: u32, g: u32) -> u32 {
    while f >= 1 << g.ilog2() {
        f ^= g << (f.ilog2() - g.ilog2());
    }
    f
}

fn as_number(g: &[bool]) -> u32 {
    g.iter().rev().fold(0, |number, &bit| number << 1 | u32::from(bit))
}

/// What came of changes of members of q = 4 in one sub-word.
#[derive(Clone, Copy, Default)]
struct Changes {
    all: usize,
    bursts: usize,
    /// The bursts, counted for every place from which on w_v places hold the change.
    begun: usize,
    /// Changes into another member; of these, those within w_v places if place 0 followed the last stored place.
    members: usize,
    around: usize,
}

impl Changes {
    /// Changes a member's sub-word i by every e, or by one in so many.
    fn make(&mut self, p: &Parameters, page: &[u8], i: usize, one_in: usize) {
        let (archive, sheet) = (sheet(p), Sheet::of(p));
        let (stored, w) = (sheet.stored(), longest(&sheet));
        let set = |places: Vec<usize>| places.into_iter().fold(0u32, |set, k| set | 1 << k);
        let bursts: Vec<u32> = (0..stored).map(|a| set(places(&sheet, a, w))).collect();
        let around: Vec<u32> = (0..stored).map(|a| set((a..a + w).map(|k| k % stored).collect())).collect();
        let [g_0, g_v] = [0, sheet.v].map(|level| as_number(&sheet.levels[level].generator));
        let at = sheet.place(i, 0) / 8;
        for e in (1..1 << stored).step_by(one_in) {
            let mut damaged = page.to_vec();
            damaged[at] ^= e as u8;
            damaged[at + 1] ^= (e >> 8) as u8;
            let within = |places: &&u32| e & !**places == 0;
            let begun = bursts.iter().filter(within).count();
            let verdict = archive.judge(&damaged);
            assert!(begun == 0 || verdict != Ok(Verdict::Member), "{p:?}, sub-word {i}, change {e:#b}");
            let expected = match () {
                _ if sheet.blank(&damaged) => Verdict::Blank,
                _ if remainder(e, g_0) != 0 => Verdict::SubWord(i as u32),
                _ if remainder(e, g_v) != 0 => Verdict::NestedWord(0),
                _ => Verdict::Member,
            };
            assert_eq!(verdict, Ok(expected), "{p:?}, sub-word {i}, change {e:#b}");

            self.all += 1;
            self.bursts += usize::from(begun > 0);
            self.begun += begun;
            if expected == Verdict::Member {
                self.members += 1;
                self.around += usize::from(p.s > 0 && around.iter().any(|places| within(&places)));
            }
        }
    }

    /// Whether these were all changes of one sub-word: from place a on, every change of w_v places, or fewer where the
    /// sub-word ends; and all multiples of g_v, but that one of them may make the page blank.
    fn complete(&self, sheet: &Sheet) -> bool {
        let (stored, w) = (sheet.stored(), longest(sheet));
        let begun: usize = (0..stored).map(|a| (1 << places(sheet, a, w).len()) - 1).sum();
        let multiples = (1 << (stored - w)) - 1;
        self.begun == begun && (self.members == multiples || self.members + 1 == multiples)
    }
}

#[test]
fn every_burst_of_q_4() {
    let mut random = Random::new(seed() + 40);
    // Where one sheet in eight is taken, of the changes one in 57: the steps are odd.
    let some = one_in();
    let steps = some * some - some + 1;
    let (mut sheets, mut all) = (0, Changes::default());
    for p in all_parameters(4, 8).iter().flat_map(all_shortened).step_by(some) {
        let (sheet, before) = (Sheet::of(&p), all);
        sheets += 1;
        for i in 0..sheet.m {
            let page = member(&mut random, &p);
            let mut here = Changes::default();
            here.make(&p, &page, i, steps);
            assert!(steps > 1 || here.complete(&sheet), "{p:?}, sub-word {i}");
            all.all += here.all;
            all.bursts += here.bursts;
            all.begun += here.begun;
            all.members += here.members;
            all.around += here.around;
        }
        // The requirement's sheet B.
        assert!(steps > 1 || p != Parameters::full(4, 3, 2, [1, 2, 3, 0]) || all.begun - before.begun == 46_035);
    }
    let Changes { all, bursts, begun, members, around } = all;
    say(&format!(
        "q = 4: {sheets} sheets, {all} changes of a sub-word, {bursts} of them bursts ({begun} by where they can begin), {members} into members, {around} of these in w_v places around a shortened sub-word, seed {}",
        seed()
    ));
    assert!(bursts > 0 && members > 0);
    assert!(steps > 1 || sheets == 186 && around > 0);
}

/// A drawn burst: the sub-word, the places that change, and whether they are a multiple of g_0.
fn burst(random: &mut Random, sheet: &Sheet) -> (usize, Vec<usize>, bool) {
    let (stored, w) = (sheet.stored(), longest(sheet));
    let i = random.from_to(0, sheet.m - 1);
    let a = match random.from_to(0, 3) {
        0 => 0,
        1 => stored - random.from_to(1, w),
        _ => random.from_to(0, stored - 1),
    };
    let length = if random.once_in(2) { w } else { random.from_to(1, w) };
    let run = places(sheet, a, length);
    // Multiples of a generator below g_v's degree pass as sub-words, those of g_(v-1) as all nested words but the first.
    let level = random.from_to(0, sheet.v - 1);
    let g = &sheet.levels[level].generator;
    let multiple = !random.once_in(3) && g.len() <= run.len();
    let bits: Vec<bool> = if multiple {
        let mut product = vec![false; run.len()];
        let factor = run.len() - g.len();
        let last = random.from_to(0, factor);
        for shift in (0..=factor).filter(|&shift| shift == last || random.once_in(2)).collect::<Vec<_>>() {
            g.iter().enumerate().for_each(|(k, &bit)| product[shift + k] ^= bit);
        }
        product
    } else {
        let all = random.once_in(4);
        let one = random.from_to(0, run.len() - 1);
        (0..run.len()).map(|k| all || k == one || random.once_in(2)).collect()
    };
    (i, run.into_iter().zip(bits).filter(|&(_, bit)| bit).map(|(k, _)| k).collect(), multiple)
}

/// Drawn sheets, half of them shortened where they can be, with drawn bursts of each: judge and read out, archive and
/// reference alike.
fn drawn(q: u32, sheets: usize, each: usize) {
    let mut random = Random::new(seed() + 40 + u64::from(q));
    let (mut by_sub_word, mut by_nested_word, mut wrapped) = (0, 0, 0);
    let sheets = count(sheets);
    for k in 0..sheets {
        let p = if k % 2 == 0 { random.parameters(q) } else { random.shortened_parameters(q) };
        let made = Sheet::of(&p);
        let page = member(&mut random, &p);
        let said = |random: &mut Random, damaged: &[u8]| {
            let judge = Call::new(Name::Judge, &p, 0, damaged.to_vec(), Vec::new());
            let lent = random.bytes(made.blocks_bytes());
            let read_out = Call { name: Name::ReadOut, lent, ..judge.clone() };
            let [judged, read] = [judge, read_out].map(|call| alike(random, &call).number);
            assert_eq!(judged, read, "{p:?}");
            judged
        };
        for _ in 0..each {
            let (i, changes, multiple) = burst(&mut random, &made);
            let mut damaged = page.clone();
            changes.iter().for_each(|&k| flip(&mut damaged, made.place(i, k)));
            let number = said(&mut random, &damaged);
            let expected = [if multiple { 64 } else { 32 + i as u32 }, 64, BLANK];
            assert!(expected.contains(&number), "{p:?}, sub-word {i}, places {changes:?}: {number}");
            by_sub_word += usize::from(number < 64);
            by_nested_word += usize::from(number == 64);
            wrapped += usize::from(changes.windows(2).any(|pair| pair[0] > pair[1]));
        }
        // One place more: g_v, moved up.
        let (i, g) = (random.from_to(0, made.m - 1), &made.levels[made.v].generator);
        let a = random.from_to(0, made.stored() - g.len());
        let mut other = page.clone();
        (0..g.len()).filter(|&k| g[k]).for_each(|k| flip(&mut other, made.place(i, a + k)));
        let number = said(&mut random, &other);
        assert!(number == 0 || number == BLANK, "{p:?}, sub-word {i}, g_v at place {a}: {number}");
    }
    say(&format!(
        "q = {q}: {sheets} sheets, {} bursts, {by_sub_word} seen by their sub-word, {by_nested_word} by nested word 0; {wrapped} pass from place n - 1 to 0, seed {}",
        by_sub_word + by_nested_word,
        seed()
    ));
    assert!(by_sub_word > 0 && by_nested_word > 0 && wrapped > 0);
}

#[test]
fn bursts_of_q_8() {
    drawn(8, 1200, 24);
}

#[test]
fn bursts_of_q_12() {
    drawn(12, 400, 12);
}

/// A spare bit beside a burst makes it 8, or leaves it blank.
#[test]
fn spare_bits_beside_bursts() {
    let mut random = Random::new(seed() + 42);
    for k in 0..count(2000) {
        let q = [4, 8][k % 2];
        let p = if k % 4 < 2 { random.parameters(q) } else { random.shortened_parameters(q) };
        let made = Sheet::of(&p);
        let spare: Vec<usize> = made.spare_places().collect();
        if spare.is_empty() {
            continue;
        }
        let mut page = member(&mut random, &p);
        if random.once_in(2) {
            let (i, changes, _) = burst(&mut random, &made);
            changes.iter().for_each(|&k| flip(&mut page, made.place(i, k)));
        }
        flip(&mut page, spare[random.from_to(0, spare.len() - 1)]);
        let expected = if made.blank(&page) { Ok(Verdict::Blank) } else { Err(Refusal::Stray) };
        assert_eq!(sheet(&p).judge(&page), expected, "{p:?}");
    }
}
