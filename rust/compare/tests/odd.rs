//! Odd syndromes and all from them: archive and reference alike, on words with one coefficient, whose syndromes are known, on
//! every number of 16 bits as a given one, on every level of many sheets. And what refuses them: words and levels that there
//! are not, lengths of either list. Lists of pages of every kind are compared in `pages`, there as here also by what the
//! archive makes of its own list.

use compare::call::{Call, Name, Outcome};
use compare::draw::{
    alike, all_drawn, all_from, any_page, count, list_bytes, one_in, say, seed, sheets_of_q_4, with_shortened,
};
use compare::work::STRONGEST;
use gii_bch::numbers;
use reference::Parameters;
use reference::layout::set;
use reference::parameters::Sheet;
use reference::sample::Random;
use std::collections::BTreeSet;

/// Sheets that are gone through in any case: of the greatest strengths, one for each field, and others.
const STRONG: [Parameters; 3] =
    [Parameters::full(4, 2, 1, [6, 7, 0, 0]), Parameters::full(8, 2, 1, [63, 64, 0, 0]), STRONGEST];
const OTHERS: [Parameters; 5] = [
    Parameters::full(4, 2, 1, [1, 2, 0, 0]),
    Parameters::full(4, 3, 2, [1, 2, 3, 0]),
    Parameters::full(8, 4, 2, [4, 8, 16, 0]),
    Parameters::full(8, 8, 3, [1, 2, 2, 2]),
    Parameters::full(12, 8, 3, [28, 32, 39, 58]),
];

/// What a test went through.
struct Run {
    random: Random,
    sheets: usize,
    calls: usize,
    numbers: usize,
}

impl Run {
    fn new(offset: u64) -> Run {
        Run { random: Random::new(seed() + offset), sheets: 0, calls: 0, numbers: 0 }
    }

    /// The outcome of a call, on which both sides agree.
    fn both(&mut self, call: &Call) -> Outcome {
        self.calls += 1;
        alike(&mut self.random, call)
    }

    /// The numbers that a call lists, which is not refused.
    fn listed(&mut self, call: &Call) -> Vec<u16> {
        let Outcome { number, lent, .. } = self.both(call);
        assert_eq!(number, 0, "{:?} of {:?}, {}", call.name, call.p, call.number);
        let listed: Vec<u16> = numbers(&lent).collect();
        self.numbers += listed.len();
        listed
    }

    /// Asks that a call is refused by this number, and leaves every byte.
    fn refused(&mut self, call: &Call, number: u32) {
        let Call { name, p, number: of, read, lent, .. } = call;
        let outcome = self.both(call);
        let title = format!("{name:?} {p:?}, index or level {of}, {} bytes read, {} lent", read.len(), lent.len());
        assert_eq!(outcome.number, number, "{title}");
        assert!(outcome == call.refused(number), "{title}, refused by {number}: bytes are altered");
    }

    /// A call that lists the odd syndromes of a word of a page, lent drawn bytes.
    fn on_page(&mut self, name: Name, p: &Parameters, page: &[u8], index: u32) -> Call {
        let lent = if index < words(p, name) { list_bytes(p, name, index) } else { 2 };
        Call::new(name, p, index, page.to_vec(), self.random.bytes(lent))
    }

    /// Says what was gone through.
    fn end(self, title: &str) {
        let Run { sheets, calls, numbers, .. } = self;
        say(&format!("odd syndromes, {title}: {sheets} sheets, {calls} calls, {numbers} numbers, seed {}", seed()));
    }
}

/// How many words a call has syndromes of.
fn words(p: &Parameters, name: Name) -> u32 {
    if name == Name::Syndromes { p.m } else { p.v }
}

/// Sheets of all fields, full and shortened.
fn sheets(random: &mut Random) -> Vec<Parameters> {
    let drawn = [8, 8, 8, 12].map(|q| random.parameters(q));
    sheets_of_q_4().chain(STRONG.iter().chain(&OTHERS).chain(&drawn).flat_map(with_shortened)).collect()
}

/// One coefficient, of x^k of sub-word i: S_j of this sub-word is α^(jk), of the others 0, of nested word l α^(j(k + li)); the
/// odd ones are listed, and from them all.
#[test]
fn one_coefficient() {
    let mut run = Run::new(60);
    for p in sheets(&mut Random::new(seed() + 60)) {
        run.sheets += 1;
        let sheet = Sheet::of(&p);
        let last = sheet.stored() - 1;
        let drawn = run.random.from_to(0, last);
        for (i, k) in [(0, 0), (0, 1), (sheet.m - 1, last), (run.random.from_to(0, sheet.m - 1), drawn)] {
            let mut page = vec![0; sheet.page_bytes()];
            set(&mut page, sheet.place(i, k));
            let of_words = (0..sheet.m).map(|word| (Name::Syndromes, word, (word == i).then_some(k)));
            let nested = (0..sheet.v).map(|l| (Name::NestedSyndromes, l, Some(k + l * i)));
            for (name, index, power) in of_words.chain(nested) {
                let level = if name == Name::Syndromes { 0 } else { sheet.v - index };
                let t = sheet.levels[level].t;
                let value = |j: usize| power.map_or(0, |power| sheet.field.power(j * power));
                let call = run.on_page(name, &p, &page, index as u32);
                let odd = run.listed(&call);
                assert!(odd.iter().copied().eq((0..t).map(|place| value(2 * place + 1))), "{p:?}, {name:?} {index}");
                let call = all_from(&mut run.random, &p, level, &odd);
                let all = run.listed(&call);
                assert!(all.iter().copied().eq((1..=2 * t).map(value)), "{p:?}, {name:?} {index}: {all:04X?}");
            }
        }
    }
    run.end("one coefficient");
}

/// Every number of 16 bits as a given one, an element or not, in every field.
#[test]
fn every_number_squared() {
    let mut run = Run::new(61);
    for p in STRONG {
        run.sheets += 1;
        let (sheet, t) = (Sheet::of(&p), p.t[1] as usize);
        // Bit k is α^2k in the square.
        let square =
            |number: u16| (0..16).filter(|k| number >> k & 1 == 1).fold(0, |x, k| x ^ sheet.field.power(2 * k));
        let every: Vec<u16> = (0..=u16::MAX).step_by(one_in() | 1).collect();
        for some in every.chunks(t) {
            let mut odd = some.to_vec();
            odd.resize(t, 0);
            let call = all_from(&mut run.random, &p, 1, &odd);
            let all = run.listed(&call);
            assert!(all.iter().step_by(2).eq(&odd), "{p:?}, {odd:04X?}: {all:04X?}");
            assert!((0..t).all(|j| all[2 * j + 1] == square(all[j])), "{p:?}, {odd:04X?}: {all:04X?}");
        }
    }
    run.end("every number");
}

/// Every level of many sheets, with all kinds of given numbers.
#[test]
fn every_level() {
    let mut run = Run::new(62);
    let mut met = BTreeSet::new();
    let mut all = sheets(&mut Random::new(seed() + 62));
    for (q, drawn) in [(8, 300), (12, 60)] {
        for k in 0..count(drawn) {
            let p = run.random.parameters(q);
            all.push(if k % 2 == 0 { p } else { run.random.shortened(&p) });
        }
    }
    for p in all {
        run.sheets += 1;
        for level in 0..=p.v as usize {
            for _ in 0..8 {
                let call = all_drawn(&mut run.random, &p, level);
                let element = |number: u16| number >> p.q == 0;
                let all = run.listed(&call);
                met.insert((p.q, p.s > 0, level, all.iter().copied().all(element)));
            }
        }
    }
    // Few sheets of q = 4 have level 3.
    assert!(met.len() == 3 * 2 * 4 * 2 || one_in() > 1 && met.len() > 40, "{met:?}");
    run.end("every level");
}

/// Levels that there are not: the next ones, the greatest, and ones that there are with 2^8, 2^16, 2^24 or 2^31 added, with the
/// lengths of each level and with none. And lengths of the lists: those of other levels, of each other, of a number or a byte
/// more or less, exact ones with 2^8 or 2^16 added. Each alone and with the others: 9, 10.
#[test]
fn levels_and_lengths_that_are_not() {
    let mut run = Run::new(63);
    let mut met = BTreeSet::new();
    for p in sheets(&mut Random::new(seed() + 63)) {
        run.sheets += 1;
        let level = run.random.from_to(0, p.v as usize);
        let others = [p.v + 1, 3, 4, p.m, 8, 255, 256, 65535, 65536, 1 << 31, u32::MAX - 1, u32::MAX];
        let turned = [8, 16, 24, 31].map(|power| level as u32 + (1 << power));
        let levels: Vec<u32> = others.into_iter().chain(turned).filter(|&level| level > p.v).collect();
        let bytes = 2 * p.t[level] as usize;
        let strengths = p.t.iter().flat_map(|&t| [2 * t as usize, 4 * t as usize]);
        let near = |exact: usize| [1, exact - 2, exact - 1, exact + 1, exact + 2, exact + (1 << 8), exact + (1 << 16)];
        let lengths: BTreeSet<usize> = strengths.chain(near(bytes)).chain(near(2 * bytes)).chain([0]).collect();
        // Both exact but for one list, both twice or half as long, and exchanged.
        let mut pairs: Vec<[usize; 2]> =
            lengths.iter().flat_map(|&k| [[bytes, k], [k, 2 * bytes], [k, 2 * k]]).collect();
        pairs.push([2 * bytes, bytes]);
        pairs.retain(|&pair| pair != [bytes, 2 * bytes]);
        let mut ask = |level: u32, [odd, list]: [usize; 2], number: u32| {
            let mut call = all_drawn(&mut run.random, &p, 0);
            call.number = level;
            call.read.resize(odd, 0x5A);
            call.lent.resize(list, 0xA5);
            run.refused(&call, number);
            met.insert((p.q, p.s > 0, number));
        };
        for &pair in &pairs {
            ask(level as u32, pair, 10);
        }
        for (turn, &level) in levels.iter().enumerate() {
            let of_levels = p.t.map(|t| [2 * t as usize, 4 * t as usize]);
            of_levels.into_iter().chain([pairs[turn % pairs.len()], [0, 0]]).for_each(|pair| ask(level, pair, 9));
        }
    }
    assert_eq!(met.len(), 3 * 2 * 2);
    run.end("levels and lengths that are not");
}

/// Each level and each length of either list over a range, those that there are listed.
#[test]
fn every_level_and_length_over_a_range() {
    let mut run = Run::new(64);
    for p in OTHERS.iter().flat_map(with_shortened) {
        run.sheets += 1;
        for number in 0..300 {
            let level = run.random.from_to(0, p.v as usize);
            let call = all_drawn(&mut run.random, &p, level);
            let [mut odd, mut list, mut other] = [(); 3].map(|()| call.clone());
            odd.read.resize(number as usize, 0x5A);
            list.lent.resize(number as usize, 0xA5);
            other.number = number;
            for (call, refusal) in [(odd, 10), (list, 10), (other, if number > p.v { 9 } else { 10 })] {
                let t = p.t.get(call.number as usize).map_or(0, |&t| t as usize);
                if call.number <= p.v && (call.read.len(), call.lent.len()) == (2 * t, 4 * t) {
                    run.listed(&call);
                } else {
                    run.refused(&call, refusal);
                }
            }
        }
    }
    run.end("over a range");
}

/// The odd syndromes' own lists: each length to 299, those of all, of other levels, and exact ones with 2^8 or 2^16 added, of
/// words that there are, 10, and that there are not, 9; with a stray bit 8, of another length of the page 7.
#[test]
fn lengths_of_odd_lists() {
    let mut run = Run::new(65);
    for p in OTHERS.iter().chain(&STRONG[1..]).flat_map(with_shortened) {
        run.sheets += 1;
        let sheet = Sheet::of(&p);
        let spare: Vec<usize> = sheet.spare_places().collect();
        let page = any_page(&mut run.random, &sheet);
        for name in [Name::Syndromes, Name::NestedSyndromes] {
            let words = words(&p, name);
            let index = run.random.from_to(0, words as usize - 1) as u32;
            let exact = list_bytes(&p, name, index);
            let near = [exact, exact + (1 << 8), exact + (1 << 16)];
            for length in (0..300).step_by(one_in()).chain(near).chain(p.t.map(|t| 4 * t as usize)) {
                let mut call = run.on_page(name, &p, &page, index);
                call.lent.resize(length, 0xA5);
                if length == exact {
                    run.listed(&call);
                } else {
                    run.refused(&call, 10);
                }
                call.number = [words, words + 1, 8, index + (1 << 8), index + (1 << 16), u32::MAX][length % 6];
                run.refused(&call, 9);
                if !spare.is_empty() {
                    set(&mut call.read, spare[length % spare.len()]);
                    run.refused(&call, 8);
                }
                call.read.pop();
                run.refused(&call, 7);
            }
        }
    }
    run.end("lengths of their lists");
}
