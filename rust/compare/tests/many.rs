//! Many pages in one call: every page and every listed number is what a call of its own gives, by the archive and by the
//! reference, with pages that are refused at every place among the others. And what refuses the whole call.

use compare::call::{Call, Outcome, sheet};
use compare::draw::{
    WHOLE_BYTES, alike, count, make_stray, many, many_drawn, one_in, say, seed, sheets_of_q_4, with_shortened, writable,
};
use gii_bch::Refusal;
use reference::Parameters;
use reference::calls::MOST_PAGES;
use reference::parameters::Sheet;
use reference::sample::Random;
use std::collections::{BTreeMap, BTreeSet};

/// What is made of the blocks of a page.
#[derive(Clone, Copy)]
enum Kind {
    Fit,
    Stray,
    Ones,
    /// All ones, and a stray bit too.
    StrayOnes,
}

const MOST: usize = MOST_PAGES as usize;
const SPOILED: [Kind; 3] = [Kind::Stray, Kind::Ones, Kind::StrayOnes];

/// Small sheets of q = 4.
const A: Parameters = Parameters::full(4, 2, 1, [1, 2, 0, 0]);
const B: Parameters = Parameters::full(4, 3, 2, [1, 2, 3, 0]);

/// Sheets of q = 8 and 12 that are gone through in any case.
const SHEETS_OF_Q_8: [Parameters; 4] = [
    Parameters::full(8, 2, 1, [63, 64, 0, 0]),
    Parameters::full(8, 5, 3, [39, 40, 41, 42]),
    Parameters::full(8, 8, 3, [1, 2, 2, 2]),
    Parameters::full(8, 8, 1, [16, 17, 0, 0]),
];
const SHEETS_OF_Q_12: [Parameters; 3] = [
    Parameters::full(12, 8, 3, [28, 32, 39, 58]),
    Parameters::full(12, 3, 2, [62, 63, 64, 0]),
    Parameters::full(12, 8, 1, [1, 2, 0, 0]),
];

/// What a test went through.
struct Run {
    random: Random,
    sheets: usize,
    calls: usize,
    pages: usize,
    /// Of calls on full sub-words, and on shortened ones: the pages of the call, the place of one, its number.
    listed: [BTreeSet<(usize, usize, u8)>; 2],
    /// Calls in which every page was refused, by how many there were.
    none_written: BTreeMap<usize, usize>,
}

impl Run {
    fn new(offset: u64) -> Run {
        Run {
            random: Random::new(seed() + offset),
            sheets: 0,
            calls: 0,
            pages: 0,
            listed: [BTreeSet::new(), BTreeSet::new()],
            none_written: BTreeMap::new(),
        }
    }

    /// The outcome of a call, on which both sides agree.
    fn both(&mut self, call: &Call) -> Outcome {
        self.calls += 1;
        alike(&mut self.random, call)
    }

    /// Asks that a call is refused by this number, and leaves every byte.
    fn refused(&mut self, call: &Call, number: u32) {
        let Call { p, count, read, lent, list, .. } = call;
        let lengths = [read.len(), lent.len(), list.len()];
        let outcome = self.both(call);
        assert_eq!(outcome.number, number, "{p:?}, {count} pages, lengths {lengths:?}");
        assert!(outcome == call.refused(number), "{p:?}, {count} pages, lengths {lengths:?}: bytes are altered");
    }

    /// The blocks of one page, and the number that is to be listed. Where there is no unused bit, none is stray.
    fn blocks(&mut self, sheet: &Sheet, kind: Kind) -> (Vec<u8>, u8) {
        let ones = matches!(kind, Kind::Ones | Kind::StrayOnes);
        let mut blocks = if ones { sheet.ones() } else { writable(&mut self.random, sheet) };
        let stray = matches!(kind, Kind::Stray | Kind::StrayOnes) && make_stray(&mut self.random, sheet, &mut blocks);
        let number = match () {
            _ if stray => 8,
            _ if ones && sheet.s == 0 => 13,
            _ => 0,
        };
        (blocks, number)
    }

    /// A call on pages of these kinds, at a drawn width: each is listed by its number, and is that of a single call, or as it
    /// was. So it is at another width.
    fn write(&mut self, p: &Parameters, kinds: &[Kind]) {
        let archive = sheet(p);
        let made = Sheet::of(p);
        let (blocks, expected): (Vec<_>, Vec<_>) = kinds.iter().map(|&kind| self.blocks(&made, kind)).unzip();
        let call = many(&mut self.random, p, &blocks);
        let outcome = self.both(&call);
        let Outcome { number, lent: pages, list, .. } = &outcome;
        assert_eq!((number, list), (&0, &expected), "{p:?}");
        self.pages += kinds.len();
        for k in 0..kinds.len() {
            let page = |pages: &[u8]| pages[k * made.page_bytes()..][..made.page_bytes()].to_vec();
            let mut single = page(&call.lent);
            let answer = archive.write(call.number, &blocks[k], &mut single).map_or_else(Refusal::number, |()| 0);
            assert_eq!(answer, u32::from(list[k]), "{p:?}, page {k} of {}", kinds.len());
            assert_eq!(page(pages), single, "{p:?}, page {k} of {}", kinds.len());
            assert!(list[k] == 0 || single == page(&call.lent), "{p:?}: a refused page is altered");
            self.listed[usize::from(p.s > 0)].insert((kinds.len(), k, list[k]));
        }
        if !list.contains(&0) {
            *self.none_written.entry(kinds.len()).or_insert(0) += 1;
        }
        let other = Call { number: self.random.from_to(1, 64) as u32, ..call };
        assert!(other.outcome(Call::by_archive) == outcome, "{p:?}: another width gives other bytes");
    }

    /// A single page of each kind at every place among others that fit.
    fn places(&mut self, p: &Parameters, count: usize) {
        // Pages of q = 12 take longest.
        let one_in = if p.q == 12 { one_in() } else { 1 };
        for (place, kind) in (0..count).flat_map(|place| SPOILED.map(|kind| (place, kind))).step_by(one_in) {
            let mut kinds = vec![Kind::Fit; count];
            kinds[place] = kind;
            self.write(p, &kinds);
        }
    }

    /// Pages that all fit; that all are refused, as far as they can be; of drawn kinds.
    fn mixed(&mut self, p: &Parameters, count: usize) {
        self.write(p, &vec![Kind::Fit; count]);
        for kind in SPOILED {
            self.write(p, &vec![kind; count]);
        }
        let spoiled: Vec<Kind> = (0..count).map(|_| SPOILED[self.random.from_to(0, 2)]).collect();
        self.write(p, &spoiled);
        self.drawn(p, count);
    }

    fn drawn(&mut self, p: &Parameters, count: usize) {
        let kinds = [Kind::Fit, Kind::Fit, Kind::Fit, Kind::Stray, Kind::Ones, Kind::StrayOnes];
        let kinds: Vec<Kind> = (0..count).map(|_| kinds[self.random.from_to(0, 5)]).collect();
        self.write(p, &kinds);
    }

    /// Says what was gone through, and asks that among so many pages each was listed by each number at every place: 13 only
    /// with full sub-words.
    fn end(self, title: &str, counts: impl Iterator<Item = usize>) {
        let Run { sheets, calls, pages, listed, none_written, .. } = self;
        let refused: usize = none_written.values().sum();
        say(&format!(
            "many pages, {title}: {sheets} sheets, {calls} calls, {pages} pages, in {refused} calls none written, seed {}",
            seed()
        ));
        for (count, place) in counts.flat_map(|count| (0..count).map(move |place| (count, place))) {
            assert!(none_written.contains_key(&count), "{title}: of {count} pages some are always written");
            for (listed, numbers) in listed.iter().zip([&[0, 8, 13][..], &[0, 8]]) {
                for &number in numbers {
                    assert!(
                        listed.contains(&(count, place, number)),
                        "{title}: page {place} of {count} is never {number}"
                    );
                }
            }
        }
        assert!(listed[1].iter().all(|&(_, _, number)| number != 13), "{title}");
    }
}

/// Every sheet with every s; a refused page at every place of 16, and of every other count on two of the sheets.
#[test]
fn many_on_every_sheet_of_q_4() {
    let mut run = Run::new(20);
    for p in [A, B].iter().flat_map(with_shortened) {
        (1..MOST).for_each(|count| run.places(&p, count));
    }
    for p in sheets_of_q_4() {
        run.sheets += 1;
        run.places(&p, MOST);
        for count in 1..=MOST {
            run.mixed(&p, count);
        }
    }
    assert!(one_in() > 1 || run.sheets == 186);
    run.end("q = 4", 1..=MOST);
}

#[test]
fn many_on_sheets_of_q_8() {
    let mut run = Run::new(21);
    for p in SHEETS_OF_Q_8.iter().flat_map(with_shortened) {
        run.sheets += 1;
        run.mixed(&p, MOST);
    }
    for p in with_shortened(&Parameters::full(8, 4, 2, [4, 8, 16, 0])) {
        run.sheets += 1;
        run.places(&p, MOST);
    }
    for k in 0..count(200) {
        let full = run.random.parameters(8);
        for p in [full, run.random.shortened(&full)] {
            run.sheets += 1;
            run.mixed(&p, 1 + k % MOST);
            run.drawn(&p, MOST);
        }
    }
    run.end("q = 8", 1..=MOST);
}

#[test]
fn many_on_sheets_of_q_12() {
    let mut run = Run::new(22);
    for (k, p) in SHEETS_OF_Q_12.iter().flat_map(with_shortened).step_by(one_in()).enumerate() {
        run.sheets += 1;
        run.mixed(&p, MOST);
        run.drawn(&p, 1 + k);
    }
    run.places(&SHEETS_OF_Q_12[0], MOST);
    run.places(&SHEETS_OF_Q_12[0].shortened(1900), MOST);
    run.mixed(&WHOLE_BYTES, MOST);
    run.sheets += 2;
    for k in 0..count(60) {
        let full = run.random.parameters(12);
        let p = if k % 2 == 0 { full } else { run.random.shortened(&full) };
        run.sheets += 1;
        run.drawn(&p, 1 + k % MOST);
    }
    run.end("q = 12", [MOST].into_iter());
}

/// At each of the 64 widths the same pages and the same list.
#[test]
fn many_at_every_width() {
    let mut random = Random::new(seed() + 23);
    let mut met = BTreeSet::new();
    for p in [A, SHEETS_OF_Q_8[1], SHEETS_OF_Q_12[0]].iter().flat_map(with_shortened) {
        let call = many_drawn(&mut random, &p, MOST);
        let outcome = alike(&mut random, &call);
        assert_eq!(outcome.number, 0, "{p:?}");
        for width in (1..=64).step_by(one_in()) {
            let other = Call { number: width, ..call.clone() }.outcome(Call::by_archive);
            assert!(other == outcome, "{p:?}, width {width}: other bytes, or {}", other.number);
        }
        met.extend(outcome.list.into_iter().map(|number| (p.q, p.s > 0, number)));
    }
    for q in [4, 8, 12] {
        for (shortened, number) in [(false, 0), (false, 8), (false, 13), (true, 0), (true, 8)] {
            assert!(met.contains(&(q, shortened, number)), "q = {q}, shortened: {shortened}, {number} is never listed");
        }
    }
}

/// Sheets of all fields for refusals of the call, full and shortened.
fn sheets_for_refusals(random: &mut Random) -> Vec<Parameters> {
    let drawn = [4, 8, 12].map(|q| random.parameters(q));
    let sheets = [A, SHEETS_OF_Q_8[0], SHEETS_OF_Q_8[3]];
    sheets.iter().chain(&drawn).flat_map(with_shortened).chain([WHOLE_BYTES]).collect()
}

/// No page, 17 pages and more are refused by 9, with buffers that fit them; and so are counts that are others modulo a power
/// of 2, with the buffers of those, or whose products with the lengths wrap in 32 bits to the lengths of the buffers.
#[test]
fn counts_of_many_that_are_not_accepted() {
    let mut run = Run::new(24);
    let mut wrapped = BTreeSet::new();
    for p in sheets_for_refusals(&mut Random::new(seed() + 24)) {
        let made = Sheet::of(&p);
        for count in [0, 17, 18, 31, 32, 33] {
            let call = many_drawn(&mut run.random, &p, count);
            run.refused(&call, 9);
        }
        // The lengths are multiples of 2 to this power.
        let power = (made.blocks_bytes() | made.page_bytes()).trailing_zeros();
        for fitting in [0, 1, 2, MOST - 1, MOST] {
            let call = many_drawn(&mut run.random, &p, fitting);
            let fitting = call.count;
            for turn in [8, 16, 24, 31].map(|power| 1 << power) {
                run.refused(&Call { count: fitting + turn, ..call.clone() }, 9);
                run.refused(&Call { count: fitting.wrapping_sub(turn), ..call.clone() }, 9);
            }
            for count in (1..=power).map(|power| fitting + (1 << (32 - power))) {
                let wraps = |length: usize, one: usize| length == count.wrapping_mul(one as u32) as usize;
                assert!(wraps(call.read.len(), made.blocks_bytes()) && wraps(call.lent.len(), made.page_bytes()));
                run.refused(&Call { count, ..call.clone() }, 9);
                wrapped.insert((p.q, fitting));
            }
            for count in [17, 255, 256, 65535, 65536, 1 << 31, u32::MAX - 16, u32::MAX - 1, u32::MAX] {
                run.refused(&Call { count, ..call.clone() }, 9);
            }
        }
    }
    for q in [4, 8, 12] {
        for fitting in [0, 1, 2, 15, 16] {
            assert!(wrapped.contains(&(q, fitting)), "no count of q = {q} wraps to {fitting} pages");
        }
    }
}

/// Lengths that are not exact: one off, none, those of a page less or more or of one page, exact ones modulo 2^8 and 2^16 and
/// so much more. Each of the three alone, and with the others.
#[test]
fn lengths_of_many_that_are_not_exact() {
    let mut run = Run::new(25);
    let mut met = BTreeSet::new();
    for p in sheets_for_refusals(&mut Random::new(seed() + 25)) {
        let counts: Vec<usize> = if p.q == 4 { (1..=MOST).collect() } else { vec![1, 2, 7, MOST] };
        for count in counts {
            let call = many_drawn(&mut run.random, &p, count);
            assert_eq!(run.both(&call).number, 0, "{p:?}");
            let lengths = |exact: usize| {
                let one = exact / count;
                let mut lengths = BTreeSet::from([0, exact - 1, exact + 1, exact - one, exact + one, one]);
                lengths.extend([8, 16].into_iter().flat_map(|power| [exact % (1 << power), exact + (1 << power)]));
                lengths.remove(&exact);
                lengths.into_iter().collect::<Vec<usize>>()
            };
            let exact = [call.read.len(), call.lent.len(), call.list.len()];
            let others = exact.map(lengths);
            let most = others.iter().map(Vec::len).max().unwrap();
            // Which of the three are not exact.
            for wrong in 1..8u32 {
                for turn in 0..most {
                    let mut call = call.clone();
                    let buffers = [&mut call.read, &mut call.lent, &mut call.list];
                    for (k, buffer) in buffers.into_iter().enumerate().filter(|(k, _)| wrong >> k & 1 == 1) {
                        // Alone each has its turn; two are wrong in other ways.
                        let turn = if wrong.is_power_of_two() { turn } else { turn * (k + 1) + k };
                        buffer.resize(others[k][turn % others[k].len()], 0xA5);
                    }
                    let number = [6, 7, 10][wrong.trailing_zeros() as usize];
                    run.refused(&call, number);
                    met.insert((p.q, wrong, number));
                }
            }
        }
    }
    assert_eq!(met.len(), 3 * 7);
}
