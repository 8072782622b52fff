//! One bit altered in a stored page: archive and reference alike, on members and on any pages. What is promised of it is
//! asked of the archive's own calls: the page of the bit alone is added, a member comes to be the page of its altered blocks,
//! other sub-words stay, few bits change and not too few, back is as it was. And what refuses it.

use compare::call::{Call, Outcome, sheet};
use compare::draw::{
    WHOLE_BYTES, alike, any_page, count, member, next_to_blank, one_in, say, seed, sheets_of_q_4, some_bits,
    with_shortened,
};
use gii_bch::{Refusal, Sheet as Archive, Verdict};
use reference::Parameters;
use reference::layout::{add, bit, flip, set};
use reference::parameters::Sheet;
use reference::sample::Random;
use std::array::from_fn;
use std::collections::BTreeSet;

/// What is altered.
#[derive(Clone, Copy, Debug, PartialEq, Eq, PartialOrd, Ord)]
enum Kind {
    /// The page of drawn blocks.
    Member,
    /// The page of blocks of ones, but for the bit.
    Ones,
    /// Any bytes.
    Any,
    Blank,
    /// A blank page with one coefficient 0, a check bit.
    BlankButOne,
    /// A page that the bit makes blank.
    NextToBlank,
    /// The same with a check bit flipped, or with a coefficient of another sub-word.
    Damaged,
}

const KINDS: [Kind; 7] =
    [Kind::Member, Kind::Ones, Kind::Any, Kind::Blank, Kind::BlankButOne, Kind::NextToBlank, Kind::Damaged];

/// Sheets that are gone through in any case.
const A: Parameters = Parameters::full(4, 2, 1, [1, 2, 0, 0]);
const SHEETS_OF_Q_8: [Parameters; 5] = [
    Parameters::full(8, 2, 1, [63, 64, 0, 0]),
    Parameters::full(8, 5, 3, [39, 40, 41, 42]),
    Parameters::full(8, 8, 3, [1, 2, 2, 2]),
    Parameters::full(8, 8, 1, [16, 17, 0, 0]),
    Parameters::full(8, 4, 2, [4, 8, 16, 0]),
];
const SHEETS_OF_Q_12: [Parameters; 3] = [
    Parameters::full(12, 8, 3, [28, 32, 39, 58]),
    Parameters::full(12, 3, 2, [62, 63, 64, 0]),
    Parameters::full(12, 8, 1, [1, 2, 0, 0]),
];

/// The number of an answer.
fn number(answer: Result<(), Refusal>) -> u32 {
    answer.map_or_else(Refusal::number, |()| 0)
}

/// What a test went through.
struct Run {
    random: Random,
    sheets: usize,
    calls: usize,
    changed: usize,
    /// Whether sub-words were shortened, what was altered, whether the bit was another, and the number.
    met: BTreeSet<(bool, Kind, bool, u32)>,
}

impl Run {
    fn new(offset: u64) -> Run {
        Run { random: Random::new(seed() + offset), sheets: 0, calls: 0, changed: 0, met: BTreeSet::new() }
    }

    /// The number and the page of a call, on which both sides agree.
    fn both(&mut self, call: &Call) -> (u32, Vec<u8>) {
        self.calls += 1;
        let Outcome { number, lent, .. } = alike(&mut self.random, call);
        self.changed += usize::from(lent != call.lent);
        (number, lent)
    }

    /// Asks that a call is refused by this number, and leaves every byte.
    fn refused(&mut self, call: &Call, number: u32) {
        let Call { p, number: block, bit, value, .. } = call;
        let (answer, page) = self.both(call);
        assert_eq!(answer, number, "{p:?}, block {block}, bit {bit}, value {value}");
        assert!(page == call.lent, "{p:?}, block {block}, bit {bit}, value {value}: bytes are altered");
    }

    /// A page of this kind for bit r of block i.
    fn page(&mut self, p: &Parameters, kind: Kind, i: usize, r: usize) -> Vec<u8> {
        let (archive, sheet) = (sheet(p), Sheet::of(p));
        let mut page = sheet.erased(0);
        match kind {
            Kind::Member => page = member(&mut self.random, p),
            Kind::Ones => {
                let mut blocks = sheet.ones();
                flip(&mut blocks, sheet.block_start(i) + r);
                assert_eq!(archive.write(64, &blocks, &mut page), Ok(()), "{p:?}");
            }
            Kind::Any => page = any_page(&mut self.random, &sheet),
            Kind::Blank => {}
            Kind::BlankButOne => self.damage(&sheet, i, &mut page),
            Kind::NextToBlank => page = next_to_blank(&sheet, i, r),
            Kind::Damaged => {
                page = next_to_blank(&sheet, i, r);
                self.damage(&sheet, i, &mut page);
            }
        }
        page
    }

    /// Flips a check bit, or a coefficient of a sub-word that is not i.
    fn damage(&mut self, sheet: &Sheet, i: usize, page: &mut [u8]) {
        let k = self.random.from_to(0, sheet.m - 1);
        let end = if k == i || self.random.once_in(2) { sheet.level(k).degree() } else { sheet.stored() };
        flip(page, sheet.place(k, self.random.from_to(0, end - 1)));
    }

    /// Bit r of block i altered to both values: both sides agree, and what is promised holds.
    fn alter(&mut self, p: &Parameters, kind: Kind, i: usize, r: usize) {
        let (archive, sheet) = (sheet(p), Sheet::of(p));
        let page = self.page(p, kind, i, r);
        let place = sheet.place(i, sheet.level(i).degree() + r);
        for value in [0, 1] {
            let call = Call::alter(p, page.clone(), i as u32, r as u32, value);
            let (answer, made) = self.both(&call);
            let differs = u32::from(bit(&page, place)) != value;
            let at = format!("{p:?}, {kind:?}, block {i}, bit {r}, value {value}");
            self.met.insert((p.s > 0, kind, differs, answer));

            let mut expected = page.clone();
            if differs {
                add(&mut expected, &page_of_bit(&archive, &sheet, i, r));
            }
            let blank = archive.judge(&expected) == Ok(Verdict::Blank);
            assert_eq!(answer, if blank { 13 } else { 0 }, "{at}");
            assert!(made == if blank { &page[..] } else { &expected }, "{at}: not the sum");
            as_blocks(&archive, &sheet, &page, (i, r, value), (answer, &made), &at);
            if answer != 0 || !differs {
                continue;
            }
            assert_eq!(u32::from(bit(&made, place)), value, "{at}");
            few_changes(&archive, &sheet, &page, (i, r), &made, &at);
            // Back; but not to a blank page.
            let back = Call { value: 1 - value, lent: made, ..call };
            if sheet.blank(&page) {
                self.refused(&back, 13);
            } else {
                assert!(self.both(&back) == (0, page.clone()), "{at}: back is another page");
            }
        }
    }

    /// Some kinds of pages, some blocks and some bits of each.
    fn sheet(&mut self, p: &Parameters, kinds: &[Kind], every_bit: bool) {
        let sheet = Sheet::of(p);
        self.sheets += 1;
        for i in 0..sheet.m {
            let end = sheet.block_bits(i);
            let bits: BTreeSet<usize> = if every_bit { (0..end).collect() } else { some_bits(&mut self.random, end) };
            for (r, &kind) in bits.iter().flat_map(|&r| kinds.iter().map(move |kind| (r, kind))) {
                self.alter(p, kind, i, r);
            }
        }
    }

    /// Says what was gone through.
    fn say(&self, title: &str) {
        let Run { sheets, calls, changed, .. } = self;
        say(&format!("altered, {title}: {sheets} sheets, {calls} calls, {changed} pages changed, seed {}", seed()));
    }

    /// And asks that each kind of page was met by the numbers that it can be, full and shortened.
    fn end(self, title: &str) {
        self.say(title);
        let mut expected = BTreeSet::new();
        for shortened in [false, true] {
            for (kind, differs) in KINDS.into_iter().flat_map(|kind| [(kind, false), (kind, true)]) {
                let number = match (kind, differs) {
                    // The bit is 0.
                    (Kind::Ones, true) if !shortened => 13,
                    (Kind::NextToBlank, true) => 13,
                    (Kind::Blank, false) => 13,
                    _ => 0,
                };
                expected.insert((shortened, kind, differs, number));
            }
        }
        assert!(
            self.met.is_superset(&expected),
            "{title}: {:?} not met",
            expected.difference(&self.met).collect::<Vec<_>>()
        );
    }
}

/// The page that the archive writes of blocks that are all 0 but for bit r of block i.
fn page_of_bit(archive: &Archive, sheet: &Sheet, i: usize, r: usize) -> Vec<u8> {
    let (mut blocks, mut page) = (vec![0; sheet.blocks_bytes()], vec![0xA5; sheet.page_bytes()]);
    set(&mut blocks, sheet.block_start(i) + r);
    assert_eq!(archive.write(64, &blocks, &mut page), Ok(()), "{archive:?}");
    page
}

/// If the page is a member: asks that alter has given what write gives of its blocks with this bit made the value.
fn as_blocks(
    archive: &Archive,
    sheet: &Sheet,
    page: &[u8],
    (i, r, value): (usize, usize, u32),
    altered: (u32, &[u8]),
    at: &str,
) {
    let mut blocks = vec![0; sheet.blocks_bytes()];
    if archive.read_out(page, &mut blocks) != Ok(Verdict::Member) {
        return;
    }
    let place = sheet.block_start(i) + r;
    if u32::from(bit(&blocks, place)) != value {
        flip(&mut blocks, place);
    }
    let mut written = page.to_vec();
    let answer = number(archive.write(64, &blocks, &mut written));
    assert!((answer, &written[..]) == altered, "{at}: the altered blocks are written by {answer}");
    // Where s is above 0, no member can be made blank.
    assert!(answer == 0 || sheet.s == 0, "{at}");
}

/// Asks that of sub-word i the bit and check bits have changed, of those below it and v check bits alone, of others no byte;
/// and that these are as many as members differ in, and no more than there are.
fn few_changes(archive: &Archive, sheet: &Sheet, page: &[u8], (i, r): (usize, usize), made: &[u8], at: &str) {
    let (mut changed, mut most) = (0, 1);
    let bytes = sheet.sub_word_bytes();
    for (k, (was, is)) in page.chunks_exact(bytes).zip(made.chunks_exact(bytes)).enumerate() {
        let w = sheet.level(k).degree();
        if k != i && (k > i || k >= sheet.v) {
            assert!(was == is, "{at}: sub-word {k} has changed");
            continue;
        }
        most += w;
        for place in (0..8 * bytes).filter(|&place| bit(was, place) != bit(is, place)) {
            assert!(place < w || (k, place) == (i, w + r), "{at}: coefficient {place} of sub-word {k} has changed");
            changed += 1;
        }
    }
    let least = archive.distance().unwrap();
    assert!((least..=most).contains(&changed), "{at}: {changed} bits have changed, {least} to {most} are to");
}

#[test]
fn altered_on_every_sheet_of_q_4() {
    let mut run = Run::new(30);
    for p in sheets_of_q_4() {
        run.sheet(&p, &KINDS, true);
    }
    assert!(one_in() > 1 || run.sheets == 186);
    run.end("q = 4");
}

#[test]
fn altered_on_sheets_of_q_8() {
    let mut run = Run::new(31);
    for p in SHEETS_OF_Q_8.iter().flat_map(with_shortened) {
        run.sheet(&p, &KINDS, false);
    }
    // Every bit of one of them.
    run.sheet(&SHEETS_OF_Q_8[4], &[Kind::Member], true);
    for _ in 0..count(200) {
        let full = run.random.parameters(8);
        for p in [full, run.random.shortened(&full)] {
            run.sheet(&p, &KINDS, false);
        }
    }
    run.end("q = 8");
}

#[test]
fn altered_on_sheets_of_q_12() {
    let mut run = Run::new(32);
    for p in SHEETS_OF_Q_12.iter().flat_map(with_shortened).chain([WHOLE_BYTES]).step_by(one_in()) {
        run.sheet(&p, &KINDS, false);
    }
    // Drawn sheets have a kind of page each.
    for k in 0..count(140) {
        let full = run.random.parameters(12);
        let p = if k % 2 == 0 { full } else { run.random.shortened(&full) };
        run.sheet(&p, &[KINDS[k % KINDS.len()]], false);
    }
    run.end("q = 12");
}

/// Sheets of all fields for refusals, full and shortened.
fn sheets_for_refusals(random: &mut Random) -> Vec<Parameters> {
    let drawn = [8, 8, 12].map(|q| random.parameters(q));
    let large = SHEETS_OF_Q_8.iter().chain(&SHEETS_OF_Q_12[..1]).chain(&drawn).flat_map(with_shortened);
    sheets_of_q_4().chain(large).chain([WHOLE_BYTES]).collect()
}

/// A member, any page, and a blank one, which the value 1 would leave blank.
fn pages_for_refusals(random: &mut Random, p: &Parameters) -> [Vec<u8>; 3] {
    let sheet = Sheet::of(p);
    [member(random, p), any_page(random, &sheet), sheet.erased(0)]
}

/// Blocks, bits and values that there are not: the next ones, the greatest, and ones that there are with 2^8, 2^16, 2^24 or
/// 2^31 added. Each alone, and with the others. They are refused by 9; with a stray bit by 8, of another length by 7.
#[test]
fn blocks_bits_and_values_that_are_not() {
    let mut run = Run::new(33);
    let mut met = BTreeSet::new();
    for p in sheets_for_refusals(&mut Random::new(seed() + 33)) {
        run.sheets += 1;
        let sheet = Sheet::of(&p);
        let n = sheet.field.n as u32;
        let spare: Vec<usize> = sheet.spare_places().collect();
        let [i, value] = [sheet.m - 1, 1].map(|most| run.random.from_to(0, most) as u32);
        let end = sheet.block_bits(i as usize) as u32;
        let r = run.random.from_to(0, end as usize - 1) as u32;
        let right = [i, r, value];
        let from = |end: u32, number: u32, others: &[u32]| {
            let turned = [8, 16, 24, 31].map(|power| number + (1 << power));
            let numbers = [end, end + 1, 255, 256, 65535, 65536, 1 << 31, u32::MAX - 1, u32::MAX];
            let all = numbers.iter().chain(&turned).chain(others).copied();
            all.filter(|&number| number >= end).collect::<Vec<u32>>()
        };
        let wrong = [
            from(p.m, i, &[7, 8, p.q, n]),
            from(end, r, &[n - p.s, n - 1, n, n + 1, 8 * end.div_ceil(8)]),
            from(2, value, &[3, 4, 257]),
        ];
        let most = wrong.iter().map(Vec::len).max().unwrap();
        let pages = pages_for_refusals(&mut run.random, &p);
        for set in 1..8usize {
            for turn in 0..most {
                // Alone each has its turn; two are wrong in other ways.
                let turn_of = |k: usize| if set.is_power_of_two() { turn } else { turn * (k + 1) + k };
                let number_of = |k: usize| wrong[k][turn_of(k) % wrong[k].len()];
                let [block, at, value] = from_fn(|k| if set >> k & 1 == 1 { number_of(k) } else { right[k] });
                let page = pages[turn % pages.len()].clone();
                let call = Call::alter(&p, page, block, at, value);
                run.refused(&call, 9);
                let mut stray = call.clone();
                if !spare.is_empty() {
                    set_one(&mut run.random, &spare, &mut stray.lent);
                    run.refused(&stray, 8);
                }
                let length = stray.lent.len() + 1 - 2 * (turn % 2);
                stray.lent.resize(length, 0xFF);
                run.refused(&stray, 7);
                met.insert((p.q, p.s > 0, set));
            }
        }
    }
    run.say("blocks, bits and values that are not");
    assert_eq!(met.len(), 3 * 2 * 7);
}

/// Sets one of some places.
fn set_one(random: &mut Random, places: &[usize], bytes: &mut [u8]) {
    set(bytes, places[random.from_to(0, places.len() - 1)]);
}

/// Each block, bit and value over a range; those that there are, are altered.
#[test]
fn every_block_bit_and_value_over_a_range() {
    let mut run = Run::new(34);
    let mut answers = BTreeSet::new();
    for p in [A, SHEETS_OF_Q_8[4], SHEETS_OF_Q_12[0]].iter().flat_map(with_shortened) {
        run.sheets += 1;
        let sheet = Sheet::of(&p);
        let page = member(&mut run.random, &p);
        let ends: BTreeSet<usize> = (0..sheet.m).map(|i| sheet.block_bits(i)).chain([sheet.stored()]).collect();
        let near = ends.into_iter().flat_map(|end| end.saturating_sub(2)..=end + 2);
        let small = 0..if p.q == 12 { 20 } else { 300 };
        let numbers: BTreeSet<u32> = near.chain(small).map(|number| number as u32).collect();
        let mut ask = |run: &mut Run, block: u32, at: u32, value: u32| {
            let call = Call::alter(&p, page.clone(), block, at, value);
            if block < p.m && (at as usize) < sheet.block_bits(block as usize) && value <= 1 {
                let answer = run.both(&call).0;
                assert_eq!(answer, 0, "{p:?}, block {block}, bit {at}, value {value}");
                answers.insert((p.q, 0));
            } else {
                run.refused(&call, 9);
                answers.insert((p.q, 9));
            }
        };
        for &number in &numbers {
            let value = run.random.from_to(0, 1) as u32;
            ask(&mut run, number, 0, value);
            ask(&mut run, 0, 0, number);
            for block in BTreeSet::from([0, p.v - 1, p.v, p.m - 1]) {
                ask(&mut run, block, number, value);
            }
        }
    }
    run.say("over a range");
    assert_eq!(answers.len(), 3 * 2);
}

/// Every spare bit alone, and all of them, as in an erased page: 8, whatever the page and whatever is altered. Where there are
/// none, an erased page is blank: it takes the value 0, and the value 1 is refused by 13.
#[test]
fn spare_bits_of_an_altered_page() {
    let mut run = Run::new(35);
    let mut spare_bits = BTreeSet::new();
    for p in sheets_for_refusals(&mut Random::new(seed() + 35)) {
        run.sheets += 1;
        let sheet = Sheet::of(&p);
        spare_bits.insert(sheet.spare_bits());
        let erased = vec![0xFF; sheet.page_bytes()];
        let mut stray = Vec::new();
        for page in pages_for_refusals(&mut run.random, &p) {
            for place in sheet.spare_places() {
                let mut page = page.clone();
                set(&mut page, place);
                stray.push(page);
            }
        }
        if sheet.spare_bits() > 0 {
            stray.push(erased.clone());
            stray.extend([(); 3].map(|()| sheet.erased(run.random.number() | 1)));
        }
        for page in stray {
            let i = run.random.from_to(0, sheet.m - 1);
            let bits = some_bits(&mut run.random, sheet.block_bits(i));
            for (r, value) in bits.into_iter().flat_map(|r| [(r, 0), (r, 1)]) {
                run.refused(&Call::alter(&p, page.clone(), i as u32, r as u32, value), 8);
            }
        }
        if sheet.spare_bits() == 0 {
            for i in 0..sheet.m {
                let call = Call::alter(&p, erased.clone(), i as u32, 0, 1);
                run.refused(&call, 13);
                let (answer, page) = run.both(&Call { value: 0, ..call });
                assert!(answer == 0 && page != erased, "{p:?}, block {i}");
            }
        }
    }
    run.say("spare bits");
    assert!(spare_bits.is_superset(&(0..8).filter(|&bits| bits < 2 || one_in() == 1).collect()), "{spare_bits:?}");
}
