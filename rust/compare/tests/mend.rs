//! One sub-word mended in a stored page: archive and reference alike, on multiples of g_0 with every number of flips, on words
//! that are near a multiple only with ones where no place is stored, and on any. What is promised is asked of the archive's
//! own calls: few places, rising, are flipped in this sub-word alone, which has come to be a multiple of g_0, and stays so.
//! And what refuses it.

use compare::call::{Call, Outcome, sheet};
use compare::draw::{
    WHOLE_BYTES, alike, any_page, count, flip_some, member, mending, one_in, put_multiple, say, seed, sheets_of_q_4,
    unstored_places, with_shortened,
};
use compare::work::STRONGEST;
use gii_bch::{NO_PLACE, Verdict, numbers};
use reference::Parameters;
use reference::layout::{flip, set};
use reference::parameters::Sheet;
use reference::sample::{Random, all_parameters, all_shortened};
use std::collections::{BTreeMap, BTreeSet};

/// Sheets that are gone through in any case.
const A: Parameters = Parameters::full(4, 2, 1, [1, 2, 0, 0]);
const SHEETS_OF_Q_8: [Parameters; 5] = [
    Parameters::full(8, 2, 1, [63, 64, 0, 0]),
    Parameters::full(8, 5, 3, [39, 40, 41, 42]),
    Parameters::full(8, 8, 3, [1, 2, 2, 2]),
    Parameters::full(8, 8, 1, [16, 17, 0, 0]),
    Parameters::full(8, 4, 2, [4, 8, 16, 0]),
];
const SHEETS_OF_Q_12: [Parameters; 3] =
    [Parameters::full(12, 8, 3, [28, 32, 39, 58]), STRONGEST, Parameters::full(12, 8, 1, [1, 2, 0, 0])];

/// So many sets of flips of a sub-word are gone through; of more so many are drawn.
const SETS: usize = 5000;

/// How a sub-word is answered.
#[derive(Clone, Copy, Debug, PartialEq, Eq, PartialOrd, Ord)]
enum Answer {
    /// Without a flip.
    FaultFree,
    /// With fewer flips than t_0, and with t_0.
    Fewer,
    Most,
    /// As one that is flipped in more places than t_0, by 15, or as another multiple with flips.
    TooMany,
    /// By 15, since the multiple that is near has ones where no place is stored.
    Unstored,
}

/// What a test went through.
struct Run {
    random: Random,
    sheets: usize,
    calls: usize,
    mended: usize,
    refused: usize,
    /// Whether sub-words were shortened, and how they were answered.
    met: BTreeSet<(bool, Answer)>,
    /// Numbers of flips, sub-words.
    flips: BTreeSet<usize>,
    indices: BTreeSet<usize>,
}

impl Run {
    fn new(offset: u64) -> Run {
        Run {
            random: Random::new(seed() + offset),
            sheets: 0,
            calls: 0,
            mended: 0,
            refused: 0,
            met: BTreeSet::new(),
            flips: BTreeSet::new(),
            indices: BTreeSet::new(),
        }
    }

    /// The outcome of a call, on which both sides agree.
    fn both(&mut self, call: &Call) -> Outcome {
        self.calls += 1;
        alike(&mut self.random, call)
    }

    /// Asks that a call is refused by this number, and leaves every byte.
    fn refused(&mut self, call: &Call, number: u32) {
        let Call { p, number: index, list, .. } = call;
        let outcome = self.both(call);
        assert_eq!(outcome.number, number, "{p:?}, index {index}, {} bytes of places", list.len());
        assert!(outcome == call.refused(number), "{p:?}, index {index}, refused by {number}: bytes are altered");
    }

    /// A call on sub-word i of a page: both sides agree, and what is promised of the places, if there are some, holds.
    fn mend(&mut self, p: &Parameters, page: &[u8], i: usize) -> Option<BTreeSet<usize>> {
        let call = mending(&mut self.random, p, page.to_vec(), i);
        let Outcome { number, lent, list, flips } = self.both(&call);
        self.indices.insert(i);
        if number == 15 {
            self.refused += 1;
            assert!((&lent, &list, flips) == (&call.lent, &call.list, call.flips), "{p:?}, index {i}: altered by 15");
            return None;
        }
        assert_eq!(number, 0, "{p:?}, index {i}");
        let sheet = Sheet::of(p);
        let listed: Vec<u16> = numbers(&list).collect();
        let places: Vec<usize> = listed[..usize::from(flips)].iter().map(|&k| k.into()).collect();
        assert!(listed[places.len()..].iter().all(|&number| number == NO_PLACE), "{p:?}, {flips} flips: {listed:?}");
        assert!(places.windows(2).all(|pair| pair[0] < pair[1]), "{p:?}: {listed:?}");
        assert!(places.iter().all(|&k| k < sheet.stored()), "{p:?}: {listed:?}");
        let mut expected = page.to_vec();
        places.iter().for_each(|&k| flip(&mut expected, sheet.place(i, k)));
        assert!(lent == expected, "{p:?}, index {i}: other places are flipped than {listed:?}");
        self.mended += 1;
        self.flips.insert(places.len());
        Some(places.into_iter().collect())
    }

    /// The same, and by the archive's own calls the mended sub-word is a multiple of g_0, which is not mended again.
    fn mend_and_ask(&mut self, p: &Parameters, page: &[u8], i: usize) -> Option<BTreeSet<usize>> {
        let places = self.mend(p, page, i)?;
        let (archive, sheet) = (sheet(p), Sheet::of(p));
        let mut mended = page.to_vec();
        places.iter().for_each(|&k| flip(&mut mended, sheet.place(i, k)));
        let mut syndromes = vec![0xA5; archive.list_bytes().unwrap()];
        assert_eq!(archive.syndromes(&mended, i as u32, &mut syndromes), Ok(()), "{p:?}");
        assert!(syndromes.iter().all(|&byte| byte == 0), "{p:?}, index {i}: no multiple of g_0");
        let again = mending(&mut self.random, p, mended, i).outcome(Call::by_archive);
        assert_eq!((again.number, again.flips), (0, 0), "{p:?}, index {i}: mended again");
        Some(places)
    }

    /// Sub-word i of a page, a multiple of g_0 with ones at the places `top`, which are not stored, flipped at these places:
    /// where that is no more than t_0 places in all, they are found, or it is refused, since some are not stored.
    fn near(&mut self, p: &Parameters, page: &[u8], i: usize, top: &[usize], flipped: &BTreeSet<usize>) {
        let t = p.t[0] as usize;
        let found = self.mend_and_ask(p, page, i);
        let (answer, expected) = match flipped.len() + top.len() {
            all if all > t => (Answer::TooMany, None),
            _ if !top.is_empty() => (Answer::Unstored, Some(None)),
            0 => (Answer::FaultFree, Some(Some(flipped))),
            all if all < t => (Answer::Fewer, Some(Some(flipped))),
            _ => (Answer::Most, Some(Some(flipped))),
        };
        assert!(expected.is_none_or(|expected| expected == found.as_ref()), "{p:?}, {top:?}, {flipped:?}: {found:?}");
        // With more flips than t_0 it is never what it was.
        assert!(answer != Answer::TooMany || !top.is_empty() || found.as_ref() != Some(flipped), "{p:?}, {flipped:?}");
        self.met.insert((p.s > 0, answer));
    }

    /// A page with a drawn multiple of g_0 as sub-word i; the others are drawn, multiples or any.
    fn page(&mut self, p: &Parameters, i: usize, top: &[usize]) -> Vec<u8> {
        let sheet = Sheet::of(p);
        let mut page =
            if self.random.once_in(2) { member(&mut self.random, p) } else { any_page(&mut self.random, &sheet) };
        put_multiple(&mut self.random, &sheet, &mut page, i, top);
        page
    }

    /// Each sub-word with so many flips as a multiple, and as one that has ones where no place is stored; zeros and ones with
    /// drawn flips, and any page.
    fn sheet(&mut self, p: &Parameters, flips: &[usize]) {
        self.sheets += 1;
        let sheet = Sheet::of(p);
        let t = sheet.levels[0].t;
        for i in 0..sheet.m {
            for &flips in flips {
                let mut page = self.page(p, i, &[]);
                let flipped = flip_some(&mut self.random, &sheet, &mut page, i, flips);
                self.near(p, &page, i, &[], &flipped);
            }
            let top = unstored_places(&mut self.random, &sheet, t + 1);
            let flips = self.random.from_to(0, t.saturating_sub(top.len()));
            let mut page = self.page(p, i, &top);
            let flipped = flip_some(&mut self.random, &sheet, &mut page, i, flips);
            self.near(p, &page, i, &top, &flipped);
        }
        for zeros in [true, false] {
            let i = self.random.from_to(0, sheet.m - 1);
            let mut page = if zeros { vec![0; sheet.page_bytes()] } else { sheet.erased(0) };
            let flips = self.random.from_to(0, t);
            let flipped = flip_some(&mut self.random, &sheet, &mut page, i, flips);
            if zeros || p.s == 0 {
                self.near(p, &page, i, &[], &flipped);
            } else {
                self.mend_and_ask(p, &page, i);
            }
        }
        let (page, i) = (any_page(&mut self.random, &sheet), self.random.from_to(0, sheet.m - 1));
        self.mend_and_ask(p, &page, i);
    }

    /// Numbers of flips round the edges, and a drawn one.
    fn flips_for(&mut self, p: &Parameters) -> Vec<usize> {
        let t = p.t[0] as usize;
        let some = BTreeSet::from([0, 1, t / 2, t - 1, t, t + 1, t + 2, self.random.from_to(0, t)]);
        some.into_iter().collect()
    }

    /// Says what was gone through.
    fn say(&self, title: &str) {
        let Run { sheets, calls, mended, refused, .. } = self;
        let line = format!("mended, {title}: {sheets} sheets, {calls} calls, {mended} mended, {refused} refused by 15");
        say(&format!("{line}, seed {}", seed()));
    }

    /// And asks that every answer was met, with full sub-words and with shortened ones.
    fn end(self, title: &str) {
        self.say(title);
        let answers = [Answer::FaultFree, Answer::Fewer, Answer::Most, Answer::TooMany];
        let mut expected: BTreeSet<_> =
            answers.into_iter().flat_map(|answer| [(false, answer), (true, answer)]).collect();
        expected.insert((true, Answer::Unstored));
        assert_eq!(self.met, expected, "{title}");
    }
}

/// Every word of a sub-word of q = 4, at every t_0 and s that a sheet has: it is mended as the flips of all multiples say.
#[test]
fn every_word_of_q_4() {
    let mut run = Run::new(40);
    // Of the sheets with this t_0 and s the last, which has most sub-words.
    let all = all_parameters(4, 8).into_iter().flat_map(|p| all_shortened(&p));
    let sheets: BTreeMap<(u32, u32), Parameters> = all.map(|p| ((p.t[0], p.s), p)).collect();
    for p in sheets.values() {
        run.sheets += 1;
        let sheet = Sheet::of(p);
        let mut page = any_page(&mut run.random, &sheet);
        for (word, expected) in sheet.nearest().into_iter().enumerate() {
            if !run.random.once_in(one_in()) {
                continue;
            }
            let i = run.random.from_to(0, sheet.m - 1);
            page[i * sheet.sub_word_bytes()..][..sheet.sub_word_bytes()]
                .copy_from_slice(&word.to_le_bytes()[..sheet.sub_word_bytes()]);
            let found = run.mend(p, &page, i).map(|places| places.into_iter().map(|k| 1 << k).sum());
            assert_eq!(found, expected, "{p:?}, {word:04X}");
        }
    }
    run.say("every word of q = 4");
    assert_eq!(run.flips, (0..=6).collect());
    assert!(run.mended > 10_000 && run.refused > 10_000);
}

/// On every sheet of q = 4 with every s: every set of up to t_0 + 1 flips of multiples, or many drawn ones; and multiples that
/// have every set of ones where no place is stored, with drawn flips.
#[test]
fn mended_on_every_sheet_of_q_4() {
    let mut run = Run::new(41);
    for p in sheets_of_q_4() {
        let sheet = Sheet::of(&p);
        let (m, t) = (sheet.m, sheet.levels[0].t);
        run.sheet(&p, &[0, t]);
        let sets: Vec<usize> =
            (0..1 << sheet.stored()).filter(|set: &usize| set.count_ones() as usize <= t + 1).collect();
        let every = sets.len() <= SETS;
        let pages: Vec<Vec<u8>> = (0..m).map(|i| run.page(&p, i, &[])).collect();
        for k in 0..sets.len().min(SETS) {
            let set = if every { sets[k] } else { sets[run.random.from_to(0, sets.len() - 1)] };
            let flipped: BTreeSet<usize> = (0..sheet.stored()).filter(|k| set >> k & 1 == 1).collect();
            let i = k % m;
            let mut page = pages[i].clone();
            flipped.iter().for_each(|&k| flip(&mut page, sheet.place(i, k)));
            run.near(&p, &page, i, &[], &flipped);
        }
        for set in 1..1usize << sheet.s {
            let top: Vec<usize> = (0..sheet.s).filter(|k| set >> k & 1 == 1).map(|k| sheet.stored() + k).collect();
            let i = run.random.from_to(0, m - 1);
            for flips in 0..=(t + 1).saturating_sub(top.len()) {
                let mut page = run.page(&p, i, &top);
                let flipped = flip_some(&mut run.random, &sheet, &mut page, i, flips);
                run.near(&p, &page, i, &top, &flipped);
            }
        }
    }
    assert!(one_in() > 1 || run.sheets == 186);
    assert!(one_in() > 1 || run.indices == (0..5).collect(), "{:?}", run.indices);
    run.end("q = 4");
}

#[test]
fn mended_on_sheets_of_q_8() {
    let mut run = Run::new(42);
    for p in SHEETS_OF_Q_8.iter().flat_map(with_shortened) {
        let t = p.t[0] as usize;
        // Every number of flips of one of them.
        let flips = if p == SHEETS_OF_Q_8[0] { (0..=t + 2).collect() } else { run.flips_for(&p) };
        run.sheet(&p, &flips);
    }
    for _ in 0..count(200) {
        let full = run.random.parameters(8);
        for p in [full, run.random.shortened(&full)] {
            let flips = run.flips_for(&p);
            run.sheet(&p, &flips);
        }
    }
    assert_eq!((&run.indices, run.flips.len()), (&(0..8).collect(), 64));
    run.end("q = 8");
}

#[test]
fn mended_on_sheets_of_q_12() {
    let mut run = Run::new(43);
    for p in SHEETS_OF_Q_12.iter().flat_map(with_shortened).chain([WHOLE_BYTES]).step_by(one_in()) {
        let flips = run.flips_for(&p);
        run.sheet(&p, &flips);
    }
    // The strongest with most flips, in any case; drawn sheets have a number of flips each.
    run.sheet(&STRONGEST, &[63]);
    for k in 0..count(80) {
        let full = run.random.parameters(12);
        let p = if k % 2 == 0 { full } else { run.random.shortened(&full) };
        let flips = run.flips_for(&p);
        run.sheet(&p, &flips[k % flips.len()..][..1]);
    }
    assert!(run.indices == (0..8).collect() && run.flips.contains(&63), "{:?}, {:?}", run.indices, run.flips);
    run.end("q = 12");
}

/// A page that the archive has written, with up to t_0 flips in every sub-word, is mended sub-word by sub-word, in any order:
/// it is what was written, and its blocks are read out.
#[test]
fn written_damaged_mended_and_read_out() {
    let mut run = Run::new(44);
    for (q, sheets) in [(4, 300), (8, 150), (12, 24)] {
        for k in 0..count(sheets).min(sheets) {
            let full = run.random.parameters(q);
            let p = if k % 2 == 0 { full } else { run.random.shortened(&full) };
            run.sheets += 1;
            let (archive, sheet) = (sheet(&p), Sheet::of(&p));
            let (blocks, mut written) = (compare::draw::writable(&mut run.random, &sheet), vec![0; sheet.page_bytes()]);
            assert_eq!(archive.write(64, &blocks, &mut written), Ok(()), "{p:?}");
            let mut page = written.clone();
            let first = run.random.from_to(0, sheet.m - 1);
            let most = sheet.levels[0].t;
            let flipped: Vec<_> = (0..sheet.m)
                .map(|i| {
                    let flips = run.random.from_to(if i == first { 1 } else { 0 }, most);
                    flip_some(&mut run.random, &sheet, &mut page, i, flips)
                })
                .collect();
            assert!(matches!(archive.judge(&page), Ok(Verdict::SubWord(_) | Verdict::Blank)), "{p:?}");
            for i in (0..sheet.m).map(|k| (first + k) % sheet.m) {
                assert_eq!(run.mend(&p, &page, i).as_ref(), Some(&flipped[i]), "{p:?}, index {i}");
                let (mut places, mut flips) = (vec![0xA5; archive.places_bytes().unwrap()], 0xA5);
                assert_eq!(archive.mend(&mut page, i as u32, &mut places, &mut flips), Ok(()), "{p:?}, index {i}");
            }
            assert!(page == written, "{p:?}: another page than was written");
            let mut back = vec![0xA5; blocks.len()];
            assert_eq!(archive.read_out(&page, &mut back), Ok(Verdict::Member), "{p:?}");
            assert!(back == blocks, "{p:?}: other blocks than were written");
        }
    }
    run.say("written, damaged, mended and read out");
    assert!(run.mended > 200 && run.refused == 0);
}

/// Sheets of all fields for refusals, full and shortened.
fn sheets_for_refusals(random: &mut Random) -> Vec<Parameters> {
    let drawn = [8, 8, 12].map(|q| random.parameters(q));
    let large = SHEETS_OF_Q_8.iter().chain(&SHEETS_OF_Q_12[..1]).chain(&drawn).flat_map(with_shortened);
    sheets_of_q_4().chain(large).chain([WHOLE_BYTES]).collect()
}

/// Sub-words that there are not: the next ones, the greatest, and ones that there are with 2^8, 2^16, 2^24 or 2^31 added. And
/// lengths of the places: those of all syndromes, of other strengths, of a place or a byte more or less, exact ones with
/// 2^8 or 2^16 added. Each alone, and both, on sub-words that are mended and any: 9, 10; with a stray bit 8, of another length
/// of the page 7.
#[test]
fn sub_words_and_places_that_are_not() {
    let mut run = Run::new(45);
    let mut met = BTreeSet::new();
    for p in sheets_for_refusals(&mut Random::new(seed() + 45)) {
        run.sheets += 1;
        let sheet = Sheet::of(&p);
        let spare: Vec<usize> = sheet.spare_places().collect();
        let i = run.random.from_to(0, sheet.m - 1) as u32;
        let others = [p.m, p.m + 1, 8, p.q, 255, 256, 65535, 65536, 1 << 31, u32::MAX - 1, u32::MAX];
        let turned = [8, 16, 24, 31].map(|power| i + (1 << power));
        let indices: Vec<u32> = others.into_iter().chain(turned).filter(|&index| index >= p.m).collect();
        let exact = 2 * p.t[0] as usize;
        let strengths = p.t.iter().flat_map(|&t| [2 * t as usize, 4 * t as usize]);
        let near = [0, 1, exact / 2, exact - 2, exact - 1, exact + 1, exact + 2, exact + (1 << 8), exact + (1 << 16)];
        let lengths: BTreeSet<usize> = strengths.chain(near).filter(|&length| length != exact).collect();
        let lengths: Vec<usize> = lengths.into_iter().collect();
        let pages = [run.page(&p, i as usize, &[]), any_page(&mut run.random, &sheet), sheet.erased(0)];
        for turn in 0..indices.len().max(lengths.len()) {
            let (index, length) = (indices[turn % indices.len()], lengths[turn % lengths.len()]);
            let page = &pages[turn % pages.len()];
            for (index, length, number) in [(index, exact, 9), (i, length, 10), (index, length, 9)] {
                let mut call = mending(&mut run.random, &p, page.clone(), 0);
                call.number = index;
                call.list.resize(length, 0xA5);
                run.refused(&call, number);
                if !spare.is_empty() {
                    set(&mut call.lent, spare[run.random.from_to(0, spare.len() - 1)]);
                    run.refused(&call, 8);
                }
                let other = call.lent.len() + 1 - 2 * (turn % 2);
                call.lent.resize(other, 0xFF);
                run.refused(&call, 7);
                met.insert((p.q, p.s > 0, number));
            }
        }
    }
    run.say("sub-words and places that are not");
    assert_eq!(met.len(), 3 * 2 * 2);
}

/// Each index and each length of the places over a range; those that there are, are mended.
#[test]
fn every_index_and_length_over_a_range() {
    let mut run = Run::new(46);
    for p in [A, SHEETS_OF_Q_8[4], SHEETS_OF_Q_12[0]].iter().flat_map(with_shortened) {
        run.sheets += 1;
        let sheet = Sheet::of(&p);
        let exact = 2 * p.t[0] as usize;
        let mut page = member(&mut run.random, &p);
        (0..sheet.m).for_each(|i| flip(&mut page, sheet.place(i, i)));
        for number in 0..300 {
            let index = Call { number, ..mending(&mut run.random, &p, page.clone(), 0) };
            let mut length = mending(&mut run.random, &p, page.clone(), sheet.m - 1);
            length.list.resize(number as usize, 0xA5);
            for (call, there, refusal) in [(index, number < p.m, 9), (length, number as usize == exact, 10)] {
                if there {
                    let outcome = run.both(&call);
                    assert_eq!((outcome.number, outcome.flips), (0, 1), "{p:?}, {number}");
                    run.mended += 1;
                } else {
                    run.refused(&call, refusal);
                }
            }
        }
    }
    run.say("over a range");
    assert_eq!(run.mended, 3 * (2 + 1 + 4 + 1 + 8 + 1));
}

/// Every spare bit alone, and all of them, as in an erased page: 8, whichever sub-word is to be mended. A blank page without
/// them is mended: where s is 0, without a flip, and so is what has up to t_0 flips beside it, which comes to be blank.
#[test]
fn spare_bits_and_blank_pages() {
    let mut run = Run::new(47);
    let mut spare_bits = BTreeSet::new();
    let mut blank = [0, 0];
    for p in sheets_for_refusals(&mut Random::new(seed() + 47)) {
        run.sheets += 1;
        let sheet = Sheet::of(&p);
        spare_bits.insert(sheet.spare_bits());
        let mut stray = Vec::new();
        for page in [run.page(&p, 0, &[]), sheet.erased(0)] {
            for place in sheet.spare_places() {
                let mut page = page.clone();
                set(&mut page, place);
                stray.push(page);
            }
        }
        if sheet.spare_bits() > 0 {
            stray.push(vec![0xFF; sheet.page_bytes()]);
            stray.extend([(); 3].map(|()| sheet.erased(run.random.number() | 1)));
        }
        for page in stray {
            let indices = BTreeSet::from([0, run.random.from_to(0, sheet.m - 1), sheet.m - 1]);
            for i in indices {
                let call = mending(&mut run.random, &p, page.clone(), i);
                run.refused(&call, 8);
            }
        }
        for i in 0..sheet.m {
            let erased = sheet.erased(0);
            let found = run.mend_and_ask(&p, &erased, i);
            assert!(p.s > 0 || found == Some(BTreeSet::new()), "{p:?}, index {i}");
            blank[usize::from(p.s > 0 && found.is_none())] += 1;
            let mut page = erased.clone();
            let flips = run.random.from_to(1, sheet.levels[0].t);
            let flipped = flip_some(&mut run.random, &sheet, &mut page, i, flips);
            let found = run.mend_and_ask(&p, &page, i);
            assert!(p.s > 0 || found == Some(flipped), "{p:?}, index {i}");
        }
    }
    run.say("spare bits, blank pages");
    assert!(spare_bits.is_superset(&(0..8).filter(|&bits| bits < 2 || one_in() == 1).collect()), "{spare_bits:?}");
    assert!(blank.iter().all(|&times| times > 10), "{blank:?}");
}

/// The other sub-words and the nested words are of no account: sub-word i is mended alike, whatever they hold.
#[test]
fn other_sub_words_are_of_no_account() {
    let mut run = Run::new(48);
    for (q, sheets) in [(4, 400), (8, 100), (12, 12)] {
        for k in 0..count(sheets).min(sheets) {
            let full = run.random.parameters(q);
            let p = if k % 2 == 0 { full } else { run.random.shortened(&full) };
            run.sheets += 1;
            let sheet = Sheet::of(&p);
            let (i, t) = (run.random.from_to(0, sheet.m - 1), sheet.levels[0].t);
            let mut page = run.page(&p, i, &[]);
            let flips = run.random.from_to(0, t + 2);
            flip_some(&mut run.random, &sheet, &mut page, i, flips);
            let found = run.mend(&p, &page, i);
            for mut other in [any_page(&mut run.random, &sheet), member(&mut run.random, &p), sheet.erased(0)] {
                let bytes = i * sheet.sub_word_bytes()..(i + 1) * sheet.sub_word_bytes();
                other[bytes.clone()].copy_from_slice(&page[bytes]);
                assert_eq!(run.mend(&p, &other, i), found, "{p:?}, index {i}");
            }
        }
    }
    run.say("other sub-words");
    assert!(run.mended > 100 && run.refused > 20);
}
