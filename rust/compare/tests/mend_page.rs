//! A page mended through its nested words: archive and reference alike, on members with every kind of damage, on pages whose
//! sub-words are mended wrongly at first, on blank ones and on any. What is promised is asked of the archive's own calls: what
//! is mended is a member, and stays; its sub-words that are mended alone are those that mend gives, and the others are no
//! further from it than the strongest level corrects; what is refused keeps every byte. And what refuses it.

use compare::call::{Call, Outcome, sheet};
use compare::draw::{
    WHOLE_BYTES, alike, any_page, break_nested, count, damage, flip_some, member, next_to_blank, one_in, put_multiple,
    say, seed, sheets_of_q_4, some_sub_words, with_shortened, writable,
};
use gii_bch::{Refusal, Verdict};
use reference::layout::{bit, flip, set};
use reference::parameters::Sheet;
use reference::sample::Random;
use reference::{Parameters, linear};
use std::collections::{BTreeMap, BTreeSet};

/// Sheets that are gone through in any case; of the first of each field some levels have one strength.
const A: Parameters = Parameters::full(4, 2, 1, [1, 2, 0, 0]);
const SHEETS_OF_Q_8: [Parameters; 6] = [
    Parameters::full(8, 8, 3, [3, 6, 6, 12]),
    Parameters::full(8, 5, 3, [2, 9, 20, 42]),
    Parameters::full(8, 8, 3, [4, 5, 7, 12]),
    Parameters::full(8, 4, 2, [4, 8, 16, 0]),
    Parameters::full(8, 2, 1, [63, 64, 0, 0]),
    Parameters::full(8, 4, 2, [2, 3, 9, 0]),
];
const SHEETS_OF_Q_12: [Parameters; 4] = [
    Parameters::full(12, 8, 3, [14, 20, 32, 32]),
    Parameters::full(12, 8, 3, [28, 32, 39, 58]),
    Parameters::full(12, 3, 2, [10, 40, 64, 0]),
    Parameters::full(12, 8, 3, [1, 2, 3, 4]),
];

/// So many sets of flips of a sub-word are gone through; of more so many are drawn.
const SETS: usize = 600;

/// Damage beyond t_0 of b sub-words.
#[derive(Clone, Copy, Debug, PartialEq, Eq, PartialOrd, Ord)]
enum Damage {
    /// Up to t_(v−b+1) flips in each: found in one round.
    OneRound,
    /// t_v flips in one, t_(v−1) in the next, and so on: found one a round where the strengths are different.
    Steps,
    /// The same, but for t_v + 1 in the first: the last round mends none.
    FirstTooFar,
    /// The same, but for t_(v−b+2) + 1 in all but the last: the second round mends none.
    AllButLastTooFar,
    /// More than t_(v−b+1) in each: the first round mends none.
    AllTooFar,
}

const DAMAGE: [Damage; 5] =
    [Damage::OneRound, Damage::Steps, Damage::FirstTooFar, Damage::AllButLastTooFar, Damage::AllTooFar];

/// How many sub-words of these numbers of flips are broken before and after each round, if none is taken for another.
fn ideal(sheet: &Sheet, flips: &[usize]) -> Vec<usize> {
    let mut left: Vec<usize> = flips.iter().copied().filter(|&flips| flips > sheet.levels[0].t).collect();
    let mut counts = vec![left.len()];
    while (1..=sheet.v).contains(&left.len()) && !counts.ends_with(&[left.len(); 2]) {
        let t = sheet.nested_level(left.len() - 1).t;
        left.retain(|&flips| flips > t);
        counts.push(left.len());
    }
    counts
}

/// What a test went through.
struct Run {
    random: Random,
    sheets: usize,
    calls: usize,
    mended: usize,
    refused: usize,
    /// How many members were found again.
    found: usize,
    /// Whether sub-words were shortened, how many were broken before and after each round, and the answer.
    met: BTreeMap<(bool, Vec<usize>, u32), usize>,
    /// The same of damage: its kind, and whether the member was found again.
    kinds: BTreeSet<(bool, usize, Damage, bool)>,
}

impl Run {
    fn new(offset: u64) -> Run {
        Run {
            random: Random::new(seed() + offset),
            sheets: 0,
            calls: 0,
            mended: 0,
            refused: 0,
            found: 0,
            met: BTreeMap::new(),
            kinds: BTreeSet::new(),
        }
    }

    /// A call on a page: both sides agree. What is mended, if it is.
    fn mend(&mut self, p: &Parameters, page: &[u8]) -> Option<Vec<u8>> {
        let call = Call::mend_page(p, page.to_vec());
        self.calls += 1;
        let outcome = alike(&mut self.random, &call);
        if outcome.number == 0 {
            self.mended += 1;
            return Some(outcome.lent);
        }
        assert_eq!(outcome, call.refused(17), "{p:?}");
        self.refused += 1;
        None
    }

    /// The same, and what is promised is asked of the archive's own calls. Gives what is mended and how many sub-words were
    /// broken before and after each round.
    fn mend_and_ask(&mut self, p: &Parameters, page: &[u8]) -> (Option<Vec<u8>>, Vec<usize>) {
        let mended = self.mend(p, page);
        let (archive, sheet) = (sheet(p), Sheet::of(p));
        let words = |page: &[u8]| page.chunks(sheet.sub_word_bytes()).map(<[u8]>::to_vec).collect::<Vec<_>>();
        let mut alone = page.to_vec();
        let mut broken = BTreeSet::new();
        for i in 0..sheet.m {
            let (mut places, mut flips) = (vec![0; archive.places_bytes().unwrap()], 0);
            match archive.mend(&mut alone, i as u32, &mut places, &mut flips) {
                Ok(()) => {}
                Err(refusal) => {
                    assert_eq!(refusal, Refusal::Unmended, "{p:?}, index {i}");
                    broken.insert(i);
                }
            }
        }
        if let Some(mended) = &mended {
            assert_eq!(archive.judge(mended), Ok(Verdict::Member), "{p:?}: no member");
            let mut again = mended.clone();
            assert_eq!((archive.mend_page(&mut again), &again), (Ok(()), mended), "{p:?}: mended again");
            let differ = |x: &[u8], y: &[u8]| x.iter().zip(y).map(|(x, y)| (x ^ y).count_ones()).sum::<u32>();
            for (i, ((is, was), alone)) in words(mended).iter().zip(words(page)).zip(words(&alone)).enumerate() {
                if !broken.contains(&i) {
                    assert!(*is == alone, "{p:?}: sub-word {i} is not what mend gives");
                } else {
                    let flips = differ(is, &was);
                    assert!(p.t[0] < flips && flips <= p.t[p.v as usize], "{p:?}: {flips} flips of sub-word {i}");
                }
            }
        }
        match broken.len() {
            0 => assert_eq!(mended.is_some(), archive.judge(&alone) == Ok(Verdict::Member), "{p:?}: none is broken"),
            b => assert!(mended.is_none() || b <= sheet.v, "{p:?}: mended, though {b} sub-words are broken"),
        }
        let rounds = sheet.rounds(&sheet.words_of(page)).broken;
        assert_eq!(rounds[0], broken.len(), "{p:?}");
        *self.met.entry((p.s > 0, rounds.clone(), if mended.is_some() { 0 } else { 17 })).or_insert(0) += 1;
        (mended, rounds)
    }

    /// A page that is to be mended to this one.
    fn found(&mut self, p: &Parameters, page: &[u8], member: &[u8]) {
        let (mended, rounds) = self.mend_and_ask(p, page);
        assert!(mended.as_deref() == Some(member), "{p:?}: not found, {rounds:?} broken");
        self.found += 1;
    }

    /// A page that is to be refused by 17.
    fn not_mended(&mut self, p: &Parameters, page: &[u8]) {
        let (mended, rounds) = self.mend_and_ask(p, page);
        assert!(mended.is_none(), "{p:?}: mended, {rounds:?} broken");
    }

    /// A member, the page of it with b sub-words damaged in this way and all others within t_0 flips, and how many sub-words are
    /// broken before and after each round if none is taken for another.
    fn damage(&mut self, p: &Parameters, b: usize, kind: Damage) -> (Vec<u8>, Vec<u8>, Vec<usize>) {
        let sheet = Sheet::of(p);
        let member = member(&mut self.random, p);
        let mut page = member.clone();
        let level = |l: usize| sheet.nested_level(l.min(sheet.v - 1)).t;
        let (last, all) = (level(b.max(1) - 1), sheet.stored());
        let broken = some_sub_words(&mut self.random, &sheet, b).into_iter().enumerate();
        let named: Vec<(usize, usize)> = broken
            .map(|(l, i)| {
                let flips = match kind {
                    Damage::OneRound => [last, self.random.from_to(sheet.levels[0].t + 1, last)][l % 2],
                    Damage::FirstTooFar if l == 0 => level(0) + 1,
                    Damage::AllButLastTooFar if l + 1 < b => level(b - 2) + 1,
                    Damage::AllTooFar => last + 1 + self.random.from_to(0, 1),
                    _ => level(l),
                };
                (i, flips.min(all))
            })
            .collect();
        damage(&mut self.random, &sheet, &mut page, &named);
        let flips: Vec<usize> = named.into_iter().map(|(_, flips)| flips).collect();
        (member, page, ideal(&sheet, &flips))
    }

    /// Such a page: the member is found again where none is taken for another, unless a round mends none.
    fn damaged(&mut self, p: &Parameters, b: usize, kind: Damage) {
        let (member, page, expected) = self.damage(p, b, kind);
        let (mended, rounds) = self.mend_and_ask(p, &page);
        let found = mended.as_ref() == Some(&member);
        assert_eq!(found, rounds == expected && expected.ends_with(&[0]), "{p:?}, {kind:?}, {b}: {rounds:?} broken");
        // Where the levels are so strong, none is taken for another.
        assert!(p.q < 12 || p.t[0] < 10 || rounds == expected, "{p:?}, {kind:?}, {b}: {rounds:?} broken");
        self.found += usize::from(found);
        self.kinds.insert((p.s > 0, b, kind, found));
    }

    /// Every number of damaged sub-words, to one more than v, damaged in each way; pages without damage, blank ones, any.
    fn sheet(&mut self, p: &Parameters) {
        self.sheets += 1;
        let sheet = Sheet::of(p);
        for b in 0..=sheet.v + 1 {
            for kind in DAMAGE {
                self.damaged(p, b, kind);
            }
        }
        let whole = member(&mut self.random, p);
        self.found(p, &whole, &whole);
        self.found(p, &vec![0; sheet.page_bytes()], &vec![0; sheet.page_bytes()]);
        let any = any_page(&mut self.random, &sheet);
        self.mend_and_ask(p, &any);
        self.cut(p);
    }

    /// A page of the full sheet whose only ones where no place is stored are a few of one sub-word, without them: an error of
    /// so many places there is, but it is not stored, and so is not found.
    fn cut(&mut self, p: &Parameters) {
        let (sheet, full) = (Sheet::of(p), Sheet::of(&p.shortened(0)));
        let (t, most) = (sheet.levels[0].t, sheet.nested_level(0).t);
        if sheet.s == 0 {
            return;
        }
        let i = self.random.from_to(0, sheet.m - 1);
        let ones = self.random.from_to(1, most.min(sheet.s));
        let top: BTreeSet<usize> = (0..ones).map(|_| self.random.from_to(sheet.stored(), sheet.field.n - 1)).collect();
        let mut data = sheet.words_of_blocks(&writable(&mut self.random, &sheet));
        top.iter().for_each(|&k| linear::flip(&mut data[i], k));
        let mut words = full.encode(&data);
        top.iter().for_each(|&k| linear::flip(&mut words[i], k));
        let mut page = vec![0; sheet.page_bytes()];
        sheet.put_page(&words, &mut page);
        // Beside them stored places, t_v in all at most.
        let flips = self.random.from_to((t + 1).saturating_sub(top.len()), most - top.len());
        damage(&mut self.random, &sheet, &mut page, &[(i, flips)]);
        let (mended, rounds) = self.mend_and_ask(p, &page);
        assert!(rounds[0] != 1 || mended.is_none(), "{p:?}: mended, {top:?} are not stored, {rounds:?} broken");
    }

    /// Says what was gone through.
    fn say(&self, title: &str) {
        let Run { sheets, calls, mended, refused, found, .. } = self;
        let line =
            format!("mended pages, {title}: {sheets} sheets, {calls} calls, {mended} mended, {refused} refused by 17");
        say(&format!("{line}, {found} members found again, seed {}", seed()));
    }

    /// And asks that these numbers of broken sub-words, before and after each round, were met with this answer.
    fn met(&self, number: u32, rounds: &[&[usize]]) {
        for rounds in rounds {
            let met = [false, true].map(|shortened| self.met.contains_key(&(shortened, rounds.to_vec(), number)));
            assert!(met[0] || met[1], "{rounds:?} with {number} is not met: {:?}", self.met);
        }
    }
}

/// Every page of the smallest sheet, of two sub-words with nine places each.
#[test]
fn every_page_of_the_smallest_sheet() {
    let mut run = Run::new(60);
    let p = A.shortened(6);
    run.sheets = 1;
    let sheet = Sheet::of(&p);
    for number in (0..1usize << 18).step_by(one_in()) {
        let mut page = vec![0; sheet.page_bytes()];
        (0..18).filter(|k| number >> k & 1 == 1).for_each(|k| set(&mut page, sheet.place(k / 9, k % 9)));
        if run.random.once_in(16) {
            run.mend_and_ask(&p, &page);
        } else {
            run.mend(&p, &page);
        }
    }
    run.say("every one of the smallest sheet");
    run.met(0, &[&[0], &[1, 0]]);
    run.met(17, &[&[0], &[1, 1], &[2]]);
    assert!(run.mended > 2_000 && run.refused > 2_000);
}

/// On every sheet of q = 4 with every s: every set of up to t_v + 1 flips of one sub-word of a member, or many drawn ones, and
/// drawn sets of several sub-words.
#[test]
fn mended_on_every_sheet_of_q_4() {
    let mut run = Run::new(61);
    for p in sheets_of_q_4() {
        let sheet = Sheet::of(&p);
        run.sheet(&p);
        let most = sheet.nested_level(0).t + 1;
        let sets: Vec<usize> =
            (0..1 << sheet.stored()).filter(|set: &usize| set.count_ones() as usize <= most).collect();
        let every = sets.len() <= SETS;
        for b in 1..=(sheet.v + 1).min(sheet.m) {
            let whole = member(&mut run.random, &p);
            for k in 0..if b == 1 { sets.len().min(SETS) } else { SETS / 3 } {
                let mut page = whole.clone();
                for i in some_sub_words(&mut run.random, &sheet, b) {
                    let drawn = sets[run.random.from_to(0, sets.len() - 1)];
                    let set = if every && b == 1 { sets[k] } else { drawn };
                    linear::ones(&[set as u64]).for_each(|k| flip(&mut page, sheet.place(i, k)));
                }
                if k % 4 == 0 {
                    run.mend_and_ask(&p, &page);
                } else {
                    run.mend(&p, &page);
                }
            }
        }
    }
    run.say("q = 4");
    assert!(one_in() > 1 || run.sheets == 186);
    run.met(0, &[&[0], &[1, 0], &[2, 0]]);
    run.met(17, &[&[0], &[1, 0], &[1, 1], &[2], &[2, 2], &[3]]);
    if one_in() == 1 {
        run.met(0, &[&[2, 1, 0], &[3, 0]]);
        run.met(17, &[&[2, 0], &[2, 1, 1], &[3, 3], &[4]]);
    }
}

#[test]
fn mended_on_sheets_of_q_8() {
    let mut run = Run::new(62);
    for p in SHEETS_OF_Q_8.iter().flat_map(with_shortened) {
        (0..3).for_each(|_| run.sheet(&p));
    }
    for _ in 0..count(150) {
        let full = run.random.parameters(8);
        for p in [full, run.random.shortened(&full)] {
            run.sheet(&p);
        }
    }
    run.say("q = 8");
    run.met(0, &[&[0], &[1, 0], &[2, 0], &[2, 1, 0], &[3, 0], &[3, 1, 0], &[3, 2, 1, 0]]);
    run.met(17, &[&[0], &[1, 1], &[2], &[2, 2], &[3], &[3, 3], &[2, 1, 1], &[3, 2, 2], &[3, 2, 1, 1], &[4]]);
}

#[test]
fn mended_on_sheets_of_q_12() {
    let mut run = Run::new(63);
    for p in SHEETS_OF_Q_12.iter().flat_map(with_shortened).chain([WHOLE_BYTES]) {
        run.sheet(&p);
    }
    for k in 0..60 / one_in() {
        let full = run.random.parameters(12);
        let p = if k % 2 == 0 { full } else { run.random.shortened(&full) };
        run.sheet(&p);
    }
    run.say("q = 12");
    run.met(0, &[&[0], &[1, 0], &[2, 0], &[2, 1, 0], &[3, 0], &[3, 2, 0], &[3, 2, 1, 0]]);
    run.met(17, &[&[1, 1], &[2], &[2, 2], &[3], &[3, 3], &[2, 1, 1], &[3, 2, 2], &[3, 2, 1, 1], &[4]]);
    for (shortened, b) in [false, true].into_iter().flat_map(|shortened| (1..4).map(move |b| (shortened, b))) {
        for kind in DAMAGE.into_iter().filter(|&kind| b > 1 || kind != Damage::AllButLastTooFar) {
            let found = kind < Damage::FirstTooFar;
            assert!(run.kinds.contains(&(shortened, b, kind, found)), "{b} broken, {kind:?}: {:?}", run.kinds);
        }
    }
}

/// A page that the archive has written, damaged beyond t_0 in as many sub-words as may be, is mended and read out.
#[test]
fn written_damaged_mended_and_read_out() {
    let mut run = Run::new(64);
    for p in SHEETS_OF_Q_8[..4].iter().chain(&SHEETS_OF_Q_12[..3]).flat_map(with_shortened) {
        run.sheets += 1;
        let (archive, sheet) = (sheet(&p), Sheet::of(&p));
        for b in 0..=sheet.v {
            let (blocks, mut written) = (writable(&mut run.random, &sheet), vec![0; sheet.page_bytes()]);
            assert_eq!(archive.write(64, &blocks, &mut written), Ok(()), "{p:?}");
            let named: Vec<(usize, usize)> = some_sub_words(&mut run.random, &sheet, b)
                .into_iter()
                .map(|i| (i, sheet.nested_level(b - 1).t.min(sheet.stored())))
                .collect();
            // Until no more than those sub-words are near other multiples.
            let page = (0..100).find_map(|_| {
                let mut page = written.clone();
                damage(&mut run.random, &sheet, &mut page, &named);
                let words = sheet.words_of(&page);
                named.iter().all(|&(i, _)| sheet.mending(&words[i]).is_none()).then_some(page)
            });
            let Some(mut page) = page else { continue };
            run.found(&p, &page, &written);
            assert_eq!(archive.mend_page(&mut page), Ok(()), "{p:?}");
            let mut back = vec![0xA5; blocks.len()];
            assert_eq!(archive.read_out(&page, &mut back), Ok(Verdict::Member), "{p:?}");
            assert!(back == blocks, "{p:?}: other blocks than were written");
        }
    }
    run.say("written, damaged, mended and read out");
    assert!(run.found > 60 && run.refused == 0);
    run.met(0, &[&[0], &[1, 0], &[2, 0], &[3, 0]]);
}

/// A sub-word that is nearer to another multiple than to its own is mended to that one at first. A multiple of g_v more makes
/// another member, which is found; one of g_0 that is none of g_v does not, and the page is refused. With broken sub-words
/// beside it, it ends in a member or by 17.
#[test]
fn wrong_at_first() {
    let mut run = Run::new(65);
    let mut others = 0;
    let drawn: Vec<Parameters> = [8, 8, 8, 12].map(|q| run.random.shortened_parameters(q)).into();
    let large = SHEETS_OF_Q_8.iter().chain(&SHEETS_OF_Q_12).flat_map(with_shortened);
    for p in sheets_of_q_4().chain(large).chain(drawn) {
        run.sheets += 1;
        let sheet = Sheet::of(&p);
        let [i, k] = some_sub_words(&mut run.random, &sheet, 2)[..] else { panic!("two sub-words") };
        for level in [sheet.v, 0] {
            let whole = member(&mut run.random, &p);
            // A multiple of the level's generator at a drawn place.
            let g = &sheet.levels[level].generator;
            let at = run.random.from_to(0, sheet.stored() - g.len());
            let mut other = whole.clone();
            g.iter().enumerate().filter(|(_, one)| **one).for_each(|(k, _)| flip(&mut other, sheet.place(i, at + k)));
            let is_member = sheet.levels[level].degree() == sheet.levels[sheet.v].degree();
            let mut page = other.clone();
            damage(&mut run.random, &sheet, &mut page, &[]);
            match is_member {
                // Ones more than zeros are blank.
                true if sheet.blank(&other) => run.not_mended(&p, &page),
                true => run.found(&p, &page, &other),
                false => run.not_mended(&p, &page),
            }
            others += usize::from(is_member);
            let mut page = other.clone();
            let most = sheet.levels[sheet.v].t.min(sheet.stored());
            damage(&mut run.random, &sheet, &mut page, &[(k, most)]);
            run.mend_and_ask(&p, &page);
        }
        // All sub-words right, and a nested word wrong.
        let mut page = member(&mut run.random, &p);
        break_nested(&mut run.random, &sheet, &mut page);
        damage(&mut run.random, &sheet, &mut page, &[]);
        run.mend_and_ask(&p, &page);
        // Sub-words that are drawn multiples.
        (0..sheet.m).for_each(|i| put_multiple(&mut run.random, &sheet, &mut page, i, &[]));
        run.mend_and_ask(&p, &page);
    }
    run.say("wrong at first");
    assert!(others > 20 && run.refused > others, "{others} other members");
    run.met(17, &[&[0], &[1, 0], &[1, 1]]);
}

/// Of several sub-words one is taken for another in the round in which others are found: all errors of a round are of the page
/// as it finds it, and so the page is not the member that it was, which it would be if the one were found from the others.
#[test]
fn taken_for_another_in_a_round() {
    let mut run = Run::new(69);
    let mut met = BTreeMap::new();
    let sheets = [Parameters::full(8, 4, 2, [2, 3, 9, 0]), Parameters::full(8, 8, 3, [2, 3, 4, 12])];
    for p in sheets.into_iter().flat_map(|p| [p, p.shortened(9)]) {
        run.sheets += 1;
        for k in 0..2000 {
            let b = 2 + k % (p.v as usize - 1);
            let (member, page, expected) = run.damage(&p, b, Damage::Steps);
            let sheet = Sheet::of(&p);
            let rounds = sheet.rounds(&sheet.words_of(&page)).broken;
            if rounds[0] == b && rounds != expected {
                let (mended, _) = run.mend_and_ask(&p, &page);
                assert!(mended.as_ref() != Some(&member), "{p:?}: found, {rounds:?} broken");
                *met.entry((p.s > 0, b)).or_insert(0) += 1;
            }
        }
    }
    run.say("taken for another in a round");
    assert!(met.len() == 4 && met.values().all(|&times| times > 5), "{met:?}");
}

/// Where s is 0, a blank page, and what comes to be blank, is refused by 17; what is ones but for the page of one bit, or in some
/// of its sub-words alone, is a member, and is found again. Where s is above 0 no multiple of g_0 is ones in all its stored places, and ones are mended like
/// any page.
#[test]
fn blank_in_the_end() {
    let mut run = Run::new(66);
    let mut blank = BTreeSet::new();
    for p in sheets_of_q_4().chain(SHEETS_OF_Q_8.iter().chain(&SHEETS_OF_Q_12).flat_map(with_shortened)) {
        run.sheets += 1;
        let sheet = Sheet::of(&p);
        let erased = sheet.erased(0);
        if p.s == 0 {
            run.not_mended(&p, &erased);
        } else {
            run.mend_and_ask(&p, &erased);
        }
        for b in 0..=sheet.v {
            let mut page = erased.clone();
            let most = sheet.nested_level(b.max(1) - 1).t.min(sheet.stored());
            let named: Vec<(usize, usize)> =
                some_sub_words(&mut run.random, &sheet, b).into_iter().map(|i| (i, most)).collect();
            damage(&mut run.random, &sheet, &mut page, &named);
            let (mended, rounds) = run.mend_and_ask(&p, &page);
            if p.s == 0 && rounds[0] == b {
                assert!(mended.is_none() && rounds.ends_with(&[0]), "{p:?}, {rounds:?} broken");
                blank.insert(rounds);
            }
        }
        let i = run.random.from_to(0, sheet.m - 1);
        let almost = next_to_blank(&sheet, i, run.random.from_to(0, sheet.block_bits(i) - 1));
        let mut page = almost.clone();
        damage(&mut run.random, &sheet, &mut page, &[]);
        if p.s == 0 {
            run.found(&p, &page, &almost);
            // One sub-word of ones, and all but one.
            for ones in [1, sheet.m - 1] {
                let ones = some_sub_words(&mut run.random, &sheet, ones);
                let mut member = erased.clone();
                let zeros = (0..sheet.m).filter(|i| !ones.contains(i));
                zeros.for_each(|i| member[i * sheet.sub_word_bytes()..][..sheet.sub_word_bytes()].fill(0));
                let mut page = member.clone();
                damage(&mut run.random, &sheet, &mut page, &[]);
                run.found(&p, &page, &member);
            }
        } else {
            run.mend_and_ask(&p, &page);
        }
    }
    run.say("blank in the end");
    let expected = [vec![0], vec![1, 0], vec![2, 0], vec![3, 0]];
    assert!(expected.iter().all(|rounds| blank.contains(rounds)), "{blank:?}");
}

/// Every set of up to v broken sub-words, wherever they are.
#[test]
fn broken_sub_words_anywhere() {
    let mut run = Run::new(67);
    let mut met = BTreeSet::new();
    let sheets = [SHEETS_OF_Q_8[0], SHEETS_OF_Q_8[1], SHEETS_OF_Q_8[2], SHEETS_OF_Q_12[0], SHEETS_OF_Q_12[1]];
    for p in sheets {
        run.sheets += 1;
        let sheet = Sheet::of(&p);
        let whole = member(&mut run.random, &p);
        // Every set of up to v sub-words.
        for set in (0..1usize << sheet.m).filter(|set| (1..=sheet.v as u32).contains(&set.count_ones())) {
            if p.q == 12 && !run.random.once_in(2 * one_in()) {
                continue;
            }
            let mut page = whole.clone();
            let t = sheet.nested_level(set.count_ones() as usize - 1).t;
            for i in linear::ones(&[set as u64]) {
                flip_some(&mut run.random, &sheet, &mut page, i, t);
            }
            let (mended, rounds) = run.mend_and_ask(&p, &page);
            if rounds[0] == set.count_ones() as usize {
                assert!(mended.as_ref() == Some(&whole), "{p:?}, {set:b}: {rounds:?} broken");
                run.found += 1;
                met.insert((p.q, p.m, set));
            }
        }
    }
    run.say("broken sub-words anywhere");
    assert!(met.len() > 60, "{}", met.len());
}

/// Every spare bit alone, and all of them, as in an erased page: 8, of members, of what is mended, of what is not. A byte less
/// or more, lengths of other sheets, exact ones with 2^8 and 2^16 added: 7.
#[test]
fn spare_bits_and_lengths() {
    let mut run = Run::new(68);
    let mut spare_bits = BTreeSet::new();
    for p in sheets_of_q_4()
        .chain(SHEETS_OF_Q_8.iter().chain(&SHEETS_OF_Q_12[..1]).flat_map(with_shortened))
        .chain([WHOLE_BYTES])
    {
        run.sheets += 1;
        let sheet = Sheet::of(&p);
        spare_bits.insert(sheet.spare_bits());
        let mut damaged = member(&mut run.random, &p);
        damage(&mut run.random, &sheet, &mut damaged, &[]);
        let pages = [member(&mut run.random, &p), damaged, any_page(&mut run.random, &sheet), sheet.erased(0)];
        let refused = |run: &mut Run, page: Vec<u8>, number: u32| {
            let call = Call::mend_page(&p, page);
            run.calls += 1;
            let outcome: Outcome = alike(&mut run.random, &call);
            assert_eq!(outcome, call.refused(number), "{p:?}, {} bytes", call.lent.len());
        };
        for page in &pages {
            for place in sheet.spare_places() {
                let mut page = page.clone();
                set(&mut page, place);
                refused(&mut run, page, 8);
            }
            let exact = page.len();
            let full = Sheet::of(&p.shortened(0)).page_bytes();
            let lengths = [0, 1, exact / 2, exact - 1, exact + 1, 2 * exact, full, exact + (1 << 8), exact + (1 << 16)];
            for length in lengths.into_iter().filter(|&length| length != exact) {
                let mut page = page.clone();
                page.resize(length, [0x00, 0xFF][length % 2]);
                refused(&mut run, page, 7);
            }
        }
        if sheet.spare_bits() > 0 {
            refused(&mut run, vec![0xFF; sheet.page_bytes()], 8);
            for _ in 0..3 {
                let spare = run.random.number() | 1;
                refused(&mut run, sheet.erased(spare), 8);
            }
        }
        assert!(sheet.spare_places().all(|place| !bit(&pages[1], place)), "{p:?}");
    }
    run.say("spare bits, lengths");
    assert!(spare_bits.is_superset(&(0..8).filter(|&bits| bits < 2 || one_in() == 1).collect()), "{spare_bits:?}");
}
