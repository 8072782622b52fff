//! The reference against itself: two encoders, read-back, sums, distance, blank pages, altered bits, mended sub-words and
//! pages, odd syndromes and all, shortened sub-words.

use reference::calls::{BLANK, judge, read_out, write};
use reference::field::Field;
use reference::generator::{Level, divide};
use reference::layout::{add, bit, flip, set};
use reference::linear;
use reference::parameters::Sheet;
use reference::sample::{Random, all_parameters, all_shortened};
use reference::{Parameters, calls};
use std::collections::{BTreeMap, BTreeSet};

/// Every sheet of q = 4 with every s.
fn all_of_q_4() -> impl Iterator<Item = Parameters> {
    all_parameters(4, 8).into_iter().flat_map(|p| all_shortened(&p))
}

/// A drawn sheet of the field, with full sub-words or shortened.
fn drawn(random: &mut Random, q: u32) -> Parameters {
    let p = random.parameters(q);
    if random.once_in(2) { random.shortened(&p) } else { p }
}

/// The page of the blocks; none where s is 0 and every data bit 1, and only there: write refuses it by 13 and leaves the
/// buffer.
fn written(p: &Parameters, blocks: &[u8]) -> Option<Vec<u8>> {
    let sheet = Sheet::of(p);
    let lent = vec![0xA5; sheet.page_bytes()];
    let mut page = lent.clone();
    let number = write(p, 1, blocks, &mut page);
    if p.s == 0 && *blocks == sheet.ones() {
        assert_eq!((number, page), (13, lent), "{p:?}");
        return None;
    }
    assert_eq!(number, 0, "{p:?}");
    Some(page)
}

/// Pages by values at the roots and pages by elimination are equal; they are members and give their blocks back. Where none
/// is written, elimination makes the blank page.
fn both_encoders(p: &Parameters, random: &mut Random) {
    let sheet = Sheet::of(p);
    let blocks: Vec<Vec<u8>> = (0..4).map(|_| random.blocks(&sheet)).collect();
    let data: Vec<_> = blocks.iter().map(|blocks| sheet.words_of_blocks(blocks)).collect();
    for (blocks, words) in blocks.iter().zip(sheet.encode_by_elimination(&data)) {
        let mut page = vec![0; sheet.page_bytes()];
        sheet.put_page(&words, &mut page);
        let (expected, number) = match written(p, blocks) {
            Some(written) => (written, 0),
            None => (sheet.erased(0), BLANK),
        };
        assert_eq!(page, expected, "{p:?}");
        let mut out = vec![0xA5; blocks.len()];
        assert_eq!(read_out(p, &page, &mut out), number, "{p:?}");
        assert_eq!(out, *blocks, "{p:?}");
    }
}

#[test]
fn encoders_agree() {
    let mut random = Random::new(1);
    for p in all_of_q_4() {
        both_encoders(&p, &mut random);
    }
    for _ in 0..150 {
        let p = drawn(&mut random, 8);
        both_encoders(&p, &mut random);
    }
    for _ in 0..8 {
        let p = drawn(&mut random, 12);
        both_encoders(&p, &mut random);
    }
    let large = Parameters::full(12, 8, 3, [28, 32, 39, 58]);
    both_encoders(&large, &mut random);
    both_encoders(&large.shortened(1900), &mut random);
}

/// The words of a shortened page are those of the full sheet's page whose blocks end in s zeros; the two are judged alike,
/// and so with a bit flipped.
#[test]
fn shortened_words_are_full_words() {
    let mut random = Random::new(7);
    let mut sheets: Vec<Parameters> = all_of_q_4().collect();
    for q in [8, 12] {
        sheets.extend((0..60).map(|_| drawn(&mut random, q)));
    }
    sheets.retain(|p| p.s > 0);
    assert!(sheets.len() > 120, "{} sheets", sheets.len());
    for p in &sheets {
        let (sheet, full) = (Sheet::of(p), Sheet::of(&p.shortened(0)));
        let blocks = random.blocks(&sheet);
        let mut longer = vec![0; full.blocks_bytes()];
        for i in 0..sheet.m {
            assert_eq!(full.block_bits(i), sheet.block_bits(i) + sheet.s);
            (0..sheet.block_bits(i))
                .filter(|r| bit(&blocks, sheet.block_start(i) + r))
                .for_each(|r| set(&mut longer, full.block_start(i) + r));
        }
        let (mut page, mut full_page) = (written(p, &blocks).unwrap(), written(&p.shortened(0), &longer).unwrap());
        for number in [0, 32] {
            let words = sheet.words_of(&page);
            assert_eq!(words, full.words_of(&full_page), "{p:?}");
            assert!(words.iter().all(|word| (sheet.stored()..sheet.field.n).all(|k| !linear::get(word, k))), "{p:?}");
            assert_eq!((judge(p, &page), judge(&p.shortened(0), &full_page)), (number, number), "{p:?}");
            page[0] ^= 1;
            full_page[0] ^= 1;
        }
    }
}

/// For each sheet of q = 4 as many s are accepted as block 0 has data bits, from 0 up. No s alters another refusal.
#[test]
fn accepted_shortenings() {
    let mut pairs = 0;
    for p in all_parameters(4, 8) {
        let roots: BTreeSet<u32> =
            (1..=2 * p.t[p.v as usize]).flat_map(|j| (0..4).map(move |e| (j << e) % 15)).collect();
        let accepted: Vec<u32> = (0..100).filter(|&s| p.shortened(s).accepted()).collect();
        assert!(accepted.iter().copied().eq(0..15 - roots.len() as u32), "{p:?}");
        assert_eq!(accepted.len(), Sheet::of(&p).block_bits(0), "{p:?}");
        assert!((100..5000).chain([1 << 16, 1 << 31, u32::MAX]).all(|s| p.shortened(s).refusal() == 14), "{p:?}");
        pairs += accepted.len();
    }
    assert_eq!((pairs, all_of_q_4().count()), (186, 186));
    for p in [Parameters::full(5, 2, 1, [1, 2, 0, 0]), Parameters::full(4, 4, 2, [1, 2, 3, 0])] {
        assert!((0..100).chain([u32::MAX]).all(|s| p.shortened(s).refusal() == p.refusal()), "{p:?}");
    }
}

/// A word is a multiple of the generator exactly when it vanishes at the roots; the degree is the number of different
/// j × 2^e modulo n.
#[test]
fn multiples_and_roots() {
    let mut random = Random::new(2);
    for q in [4, 8, 12] {
        let field = Field::of(q);
        for t in (1..=64).filter(|t| 2 * t < field.n) {
            let level = Level::of(field, t);
            let mut exponents: Vec<_> = (1..=2 * t).flat_map(|j| (0..q).map(move |e| (j << e) % field.n)).collect();
            exponents.sort();
            exponents.dedup();
            assert_eq!(level.degree(), exponents.len(), "q = {q}, t = {t}");
            for _ in 0..4 {
                // A random word, and the word less its remainder.
                let mut word: Vec<bool> = (0..field.n).map(|_| random.once_in(2)).collect();
                let rest = divide(&word, &level.generator).1;
                let vanishes = |word: &[bool]| {
                    let mut packed = vec![0; field.n.div_ceil(64)];
                    word.iter().enumerate().for_each(|(k, &bit)| linear::put(&mut packed, k, bit));
                    (1..=2 * t).all(|j| field.value(&packed, j) == 0)
                };
                assert_eq!(vanishes(&word), rest.is_empty());
                rest.iter().enumerate().for_each(|(k, bit)| word[k] ^= bit);
                assert!(vanishes(&word));
            }
        }
    }
}

/// The field's products: α^a α^b = α^(a + b), inverses, squares of sums.
#[test]
fn field_laws() {
    let mut random = Random::new(3);
    for q in [4, 8, 12] {
        let field = Field::of(q);
        for _ in 0..2000 {
            let (a, b) = (random.from_to(0, field.n - 1), random.from_to(0, field.n - 1));
            assert_eq!(field.multiply(field.power(a), field.power(b)), field.power(a + b));
            assert_eq!(field.multiply(field.power(a), field.inverse(field.power(a))), 1);
            let square = |x| field.multiply(x, x);
            assert_eq!(square(field.power(a) ^ field.power(b)), square(field.power(a)) ^ square(field.power(b)));
        }
    }
}

/// Squares: of every element its product with itself, of every number of 16 bits the sum of the α^2k over its bits k.
#[test]
fn squares() {
    for q in [4, 8, 12] {
        let field = Field::of(q);
        for a in 0..=u16::MAX {
            let sum = (0..16).filter(|k| a >> k & 1 == 1).fold(0, |sum, k| sum ^ field.power(2 * k));
            assert_eq!(field.square(a), sum, "q = {q}, {a:04X}");
            assert!(usize::from(a) > field.n || field.square(a) == field.multiply(a, a), "q = {q}, {a:04X}");
        }
    }
}

/// The sums of a word at α^j: value's are the sums of α^(jk) place by place, that of 2j is the square of that of j, and all
/// syndromes from the odd ones are the sums, of sub-words and of nested words.
#[test]
fn odd_and_even_sums() {
    let mut random = Random::new(11);
    let mut sheets: Vec<Parameters> = all_of_q_4().collect();
    for (q, count) in [(8, 100), (12, 12)] {
        sheets.extend((0..count).map(|_| drawn(&mut random, q)));
    }
    sheets.push(Parameters::full(12, 8, 3, [28, 32, 39, 58]));
    sheets.push(Parameters::full(12, 2, 1, [63, 64, 0, 0]).shortened(1900));
    let mut sums = 0;
    for p in sheets {
        let sheet = Sheet::of(&p);
        let mut page = sheet.erased(0);
        page.iter_mut().for_each(|byte| *byte &= random.number() as u8);
        let words = sheet.words_of(&page);
        let i = random.from_to(0, sheet.m - 1);
        let nested = (0..sheet.v).map(|l| (sheet.v - l, Some(l), sheet.nested_word(&words, l)));
        for (level, l, word) in [(0, None, words[i].clone())].into_iter().chain(nested) {
            let t = sheet.levels[level].t;
            let ones: Vec<usize> = (0..sheet.field.n).filter(|&k| linear::get(&word, k)).collect();
            let by_places = |j: usize| ones.iter().fold(0, |sum, &k| sum ^ sheet.field.power(j * k));
            let expected: Vec<u16> = (1..=2 * t).map(by_places).collect();
            for j in 1..=2 * t {
                assert_eq!(sheet.field.value(&word, j), expected[j - 1], "{p:?}, level {level}, S_{j}");
                assert!(j % 2 == 1 || expected[j - 1] == sheet.field.square(expected[j / 2 - 1]), "{p:?}, S_{j}");
            }
            let (mut odd, mut all) = (vec![0xA5; 2 * t], vec![0xA5; 4 * t]);
            let number = match l {
                None => calls::syndromes(&p, &page, i as u32, &mut odd),
                Some(l) => calls::nested_syndromes(&p, &page, l as u32, &mut odd),
            };
            assert_eq!((number, calls::all_syndromes(&p, level as u32, &odd, &mut all)), (0, 0), "{p:?}");
            let numbers = |list: &[u8]| list.chunks(2).map(|x| u16::from_le_bytes([x[0], x[1]])).collect::<Vec<u16>>();
            assert_eq!(numbers(&all), expected, "{p:?}, level {level}");
            assert!(expected.iter().step_by(2).eq(&numbers(&odd)), "{p:?}, level {level}");
            sums += expected.len();
        }
    }
    assert!(sums > 10_000, "{sums} sums");
}

/// Where all sub-words are multiples of g_0, a page is a member exactly when it is what write makes of its blocks. At s = 0
/// a blank page is one of these pages, and no member.
#[test]
fn members_are_pages() {
    let mut random = Random::new(4);
    let mut blank = 0;
    for p in all_of_q_4() {
        let sheet = Sheet::of(&p);
        for _ in 0..20 {
            let mut page = written(&p, &random.blocks(&sheet)).unwrap_or_else(|| sheet.erased(0));
            for _ in 0..random.from_to(0, 3) {
                // A multiple of g_0 onto some sub-word.
                let i = random.from_to(0, sheet.m - 1);
                let g = &sheet.levels[0].generator;
                let shift = random.from_to(0, sheet.stored() - g.len());
                (0..g.len()).filter(|&k| g[k]).for_each(|k| flip(&mut page, sheet.place(i, shift + k)));
            }
            let mut blocks = vec![0; sheet.blocks_bytes()];
            let answer = read_out(&p, &page, &mut blocks);
            assert!(!(32..64).contains(&answer));
            assert_eq!(judge(&p, &page), answer);
            assert_eq!(answer == BLANK, page == sheet.erased(0), "{p:?} {page:02X?}");
            assert!(answer != BLANK || p.s == 0, "{p:?} {page:02X?}");
            assert_eq!(answer == 0, written(&p, &blocks) == Some(page), "{p:?} {blocks:02X?}");
            blank += u32::from(answer == BLANK);
        }
    }
    assert!(blank > 50, "{blank} blank pages");
}

/// The least number of bits in which pages differ is at least the least of (v + 1 − a)(2 t_a + 1), on every sheet of
/// q = 4, at every s, and on sheets of q = 8 and 12 at the greatest s, with at most 20 data bits; pages are linear, so all
/// sums of the pages of single bits are gone through.
#[test]
fn distance() {
    let (mut sheets, mut shortened, mut met) = (0, 0, 0);
    let pairs = || (1..=3).flat_map(|t0| (t0 + 1..=4).map(move |t1| [t0, t1, 0, 0]));
    let larger = [8, 12].into_iter().flat_map(|q| pairs().map(move |t| Parameters::full(q, 2, 1, t)));
    let larger = larger.flat_map(|p| (p.most() - 3..=p.most()).map(move |s| p.shortened(s)));
    for p in all_of_q_4().chain(larger) {
        let sheet = Sheet::of(&p);
        if (0..sheet.m).map(|i| sheet.block_bits(i)).sum::<usize>() > 20 {
            continue;
        }
        assert!(sheet.page_bytes() <= 16, "{p:?}");
        let units: Vec<u128> = (0..sheet.m)
            .flat_map(|i| (0..sheet.block_bits(i)).map(move |r| (i, r)))
            .map(|(i, r)| {
                let mut blocks = vec![0; sheet.blocks_bytes()];
                set(&mut blocks, sheet.block_start(i) + r);
                written(&p, &blocks).unwrap().iter().rev().fold(0, |page, &byte| page << 8 | u128::from(byte))
            })
            .collect();
        let mut page = 0;
        let mut least = u32::MAX;
        for count in 1u32..1 << units.len() {
            page ^= units[count.trailing_zeros() as usize];
            least = least.min(page.count_ones());
        }
        let bound = (0..=p.v).map(|a| (p.v + 1 - a) * (2 * p.t[a as usize] + 1)).min().unwrap();
        assert_eq!(calls::distance(&p), bound, "{p:?}");
        assert!(least >= bound, "{p:?}: {least} below {bound}");
        sheets += 1;
        shortened += u32::from(p.s > 0);
        met += u32::from(least == bound);
    }
    assert!(sheets > 150 && shortened > 80 && met > 0, "{sheets} sheets, {shortened} shortened, {met} at their bound");
}

/// Where none of three pages is blank, pages add up as their blocks do. The pages of blocks and of the same blocks with
/// every data bit flipped add up to a blank page, which is not written.
#[test]
fn sums() {
    let mut random = Random::new(5);
    let sum_of = |x: &[u8], y: &[u8]| x.iter().zip(y).map(|(x, y)| x ^ y).collect::<Vec<_>>();
    let (mut members, mut blank) = (0, 0);
    for q in [4, 8, 12] {
        for _ in 0..20 {
            let p = drawn(&mut random, q);
            let sheet = Sheet::of(&p);
            let (a, b) = (random.blocks(&sheet), random.blocks(&sheet));
            let pages = [&a, &b, &sum_of(&a, &b)].map(|blocks| written(&p, blocks));
            if let [Some(x), Some(y), Some(sum)] = pages {
                assert_eq!(sum_of(&x, &y), sum);
                assert_eq!(judge(&p, &sum), 0);
                members += 1;
            }
            if let (Some(x), Some(y)) = (written(&p, &a), written(&p, &sum_of(&a, &sheet.ones()))) {
                // At s > 0 it is the page of the blocks of ones, which is written.
                assert_eq!(sum_of(&x, &y), written(&p, &sheet.ones()).unwrap_or_else(|| sheet.erased(0)), "{p:?}");
                blank += u32::from(p.s == 0);
            }
        }
    }
    assert!(members >= 30 && blank >= 15, "of 60 sums {members} members, {blank} blank");
}

/// An altered page is the lent one, member or not, with the pages of its blocks and of the altered blocks added, both by
/// elimination; it is refused where that is blank, and only there.
#[test]
fn altered_bits() {
    let mut random = Random::new(8);
    let mut sheets: Vec<Parameters> = all_of_q_4().collect();
    for (q, count) in [(8, 40), (12, 4)] {
        sheets.extend((0..count).map(|_| drawn(&mut random, q)));
    }
    let [mut altered, mut same, mut refused] = [0; 3];
    for p in sheets {
        let sheet = Sheet::of(&p);
        for turn in 0..6 {
            let (i, value) = (random.from_to(0, sheet.m - 1), random.from_to(0, 1));
            let r = random.from_to(0, sheet.block_bits(i) - 1);
            let mut page = sheet.erased(0);
            match turn {
                0 => {}
                1 => add(&mut page, &sheet.page_of_bit(i, r)),
                2 | 3 => page = written(&p, &random.blocks(&sheet)).unwrap_or(page),
                _ => page.iter_mut().for_each(|byte| *byte &= random.number() as u8),
            }
            let mut blocks = vec![0; sheet.blocks_bytes()];
            sheet.put_blocks(&sheet.words_of(&page), &mut blocks);
            let mut others = blocks.clone();
            if bit(&blocks, sheet.block_start(i) + r) != (value == 1) {
                flip(&mut others, sheet.block_start(i) + r);
            }
            let mut expected = page.clone();
            for words in sheet.encode_by_elimination(&[blocks, others].map(|blocks| sheet.words_of_blocks(&blocks))) {
                let mut made = vec![0; page.len()];
                sheet.put_page(&words, &mut made);
                add(&mut expected, &made);
            }
            let number = if sheet.blank(&expected) { 13 } else { 0 };
            let mut lent = page.clone();
            assert_eq!(calls::alter(&p, &mut lent, i as u32, r as u32, value as u32), number, "{p:?}, turn {turn}");
            assert_eq!(lent, if number == 0 { &expected[..] } else { &page }, "{p:?}, turn {turn}");
            *if number != 0 {
                &mut refused
            } else if lent == page {
                &mut same
            } else {
                &mut altered
            } += 1;
        }
    }
    assert!(altered > 300 && same > 300 && refused > 150, "{altered} altered, {same} the same, {refused} refused");
}

/// Every word of a sub-word of q = 4, at every t_0 and s that a sheet has, is mended as the flips of all multiples say, or is
/// not mended at all.
#[test]
fn every_word_mended() {
    let sheets: BTreeMap<(u32, u32), Parameters> = all_of_q_4().map(|p| ((p.t[0], p.s), p)).collect();
    let [mut mended, mut refused] = [0; 2];
    for p in sheets.values() {
        let sheet = Sheet::of(p);
        for (word, expected) in (0..).zip(sheet.nearest()) {
            let found = sheet.mending(&[word]);
            assert_eq!(found.as_ref().map(|places| places.iter().map(|k| 1 << k).sum()), expected, "{p:?}, {word:04X}");
            assert!(found.iter().all(|places| places.is_sorted()), "{p:?}, {word:04X}");
            *if expected.is_some() { &mut mended } else { &mut refused } += 1;
        }
        // At t_0 = 1 and s = 0 every word is within one flip of a multiple.
        assert_eq!(sheet.nearest().iter().all(Option::is_some), (p.t[0], p.s) == (1, 0), "{p:?}");
    }
    assert!(mended > 100_000 && refused > 50_000, "{mended} mended, {refused} refused");
}

/// A multiple of g_0 with up to t_0 of its n places flipped is found again if its top s places are 0 and none of them is
/// flipped. One with a 1 there is not, and neither is another.
#[test]
fn flips_found() {
    let mut random = Random::new(9);
    let [mut mended, mut refused] = [0; 2];
    for (q, count) in [(4, 300), (8, 300), (12, 30)] {
        for _ in 0..count {
            let p = drawn(&mut random, q);
            let sheet = Sheet::of(&p);
            let (n, t) = (sheet.field.n, sheet.levels[0].t);
            // In the top s places a few ones, or none.
            let ones = if p.s > 0 { random.from_to(0, t.min(sheet.s)) } else { 0 };
            let top: BTreeSet<usize> = (0..ones).map(|_| random.from_to(sheet.stored(), n - 1)).collect();
            let drawn = (sheet.levels[0].degree()..sheet.stored()).filter(|_| random.once_in(2));
            let mut word = vec![0; n.div_ceil(64)];
            drawn.chain(top.iter().copied()).for_each(|k| linear::flip(&mut word, k));
            let rest = sheet.levels[0].remainder(sheet.field, &word);
            rest.iter().enumerate().for_each(|(k, &bit)| linear::put(&mut word, k, bit));
            assert!((1..=2 * t).all(|j| sheet.field.value(&word, j) == 0), "{p:?}");
            // Its top places cut off, so that the word is one of a page.
            top.iter().for_each(|&k| linear::flip(&mut word, k));
            let flips = random.from_to(0, t - top.len());
            let places: BTreeSet<usize> = (0..flips).map(|_| random.from_to(0, sheet.stored() - 1)).collect();
            places.iter().for_each(|&k| linear::flip(&mut word, k));
            let expected = top.is_empty().then(|| places.into_iter().collect());
            assert_eq!(sheet.mending(&word), expected, "{p:?}");
            *if expected.is_some() { &mut mended } else { &mut refused } += 1;
        }
    }
    assert!(mended > 300 && refused > 100, "{mended} mended, {refused} refused");
}

/// The tables by which pages of q = 4 are mended without a decoder. A word and a set of places are numbers, bit k for place k.
#[derive(Default)]
struct Tables {
    /// How each word is mended alone, by t_0 and s.
    nearest: BTreeMap<(usize, usize), Vec<Option<u64>>>,
    /// The set of at most t stored places that has syndromes S_1 to S_2t, by t and s.
    sets: BTreeMap<(usize, usize), BTreeMap<Vec<u16>, u64>>,
}

/// The values at α^j of a word that is a number, j from 1 to 2t.
fn values_of(field: &Field, t: usize, word: u64) -> Vec<u16> {
    (1..=2 * t).map(|j| linear::ones(&[word]).fold(0, |sum, k| sum ^ field.power(j * k))).collect()
}

impl Tables {
    fn nearest(&mut self, sheet: &Sheet, word: u64) -> Option<u64> {
        let table = self.nearest.entry((sheet.levels[0].t, sheet.s)).or_insert_with(|| sheet.nearest());
        table[word as usize]
    }

    fn set(&mut self, sheet: &Sheet, t: usize, syndromes: &Vec<u16>) -> Option<u64> {
        let table = self.sets.entry((t, sheet.s)).or_insert_with(|| {
            let sets = (0..1u64 << sheet.stored()).filter(|set| set.count_ones() as usize <= t);
            let table: BTreeMap<_, _> = sets.clone().map(|set| (values_of(sheet.field, t, set), set)).collect();
            assert_eq!(table.len(), sets.count(), "two sets have the same syndromes");
            table
        });
        table.get(syndromes).copied()
    }

    /// The sub-words of a page mended, if a member comes of it. All values that errors could have are tried at each root.
    fn mended(&mut self, sheet: &Sheet, words: &[u64]) -> Option<Vec<u64>> {
        let Sheet { field, m, v, .. } = *sheet;
        let mut words = words.to_vec();
        let mut broken = Vec::new();
        for (i, word) in words.iter_mut().enumerate() {
            match self.nearest(sheet, *word) {
                Some(set) => *word ^= set,
                None => broken.push(i),
            }
        }
        while !broken.is_empty() {
            let b = broken.len();
            if b > v {
                return None;
            }
            let t = sheet.levels[v - b + 1].t;
            let turned = |word: u64, by: usize| (word << (by % 15) | word >> (15 - by % 15)) & 0x7FFF;
            let nested = |l: usize| (0..m).fold(0, |sum, i| sum ^ turned(words[i], l * i));
            let right: Vec<Vec<u16>> = (0..b).map(|l| values_of(field, t, nested(l))).collect();
            let mut syndromes = vec![Vec::new(); b];
            for j in 1..=2 * t {
                let value = |tried: usize, k: usize| (tried >> (4 * k) & 15) as u16;
                let left = |tried: usize, l: usize| {
                    let term = |k: usize| field.multiply(value(tried, k), field.power(j * broken[k] * l));
                    (0..b).fold(0, |sum, k| sum ^ term(k))
                };
                let mut fit = (0..1 << (4 * b)).filter(|&tried| (0..b).all(|l| left(tried, l) == right[l][j - 1]));
                let (found, other) = (fit.next().expect("no values fit"), fit.next());
                assert_eq!(other, None, "several values fit");
                syndromes.iter_mut().enumerate().for_each(|(k, list)| list.push(value(found, k)));
            }
            let sets: Vec<_> = syndromes.iter().map(|list| self.set(sheet, t, list)).collect();
            let mut left = Vec::new();
            for (&i, set) in broken.iter().zip(sets) {
                match set {
                    Some(set) => words[i] ^= set,
                    None => left.push(i),
                }
            }
            if left.len() == b {
                return None;
            }
            broken = left;
        }
        let wide: Vec<Vec<u64>> = words.iter().map(|&word| vec![word]).collect();
        let right = |level: &Level, word: &[u64]| level.remainder(field, word).is_empty();
        let member = wide.iter().all(|word| right(sheet.levels[0], word))
            && (0..v).all(|l| right(sheet.nested_level(l), &sheet.nested_word(&wide, l)));
        let ones = words.iter().all(|word| word.count_ones() as usize == sheet.stored());
        (member && !ones).then_some(words)
    }
}

/// Pages of each sheet of q = 4 with every s, members with flips and any, are mended as tables of all words and sets say and
/// all values of the errors that fit.
#[test]
fn every_kind_of_page_mended() {
    let mut random = Random::new(12);
    let mut tables = Tables::default();
    let (mut met, [mut mended, mut refused]) = (BTreeSet::new(), [0; 2]);
    for p in all_of_q_4() {
        let sheet = Sheet::of(&p);
        for turn in 0..60 {
            let mut page = written(&p, &random.blocks(&sheet)).unwrap_or_else(|| sheet.erased(0));
            // Few flips in most sub-words, more in some.
            for i in (0..sheet.m).filter(|_| turn > 0) {
                let level = if random.once_in(2) { 0 } else { random.from_to(1, sheet.v) };
                let flips = random.from_to(0, sheet.levels[level].t + 1);
                (0..flips).for_each(|_| flip(&mut page, sheet.place(i, random.from_to(0, sheet.stored() - 1))));
            }
            let words = sheet.words_of(&page);
            let expected = tables.mended(&sheet, &words.iter().map(|word| word[0]).collect::<Vec<u64>>());
            let mut lent = page.clone();
            let number = calls::mend_page(&p, &mut lent);
            match &expected {
                Some(words) => {
                    let mut made = vec![0; page.len()];
                    sheet.put_page(&words.iter().map(|&word| vec![word]).collect::<Vec<_>>(), &mut made);
                    assert_eq!((number, &lent), (0, &made), "{p:?}, {page:02X?}");
                }
                None => assert_eq!((number, &lent), (17, &page), "{p:?}, {page:02X?}"),
            }
            *if expected.is_some() { &mut mended } else { &mut refused } += 1;
            met.insert((sheet.rounds(&words).broken, number));
        }
    }
    for rounds in [vec![0], vec![1, 0], vec![2, 0], vec![2, 1, 0], vec![3, 0]] {
        assert!(met.contains(&(rounds.clone(), 0)), "{rounds:?} is not met: {met:?}");
    }
    for rounds in [vec![0], vec![1, 0], vec![1, 1], vec![2], vec![2, 2], vec![2, 1, 1], vec![3], vec![4]] {
        assert!(met.contains(&(rounds.clone(), 17)), "{rounds:?} is not refused: {met:?}");
    }
    assert!(mended > 3_000 && refused > 3_000, "{mended} mended, {refused} refused");
}

/// A member is found again that has up to t_0 flips in a sub-word and in b of them, at most v, more, up to t_(v−b+1), so that
/// these are near no multiple of g_0.
#[test]
fn pages_found_again() {
    let mut random = Random::new(13);
    let mut met = BTreeMap::new();
    for (q, count) in [(4, 1500), (8, 200), (12, 40)] {
        for _ in 0..count {
            let p = drawn(&mut random, q);
            let sheet = Sheet::of(&p);
            let Some(member) = written(&p, &random.blocks(&sheet)) else { continue };
            let mut page = member.clone();
            let b = random.from_to(0, sheet.v);
            let first = random.from_to(0, sheet.m - 1);
            for i in 0..sheet.m {
                let (t, most) = (sheet.levels[0].t, if b > 0 { sheet.nested_level(b - 1).t } else { 0 });
                let more = (i + sheet.m - first) % sheet.m < b;
                let flips = if more { random.from_to(t + 1, most) } else { random.from_to(0, t) };
                let mut places = BTreeSet::new();
                while places.len() < flips.min(sheet.stored()) {
                    places.insert(random.from_to(0, sheet.stored() - 1));
                }
                places.iter().for_each(|&k| flip(&mut page, sheet.place(i, k)));
            }
            let rounds = sheet.rounds(&sheet.words_of(&page)).broken;
            if rounds[0] == b {
                let number = calls::mend_page(&p, &mut page);
                assert_eq!((number, page), (0, member), "{p:?}, {b} broken");
                assert_eq!(rounds.last(), Some(&0), "{p:?}, {b} broken");
                *met.entry((q, b)).or_insert(0) += 1;
            }
        }
    }
    assert!(met.len() == 12 && met.values().all(|&times| times > 0), "{met:?}");
}

/// Solutions of systems of equations satisfy them, and there are none where the rank is too small.
#[test]
fn systems_of_equations() {
    let mut random = Random::new(10);
    for q in [4, 8, 12] {
        let field = Field::of(q);
        let sum = |row: &[u16], by: &[u16]| row.iter().zip(by).fold(0, |sum, (&x, &y)| sum ^ field.multiply(x, y));
        let [mut solved, mut singular] = [0; 2];
        for _ in 0..300 {
            let size = random.from_to(1, 8);
            let mut element = || random.from_to(0, field.n) as u16;
            let mut rows: Vec<Vec<u16>> = (0..size).map(|_| (0..size).map(|_| element()).collect()).collect();
            let [solution, factors]: [Vec<u16>; 2] = [(); 2].map(|()| (0..size).map(|_| element()).collect());
            if size > 1 && random.once_in(3) {
                // The last row a sum of the others by some factors.
                let column = |k: usize| rows[..size - 1].iter().map(|row| row[k]).collect::<Vec<u16>>();
                rows[size - 1] = (0..size).map(|k| sum(&column(k), &factors)).collect();
            }
            let rank = field.rank(rows.clone());
            let equations = rows.iter().map(|row| [&row[..], &[sum(row, &solution)]].concat()).collect();
            let found = field.solve(equations);
            assert_eq!(found, (rank == size).then_some(solution), "q = {q}, {rows:?}");
            *if rank == size { &mut solved } else { &mut singular } += 1;
        }
        assert!(solved > 100 && singular > 50, "q = {q}: {solved} solved, {singular} not");
    }
}

/// A page of ones is blank, whatever its spare bits are. At s = 0 it passes every condition of the code, at s > 0 its first
/// sub-word fails. One flip makes its sub-word fail, or leaves the first to fail, and its spare bits stray.
#[test]
fn ones_and_flips() {
    let mut random = Random::new(6);
    let mut sheets: Vec<Parameters> = all_of_q_4().collect();
    for q in [8, 12] {
        sheets.extend((0..20).map(|_| drawn(&mut random, q)));
    }
    for p in sheets {
        let sheet = Sheet::of(&p);
        let place = random.place(&sheet);
        let of_sub_word = place / (8 * sheet.sub_word_bytes());
        let spares = sheet.spare_places().count();
        for set in [0, 1, spares] {
            let spare = if set == 1 && spares > 0 { 1 << random.from_to(0, spares - 1) } else { (1 << set) - 1 };
            let mut page = sheet.erased(spare);
            assert_eq!(calls::verdict(&sheet, &page), if p.s == 0 { 0 } else { 32 }, "{p:?}");
            assert_eq!(judge(&p, &page), BLANK, "{p:?}");
            flip(&mut page, place);
            // The other sub-words are ones still.
            let fails = 32 + if p.s == 0 { of_sub_word as u32 } else { 0 };
            let first = calls::verdict(&sheet, &page);
            assert!(first == fails || p.s > 0 && of_sub_word == 0 && first == 33, "{p:?}: {first}");
            assert_eq!(judge(&p, &page), if sheet.page_stray(&page) { 8 } else { first }, "{p:?}");
        }
    }
}
