//! Calls drawn from a seed: exact ones, and ones that are spoiled in a known way or in any way.

use crate::call::{Call, NAMES, Name, Outcome};
use reference::calls::{BLANK, MOST_PAGES, QUOTE_BYTES};
use reference::generator::odd;
use reference::layout::{add, bit, flip, set};
use reference::parameters::Sheet;
use reference::sample::{Random, all_parameters, all_shortened};
use reference::{Parameters, linear};
use std::collections::BTreeSet;
use std::io::Write;
use std::iter::repeat_with;

/// The seed: GII_SEED, or 1.
pub fn seed() -> u64 {
    std::env::var("GII_SEED").map_or(1, |text| text.parse().expect("GII_SEED is a number"))
}

/// How much is gone through, in hundredths: GII_CASES, or 100.
fn hundredths() -> usize {
    std::env::var("GII_CASES").map_or(100, |text| text.parse().expect("GII_CASES is a number"))
}

/// How many cases are drawn, by the hundredths; never fewer than 32, so that two widths each make all 64.
pub fn count(full: usize) -> usize {
    (full * hundredths() / 100).max(32)
}

/// Of a list that is gone through, one case in so many is taken, by the hundredths; never fewer than one in eight.
pub fn one_in() -> usize {
    (100 / hundredths().max(1)).clamp(1, 8)
}

/// A line for the reader, past the capture of the test harness.
#[allow(clippy::explicit_write)]
pub fn say(line: &str) {
    writeln!(std::io::stderr(), "{line}").unwrap();
}

/// The outcome of a call, on which archive and reference agree; the buffers anywhere in memory.
pub fn alike(random: &mut Random, call: &Call) -> Outcome {
    let shift = random.from_to(0, 255);
    call.compare(shift).unwrap_or_else(|found| panic!("seed {}: {found}", seed()))
}

/// A sheet with full sub-words, and shortened by half of the greatest s and by the greatest.
pub fn with_shortened(p: &Parameters) -> [Parameters; 3] {
    [*p, p.shortened(p.most().div_ceil(2)), p.shortened(p.most())]
}

/// A sheet without spare bits.
pub const WHOLE_BYTES: Parameters = Parameters::full(12, 4, 1, [4, 12, 0, 0]).shortened(3071);

/// Every sheet of q = 4 with every s, or one in so many of them.
pub fn sheets_of_q_4() -> impl Iterator<Item = Parameters> {
    all_parameters(4, 8).into_iter().flat_map(|p| all_shortened(&p)).step_by(one_in())
}

/// The length of the lent list of odd syndromes.
pub fn list_bytes(p: &Parameters, name: Name, index: u32) -> usize {
    let t = match name {
        Name::NestedSyndromes => p.t[(p.v - index) as usize],
        _ => p.t[0],
    };
    2 * t as usize
}

/// A call of all syndromes on these odd ones, lent drawn bytes.
pub fn all_from(random: &mut Random, p: &Parameters, level: usize, odd: &[u16]) -> Call {
    let read: Vec<u8> = odd.iter().flat_map(|number| number.to_le_bytes()).collect();
    let lent = random.bytes(4 * p.t[level] as usize);
    Call::new(Name::AllSyndromes, p, level as u32, read, lent)
}

/// The same on drawn ones: the odd syndromes of a word, elements, numbers that are none, any, or few of them not 0.
pub fn all_drawn(random: &mut Random, p: &Parameters, level: usize) -> Call {
    let (sheet, t) = (Sheet::of(p), p.t[level] as usize);
    let n = sheet.field.n;
    let kind = random.from_to(0, 5);
    let word: Vec<u64> = (0..n.div_ceil(64)).map(|_| random.number()).collect();
    let mut number = |j: usize| match kind {
        0 | 1 => sheet.field.value(&word, j),
        2 => random.from_to(0, n) as u16,
        3 => random.from_to(n + 1, 0xFFFF) as u16,
        4 => random.number() as u16,
        _ if random.once_in(t) => random.number() as u16,
        _ => 0,
    };
    let odd: Vec<u16> = odd(t).map(&mut number).collect();
    all_from(random, p, level, &odd)
}

/// A page of the sheet, spare bits clear: a member, or a blank page, or one damaged in some way.
pub fn page(random: &mut Random, p: &Parameters) -> Vec<u8> {
    let sheet = Sheet::of(p);
    let mut page = match random.from_to(0, 9) {
        0 => vec![0; sheet.page_bytes()],
        1 => sheet.erased(0),
        2 => any_page(random, &sheet),
        _ => member(random, p),
    };
    match random.from_to(0, 5) {
        0 => flip(&mut page, random.place(&sheet)),
        1 => (0..random.from_to(2, 70)).for_each(|_| flip(&mut page, random.place(&sheet))),
        2 | 3 => break_nested(random, &sheet, &mut page),
        _ => {}
    }
    page
}

/// Any bytes, spare bits clear.
pub fn any_page(random: &mut Random, sheet: &Sheet) -> Vec<u8> {
    random.bytes(sheet.page_bytes()).iter().zip(sheet.erased(0)).map(|(byte, ones)| byte & ones).collect()
}

/// The page of drawn blocks.
pub fn member(random: &mut Random, p: &Parameters) -> Vec<u8> {
    let sheet = Sheet::of(p);
    let mut page = vec![0; sheet.page_bytes()];
    sheet.put_page(&sheet.encode(&sheet.words_of_blocks(&writable(random, &sheet))), &mut page);
    page
}

/// Adds multiples of g_0 to the first sub-words, so that all sub-words stay right. With one of them nested word 0 changes,
/// with h and h only nested word 1 and above, with x h, (1 + x) h and h only nested word 2. A full sub-word is turned round,
/// a shortened one keeps its top coefficients 0.
pub fn break_nested(random: &mut Random, sheet: &Sheet, page: &mut [u8]) {
    let n = sheet.field.n;
    let g = &sheet.levels[0].generator;
    // How far up h can be moved; x h may not have room.
    let room = if sheet.s == 0 { n } else { sheet.stored() - g.len() };
    let factors: &[(usize, usize)] = match random.from_to(0, sheet.v.min(if room > 0 { 2 } else { 1 })) {
        0 => &[(0, 0)],
        1 => &[(0, 0), (1, 0)],
        _ => &[(0, 1), (1, 0), (1, 1), (2, 0)],
    };
    let at = random.from_to(0, room - factors[0].1);
    for (i, shift) in factors {
        (0..g.len()).filter(|&k| g[k]).for_each(|k| flip(page, sheet.place(*i, (at + shift + k) % n)));
    }
}

/// Blocks that fit and, where s is 0, are not all ones, which write refuses.
pub fn writable(random: &mut Random, sheet: &Sheet) -> Vec<u8> {
    let ones = sheet.ones();
    repeat_with(|| random.blocks(sheet)).find(|blocks| sheet.s > 0 || *blocks != ones).unwrap()
}

/// The blocks of one of many pages: mostly drawn ones that fit; all ones, with a stray bit, or both.
fn one_of_many(random: &mut Random, sheet: &Sheet) -> Vec<u8> {
    let kind = random.from_to(0, 8);
    let mut blocks = if kind < 2 { sheet.ones() } else { random.blocks(sheet) };
    if (1..4).contains(&kind) {
        make_stray(random, sheet, &mut blocks);
    }
    blocks
}

/// Sets an unused bit of some blocks; false if they have none.
pub fn make_stray(random: &mut Random, sheet: &Sheet, blocks: &mut [u8]) -> bool {
    let places = stray_places(sheet, Name::Write);
    if places.is_empty() {
        return false;
    }
    set(blocks, places[random.from_to(0, places.len() - 1)]);
    true
}

/// A call of write many on these sets of blocks, with buffers that fit them, whether or not so many pages are accepted.
pub fn many(random: &mut Random, p: &Parameters, blocks: &[Vec<u8>]) -> Call {
    let (number, count) = (random.from_to(1, 64) as u32, blocks.len() as u32);
    let (lent, list) = (random.bytes(blocks.len() * Sheet::of(p).page_bytes()), random.bytes(blocks.len()));
    Call { count, list, ..Call::new(Name::WriteMany, p, number, blocks.concat(), lent) }
}

/// The same on so many drawn sets of blocks.
pub fn many_drawn(random: &mut Random, p: &Parameters, count: usize) -> Call {
    let sheet = Sheet::of(p);
    let blocks: Vec<Vec<u8>> = (0..count).map(|_| one_of_many(random, &sheet)).collect();
    many(random, p, &blocks)
}

/// A number of pages that is accepted; mostly few of q = 12, which take longest.
fn accepted_count(random: &mut Random, p: &Parameters) -> usize {
    let most = if p.q < 12 || random.once_in(20) { MOST_PAGES } else { 3 };
    random.from_to(1, most as usize)
}

/// Some bits of a block of so many: the first, the last, a drawn one.
pub fn some_bits(random: &mut Random, bits: usize) -> BTreeSet<usize> {
    BTreeSet::from([0, bits - 1, random.from_to(0, bits - 1)])
}

/// A call of alter that names a bit: of any page, of a blank one, or of one that the bit makes blank.
fn alteration(random: &mut Random, p: &Parameters) -> Call {
    let sheet = Sheet::of(p);
    let i = random.from_to(0, sheet.m - 1);
    let bits: Vec<usize> = some_bits(random, sheet.block_bits(i)).into_iter().collect();
    let r = bits[random.from_to(0, bits.len() - 1)];
    let page = match random.from_to(0, 7) {
        0 => sheet.erased(0),
        1 => next_to_blank(&sheet, i, r),
        _ => page(random, p),
    };
    Call::alter(p, page, i as u32, r as u32, random.from_to(0, 1) as u32)
}

/// The page that is blank when bit r of block i is made 1, which is 0.
pub fn next_to_blank(sheet: &Sheet, i: usize, r: usize) -> Vec<u8> {
    let mut page = sheet.erased(0);
    add(&mut page, &sheet.page_of_bit(i, r));
    page
}

/// A call of mend, lent drawn bytes for the places and their number.
pub fn mending(random: &mut Random, p: &Parameters, page: Vec<u8>, index: usize) -> Call {
    let places = random.bytes(2 * p.t[0] as usize);
    Call::mend(p, page, index as u32, places, random.number() as u8)
}

/// A call of mend that is not refused: of a multiple of g_0 with up to t_0 flips, often none or the most.
fn mendable(random: &mut Random, p: &Parameters) -> Call {
    let sheet = Sheet::of(p);
    let (mut page, i, t) = (page(random, p), random.from_to(0, sheet.m - 1), sheet.levels[0].t);
    let flips = [0, t, random.from_to(0, t)][random.from_to(0, 2)];
    put_multiple(random, &sheet, &mut page, i, &[]);
    flip_some(random, &sheet, &mut page, i, flips);
    mending(random, p, page, i)
}

/// Sub-word i of a page made a drawn multiple of g_0, that of n places whose top s are 0 but for these, which are not stored.
pub fn put_multiple(random: &mut Random, sheet: &Sheet, page: &mut [u8], i: usize, top: &[usize]) {
    let n = sheet.field.n;
    let ones_in_four = random.from_to(0, 4);
    let mut word = vec![0; n.div_ceil(64)];
    for k in sheet.levels[0].degree()..sheet.stored() {
        linear::put(&mut word, k, random.from_to(1, 4) <= ones_in_four);
    }
    top.iter().for_each(|&k| linear::flip(&mut word, k));
    let rest = sheet.levels[0].remainder(sheet.field, &word);
    rest.into_iter().enumerate().for_each(|(k, bit)| linear::put(&mut word, k, bit));
    for k in 0..sheet.stored() {
        if bit(page, sheet.place(i, k)) != linear::get(&word, k) {
            flip(page, sheet.place(i, k));
        }
    }
}

/// Flips so many drawn coefficients of sub-word i, or all where there are not so many, and gives their places.
pub fn flip_some(random: &mut Random, sheet: &Sheet, page: &mut [u8], i: usize, flips: usize) -> BTreeSet<usize> {
    let mut places = BTreeSet::new();
    while places.len() < flips.min(sheet.stored()) {
        // Often one of the ends.
        let ends = [0, sheet.stored() - 1];
        let k = if random.once_in(16) { ends[random.from_to(0, 1)] } else { random.from_to(0, sheet.stored() - 1) };
        if places.insert(k) {
            flip(page, sheet.place(i, k));
        }
    }
    places
}

/// So many drawn sub-words, in a drawn order.
pub fn some_sub_words(random: &mut Random, sheet: &Sheet, count: usize) -> Vec<usize> {
    let mut left: Vec<usize> = (0..sheet.m).collect();
    (0..count).map(|_| left.remove(random.from_to(0, left.len() - 1))).collect()
}

/// Flips coefficients of a page: in the sub-words that are named as many as are given with them, in each other up to t_0,
/// often none or the most.
pub fn damage(random: &mut Random, sheet: &Sheet, page: &mut [u8], named: &[(usize, usize)]) {
    let t = sheet.levels[0].t;
    for i in 0..sheet.m {
        let few = [0, t, random.from_to(0, t)][random.from_to(0, 2)];
        let flips = named.iter().find(|&&(k, _)| k == i).map_or(few, |&(_, flips)| flips);
        flip_some(random, sheet, page, i, flips);
    }
}

/// A member, damaged so that it is mostly mended: of the sub-words that may have more than t_0 flips one has up to t_v, the next
/// up to t_(v−1), and so on.
fn damaged(random: &mut Random, p: &Parameters) -> Vec<u8> {
    let sheet = Sheet::of(p);
    let mut page = member(random, p);
    let count = random.from_to(0, sheet.v);
    let broken = some_sub_words(random, &sheet, count).into_iter().enumerate();
    let named: Vec<(usize, usize)> = broken
        .map(|(l, i)| {
            let most = sheet.nested_level(l).t;
            (i, if random.once_in(2) { most } else { random.from_to(0, most) })
        })
        .collect();
    damage(random, &sheet, &mut page, &named);
    page
}

/// Whether a page of exact length, spare bits clear, is refused by 17.
fn is_unmended(p: &Parameters, page: &[u8]) -> bool {
    Call::mend_page(p, page.to_vec()).outcome(Call::by_reference).number == 17
}

/// A page that is not mended; none if none is found.
fn unmended_page(random: &mut Random, p: &Parameters) -> Option<Vec<u8>> {
    let sheet = Sheet::of(p);
    let drawn = |random: &mut Random| {
        let mut page = member(random, p);
        match random.from_to(0, 3) {
            // Nothing like a member; blank but for a few flips; with all sub-words right; with too many broken ones.
            0 => page = any_page(random, &sheet),
            1 => {
                page = sheet.erased(0);
                damage(random, &sheet, &mut page, &[]);
            }
            2 => break_nested(random, &sheet, &mut page),
            _ => {
                for i in some_sub_words(random, &sheet, sheet.v + 1) {
                    unmended(random, &sheet, &mut page, i);
                }
            }
        }
        page
    };
    repeat_with(|| drawn(random)).take(30).find(|page| is_unmended(p, page))
}

/// Some of the places that are not stored, at most so many.
pub fn unstored_places(random: &mut Random, sheet: &Sheet, most: usize) -> Vec<usize> {
    let count = random.from_to(0, most.min(sheet.s));
    let drawn: BTreeSet<usize> = (0..count).map(|_| random.from_to(sheet.stored(), sheet.field.n - 1)).collect();
    drawn.into_iter().collect()
}

/// Makes sub-word i of a page one that is not mended; false if there is none, or none is found.
fn unmended(random: &mut Random, sheet: &Sheet, page: &mut [u8], i: usize) -> bool {
    let t = sheet.levels[0].t;
    // At t_0 = 1 and s = 0 every word is within one flip of a multiple.
    let tries = if t + sheet.s == 1 { 0 } else { 30 };
    (0..tries).any(|_| {
        // A multiple that has ones where no place is stored, or one with more flips than t_0.
        let top = unstored_places(random, sheet, t);
        let flips = if top.is_empty() { random.from_to(t + 1, 2 * t + 1) } else { random.from_to(0, t - top.len()) };
        put_multiple(random, sheet, page, i, &top);
        flip_some(random, sheet, page, i, flips);
        sheet.mending(&sheet.words_of(page)[i]).is_none()
    })
}

/// A call that is not refused.
pub fn exact(random: &mut Random, name: Name, p: &Parameters) -> Call {
    let sheet = Sheet::of(p);
    let (number, read, lent) = match name {
        Name::Write => (random.from_to(1, 64), writable(random, &sheet), sheet.page_bytes()),
        Name::WriteMany => {
            let count = accepted_count(random, p);
            return many_drawn(random, p, count);
        }
        Name::Alter => {
            let done = |call: &Call| call.outcome(Call::by_reference).number == 0;
            return repeat_with(|| alteration(random, p)).find(done).unwrap();
        }
        Name::Mend => return mendable(random, p),
        Name::MendPage => {
            let mended = |page: &Vec<u8>| !is_unmended(p, page);
            return Call::mend_page(p, repeat_with(|| damaged(random, p)).find(mended).unwrap());
        }
        Name::ReadOut => (0, page(random, p), sheet.blocks_bytes()),
        Name::Judge => (0, page(random, p), 0),
        Name::Syndromes => (random.from_to(0, sheet.m - 1), page(random, p), 0),
        Name::NestedSyndromes => (random.from_to(0, sheet.v - 1), page(random, p), 0),
        Name::AllSyndromes => {
            let level = random.from_to(0, sheet.v);
            return all_drawn(random, p, level);
        }
        Name::Quote => (0, Vec::new(), QUOTE_BYTES),
        Name::PageBytes | Name::DataBytes | Name::Distance => (0, Vec::new(), 0),
    };
    let number = number as u32;
    let lent = match name {
        Name::Syndromes | Name::NestedSyndromes => list_bytes(p, name, number),
        _ => lent,
    };
    Call::new(name, p, number, read, random.bytes(lent))
}

/// The conditions that a call can meet, in the order in which they are tested. That a page is blank is no refusal.
pub fn conditions(name: Name) -> &'static [u32] {
    match name {
        Name::Write => &[1, 2, 3, 4, 14, 5, 6, 7, 8, 13],
        Name::WriteMany => &[1, 2, 3, 4, 14, 5, 9, 6, 7, 10],
        Name::Alter => &[1, 2, 3, 4, 14, 7, 8, 9, 13],
        Name::Mend => &[1, 2, 3, 4, 14, 7, 8, 9, 10, 15],
        Name::MendPage => &[1, 2, 3, 4, 14, 7, 8, 17],
        Name::ReadOut => &[1, 2, 3, 4, 14, 6, 7, BLANK, 8],
        Name::Judge => &[1, 2, 3, 4, 14, 7, BLANK, 8],
        Name::Syndromes | Name::NestedSyndromes => &[1, 2, 3, 4, 14, 7, 8, 9, 10],
        Name::AllSyndromes => &[1, 2, 3, 4, 14, 9, 10],
        Name::Quote => &[1, 2, 3, 4, 14, 10],
        Name::PageBytes | Name::DataBytes | Name::Distance => &[1, 2, 3, 4, 14],
    }
}

const GREATEST: u32 = u32::MAX;

/// Makes an exact call meet a condition, whatever later ones it has been made to meet before; false if it cannot be made to.
/// Later conditions may come to be met with it.
pub fn spoil(random: &mut Random, call: &mut Call, condition: u32) -> bool {
    let sheet = call.p.accepted().then(|| Sheet::of(&call.p));
    let p = &mut call.p;
    let v = p.v as usize;
    match condition {
        1 => {
            p.q = any_of(random, &[0, 1, 2, 3, 5, 6, 7, 9, 11, 13, 16, 20, 24, 32, 36, 64, 68, 260, 1 << 31, GREATEST])
        }
        2 => {
            let shapes =
                [(p.m, 0), (p.m, 4), (p.m, GREATEST), (p.v, p.v), (0, p.v), (1, p.v), (9, p.v), (GREATEST, p.v)];
            (p.m, p.v) = shapes[random.from_to(0, shapes.len() - 1)];
        }
        3 => match random.from_to(0, 6) {
            0 => p.t[0] = 0,
            1 => p.t[0] = p.t[1],
            2 => p.t[0] = GREATEST,
            3 => p.t[v] = if p.q == 4 { 8 } else { 65 },
            4 => p.t[v] = any_of(random, &[65, 128, 255, 256, 1 << 31, (1 << 31) + 1, GREATEST - 1, GREATEST]),
            5 if v < 3 => p.t[random.from_to(v + 1, 3)] = any_of(random, &[1, p.t[v], 64, GREATEST]),
            5 => p.t[1] = p.t[0],
            _ if v > 1 => p.t[v - 1] = p.t[v] + 1,
            _ => p.t[1] = 0,
        },
        4 => match p.q {
            4 => p.m = any_of(random, &[6, 7, 8]),
            8 => (p.m, p.t[v]) = (any_of(random, &[6, 7, 8]), random.from_to((p.t[v] as usize).max(26), 64) as u32),
            _ => return false,
        },
        5 => call.number = any_of(random, &[0, 65, 66, 128, 256, 257, 1 << 31, GREATEST]),
        6 => match call.name {
            Name::Write | Name::WriteMany => cut(random, &mut call.read, call.count),
            _ => cut(random, &mut call.lent, 1),
        },
        7 => match call.name {
            Name::Write | Name::WriteMany => cut(random, &mut call.lent, call.count),
            name if name.changes_page() => cut(random, &mut call.lent, 1),
            _ => cut(random, &mut call.read, 1),
        },
        8 => {
            let sheet = sheet.unwrap();
            let places = stray_places(&sheet, call.name);
            if places.is_empty() {
                return false;
            }
            let bytes = if call.name.changes_page() { &mut call.lent } else { &mut call.read };
            set(bytes, places[random.from_to(0, places.len() - 1)]);
            if conditions(call.name).contains(&BLANK) && sheet.blank(&call.read) {
                flip(&mut call.read, random.place(&sheet));
            }
        }
        9 if call.name == Name::WriteMany => {
            let turn = any_of(random, &[1 << 8, 1 << 16, 1 << 31]);
            call.count = any_of(random, &[0, 17, 18, 32, 255, 256, 1 << 31, GREATEST, call.count + turn]);
        }
        // The block, the bit, the value, or several of them.
        9 if call.name == Name::Alter => {
            let (wrong, turn) = (random.from_to(1, 7), any_of(random, &[1 << 8, 1 << 16, 1 << 31]));
            let end = sheet.unwrap().block_bits(call.number as usize) as u32;
            if wrong & 1 == 1 {
                call.number = any_of(random, &[p.m, p.m + 1, 8, 255, 256, call.number + turn, GREATEST - 1, GREATEST]);
            }
            if wrong & 2 == 2 {
                let n = (1 << p.q) - 1;
                call.bit = any_of(random, &[end, end + 1, n - p.s, n, call.bit + turn.max(n), GREATEST - 1, GREATEST]);
            }
            if wrong & 4 == 4 {
                call.value = any_of(random, &[2, 3, 255, 256, call.value + turn, GREATEST - 1, GREATEST]);
            }
        }
        9 => {
            let end = match call.name {
                Name::NestedSyndromes => p.v,
                Name::AllSyndromes => p.v + 1,
                _ => p.m,
            };
            let turn = any_of(random, &[1 << 8, 1 << 16, 1 << 31]);
            call.number = any_of(random, &[end, end + 1, end.max(8), 255, 256, call.number + turn, GREATEST]);
        }
        10 if call.name.lists() => cut(random, &mut call.list, call.count),
        // Either list, or both.
        10 if call.name == Name::AllSyndromes => {
            let wrong = random.from_to(1, 3);
            if wrong & 1 == 1 {
                cut(random, &mut call.read, 1);
            }
            if wrong & 2 == 2 {
                cut(random, &mut call.lent, 1);
            }
        }
        10 => cut(random, &mut call.lent, 1),
        13 => {
            let sheet = sheet.unwrap();
            if call.name == Name::Alter {
                let (i, r) = (call.number as usize, call.bit as usize);
                call.value = 1;
                call.lent = if random.once_in(2) { sheet.erased(0) } else { next_to_blank(&sheet, i, r) };
                return true;
            }
            if sheet.s > 0 {
                return false;
            }
            call.read = sheet.ones();
        }
        14 => p.s = too_short(random, p),
        15 => return unmended(random, &sheet.unwrap(), &mut call.lent, call.number as usize),
        17 => match unmended_page(random, p) {
            Some(page) => call.lent = page,
            None => return false,
        },
        BLANK => {
            let spare = random.number();
            call.read.iter_mut().zip(sheet.unwrap().erased(spare)).for_each(|(byte, ones)| *byte |= ones);
        }
        _ => panic!("no condition {condition}"),
    }
    true
}

/// An s that is above the greatest: by one, by some, around n, by 2^8, 2^16 or 2^31 above an s that is accepted, any.
fn too_short(random: &mut Random, p: &Parameters) -> u32 {
    let (most, n) = (p.most(), (1 << p.q) - 1);
    let accepted = random.from_to(0, most as usize) as u32;
    let s = match random.from_to(0, 5) {
        0 => most + 1,
        1 => most + random.from_to(1, 300) as u32,
        2 => any_of(random, &[n - 1, n, n + 1, 2 * n]),
        3 => accepted + any_of(random, &[1 << 8, 1 << 12, 1 << 16, 1 << 31]),
        4 => any_of(random, &[1 << 8, 1 << 16, (1 << 16) - 1, 1 << 31, GREATEST - most, GREATEST - 1, GREATEST]),
        _ => (random.number() >> 32) as u32,
    };
    s.max(most + 1)
}

fn any_of(random: &mut Random, numbers: &[u32]) -> u32 {
    numbers[random.from_to(0, numbers.len() - 1)]
}

/// Another length: none, one less, one more, half, double, any; of bytes for so many pages also those of a page less or more.
fn cut(random: &mut Random, bytes: &mut Vec<u8>, pages: u32) {
    let exact = bytes.len();
    let one = exact / pages.max(1) as usize;
    let any = random.from_to(0, 5000);
    let less = exact.saturating_sub(1);
    let lengths = [0, less, exact + 1, exact / 2, 2 * exact, any, exact + 256, exact - one, exact + one];
    let mut length = lengths[random.from_to(0, lengths.len() - 1)];
    if length == exact {
        length += 1;
    }
    let fill = random.bytes(length.saturating_sub(exact));
    bytes.truncate(length);
    bytes.extend(fill);
}

/// The bits of the bytes read that must be 0.
fn stray_places(sheet: &Sheet, name: Name) -> Vec<usize> {
    match name {
        Name::Write => {
            let used = sheet.ones();
            (0..8 * used.len()).filter(|&place| !bit(&used, place)).collect()
        }
        _ => sheet.spare_places().collect(),
    }
}

/// Any call: mostly near an accepted one, so that every condition is often met alone.
pub fn any(random: &mut Random) -> Call {
    let name = NAMES[random.from_to(0, NAMES.len() - 1)];
    if random.once_in(6) {
        return wild(random, name);
    }
    let q = [4, 4, 4, 4, 4, 4, 4, 8, 8, 12][random.from_to(0, 9)];
    // One in five of q = 12 is kept: they take longest.
    let q = if q == 12 && !random.once_in(5) { 4 } else { q };
    let mut p = random.parameters(q);
    if random.once_in(2) {
        p = random.shortened(&p);
    }
    let mut call = match name {
        // Numbers of pages that are not accepted, with buffers that fit.
        Name::WriteMany if random.once_in(16) => {
            let count = [0, 17, 18, 32][random.from_to(0, 3)];
            many_drawn(random, &p, count)
        }
        // Any page, whether or not it is mended.
        Name::Mend if random.once_in(3) => {
            let (page, i) = (page(random, &p), random.from_to(0, p.m as usize - 1));
            mending(random, &p, page, i)
        }
        Name::MendPage if random.once_in(3) => Call::mend_page(&p, page(random, &p)),
        _ => exact(random, name, &p),
    };
    if random.once_in(2) {
        for &condition in conditions(name).iter().rev() {
            if random.once_in(6) {
                spoil(random, &mut call, condition);
            }
        }
    }
    if random.once_in(4) {
        let Call { p: Parameters { q, m, v, t, s }, number, count, bit, value, .. } = &mut call;
        let mut numbers = vec![q, m, v, s, number];
        numbers.extend(t);
        match name {
            Name::WriteMany => numbers.push(count),
            Name::Alter => numbers.extend([bit, value]),
            _ => {}
        }
        let place = random.from_to(0, numbers.len() - 1);
        *numbers[place] = wild_number(random);
    }
    call
}

/// Small, at an edge, or any.
fn wild_number(random: &mut Random) -> u32 {
    match random.from_to(0, 3) {
        0 | 1 => random.from_to(0, 16) as u32,
        2 => any_of(
            random,
            &[63, 64, 65, 127, 128, 129, 255, 256, 4094, 4095, 4096, 1 << 16, 1 << 31, GREATEST - 1, GREATEST],
        ),
        _ => (random.number() >> 32) as u32,
    }
}

fn wild(random: &mut Random, name: Name) -> Call {
    let mut number = || wild_number(random);
    let t = [number(), number(), number(), number()];
    let p = Parameters { q: number(), m: number(), v: number(), t, s: number() };
    let [number, count, bit, value] = [number(), number(), number(), number()];
    let length = |random: &mut Random| match random.from_to(0, 3) {
        0 => 0,
        1 => 4096,
        2 => random.from_to(0, 40),
        _ => random.from_to(0, 5000),
    };
    let (read, lent) = (length(random), length(random));
    let (read, lent) = (if name.reads() { read } else { 0 }, if name.writes() { lent } else { 0 });
    let list = if name.lists() { length(random) } else { 0 };
    let call = Call::new(name, &p, number, random.bytes(read), random.bytes(lent));
    Call { count, bit, value, list: random.bytes(list), flips: random.number() as u8, ..call }
}
