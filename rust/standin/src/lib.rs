//! The reference behind the C functions: something for the tests to be tried on that can be wrong in a known way.
//!
//! GII_FAULT names the fault; unset, there is none. NAME@s is the fault NAME in calls on shortened sub-words alone.
//! `faults.sh` has the list and asks that the tests find each.

use reference::calls::BLANK;
use reference::decode::{locate, syndromes as syndromes_of};
use reference::generator::{Level, odd};
use reference::layout::{add, bit, flip, set};
use reference::parameters::Sheet;
use reference::{Parameters, calls, linear};
use std::cell::Cell;
use std::collections::BTreeSet;
use std::hint::black_box;
use std::slice::{from_raw_parts, from_raw_parts_mut};
use std::sync::OnceLock;

thread_local! {
    /// Whether the call is on shortened sub-words.
    static SHORTENED: Cell<bool> = const { Cell::new(false) };
}

fn fault(name: &str) -> bool {
    static FAULT: OnceLock<String> = OnceLock::new();
    let given = FAULT.get_or_init(|| std::env::var("GII_FAULT").unwrap_or_default());
    match given.strip_suffix("@s") {
        Some(given) => given == name && SHORTENED.get(),
        None => given == name,
    }
}

/// What a call takes its parameters for.
fn taken(p: Parameters) -> Parameters {
    SHORTENED.set(p.s > 0);
    if fault("shortening-modulo-2-16") {
        return p.shortened(p.s % (1 << 16));
    }
    if fault("shortening-modulo-2-8") && p.q < 12 {
        return p.shortened(p.s % (1 << 8));
    }
    if fault("shortening-one-too-few") && p.accepted() && p.s == p.most() {
        return p.shortened(p.s + 1);
    }
    // An s above the greatest that is accepted passes for the greatest.
    let passes = match p.refusal() {
        14 if fault("shortening-one-too-many") => p.s == p.most() + 1,
        14 if fault("shortening-by-level-0") => p.s <= Parameters { v: 0, ..p }.most(),
        _ => false,
    };
    if passes { p.shortened(p.most()) } else { p }
}

fn refuses(number: u32) -> bool {
    (1..32).contains(&number)
}

/// What every call does with its lent bytes when its number is a refusal.
fn leave(number: u32, lent: &mut [u8]) -> u32 {
    if fault("refusal-clears") && refuses(number) {
        lent.fill(0);
    }
    number
}

/// The sheet, if the parameters are accepted and the page is as long as its pages.
fn sheet_of(p: &Parameters, page: &[u8]) -> Option<Sheet> {
    p.accepted().then(|| Sheet::of(p)).filter(|sheet| page.len() == sheet.page_bytes())
}

/// The page with some of its spare bits 0: those at these bits of a byte.
fn cleared(sheet: &Sheet, page: &[u8], bits: impl Fn(usize) -> bool) -> Vec<u8> {
    let mut cleared = page.to_vec();
    let spare = sheet.spare_places().filter(|&place| bits(place % 8) && bit(page, place));
    spare.for_each(|place| flip(&mut cleared, place));
    cleared
}

/// What a call that looks for stray bits takes a page for.
fn looked_at(p: &Parameters, page: &[u8]) -> Vec<u8> {
    match sheet_of(p, page) {
        Some(sheet) if fault("spare-top-bit-only") => cleared(&sheet, page, |bit| bit < 7),
        _ => page.to_vec(),
    }
}

/// Whether judge and read out take a page for blank.
fn blank(sheet: &Sheet, page: &[u8]) -> bool {
    let ones = |i: usize| (0..sheet.stored()).all(|k| bit(page, sheet.place(i, k)));
    if fault("blank-by-one-sub-word") {
        return (0..sheet.m).any(ones);
    }
    if fault("blank-by-sub-word-0") {
        return ones(0);
    }
    let (erased, clear) = (page.iter().all(|&byte| byte == 0xFF), !sheet.page_stray(page));
    let missed = fault("blank-after-stray") && !clear
        || fault("blank-where-spare-set") && !erased
        || fault("blank-mixed-missed") && !erased && !clear
        || fault("blank-over-n") && sheet.s > 0
        || fault("blank-all-but-top-bit") && sheet.spare_places().any(|place| place % 8 < 7 && !bit(page, place));
    sheet.blank(page) && !missed
}

/// Nested word l of the sub-words, wrong where the fault is about it.
fn nested_word(sheet: &Sheet, words: &[Vec<u64>], l: usize) -> Vec<u64> {
    let n = sheet.field.n;
    // The place that coefficient k of sub-word i goes to.
    let place = |i: usize, k: usize| {
        if fault("nested-power") {
            return Some((k + l * (i + 1)) % n);
        }
        if fault("nested-sum-of-powers") && l > 0 {
            return Some((k + l + i) % n);
        }
        if fault("nested-not-turned") && k + l * i >= n {
            return None;
        }
        if fault("nested-folded") {
            // At the last stored coefficient.
            return Some((k + l * i) % sheet.stored());
        }
        Some((k + l * i) % n)
    };
    let mut sum = vec![0; n.div_ceil(64)];
    for (i, word) in words.iter().enumerate() {
        let ones = (0..n).filter(|&k| linear::get(word, k));
        ones.filter_map(|k| place(i, k)).for_each(|place| linear::flip(&mut sum, place));
    }
    sum
}

/// Whether nested word l fails judge, held to 2t syndromes.
fn nested_fails(sheet: &Sheet, page: &[u8], l: usize, t: usize) -> bool {
    let word = nested_word(sheet, &sheet.words_of(page), l);
    (1..=2 * t).any(|j| sheet.field.value(&word, j) != 0)
}

fn judge(p: &Parameters, page: &[u8]) -> u32 {
    let page = &looked_at(p, page)[..];
    if fault("blank-before-page") && p.accepted() && page.iter().all(|&byte| byte == 0xFF) {
        return BLANK;
    }
    let Some(sheet) = sheet_of(p, page) else { return calls::judge(p, page) };
    if blank(&sheet, page) {
        return if fault("blank-a-member") { 0 } else { BLANK };
    }
    if sheet.page_stray(page) {
        return 8;
    }
    let number = calls::verdict(&sheet, page);
    if number != 0 && number < 64 {
        return number;
    }
    if fault("judge-names-nested-0") && number != 0 {
        return 64;
    }
    if fault("judge-names-last-nested") && number != 0 {
        return 63 + p.v;
    }
    let fails = |l: &u32| {
        let lower = fault("nested-0-one-level-lower") && *l == 0 && p.v > 1;
        let level = p.v - l - u32::from(lower);
        nested_fails(&sheet, page, *l as usize, p.t[level as usize] as usize)
    };
    (0..p.v).find(fails).map_or(0, |l| 64 + l)
}

/// The blocks, each bit one place higher, the highest dropped.
fn higher(p: &Parameters, blocks: &[u8]) -> Vec<u8> {
    let sheet = Sheet::of(p);
    let mut moved = vec![0; blocks.len()];
    for i in 0..sheet.m {
        let start = sheet.block_start(i);
        (1..sheet.block_bits(i)).filter(|r| bit(blocks, start + r - 1)).for_each(|r| set(&mut moved, start + r));
    }
    moved
}

/// Every sub-word a multiple of g_0 and the last as it should be; no nested word is.
fn level_0_only(p: &Parameters, blocks: &[u8], page: &mut [u8]) {
    let sheet = Sheet::of(p);
    let mut words = sheet.words_of_blocks(blocks);
    for word in &mut words {
        let rest = sheet.levels[0].remainder(sheet.field, word);
        rest.iter().enumerate().for_each(|(k, &bit)| linear::put(word, k, bit));
    }
    sheet.put_page(&words, page);
}

/// Every sub-word shortened by its lowest data bits: the block's bits stand s places higher, and the s places below them,
/// which are 0, are not stored.
fn without_low_bits(p: &Parameters, blocks: &[u8], page: &mut [u8]) {
    let sheet = Sheet::of(p);
    let (n, s) = (sheet.field.n, sheet.s);
    let moved = |word: &[u64], from: usize, place: &dyn Fn(usize) -> usize| {
        let mut moved = vec![0; word.len()];
        let ones = (0..n).filter(|&k| linear::get(word, k));
        ones.for_each(|k| linear::flip(&mut moved, if k < from { k } else { place(k) }));
        moved
    };
    let degree = |i: usize| sheet.level(i).degree();
    let data = sheet.words_of_blocks(blocks).into_iter().map(|word| moved(&word, 0, &|k| k + s)).collect::<Vec<_>>();
    let words = sheet.encode(&data).into_iter().enumerate();
    let words = words.map(|(i, word)| moved(&word, degree(i), &|k| k - s)).collect::<Vec<_>>();
    sheet.put_page(&words, page);
}

/// Whether write refuses by 13 where it is not to.
fn ones_refused(p: &Parameters, blocks: &[u8], page: &[u8]) -> bool {
    let Some(sheet) = p.accepted().then(|| Sheet::of(p)).filter(|sheet| blocks.len() == sheet.blocks_bytes()) else {
        return false;
    };
    let ones = sheet.ones();
    // Whether every data bit below this place of the blocks is 1.
    let all_below = |end: usize| (0..end).all(|place| !bit(&ones, place) || bit(blocks, place));
    let last = sheet.block_start(sheet.m - 1) + sheet.block_bits(sheet.m - 1) - 1;
    let exact = page.len() == sheet.page_bytes();
    let fits = exact && !sheet.blocks_stray(blocks);
    if sheet.s > 0 {
        return fault("ones-refused-shortened") && fits && all_below(last + 1);
    }
    fault("ones-before-page") && !exact && all_below(last + 1)
        || fault("ones-before-stray") && exact && all_below(last + 1)
        || fault("ones-last-bit-missed") && fits && all_below(last)
        || fault("ones-by-block-0") && fits && all_below(sheet.block_start(1))
}

fn write(p: &Parameters, width: u32, blocks: &[u8], page: &mut [u8]) -> u32 {
    if fault("refuse-all") {
        return 4;
    }
    if fault("page-before-blocks") && p.accepted() && page.len() != Sheet::of(p).page_bytes() {
        return 7;
    }
    if fault("shortening-after-width") && p.refusal() == 14 && !(1..=64).contains(&width) {
        return 5;
    }
    if (1..=64).contains(&width) && ones_refused(p, blocks, page) {
        return 13;
    }
    let old = page.to_vec();
    let number = calls::write(p, width, blocks, page);
    if number != 0 {
        if fault("half-written-refusal") && number == 8 {
            page[0] = 0;
        }
        if number == 13 && (fault("ones-half-written") || fault("ones-written")) {
            page.copy_from_slice(&Sheet::of(p).erased(0));
            return if fault("ones-written") { 0 } else { 13 };
        }
        return leave(number, page);
    }
    let end = page.len();
    if fault("write-touches-nothing") {
        page.copy_from_slice(&old);
    }
    if fault("zero-page") {
        page.fill(0);
    }
    if fault("level-0-only") {
        level_0_only(p, blocks, page);
    }
    if fault("data-high") {
        calls::write(p, width, &higher(p, blocks), page);
    }
    if fault("low-bits-lost") {
        without_low_bits(p, blocks, page);
    }
    if fault("low-spare-bits-left") {
        let low = |&place: &usize| place % 8 < 7 && bit(&old, place);
        Sheet::of(p).spare_places().filter(low).for_each(|place| set(page, place));
    }
    if fault("width-37") && width == 37 {
        page[0] ^= 1;
    }
    if fault("one-strength") && p.t[p.v as usize] == 64 {
        page[end - 2] ^= 0x40;
    }
    if fault("last-byte-left") {
        page[end - 1] = old[end - 1];
    }
    if fault("overrun") {
        unsafe { *black_box(page.as_mut_ptr()).add(end) = 0 };
    }
    if fault("alters-blocks") {
        unsafe { *black_box(blocks.as_ptr().cast_mut()) = 0 };
    }
    number
}

/// The blocks with their unused bits 0.
fn without_stray(sheet: &Sheet, blocks: &[u8]) -> Vec<u8> {
    blocks.iter().zip(sheet.ones()).map(|(byte, used)| byte & used).collect()
}

/// The refusal of write many, by its tests in the order that the fault gives them.
fn many_refusal(p: &Parameters, width: u32, count: u32, lengths: [usize; 3]) -> u32 {
    match p.refusal() {
        14 if fault("many-shortening-after-width") && !(1..=64).contains(&width) => return 5,
        0 => {}
        number => return number,
    }
    let sheet = Sheet::of(p);
    let most = match () {
        _ if fault("many-count-17") => 17,
        _ if fault("many-count-15") => 15,
        _ => calls::MOST_PAGES,
    };
    let ones = [sheet.blocks_bytes(), sheet.page_bytes(), 1];
    let exact = |k: usize| {
        let (length, product) = (lengths[k] as u64, u64::from(count) * ones[k] as u64);
        let bits = match () {
            _ if fault("many-lengths-modulo-2-8") => 8,
            _ if fault("many-lengths-modulo-2-16") => 16,
            _ => 64,
        };
        // A longer buffer, never a shorter one.
        length >= product && (length - product) << (64 - bits) == 0
    };
    // Whether the length is a product that wraps in 32 bits.
    let wraps = |k: usize| {
        let (product, wrapped) = count.overflowing_mul(ones[k] as u32);
        wrapped && lengths[k] as u32 == product
    };
    let met = |condition: &u32| match condition {
        5 => !(1..=64).contains(&width),
        9 if fault("many-count-wraps") && wraps(0) && wraps(1) => false,
        9 => count > most || count == 0 && !fault("many-count-0"),
        6 => !exact(0),
        7 => !exact(1),
        _ => !exact(2),
    };
    let order: &[u32] = match () {
        _ if fault("many-count-before-width") => &[9, 5, 6, 7, 10],
        _ if fault("many-count-after-blocks") => &[5, 6, 9, 7, 10],
        _ if fault("many-count-after-pages") => &[5, 6, 7, 9, 10],
        _ if fault("many-count-after-list") => &[5, 6, 7, 10, 9],
        _ if fault("many-pages-before-blocks") => &[5, 9, 7, 6, 10],
        _ if fault("many-list-before-count") => &[5, 10, 9, 6, 7],
        _ if fault("many-list-before-blocks") => &[5, 9, 10, 6, 7],
        _ if fault("many-list-before-pages") => &[5, 9, 6, 10, 7],
        _ if fault("many-list-any-length") => &[5, 9, 6, 7],
        _ => &[5, 9, 6, 7, 10],
    };
    order.iter().copied().find(met).unwrap_or(0)
}

fn write_many(p: &Parameters, width: u32, count: u32, blocks: &[u8], pages: &mut [u8], list: &mut [u8]) -> u32 {
    let count = match () {
        _ if fault("many-count-modulo-2-8") => count % (1 << 8),
        _ if fault("many-count-modulo-2-16") => count % (1 << 16),
        _ => count,
    };
    let number = many_refusal(p, width, count, [blocks.len(), pages.len(), list.len()]);
    if number != 0 {
        if fault("many-list-cleared") {
            list.fill(0);
        }
        if fault("many-half-written") && !pages.is_empty() {
            pages[0] = 0;
        }
        leave(number, list);
        return leave(number, pages);
    }
    let sheet = Sheet::of(p);
    let (data, length, count) = (sheet.blocks_bytes(), sheet.page_bytes(), count as usize);
    let set_of = |k: usize| &blocks[k * data..][..data];
    let mut listed = vec![0; count];
    for k in 0..count {
        let from = if fault("many-blocks-before") { k.saturating_sub(1) } else { k };
        let fits = without_stray(&sheet, set_of(from));
        let ones = fits == sheet.ones();
        let page = &mut pages[k * length..][..length];
        let old = page.to_vec();
        let taken = if fault("many-stray-of-first-page") && k > 0 { &fits } else { set_of(from) };
        let number = match calls::write(p, width, taken, page) {
            8 if fault("many-13-before-8") && ones && p.s == 0 => 13,
            0 if fault("many-ones-refused-shortened") && ones => 13,
            0 if fault("many-stray-carried") && k > 0 && listed[k - 1] == 8 => 8,
            number => number,
        };
        if number != 0 {
            page.copy_from_slice(&old);
        }
        if number != 0 && fault("many-refused-cleared") {
            page.fill(0);
        }
        if number == 8 && fault("many-stray-written") {
            calls::write(p, width, &fits, page);
        }
        if number == 13 && fault("many-blank-written") {
            page.copy_from_slice(&sheet.erased(0));
        }
        if number == 0 {
            if fault("many-level-0-only") && k > 0 {
                level_0_only(p, taken, page);
            }
            if fault("many-refused-carried") && k > 0 && listed[k - 1] != 0 {
                page[0] ^= 1;
            }
            if fault("many-width-37") && width == 37
                || fault("many-page-16") && k == 15
                || fault("many-one-strength") && p.t[p.v as usize] == 64
            {
                page[length - 1] ^= 1;
            }
            if fault("many-last-left") && k + 1 == count {
                page.copy_from_slice(&old);
            }
        }
        listed[k] = number as u8;
        if fault("many-stray-stops") && number == 8 || fault("many-blank-stops") && number == 13 {
            break;
        }
    }
    let refused = listed.iter().copied().find(|&number| number != 0);
    if fault("many-list-reversed") {
        listed.reverse();
    }
    for (place, number) in list.iter_mut().zip(listed.clone()) {
        *place = match number {
            0 if fault("many-done-not-listed") => *place,
            8 | 13 if fault("many-refused-not-listed") => 0,
            8 | 13 if fault("many-listed-by-1") => 1,
            13 if fault("many-13-as-8") => 8,
            number => number,
        };
    }
    if fault("many-overrun") {
        unsafe { *black_box(pages.as_mut_ptr()).add(pages.len()) = 0 };
    }
    if fault("many-list-overrun") {
        unsafe { *black_box(list.as_mut_ptr()).add(list.len()) = 0 };
    }
    if fault("many-clears-stray") && listed.contains(&8) {
        for k in 0..count {
            let fits = without_stray(&sheet, set_of(k));
            unsafe { black_box(blocks.as_ptr().cast_mut()).add(k * data).copy_from(fits.as_ptr(), data) };
        }
    }
    match refused {
        Some(_) if fault("many-answers-8") => 8,
        Some(number) if fault("many-all-refused") && !listed.contains(&0) => number.into(),
        _ => 0,
    }
}

/// The refusal of alter but 13, by its tests in the order that the fault gives them.
fn alter_refusal(p: &Parameters, page: &[u8], block: u32, bit: u32, value: u32) -> u32 {
    match p.refusal() {
        14 if fault("alter-page-before-14") && page.len() != Sheet::of(&p.shortened(0)).page_bytes() => return 7,
        0 => {}
        number => return number,
    }
    let sheet = Sheet::of(p);
    let exact = page.len() == sheet.page_bytes();
    let i = block as usize;
    let bits = match () {
        _ if fault("alter-bit-one-too-many") => sheet.block_bits(i) + 1,
        _ if fault("alter-bit-one-too-few") => sheet.block_bits(i) - 1,
        _ if fault("alter-bits-of-block-0") => sheet.block_bits(0),
        _ if fault("alter-bits-of-last-block") => sheet.block_bits(sheet.m - 1),
        _ if fault("alter-bits-without-s") => sheet.block_bits(i) + sheet.s,
        _ => sheet.block_bits(i),
    };
    let blocks = if fault("alter-block-m") { p.m + 1 } else { p.m };
    let index = block >= blocks || bit as usize >= bits || value > 1;
    let met = |condition: &u32| match *condition {
        7 if fault("alter-full-page") => page.len() != full_page_bytes(p),
        7 => !exact,
        8 => exact && sheet.page_stray(page) && !fault("alter-stray-missed"),
        BLANK => exact && sheet.blank(page) && value == 1,
        _ => index,
    };
    let order: &[u32] = match () {
        _ if fault("alter-index-before-page") => &[9, 7, 8],
        _ if fault("alter-index-before-stray") => &[7, 9, 8],
        _ if fault("alter-index-any") => &[7, 8],
        _ if fault("alter-blank-before-stray") => &[7, BLANK, 8, 9],
        _ if fault("alter-blank-before-index") => &[7, 8, BLANK, 9],
        _ => &[7, 8, 9],
    };
    match order.iter().copied().find(met) {
        Some(9) if fault("alter-block-as-2") && block >= p.m => 2,
        Some(BLANK) => 13,
        number => number.unwrap_or(0),
    }
}

/// What is added to a page for bit r of block i.
fn alteration(p: &Parameters, i: usize, r: usize) -> Vec<u8> {
    let sheet = Sheet::of(p);
    let mut blocks = vec![0; sheet.blocks_bytes()];
    set(&mut blocks, sheet.block_start(i) + r);
    let mut change = sheet.page_of_bit(i, r);
    if fault("alter-level-0-only") {
        level_0_only(p, &blocks, &mut change);
    }
    if fault("alter-as-if-higher") {
        without_low_bits(p, &blocks, &mut change);
    }
    let mut clear = |k: usize| change[k * sheet.sub_word_bytes()..][..sheet.sub_word_bytes()].fill(0);
    if fault("alter-own-check-bits") || fault("alter-none-below-under-v") && i < sheet.v {
        (0..i).for_each(&mut clear);
    }
    if fault("alter-sub-word-0-left") && i > 0 {
        clear(0);
    }
    if fault("alter-bit-alone") {
        (0..sheet.m).for_each(clear);
        set(&mut change, sheet.place(i, sheet.level(i).degree() + r));
    }
    if fault("alter-touches-above") && i + 1 < sheet.m {
        flip(&mut change, sheet.place(i + 1, 0));
    }
    if fault("alter-touches-between") {
        (sheet.v..i).for_each(|k| flip(&mut change, sheet.place(k, 0)));
    }
    change
}

/// The page that alter makes, where it tests for none but those numbers.
fn altered(p: &Parameters, page: &[u8], i: usize, r: usize, value: bool) -> (bool, Vec<u8>) {
    let sheet = Sheet::of(p);
    let end = sheet.block_bits(i);
    let r = match () {
        _ if fault("alter-from-the-end") => end - 1 - r,
        _ if fault("alter-byte-reversed") && (r ^ 7) < end => r ^ 7,
        _ if fault("alter-bit-modulo-2-8") => r % (1 << 8),
        _ => r,
    };
    let offset = match () {
        _ if fault("alter-looks-without-offset") => 0,
        _ if fault("alter-looks-by-level-0") => sheet.levels[0].degree(),
        _ => sheet.level(i).degree(),
    };
    let is = bit(page, sheet.place(i, offset + r));
    let differs = match () {
        _ if fault("alter-value-not-compared") => true,
        _ if fault("alter-value-inverted") => is == value,
        _ if fault("alter-clears-only") => is && !value,
        _ => is != value,
    };
    let mut made = page.to_vec();
    let change = alteration(p, i, r);
    if differs && fault("alter-or") {
        made.iter_mut().zip(change).for_each(|(byte, change)| *byte |= change);
    } else if differs {
        add(&mut made, &change);
    }
    if fault("alter-written-afresh") || fault("alter-repairs-the-same") && !differs {
        let mut blocks = vec![0; sheet.blocks_bytes()];
        sheet.put_blocks(&sheet.words_of(&made), &mut blocks);
        sheet.put_page(&sheet.encode(&sheet.words_of_blocks(&blocks)), &mut made);
    }
    if differs && fault("alter-one-strength") && p.t[p.v as usize] == 64 {
        flip(&mut made, sheet.place(0, 0));
    }
    if differs && fault("alter-last-byte-left") {
        let last = page.len() - 1;
        made[last] = page[last];
    }
    (differs, made)
}

/// Whether alter takes a page that it would make for blank.
fn alter_blank(sheet: &Sheet, i: usize, differs: bool, lent: &[u8], made: &[u8]) -> bool {
    let ones = |k: usize| bit(made, sheet.place(i, k));
    match () {
        _ if fault("alter-13-never") => false,
        _ if fault("alter-13-at-s-0") => sheet.s == 0 && sheet.blank(made),
        _ if fault("alter-13-of-changes") => differs && sheet.blank(made),
        _ if fault("alter-13-of-the-same") => !differs && sheet.blank(made),
        _ if fault("alter-13-of-the-lent") => sheet.blank(lent),
        _ if fault("alter-13-of-both") => sheet.blank(lent) || sheet.blank(made),
        _ if fault("alter-13-by-sub-word") => (0..sheet.stored()).all(ones),
        _ if fault("alter-13-by-data-bits") => {
            let mut blocks = vec![0; sheet.blocks_bytes()];
            sheet.put_blocks(&sheet.words_of(made), &mut blocks);
            blocks == sheet.ones()
        }
        _ => sheet.blank(made),
    }
}

fn alter(p: &Parameters, page: &mut [u8], block: u32, bit: u32, value: u32) -> u32 {
    let block = if fault("alter-block-modulo-2-8") { block % (1 << 8) } else { block };
    let bit = if fault("alter-bit-modulo-2-16") { bit % (1 << 16) } else { bit };
    let value = match () {
        _ if fault("alter-value-2-as-1") && value == 2 => 1,
        _ if fault("alter-value-2-as-0") && value == 2 => 0,
        _ if fault("alter-value-modulo-2-8") => value % (1 << 8),
        _ => value,
    };
    let number = alter_refusal(p, page, block, bit, value);
    if number != 0 {
        if fault("alter-refusal-writes") && number == 9 {
            page[0] ^= 1;
        }
        return leave(number, page);
    }
    let sheet = Sheet::of(p);
    let (i, r) = (block as usize, bit as usize);
    // Done, with nothing that could be altered.
    if page.len() != sheet.page_bytes() || i >= sheet.m || r >= sheet.block_bits(i) || value > 1 {
        return 0;
    }
    let verdict = calls::verdict(&sheet, page);
    if fault("alter-members-only") && verdict != 0 {
        return 9;
    }
    let (differs, made) = altered(p, page, i, r, value == 1);
    if alter_blank(&sheet, i, differs, page, &made) {
        if fault("alter-13-half-written") {
            page.copy_from_slice(&made);
        }
        return if fault("alter-13-as-8") { 8 } else { leave(13, page) };
    }
    page.copy_from_slice(&made);
    if fault("alter-overrun") {
        unsafe { *black_box(page.as_mut_ptr()).add(page.len()) = 0 };
    }
    if fault("alter-answers-verdict") { verdict } else { 0 }
}

/// The refusal of mend but 15, by its tests in the order that the fault gives them.
fn mend_refusal(p: &Parameters, page: &[u8], index: u32, length: usize) -> u32 {
    match p.refusal() {
        14 if fault("mend-page-before-14") && page.len() != Sheet::of(&p.shortened(0)).page_bytes() => return 7,
        14 if fault("mend-index-before-14") && index >= p.m => return 9,
        0 => {}
        number => return number,
    }
    let sheet = Sheet::of(p);
    let exact = page.len() == sheet.page_bytes();
    let spare_bits_of = |i: usize| (0..sheet.spare_bits()).any(|b| bit(page, sheet.place(i, sheet.stored() + b)));
    let stray = || match () {
        _ if fault("mend-stray-missed") => false,
        _ if fault("mend-stray-of-the-sub-word") => index < p.m && spare_bits_of(index as usize),
        _ if fault("mend-stray-of-the-last") => spare_bits_of(sheet.m - 1),
        _ if fault("mend-erased-taken") => sheet.page_stray(page) && !sheet.blank(page),
        _ => sheet.page_stray(page),
    };
    let end = match () {
        _ if fault("mend-index-m") => p.m + 1,
        _ if fault("mend-index-one-fewer") => p.m - 1,
        _ if fault("mend-index-by-v") => p.v + 1,
        _ => p.m,
    };
    let bytes = match () {
        _ if fault("mend-list-as-all-syndromes") => 4 * p.t[0] as usize,
        _ if fault("mend-list-by-level-v") => 2 * p.t[p.v as usize] as usize,
        _ => 2 * p.t[0] as usize,
    };
    let fits = match () {
        _ if fault("mend-list-longer") => length >= bytes,
        _ if fault("mend-list-odd") => length / 2 == bytes / 2,
        _ if fault("mend-list-modulo-2-8") => length >= bytes && (length - bytes) % (1 << 8) == 0,
        _ => length == bytes,
    };
    let met = |condition: &u32| match *condition {
        7 if fault("mend-full-page") => page.len() != full_page_bytes(p),
        7 => !exact,
        8 => exact && stray(),
        9 => index >= end,
        10 => !fits,
        BLANK => exact && sheet.blank(page),
        _ => exact && index < p.m && sheet.mending(&sheet.words_of(page)[index as usize]).is_none(),
    };
    let order: &[u32] = match () {
        _ if fault("mend-index-before-page") => &[9, 7, 8, 10],
        _ if fault("mend-index-before-stray") => &[7, 9, 8, 10],
        _ if fault("mend-index-any") => &[7, 8, 10],
        _ if fault("mend-list-before-page") => &[10, 7, 8, 9],
        _ if fault("mend-list-before-stray") => &[7, 10, 8, 9],
        _ if fault("mend-list-before-index") => &[7, 8, 10, 9],
        _ if fault("mend-15-before-list") => &[7, 8, 9, 15, 10],
        _ if fault("mend-13-before-stray") => &[7, BLANK, 8, 9, 10],
        _ if fault("mend-13-of-the-lent") => &[7, 8, 9, 10, BLANK],
        _ => &[7, 8, 9, 10],
    };
    match order.iter().copied().find(met) {
        Some(BLANK) => 13,
        number => number.unwrap_or(0),
    }
}

/// The places at which mend flips a word of sub-word i.
fn mend_places(sheet: &Sheet, word: &[u64], i: usize) -> Option<Vec<usize>> {
    let Sheet { field, m, v, s, .. } = *sheet;
    let (t, stored) = (sheet.levels[0].t, sheet.stored());
    let found = sheet.mending(word);
    let full = || Sheet { field, m, v, s: 0, levels: sheet.levels.clone() }.mending(word);
    let by_level = |level| Sheet { field, m, v, s, levels: vec![level] }.mending(word).filter(|found| found.len() <= t);
    match () {
        _ if fault("mend-no-last-look") => {
            locate(field, &syndromes_of(field, t, word)).filter(|found| found.iter().all(|&place| place < stored))
        }
        _ if fault("mend-one-more") && found.is_none() && field.q == 4 => (0..stored).find_map(|k| {
            let mut other = word.to_vec();
            linear::flip(&mut other, k);
            let others = sheet.mending(&other).filter(|found| !found.contains(&k))?;
            Some(BTreeSet::from_iter(others.into_iter().chain([k])).into_iter().collect())
        }),
        _ if fault("mend-one-fewer") => found.filter(|found| found.len() < t),
        _ if fault("mend-search-to-n") => full(),
        _ if fault("mend-unstored-dropped") => full().map(|found| found.into_iter().filter(|&k| k < stored).collect()),
        _ if fault("mend-last-place-missed") => found.filter(|found| !found.contains(&(stored - 1))),
        _ if fault("mend-place-0-missed") => found.filter(|found| !found.contains(&0)),
        _ if fault("mend-check-bits-missed") => {
            found.filter(|found| found.iter().all(|&k| k >= sheet.levels[0].degree()))
        }
        _ if fault("mend-by-level-1") => by_level(sheet.levels[1]),
        _ if fault("mend-by-own-level") => by_level(sheet.level(i)),
        _ if fault("mend-fault-free-15") => found.filter(|found| !found.is_empty()),
        _ => found,
    }
}

/// Lists the places that mend flips in sub-word i.
fn mend_list(sheet: &Sheet, i: usize, found: &[usize], list: &mut [u8]) {
    let (n, t) = (sheet.field.n, sheet.levels[0].t);
    let number = |&k: &usize| match () {
        _ if fault("mend-places-from-the-end") => sheet.stored() - 1 - k,
        _ if fault("mend-places-inverse") => (n - k) % n,
        _ if fault("mend-places-from-1") => k + 1,
        _ if fault("mend-places-from-the-top") => k + sheet.s,
        _ if fault("mend-places-of-the-page") => sheet.place(i, k),
        _ if fault("mend-low-byte-alone") => k % (1 << 8),
        _ => k,
    };
    let filler = match () {
        _ if fault("mend-filler-0") => 0,
        _ if fault("mend-filler-255") => 255,
        _ if fault("mend-filler-n") => n as u16,
        _ => calls::NO_PLACE,
    };
    let mut numbers: Vec<u16> = found.iter().map(|k| number(k) as u16).collect();
    if fault("mend-falling") {
        numbers.reverse();
    }
    if fault("mend-last-entry-left") && numbers.len() == t {
        numbers.pop();
    }
    numbers.resize(t, filler);
    if fault("mend-fillers-first") {
        numbers.rotate_left(found.len().min(t));
    }
    let bytes = if fault("mend-high-byte-first") { u16::to_be_bytes } else { u16::to_le_bytes };
    let written = match () {
        _ if fault("mend-filler-left") => found.len(),
        _ if fault("mend-list-left") || fault("mend-list-left-at-0") && found.is_empty() => 0,
        _ => t,
    };
    // What a longer list has behind these numbers stays.
    for (pair, number) in list.chunks_exact_mut(2).zip(numbers).take(written) {
        pair.copy_from_slice(&bytes(number));
    }
}

fn mend(p: &Parameters, page: &mut [u8], index: u32, places: &mut [u8], flips: &mut u8) -> u32 {
    let index = match () {
        _ if fault("mend-index-modulo-2-8") => index % (1 << 8),
        _ if fault("mend-index-modulo-2-16") => index % (1 << 16),
        _ => index,
    };
    let number = mend_refusal(p, page, index, places.len());
    if number != 0 {
        if fault("mend-refusal-writes") && (number == 9 || number == 10) {
            page[0] ^= 1;
        }
        if fault("mend-refusal-lists") {
            places.fill(0xFF);
        }
        if fault("mend-refusal-counts") {
            *flips = 0;
        }
        leave(number, places);
        return leave(number, page);
    }
    let sheet = Sheet::of(p);
    // Done, with nothing that could be mended.
    if page.len() != sheet.page_bytes() {
        return 0;
    }
    let i = index as usize % sheet.m;
    let words = sheet.words_of(page);
    let taken = &words[if fault("mend-reads-sub-word-0") { 0 } else { i }];
    let mut found = mend_places(&sheet, taken, i);
    if let Some(found_places) = &found {
        let mut mended = page.to_vec();
        found_places.iter().filter(|&&k| k < sheet.stored()).for_each(|&k| flip(&mut mended, sheet.place(i, k)));
        let no_multiple = |word: &Vec<u64>| !sheet.levels[0].remainder(sheet.field, word).is_empty();
        if fault("mend-members-only") && calls::verdict(&sheet, &mended) != 0
            || fault("mend-others-asked") && sheet.words_of(&mended).iter().any(no_multiple)
        {
            found = None;
        }
        if fault("mend-13-of-the-mended") && sheet.blank(&mended) {
            return 13;
        }
    }
    if fault("mend-blank-passed") && sheet.blank(page) {
        found = Some(Vec::new());
    }
    let Some(found) = found else {
        if fault("mend-15-half-written") {
            flip(page, sheet.place(i, 0));
        }
        if fault("mend-15-lists") || fault("mend-no-15") {
            places.fill(0xFF);
        }
        if fault("mend-15-counts") || fault("mend-no-15") {
            *flips = 0;
        }
        return match () {
            _ if fault("mend-no-15") => 0,
            _ if fault("mend-15-as-9") => 9,
            _ if fault("mend-15-as-verdict") => 32 + index,
            _ => leave(15, page),
        };
    };
    let old = page.to_vec();
    let put_into = match () {
        _ if fault("mend-into-sub-word-0") => 0,
        _ if fault("mend-into-the-next") => (i + 1) % sheet.m,
        _ => i,
    };
    for &k in found.iter().filter(|&&k| k < sheet.stored() && !fault("mend-page-left")) {
        let place = sheet.place(put_into, k);
        if bit(page, place) || !fault("mend-clears-only") {
            flip(page, place);
        }
    }
    if fault("mend-all-sub-words") {
        for (k, word) in words.iter().enumerate().filter(|&(k, _)| k != i) {
            sheet.mending(word).into_iter().flatten().for_each(|place| flip(page, sheet.place(k, place)));
        }
    }
    let last = page.len() - 1;
    if fault("mend-last-byte-left") {
        page[last] = old[last];
    }
    if fault("mend-next-byte-cleared") && i + 1 < sheet.m {
        page[(i + 1) * sheet.sub_word_bytes()] = 0;
    }
    if fault("mend-spare-set") && sheet.spare_bits() > 0 && !found.is_empty() {
        set(page, sheet.place(i, sheet.stored()));
    }
    if fault("mend-one-strength") && p.t[0] == 63 {
        flip(page, sheet.place(i, 0));
    }
    mend_list(&sheet, i, &found, places);
    *flips = match () {
        _ if fault("mend-count-off") => found.len() as u8 + 1,
        _ if fault("mend-count-of-the-list") => p.t[0] as u8,
        _ if fault("mend-count-bytes") => 2 * found.len() as u8,
        _ if fault("mend-count-left-at-0") && found.is_empty() || fault("mend-count-left") => *flips,
        _ => found.len() as u8,
    };
    if fault("mend-overrun") {
        unsafe { *black_box(page.as_mut_ptr()).add(page.len()) = 0 };
    }
    if fault("mend-list-overrun") {
        unsafe { *black_box(places.as_mut_ptr()).add(places.len()) = 0xFF };
    }
    if fault("mend-count-overrun") {
        unsafe { *black_box(std::ptr::from_mut(flips)).add(1) = 0 };
    }
    match () {
        _ if fault("mend-answers-flips") => found.len() as u32,
        _ if fault("mend-answers-verdict") => calls::verdict(&sheet, page),
        _ => 0,
    }
}

/// The refusal of mend page but 17, by its tests in the order that the fault gives them.
fn rounds_refusal(p: &Parameters, page: &[u8]) -> u32 {
    match p.refusal() {
        14 if fault("rounds-page-before-14") && page.len() != full_page_bytes(p) => return 7,
        0 => {}
        number => return number,
    }
    let (sheet, length) = (Sheet::of(p), page.len());
    let exact = sheet.page_bytes();
    let fits = match () {
        _ if fault("rounds-full-page") => length == full_page_bytes(p),
        _ if fault("rounds-length-longer") => length >= exact,
        _ if fault("rounds-length-modulo-2-8") => length >= exact && (length - exact) % (1 << 8) == 0,
        _ => length == exact,
    };
    // Of a shorter page those that it has.
    let stray = |i: usize| {
        let spare = (0..sheet.spare_bits()).map(|b| sheet.place(i, sheet.stored() + b));
        spare.filter(|&place| place < 8 * length).any(|place| bit(page, place))
    };
    let met = |condition: &u32| match *condition {
        7 => !fits,
        8 => match () {
            _ if fault("rounds-stray-missed") => false,
            _ if fault("rounds-stray-of-the-first") => stray(0),
            _ if fault("rounds-stray-of-the-last") => stray(sheet.m - 1),
            _ if fault("rounds-erased-taken") => (0..sheet.m).any(stray) && !(length == exact && sheet.blank(page)),
            _ => (0..sheet.m).any(stray),
        },
        17 => length == exact && calls::mend_page(p, &mut cleared(&sheet, page, |_| true)) == 17,
        _ => length == exact && sheet.blank(page),
    };
    let order: &[u32] = match () {
        _ if fault("rounds-stray-before-page") => &[8, 7],
        _ if fault("rounds-17-before-stray") => &[7, 17, 8],
        _ if fault("rounds-13-before-stray") => &[7, 13, 8],
        _ if fault("rounds-13-of-the-lent") => &[7, 8, 13],
        _ if fault("rounds-blank-of-the-lent") => &[7, 8, BLANK],
        _ => &[7, 8],
    };
    order.iter().copied().find(met).unwrap_or(0)
}

/// The places at which mend page flips a sub-word at first.
fn rounds_first(sheet: &Sheet, word: &[u64], i: usize) -> Option<Vec<usize>> {
    let Sheet { field, m, v, s, .. } = *sheet;
    let by = |s, levels| Sheet { field, m, v, s, levels }.mending(word);
    let found = sheet.mending(word);
    match () {
        _ if fault("rounds-no-first-pass") => found.filter(|found| found.is_empty()),
        _ if fault("rounds-first-one-fewer") => found.filter(|found| found.len() < sheet.levels[0].t),
        _ if fault("rounds-first-by-level-1") => by(s, vec![sheet.levels[1]]),
        _ if fault("rounds-first-by-own-level") => by(s, vec![sheet.level(i)]),
        _ if fault("rounds-first-unstored") => by(0, sheet.levels.clone()),
        _ if fault("rounds-last-sub-word-passed") && i + 1 == m => Some(Vec::new()),
        _ => found,
    }
}

/// What a round takes nested word l for: of the sub-words as they are, or as it should not.
fn rounds_nested(sheet: &Sheet, words: &[Vec<u64>], l: usize) -> Vec<u64> {
    let n = sheet.field.n;
    let place = |i: usize, k: usize| match k + l * i {
        place if fault("rounds-nested-folded") => Some(place % sheet.stored()),
        place if fault("rounds-nested-not-turned") => Some(place).filter(|&place| place < n),
        place => Some(place % n),
    };
    let mut sum = vec![0; n.div_ceil(64)];
    for (i, word) in words.iter().enumerate() {
        linear::ones(word).filter_map(|k| place(i, k)).for_each(|place| linear::flip(&mut sum, place));
    }
    sum
}

/// The places at which a round flips each broken sub-word. `first` is how many were broken at first.
fn rounds_errors(sheet: &Sheet, words: &[Vec<u64>], broken: &[usize], first: usize) -> Vec<Option<Vec<usize>>> {
    let (field, v, b) = (sheet.field, sheet.v, broken.len());
    let level = match v + 1 - b {
        _ if fault("rounds-level-v") => v,
        _ if fault("rounds-level-1") => 1,
        _ if fault("rounds-level-of-the-first") => v + 1 - first,
        _ if fault("rounds-level-by-b") => b,
        a if fault("rounds-level-lower") => a - 1,
        a if fault("rounds-level-higher") => v.min(a + 1),
        a => a,
    };
    let t = match sheet.levels[level].t {
        t if fault("rounds-t-more") => (t + 1).min(64),
        t => t,
    };
    let from = usize::from(fault("rounds-from-nested-1"));
    let nested: Vec<Vec<u64>> = (0..b).map(|l| rounds_nested(sheet, words, l + from)).collect();
    let mut lists = vec![Vec::new(); b];
    for j in 1..=2 * t {
        let exponent = |l: usize, order: usize, i: usize| match () {
            _ if fault("rounds-nodes-i") => i * l,
            _ if fault("rounds-nodes-of-the-next") => j * (i + 1) * l,
            _ if fault("rounds-nodes-by-order") => j * order * l,
            _ if fault("rounds-nodes-inverse") => (field.n - j) * i * l,
            _ => j * i * l,
        };
        let equation = |l: usize| {
            let factors = broken.iter().enumerate().map(|(order, &i)| field.power(exponent(l + from, order, i)));
            factors.chain([field.value(&nested[l], j)]).collect()
        };
        let Some(values) = field.solve((0..b).map(equation).collect()) else { return vec![None; b] };
        lists.iter_mut().zip(values).for_each(|(list, value)| list.push(value));
    }
    let full = Sheet { field, m: sheet.m, v, s: 0, levels: sheet.levels.clone() };
    let error = |list: &Vec<u16>| match () {
        _ if fault("rounds-no-last-look") => {
            locate(field, list).filter(|found| found.iter().all(|&k| k < sheet.stored()))
        }
        _ if fault("rounds-unstored-dropped") || fault("rounds-unstored-flipped") => full.error(list),
        _ if fault("rounds-t-fewer") => sheet.error(list).filter(|found| found.len() < t),
        _ if fault("rounds-place-0-missed") => sheet.error(list).filter(|found| !found.contains(&0)),
        _ if fault("rounds-last-place-missed") => {
            sheet.error(list).filter(|found| !found.contains(&(sheet.stored() - 1)))
        }
        _ => sheet.error(list),
    };
    let mut errors: Vec<_> = lists.iter().map(error).collect();
    if fault("rounds-into-the-next") {
        errors.rotate_right(1);
    }
    if fault("rounds-all-or-none") && errors.iter().any(Option::is_none) {
        errors.fill(None);
    }
    errors
}

/// What comes of the sub-words of a page: the words; whether none is broken; how many were at first.
fn rounds(sheet: &Sheet, lent: &[Vec<u64>]) -> (Vec<Vec<u64>>, bool, usize) {
    let mut words = lent.to_vec();
    let mut broken = Vec::new();
    for (i, word) in words.iter_mut().enumerate() {
        match rounds_first(sheet, word, i) {
            Some(found) => found.into_iter().filter(|&k| k < sheet.stored()).for_each(|k| linear::flip(word, k)),
            None => broken.push(i),
        }
    }
    let first = broken.len();
    let after_first = words.clone();
    let most_rounds = match () {
        _ if fault("rounds-first-pass-only") => 0,
        _ if fault("rounds-one-round") => 1,
        _ if fault("rounds-two-rounds") => 2,
        _ => sheet.v,
    };
    let most_broken = sheet.v - usize::from(fault("rounds-v-fewer"));
    for _ in 0..most_rounds {
        if broken.is_empty() || broken.len() > most_broken {
            break;
        }
        let taken = match () {
            _ if fault("rounds-nested-of-the-lent") => lent,
            _ if fault("rounds-nested-of-the-first") => &after_first,
            _ => &words,
        };
        let mut errors = rounds_errors(sheet, taken, &broken, first);
        if let Some(found) = errors.iter().position(Option::is_some).filter(|_| fault("rounds-same-round")) {
            errors.iter_mut().enumerate().filter(|&(k, _)| k != found).for_each(|(_, error)| *error = None);
        }
        let mut left = Vec::new();
        for (&i, error) in broken.iter().zip(errors) {
            let Some(error) = error else {
                left.push(i);
                continue;
            };
            for k in error.into_iter().filter(|&k| k < sheet.stored() || fault("rounds-unstored-flipped")) {
                if linear::get(&words[i], k) || !fault("rounds-clears-only") {
                    linear::flip(&mut words[i], k);
                }
            }
        }
        if left.len() == broken.len() {
            break;
        }
        broken = left;
    }
    (words, broken.is_empty(), first)
}

/// Whether mend page takes the end for a member.
fn rounds_end(sheet: &Sheet, lent: &[u8], made: &[u8]) -> bool {
    let ones = |i: usize| (0..sheet.stored()).all(|k| bit(made, sheet.place(i, k)));
    let blank = match () {
        _ if fault("rounds-blank-passed") => false,
        _ if fault("rounds-blank-lent-alone") => sheet.blank(lent),
        _ if fault("rounds-blank-by-one-sub-word") => (0..sheet.m).any(ones),
        _ if fault("rounds-blank-by-sub-word-0") => ones(0),
        _ if fault("rounds-blank-by-the-last") => ones(sheet.m - 1),
        _ => sheet.blank(made),
    };
    let fails = |l: usize| nested_fails(sheet, made, l, sheet.nested_level(l).t);
    let right = match () {
        _ if fault("rounds-no-end-test") => true,
        _ if fault("rounds-end-nested-0-alone") => !fails(0),
        _ if fault("rounds-end-last-alone") => !fails(sheet.v - 1),
        _ if fault("rounds-end-last-missed") => !(0..sheet.v - 1).any(fails),
        _ if fault("rounds-end-level-1") => !(0..sheet.v).any(|l| nested_fails(sheet, made, l, sheet.levels[1].t)),
        _ => calls::verdict(sheet, made) == 0,
    };
    right && !blank
}

fn mend_page(p: &Parameters, page: &mut [u8]) -> u32 {
    let number = rounds_refusal(p, page);
    if number != 0 {
        if fault("rounds-refusal-writes") && number == 8 {
            page[0] ^= 1;
        }
        return leave(number, page);
    }
    let sheet = Sheet::of(p);
    // Done, with nothing that could be mended.
    if page.len() < sheet.page_bytes() {
        return 0;
    }
    let overrun = unsafe { black_box(page.as_mut_ptr()).add(page.len()) };
    let (page, _) = page.split_at_mut(sheet.page_bytes());
    let old = page.to_vec();
    let (words, none_broken, first) = rounds(&sheet, &sheet.words_of(page));
    let mut made = vec![0; page.len()];
    for (i, word) in words.iter().enumerate() {
        // A place that is not stored is a spare bit, or one of the next sub-word.
        let places = linear::ones(word).map(|k| sheet.place(i, k));
        places.filter(|&place| place < 8 * page.len()).for_each(|place| set(&mut made, place));
    }
    let verdict = calls::verdict(&sheet, page);
    let stuck_passes =
        fault("rounds-none-found-done") && first <= sheet.v || fault("rounds-v-more-done") && first > sheet.v;
    let refused = match () {
        _ if fault("rounds-written-afresh") && none_broken && !rounds_end(&sheet, page, &made) => {
            let mut blocks = vec![0; sheet.blocks_bytes()];
            sheet.put_blocks(&sheet.words_of(&made), &mut blocks);
            calls::write(p, 64, &blocks, &mut made) != 0
        }
        _ if fault("rounds-members-refused") && verdict == 0 => true,
        _ if !none_broken => !stuck_passes,
        _ => !rounds_end(&sheet, page, &made),
    };
    if refused {
        if fault("rounds-17-half-written") {
            page.copy_from_slice(&made);
        }
        if fault("rounds-17-first-written") && first > sheet.v {
            page.copy_from_slice(&made);
        }
        if fault("rounds-17-clears") {
            page.fill(0);
        }
        return match () {
            _ if fault("rounds-no-17") => 0,
            _ if fault("rounds-17-as-15") => 15,
            _ if fault("rounds-17-as-16") => 16,
            _ if fault("rounds-17-as-verdict") => verdict,
            _ if fault("rounds-15-of-a-sub-word") && first > 0 => 15,
            _ if fault("rounds-13-of-the-mended") && none_broken && sheet.blank(&made) => 13,
            _ if fault("rounds-blank-of-the-mended") && none_broken && sheet.blank(&made) => BLANK,
            _ => leave(17, page),
        };
    }
    if !fault("rounds-page-left") {
        page.copy_from_slice(&made);
    }
    let length = sheet.sub_word_bytes();
    if fault("rounds-sub-word-0-left") {
        page[..length].copy_from_slice(&old[..length]);
    }
    if fault("rounds-broken-left") && first > 0 {
        page.copy_from_slice(&old);
    }
    let last = page.len() - 1;
    if fault("rounds-last-byte-left") {
        page[last] = old[last];
    }
    if fault("rounds-spare-set") && sheet.spare_bits() > 0 && *page != old {
        set(page, sheet.place(0, sheet.stored()));
    }
    if fault("rounds-one-strength") && p.t[p.v as usize] == 64 && first > 0 {
        flip(page, sheet.place(0, 0));
    }
    if fault("rounds-overrun") {
        unsafe { *overrun = 0 };
    }
    match () {
        _ if fault("rounds-answers-broken") => first as u32,
        _ if fault("rounds-answers-verdict") => verdict,
        _ => 0,
    }
}

fn read_out(p: &Parameters, page: &[u8], blocks: &mut [u8]) -> u32 {
    let erased = sheet_of(p, page).filter(|sheet| sheet.blank(page));
    let cut = erased.as_ref().is_some_and(|sheet| blocks.len() != sheet.blocks_bytes());
    if fault("blank-before-blocks") && cut {
        return BLANK;
    }
    let old = blocks.to_vec();
    let page = &looked_at(p, page)[..];
    let refused = calls::read_out(p, page, blocks);
    if refuses(refused) {
        return leave(refused, blocks);
    }
    let number = judge(p, page);
    if refuses(number)
        || fault("read-out-of-members-only") && number != 0
        || fault("blank-blocks-left") && number == BLANK
    {
        blocks.copy_from_slice(&old);
    }
    if refuses(number) {
        return number;
    }
    if let Some(sheet) = erased.filter(|_| fault("blank-spare-bits-left")) {
        // The bits above the data, as far as the block's last byte has some, are the spare bits.
        for i in 0..sheet.m {
            let (start, bits, end) = (sheet.block_start(i), sheet.block_bits(i), sheet.stored());
            let unused = bits..bits.div_ceil(8) * 8;
            let spare = (end..end + sheet.spare_bits()).map(|k| bit(page, sheet.place(i, k)));
            unused.zip(spare).filter(|&(_, one)| one).for_each(|(r, _)| set(blocks, start + r));
        }
    }
    if fault("unused-bits-left") {
        let last = blocks.len() - 1;
        let sheet = Sheet::of(p);
        let used = (1u32 << ((sheet.block_bits(sheet.m - 1) - 1) % 8 + 1)) - 1;
        blocks[last] |= old[last] & !(used as u8);
    }
    if fault("read-out-answers-done") {
        return 0;
    }
    number
}

fn judge_any(p: &Parameters, page: &[u8]) -> u32 {
    if let Some(sheet) = sheet_of(p, page).filter(|_| fault("stray-missed")) {
        return judge(p, &cleared(&sheet, page, |_| true));
    }
    if fault("clash-missed") && p.refusal() == 4 {
        return 7;
    }
    if fault("shortening-before-clash") && p.refusal() == 4 && p.s > p.most() {
        return 14;
    }
    if fault("full-sub-words") && p.accepted() && page.len() != full_page_bytes(p) {
        return 7;
    }
    judge(p, page)
}

/// What the syndromes' calls take the page for: none, where they say that it is blank.
fn page_for_syndromes(p: &Parameters, page: &[u8]) -> Option<Vec<u8>> {
    match sheet_of(p, page).filter(|sheet| sheet.blank(page)) {
        Some(_) if fault("syndromes-say-blank") => None,
        Some(sheet) if fault("syndromes-of-erased") => Some(cleared(&sheet, page, |_| true)),
        _ => Some(looked_at(p, page)),
    }
}

/// The refusal of a syndromes' call, of a word below `end` and its level, by its tests in the order that the fault gives them.
fn odd_refusal(p: &Parameters, page: &[u8], index: u32, end: u32, level: &dyn Fn(u32) -> u32, length: usize) -> u32 {
    match p.refusal() {
        0 => {}
        number => return number,
    }
    let sheet = Sheet::of(p);
    let exact = page.len() == sheet.page_bytes();
    // Of a word that there is not, as of word 0.
    let t = p.t[level(if index < end { index } else { 0 }) as usize] as usize;
    let fits = match () {
        _ if fault("odd-list-as-before") => length == 4 * t,
        _ if fault("odd-list-either") => length == 2 * t || length == 4 * t,
        _ if fault("odd-list-longer") => length >= 2 * t,
        _ if fault("odd-list-any") => true,
        _ => length == 2 * t,
    };
    let met = |condition: &u32| match condition {
        7 => !exact,
        8 => exact && sheet.page_stray(page),
        9 => index >= end,
        _ => !fits,
    };
    let order: &[u32] = match () {
        _ if fault("index-before-stray") => &[7, 9, 8, 10],
        _ if fault("odd-list-before-page") => &[10, 7, 8, 9],
        _ if fault("odd-list-before-stray") => &[7, 10, 8, 9],
        _ if fault("odd-list-before-index") => &[7, 8, 10, 9],
        _ => &[7, 8, 9, 10],
    };
    order.iter().copied().find(met).unwrap_or(0)
}

/// Lists the odd syndromes of a word that is held to strength t.
fn odd_list(sheet: &Sheet, word: &[u64], t: usize, list: &mut [u8]) {
    let field = sheet.field;
    let longer = list.len() >= 4 * t && (fault("odd-list-as-before") || fault("odd-list-either"));
    let count = if longer { 2 * t } else { t };
    // What g_0 leaves of the word.
    let mut rest = vec![0; word.len()];
    if fault("odd-nested-past-g-0") {
        let remainder = sheet.levels[0].remainder(field, word);
        remainder.iter().enumerate().for_each(|(k, &bit)| linear::put(&mut rest, k, bit));
    }
    let value = |j: usize| match () {
        _ if fault("odd-nested-past-g-0") => field.value(&rest, j),
        _ => field.value(word, j),
    };
    let number = |i: usize| match () {
        _ if longer || fault("odd-first-t") => value(i + 1),
        _ if fault("odd-even-listed") => value(2 * i + 2),
        _ if fault("odd-from-3") => value((2 * i + 3).min(2 * t)),
        _ if fault("odd-one-strength") && t == 64 && i == 63 => value(1),
        _ => value(2 * i + 1),
    };
    let bytes = if fault("high-byte-first") { u16::to_be_bytes } else { u16::to_le_bytes };
    let kept = usize::from(fault("last-syndrome-left"));
    for (i, pair) in list.chunks_exact_mut(2).enumerate().take(count - kept) {
        pair.copy_from_slice(&bytes(number(i)));
    }
}

fn syndromes(p: &Parameters, page: &[u8], index: u32, list: &mut [u8]) -> u32 {
    let Some(page) = &page_for_syndromes(p, page) else { return BLANK };
    let level = |_: u32| if fault("odd-list-by-level-v") { p.v } else { 0 };
    let number = odd_refusal(p, page, index, p.m, &level, list.len());
    if number != 0 {
        return odd_leave(number, list);
    }
    let (sheet, i) = (Sheet::of(p), index as usize);
    // Where the stored coefficients are taken for the top ones.
    let from = if fault("syndromes-from-the-top") { sheet.s } else { 0 };
    let mut word = vec![0; sheet.field.n.div_ceil(64)];
    let ones = (0..sheet.stored()).filter(|&k| bit(page, sheet.place(i, k)));
    ones.for_each(|k| linear::flip(&mut word, k + from));
    odd_list(&sheet, &word, p.t[level(index) as usize] as usize, list);
    0
}

fn nested_syndromes(p: &Parameters, page: &[u8], index: u32, list: &mut [u8]) -> u32 {
    let Some(page) = &page_for_syndromes(p, page) else { return BLANK };
    let level = |l: u32| match () {
        _ if fault("odd-nested-by-level-l") => l + 1,
        _ if fault("odd-nested-by-level-0") => 0,
        _ => p.v - l,
    };
    let number = odd_refusal(p, page, index, p.v, &level, list.len());
    if number != 0 {
        return odd_leave(number, list);
    }
    let sheet = Sheet::of(p);
    let word = nested_word(&sheet, &sheet.words_of(page), index as usize);
    odd_list(&sheet, &word, p.t[level(index) as usize] as usize, list);
    0
}

/// What a syndromes' call does with its list when its number is a refusal.
fn odd_leave(number: u32, list: &mut [u8]) -> u32 {
    if fault("odd-refusal-clears") && number >= 7 && number != 14 {
        list.fill(0);
    }
    leave(number, list)
}

/// The refusal of all syndromes, by its tests in the order that the fault gives them.
fn all_refusal(p: &Parameters, level: u32, odd: &[u8], length: usize) -> u32 {
    match p.refusal() {
        14 if fault("all-level-before-14") && level > p.v => return 9,
        14 if fault("all-without-14") => return all_refusal(&p.shortened(0), level, odd, length),
        0 => {}
        number => return number,
    }
    let end = match () {
        _ if fault("all-level-v-refused") => p.v - 1,
        _ if fault("all-level-to-3") => 3,
        _ if fault("all-level-any") => u32::MAX,
        _ => p.v,
    };
    let (t, odd_length) = (all_strength(p, level), odd.len());
    let exact = |length: usize, bytes: usize| match () {
        _ if fault("all-lengths-longer") => length >= bytes,
        _ if fault("all-lengths-modulo-2-8") => length >= bytes && (length - bytes) % (1 << 8) == 0,
        _ => length == bytes,
    };
    let fits = match () {
        _ if fault("all-odd-any-length") => exact(length, 4 * t),
        _ if fault("all-list-any-length") => exact(odd_length, 2 * t),
        _ if fault("all-lengths-twice") => exact(length, 2 * odd_length),
        _ if fault("all-lengths-together") => exact(odd_length + length, 6 * t),
        _ if fault("all-lengths-swapped") => exact(odd_length, 4 * t) && exact(length, 2 * t),
        _ if fault("all-from-all") => exact(odd_length, 4 * t) && exact(length, 4 * t),
        _ => exact(odd_length, 2 * t) && exact(length, 4 * t),
    };
    // Elements alone.
    let element = |pair: &[u8]| usize::from(u16::from_le_bytes([pair[0], pair[1]])) <= Sheet::of(p).field.n;
    let met = |condition: &u32| match condition {
        9 => level > end,
        10 => !fits,
        _ => !odd.chunks_exact(2).all(element),
    };
    let order: &[u32] = match () {
        _ if fault("all-list-before-level") => &[10, 9],
        _ if fault("all-elements-only") => &[9, 10, 8],
        _ => &[9, 10],
    };
    order.iter().copied().find(met).unwrap_or(0)
}

/// The strength that all syndromes takes a level for; of a level that there is not, that of the last.
fn all_strength(p: &Parameters, level: u32) -> usize {
    let level = match () {
        _ if fault("all-level-to-3") => level.min(3),
        _ if fault("all-level-inverted") => p.v - level.min(p.v),
        _ => level.min(p.v),
    };
    p.t[level as usize] as usize
}

/// The square that all syndromes makes of a number.
fn all_square(q: usize, number: u16) -> u16 {
    let polynomial: u32 = match q {
        _ if fault("all-polynomial-of-q-4") => 0x13,
        _ if fault("all-polynomial-of-q-8") => 0x11D,
        _ if fault("all-polynomial-of-q-12") => 0x1053,
        _ if fault("all-other-polynomials") => [0x19, 0x12B, 0x1069][q / 4 - 1],
        4 => 0x13,
        8 => 0x11D,
        _ => 0x1053,
    };
    let degree = polynomial.ilog2() as usize;
    let mask = (1u32 << q) - 1;
    let taken = match () {
        _ if fault("all-masked") => u32::from(number) & mask,
        _ => u32::from(number),
    };
    let spread = (0..16).filter(|k| taken >> k & 1 == 1).map(|k| 1u32 << (2 * k)).sum::<u32>();
    let top = match () {
        _ if fault("all-not-reduced") => degree,
        // As is enough for elements.
        _ if fault("all-reduced-as-elements") => 2 * degree - 1,
        _ => 32,
    };
    let rest = (degree..top).rev().fold(spread, |rest, k| rest ^ ((rest >> k & 1) * (polynomial << (k - degree))));
    (if fault("all-square-masked") { spread & mask } else { rest }) as u16
}

fn all_syndromes(p: &Parameters, level: u32, odd: &[u8], list: &mut [u8]) -> u32 {
    let level = match () {
        _ if fault("all-level-modulo-2-8") => level % (1 << 8),
        _ if fault("all-level-modulo-2-16") => level % (1 << 16),
        _ => level,
    };
    let number = all_refusal(p, level, odd, list.len());
    if number != 0 {
        if fault("all-refusal-clears") {
            list.fill(0);
        }
        return leave(number, list);
    }
    let (q, t) = (p.q as usize, all_strength(p, level));
    let step = if fault("all-from-all") { 2 } else { 1 };
    let mut given: Vec<u16> = odd.chunks_exact(2).step_by(step).map(|x| u16::from_le_bytes([x[0], x[1]])).collect();
    given.resize(t, 0);
    let square = |number: u16| all_square(q, number);
    // S_j, by j, from 1.
    let mut all = vec![0; 2 * t + 1];
    for j in 1..=2 * t {
        all[j] = match j {
            _ if j % 2 == 1 => given[j / 2],
            _ if fault("all-squares-in-order") => square(given[j / 2 - 1]),
            _ if fault("all-squared-once") => square(given[(j >> j.trailing_zeros()) / 2]),
            _ => square(all[j / 2]),
        };
    }
    let right = all.clone();
    for j in (2..=2 * t).step_by(2) {
        all[j] = match j / 2 {
            half if fault("all-from-before") => square(right[half.max(2) - 1]),
            half if fault("all-from-next") => square(right[half + 1]),
            _ => right[j],
        };
    }
    for j in (1..=2 * t).step_by(2) {
        all[j] = match () {
            _ if fault("all-odd-masked") => all[j] & ((1u32 << q) - 1) as u16,
            // x^q and above by the field's polynomial.
            _ if fault("all-odd-reduced") => (0..16)
                .filter(|k| right[j] >> k & 1 == 1)
                .fold(0, |sum, k| sum ^ Sheet::of(&p.shortened(0)).field.power(k)),
            _ => all[j],
        };
    }
    let mut numbers = all[1..].to_vec();
    if fault("all-odd-first") {
        numbers = (1..=2 * t).step_by(2).chain((2..=2 * t).step_by(2)).map(|j| all[j]).collect();
    }
    if fault("all-one-strength") && t == 64 {
        numbers[2 * t - 1] ^= 1;
    }
    let written = numbers.len() - usize::from(fault("all-last-left"));
    for (j, (pair, number)) in (1..).zip(list.chunks_exact_mut(2).zip(numbers)).take(written) {
        let [low, high] = number.to_le_bytes();
        pair.copy_from_slice(&match () {
            _ if fault("all-high-byte-first") => [high, low],
            _ if fault("all-low-byte-alone") && j % 2 == 0 => [low, 0],
            _ => [low, high],
        });
    }
    if fault("all-overrun") {
        unsafe { *black_box(list.as_mut_ptr()).add(list.len()) = 0 };
    }
    if fault("all-alters-odd") {
        let squares = given.iter().flat_map(|&number| square(number).to_le_bytes());
        for (k, byte) in squares.enumerate().take(odd.len()) {
            unsafe { *black_box(odd.as_ptr().cast_mut()).add(k) = byte };
        }
    }
    if fault("all-answers-count") { 2 * t as u32 } else { 0 }
}

/// The degree of a level's generator, wrong where the fault is about it.
fn degree(sheet: &Sheet, level: &Level) -> usize {
    let (q, n) = (sheet.field.q, sheet.field.n);
    if fault("quote-q-times-t") {
        return q * level.t;
    }
    if fault("quote-coset-twice") {
        // The coset of each odd j, counted before or not.
        let coset = |j: usize| (0..q).map(|e| (j << e) % n).collect::<BTreeSet<_>>().len();
        return odd(level.t).map(coset).sum();
    }
    level.degree()
}

fn quote(p: &Parameters, list: &mut [u8]) -> u32 {
    let cut = list.len() != calls::QUOTE_BYTES;
    if cut && (fault("quote-list-first") || fault("shortening-after-list") && p.refusal() == 14) {
        return 10;
    }
    let end = if fault("quote-longer-list") { list.len().min(calls::QUOTE_BYTES) } else { list.len() };
    let list = &mut list[..end];
    let old = list.to_vec();
    let number = calls::quote(p, list);
    if number != 0 {
        return leave(number, list);
    }
    let sheet = Sheet::of(p);
    // Block i by level i in place of v − i.
    let level = |i: usize| match sheet.levels.get(i) {
        Some(level) if fault("quote-level-i") && i < sheet.v => level,
        _ => sheet.level(i),
    };
    let degrees = sheet.levels.iter().map(|level| degree(&sheet, level)).enumerate();
    let stored = if fault("quote-without-s") { sheet.field.n } else { sheet.stored() };
    let data_bits = (0..sheet.m).map(|i| (4 + i, stored.wrapping_sub(degree(&sheet, level(i)))));
    let numbers: Vec<(usize, usize)> = degrees.chain(data_bits).collect();
    if fault("quote-places-left") {
        list.copy_from_slice(&old);
    }
    for (place, number) in numbers {
        list[2 * place..][..2].copy_from_slice(&(number as u16).to_le_bytes());
    }
    number
}

/// The bytes of a page of full sub-words.
fn full_page_bytes(p: &Parameters) -> usize {
    (p.m << p.q >> 3) as usize
}

fn page_bytes(p: &Parameters) -> u32 {
    if fault("size-of-a-clash") && p.refusal() == 4 || fault("full-sub-words") && p.accepted() {
        return full_page_bytes(p) as u32;
    }
    calls::page_bytes(p)
}

fn data_bytes(p: &Parameters) -> u32 {
    if fault("data-bytes-without-s") && p.accepted() {
        return calls::data_bytes(&p.shortened(0));
    }
    if fault("data-bytes-packed") && p.accepted() {
        // One block behind another bit by bit.
        let sheet = Sheet::of(p);
        return (0..sheet.m).map(|i| sheet.block_bits(i)).sum::<usize>().div_ceil(8) as u32;
    }
    calls::data_bytes(p)
}

fn distance(p: &Parameters) -> u32 {
    if fault("distance-without-14") && p.refusal() == 14 {
        return calls::distance(&p.shortened(0));
    }
    if fault("distance-of-one-level") && p.accepted() {
        return 2 * p.t[p.v as usize] + 1;
    }
    calls::distance(p)
}

/// Exports a function on parameters, numbers and slices by the name that C has for it.
macro_rules! exported {
    ($($name:ident($($parameter:ident: $kind:ty),*) = $call:ident($($argument:expr),*);)*) => {$(
        /// # Safety
        /// As the header says.
        #[unsafe(no_mangle)]
        #[allow(clippy::too_many_arguments, unused_unsafe)]
        pub unsafe extern "C" fn $name(
            q: u32, m: u32, v: u32, t0: u32, t1: u32, t2: u32, t3: u32, s: u32, $($parameter: $kind),*
        ) -> u32 {
            unsafe { $call(&taken(Parameters { q, m, v, t: [t0, t1, t2, t3], s }), $($argument),*) }
        }
    )*};
}

exported! {
    gii_write(width: u32, blocks: *const u8, blocks_len: usize, page: *mut u8, page_len: usize)
        = write(width, from_raw_parts(blocks, blocks_len), from_raw_parts_mut(page, page_len));
    gii_write_many(width: u32, count: u32, blocks: *const u8, blocks_len: usize, pages: *mut u8, pages_len: usize,
        list: *mut u8, list_len: usize)
        = write_many(width, count, from_raw_parts(blocks, blocks_len), from_raw_parts_mut(pages, pages_len),
            from_raw_parts_mut(list, list_len));
    gii_alter(page: *mut u8, page_len: usize, block: u32, bit: u32, value: u32)
        = alter(from_raw_parts_mut(page, page_len), block, bit, value);
    gii_mend(page: *mut u8, page_len: usize, index: u32, places: *mut u8, places_len: usize, flips: *mut u8)
        = mend(from_raw_parts_mut(page, page_len), index, from_raw_parts_mut(places, places_len), &mut *flips);
    gii_mend_page(page: *mut u8, page_len: usize) = mend_page(from_raw_parts_mut(page, page_len));
    gii_read_out(page: *const u8, page_len: usize, blocks: *mut u8, blocks_len: usize)
        = read_out(from_raw_parts(page, page_len), from_raw_parts_mut(blocks, blocks_len));
    gii_judge(page: *const u8, page_len: usize)
        = judge_any(from_raw_parts(page, page_len));
    gii_syndromes(page: *const u8, page_len: usize, index: u32, list: *mut u8, list_len: usize)
        = syndromes(from_raw_parts(page, page_len), index, from_raw_parts_mut(list, list_len));
    gii_nested_syndromes(page: *const u8, page_len: usize, index: u32, list: *mut u8, list_len: usize)
        = nested_syndromes(from_raw_parts(page, page_len), index, from_raw_parts_mut(list, list_len));
    gii_all_syndromes(level: u32, odd: *const u8, odd_len: usize, list: *mut u8, list_len: usize)
        = all_syndromes(level, from_raw_parts(odd, odd_len), from_raw_parts_mut(list, list_len));
    gii_quote(list: *mut u8, list_len: usize) = quote(from_raw_parts_mut(list, list_len));
    gii_page_bytes() = page_bytes();
    gii_data_bytes() = data_bytes();
    gii_distance() = distance();
}
