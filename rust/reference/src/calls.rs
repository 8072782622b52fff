//! The fourteen C calls, on slices. Each gives the requirement's number; a refusal leaves every byte.

use crate::layout;
use crate::parameters::{Condition, Parameters, Sheet, first};

/// The answer to a blank page.
pub const BLANK: u32 = 96;

/// The refusal of a call: that of the parameters, or the first of its own conditions, which may take the sheet.
fn refusal(p: &Parameters, conditions: &[Condition]) -> u32 {
    match p.refusal() {
        0 => first(conditions),
        number => number,
    }
}

pub fn write(p: &Parameters, width: u32, blocks: &[u8], page: &mut [u8]) -> u32 {
    let sheet = || Sheet::of(p);
    let refused = refusal(
        p,
        &[
            (5, &|| !(1..=64).contains(&width)),
            (6, &|| blocks.len() != sheet().blocks_bytes()),
            (7, &|| page.len() != sheet().page_bytes()),
            (8, &|| sheet().blocks_stray(blocks)),
        ],
    );
    if refused != 0 {
        return refused;
    }
    // Whether the page is blank is seen from the page, not from the data bits.
    let mut made = vec![0; page.len()];
    sheet().put_page(&sheet().encode(&sheet().words_of_blocks(blocks)), &mut made);
    if sheet().blank(&made) {
        return 13;
    }
    page.copy_from_slice(&made);
    0
}

/// The most pages of one call.
pub const MOST_PAGES: u32 = 16;

/// Page by page: each is what a call of its own makes of it, and its number is listed.
pub fn write_many(p: &Parameters, width: u32, count: u32, blocks: &[u8], pages: &mut [u8], list: &mut [u8]) -> u32 {
    let sheet = || Sheet::of(p);
    // As 128-bit numbers, in which no product wraps.
    let is_many = |length: usize, one: usize| length as u128 == u128::from(count) * one as u128;
    let refused = refusal(
        p,
        &[
            (5, &|| !(1..=64).contains(&width)),
            (9, &|| !(1..=MOST_PAGES).contains(&count)),
            (6, &|| !is_many(blocks.len(), sheet().blocks_bytes())),
            (7, &|| !is_many(pages.len(), sheet().page_bytes())),
            (10, &|| !is_many(list.len(), 1)),
        ],
    );
    if refused != 0 {
        return refused;
    }
    let blocks = blocks.chunks_exact(sheet().blocks_bytes());
    let pages = pages.chunks_exact_mut(sheet().page_bytes());
    for ((blocks, page), listed) in blocks.zip(pages).zip(list) {
        *listed = write(p, width, blocks, page) as u8;
    }
    0
}

/// One bit of a block made `value`: where the blocks of the page have another, the page of blocks that are all 0 but for this
/// bit is added.
pub fn alter(p: &Parameters, page: &mut [u8], block: u32, bit: u32, value: u32) -> u32 {
    let sheet = || Sheet::of(p);
    let (i, r) = (block as usize, bit as usize);
    let refused = refusal(
        p,
        &[
            (7, &|| page.len() != sheet().page_bytes()),
            (8, &|| sheet().page_stray(page)),
            (9, &|| block >= p.m),
            (9, &|| r >= sheet().block_bits(i)),
            (9, &|| value > 1),
        ],
    );
    if refused != 0 {
        return refused;
    }
    let sheet = sheet();
    let mut blocks = vec![0; sheet.blocks_bytes()];
    sheet.put_blocks(&sheet.words_of(page), &mut blocks);
    let mut made = page.to_vec();
    if u32::from(layout::bit(&blocks, sheet.block_start(i) + r)) != value {
        layout::add(&mut made, &sheet.page_of_bit(i, r));
    }
    // As in write, seen from the page that would be, whether a bit of it is another or not.
    if sheet.blank(&made) {
        return 13;
    }
    page.copy_from_slice(&made);
    0
}

/// What a list of places holds behind them.
pub const NO_PLACE: u16 = u16::MAX;

/// The multiple of g_0 that is near sub-word `index` put in its stead, the places that are flipped listed.
pub fn mend(p: &Parameters, page: &mut [u8], index: u32, places: &mut [u8], flips: &mut u8) -> u32 {
    let sheet = || Sheet::of(p);
    let refused = refusal(
        p,
        &[
            (7, &|| page.len() != sheet().page_bytes()),
            (8, &|| sheet().page_stray(page)),
            (9, &|| index >= p.m),
            (10, &|| places.len() != 2 * sheet().levels[0].t),
        ],
    );
    if refused != 0 {
        return refused;
    }
    let (sheet, i) = (sheet(), index as usize);
    let Some(found) = sheet.mending(&sheet.word_of(page, i)) else { return 15 };
    found.iter().for_each(|&k| layout::flip(page, sheet.place(i, k)));
    put_places(&found, places);
    *flips = found.len() as u8;
    0
}

/// Some places, two bytes each, low byte first, and NO_PLACE behind them.
pub fn put_places(found: &[usize], list: &mut [u8]) {
    let numbers = found.iter().map(|&k| k as u16).chain(std::iter::repeat(NO_PLACE));
    list.chunks_mut(2).zip(numbers).for_each(|(bytes, number)| bytes.copy_from_slice(&number.to_le_bytes()));
}

/// Every sub-word mended, alone or in a round, if a member comes of it.
pub fn mend_page(p: &Parameters, page: &mut [u8]) -> u32 {
    let sheet = || Sheet::of(p);
    let refused = refusal(p, &[(7, &|| page.len() != sheet().page_bytes()), (8, &|| sheet().page_stray(page))]);
    if refused != 0 {
        return refused;
    }
    let sheet = sheet();
    let mut made = vec![0; page.len()];
    sheet.put_page(&sheet.rounds(&sheet.words_of(page)).words, &mut made);
    // No member has a broken sub-word, and none is blank.
    if judge(p, &made) != 0 {
        return 17;
    }
    page.copy_from_slice(&made);
    0
}

pub fn read_out(p: &Parameters, page: &[u8], blocks: &mut [u8]) -> u32 {
    let sheet = || Sheet::of(p);
    let refused = refusal(p, &[(6, &|| blocks.len() != sheet().blocks_bytes())]);
    if refused != 0 {
        return refused;
    }
    let answer = judge(p, page);
    if !(1..32).contains(&answer) {
        sheet().put_blocks(&sheet().words_of(page), blocks);
    }
    answer
}

pub fn judge(p: &Parameters, page: &[u8]) -> u32 {
    let sheet = || Sheet::of(p);
    // A blank page is answered before its spare bits are looked at.
    let before = refusal(
        p,
        &[
            (7, &|| page.len() != sheet().page_bytes()),
            (BLANK, &|| sheet().blank(page)),
            (8, &|| sheet().page_stray(page)),
        ],
    );
    if before != 0 { before } else { verdict(&sheet(), page) }
}

/// Whether the words of a page, blank or not, are those of a member: 0, or the first that fails.
pub fn verdict(sheet: &Sheet, page: &[u8]) -> u32 {
    let words = sheet.words_of(page);
    let fails = |word: &[u64], t: usize| (1..=2 * t).any(|j| sheet.field.value(word, j) != 0);
    if let Some(i) = words.iter().position(|word| fails(word, sheet.levels[0].t)) {
        return 32 + i as u32;
    }
    let nested = (0..sheet.v).find(|&l| fails(&sheet.nested_word(&words, l), sheet.nested_level(l).t));
    nested.map_or(0, |l| 64 + l as u32)
}

pub fn syndromes(p: &Parameters, page: &[u8], index: u32, list: &mut [u8]) -> u32 {
    let sheet = || Sheet::of(p);
    let refused = refusal(
        p,
        &[
            (7, &|| page.len() != sheet().page_bytes()),
            (8, &|| sheet().page_stray(page)),
            (9, &|| index >= p.m),
            (10, &|| list.len() != 2 * sheet().levels[0].t),
        ],
    );
    if refused != 0 {
        return refused;
    }
    put_list(&sheet(), &sheet().word_of(page, index as usize), list);
    0
}

pub fn nested_syndromes(p: &Parameters, page: &[u8], index: u32, list: &mut [u8]) -> u32 {
    let sheet = || Sheet::of(p);
    let refused = refusal(
        p,
        &[
            (7, &|| page.len() != sheet().page_bytes()),
            (8, &|| sheet().page_stray(page)),
            (9, &|| index >= p.v),
            (10, &|| list.len() != 2 * sheet().nested_level(index as usize).t),
        ],
    );
    if refused != 0 {
        return refused;
    }
    put_list(&sheet(), &sheet().nested_word(&sheet().words_of(page), index as usize), list);
    0
}

/// S_1, S_2, .. from S_1, S_3, ..: with j = 2^e o, o odd, S_j is S_o, as it is given, squared e times over.
pub fn all_syndromes(p: &Parameters, level: u32, odd: &[u8], list: &mut [u8]) -> u32 {
    let sheet = || Sheet::of(p);
    let refused = refusal(
        p,
        &[
            (9, &|| level > p.v),
            (10, &|| odd.len() != 2 * sheet().levels[level as usize].t),
            (10, &|| list.len() != 4 * sheet().levels[level as usize].t),
        ],
    );
    if refused != 0 {
        return refused;
    }
    let field = sheet().field;
    for (j, bytes) in (1..).zip(list.chunks_mut(2)) {
        let e = usize::trailing_zeros(j);
        // S_o is number (o − 1) / 2.
        let given = &odd[(j >> e) - 1..][..2];
        let number = (0..e).fold(u16::from_le_bytes([given[0], given[1]]), |number, _| field.square(number));
        bytes.copy_from_slice(&number.to_le_bytes());
    }
    0
}

/// Bytes of a quote: the degrees of four levels and the data bits of eight blocks, two bytes each.
pub const QUOTE_BYTES: usize = 2 * (4 + 8);

pub fn quote(p: &Parameters, list: &mut [u8]) -> u32 {
    let refused = refusal(p, &[(10, &|| list.len() != QUOTE_BYTES)]);
    if refused != 0 {
        return refused;
    }
    let sheet = Sheet::of(p);
    let degrees = sheet.levels.iter().map(|level| level.degree()).enumerate();
    let data_bits = (0..sheet.m).map(|i| (4 + i, sheet.block_bits(i)));
    list.fill(0);
    for (place, number) in degrees.chain(data_bits) {
        list[2 * place..][..2].copy_from_slice(&(number as u16).to_le_bytes());
    }
    0
}

pub fn page_bytes(p: &Parameters) -> u32 {
    size(p, Sheet::page_bytes)
}

pub fn data_bytes(p: &Parameters) -> u32 {
    size(p, Sheet::blocks_bytes)
}

pub fn distance(p: &Parameters) -> u32 {
    size(p, Sheet::distance)
}

/// A size of accepted parameters; 0 of others.
fn size(p: &Parameters, of: fn(&Sheet) -> usize) -> u32 {
    if p.accepted() { of(&Sheet::of(p)) as u32 } else { 0 }
}

/// S_1, S_3, .. as many as the list has room for, two bytes each, low byte first.
pub fn put_list(sheet: &Sheet, word: &[u64], list: &mut [u8]) {
    put_values(sheet, word, (1..).step_by(2), list);
}

/// The values of a word at α^j for these j, each by its own sum, as many as the list has room for.
pub fn put_values(sheet: &Sheet, word: &[u64], powers: impl Iterator<Item = usize>, list: &mut [u8]) {
    for (j, bytes) in powers.zip(list.chunks_mut(2)) {
        bytes.copy_from_slice(&sheet.field.value(word, j).to_le_bytes());
    }
}
