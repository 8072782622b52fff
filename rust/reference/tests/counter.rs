//! The requirement's cases ('On the counter'), the starred ones and those that a C call or the reference can show; and
//! cases of shortened sub-words.

use reference::calls::{
    BLANK, QUOTE_BYTES, all_syndromes, alter, data_bytes, distance, judge, mend, mend_page, nested_syndromes,
    page_bytes, quote, read_out, syndromes, write, write_many,
};
use reference::field::Field;
use reference::generator::Level;
use reference::{Parameters, sample};
use std::collections::BTreeSet;

const A: Parameters = Parameters::full(4, 2, 1, [1, 2, 0, 0]);
const B: Parameters = Parameters::full(4, 3, 2, [1, 2, 3, 0]);
const C: Parameters = Parameters::full(4, 2, 1, [2, 3, 0, 0]);
const LARGE: Parameters = Parameters::full(12, 8, 3, [28, 32, 39, 58]);

fn number(generator: &[bool]) -> u64 {
    generator.iter().rev().fold(0, |number, &bit| 2 * number + u64::from(bit))
}

#[test]
fn generators() {
    for (t, expected) in [(1, 0x13), (2, 0x1D1), (3, 0x537), (4, 0x7FFF), (7, 0x7FFF)] {
        assert_eq!(number(&Level::of(Field::of(4), t).generator), expected, "t = {t}");
    }
}

#[test]
fn pages() {
    for (p, blocks, expected) in [
        (A, &[0x00, 0x01, 0x00][..], &[0x13, 0x00, 0x13, 0x00][..]),
        (A, &[0x01, 0x01, 0x00], &[0xC2, 0x01, 0x13, 0x00]),
        (B, &[0x00, 0x00, 0x01, 0x00], &[0x26, 0x00, 0x35, 0x00, 0x13, 0x00]),
        // The same with coefficients 0 above that are not stored, and blocks that are so much shorter.
        (A.shortened(5), &[0x01, 0x01], &[0xC2, 0x01, 0x13, 0x00]),
        (B.shortened(4), &[0x00, 0x00, 0x01], &[0x26, 0x00, 0x35, 0x00, 0x13, 0x00]),
        // x^(li) is not reduced by the field polynomial.
        (
            Parameters::full(4, 5, 2, [1, 2, 2, 0]),
            &[0x00, 0x00, 0x00, 0x00, 0x00, 0x00, 0x01, 0x00],
            &[0xF2, 0x00, 0xE1, 0x00, 0x00, 0x00, 0x00, 0x00, 0x13, 0x00],
        ),
    ] {
        let mut page = vec![0xA5; expected.len()];
        assert_eq!(write(&p, 8, blocks, &mut page), 0);
        assert_eq!(page, expected);
        let mut out = vec![0xA5; blocks.len()];
        assert_eq!(read_out(&p, &page, &mut out), 0);
        assert_eq!(out, blocks);
    }
}

#[test]
fn verdicts() {
    assert_eq!(judge(&A, &[0x01, 0x00, 0x00, 0x00]), 32);
    assert_eq!(judge(&A, &[0x13, 0x00, 0x00, 0x00]), 64);
    // By the definition nested word 1 fails, though nested word 0 does too and is named.
    assert_eq!(judge(&B, &[0x13, 0x00, 0x00, 0x00, 0x00, 0x00]), 64);
}

/// A page of ones is blank whatever its spare bits are, and none of them is read out; its blocks are not written.
#[test]
fn blank_pages() {
    const ONES: [u8; 3] = [0x7F, 0xFF, 0x07];
    for (first, second) in [(0xFF, 0xFF), (0x7F, 0x7F), (0x7F, 0xFF), (0xFF, 0x7F)] {
        let page = [0xFF, first, 0xFF, second];
        assert_eq!(judge(&A, &page), BLANK);
        let mut blocks = [0xA5; 3];
        assert_eq!(read_out(&A, &page, &mut blocks), BLANK);
        assert_eq!(blocks, ONES);
        // The syndromes' calls know no blank page.
        let expected = if (first, second) == (0x7F, 0x7F) { (0, [0; 2]) } else { (8, [0xA5; 2]) };
        let mut list = [0xA5; 2];
        assert_eq!((syndromes(&A, &page, 0, &mut list), list), expected);
    }
    let mut page = [0xA5; 4];
    assert_eq!(write(&A, 8, &ONES, &mut page), 13);
    assert_eq!(page, [0xA5; 4]);
    // The order: lengths, blank, stray; and stray before 13.
    assert_eq!(judge(&A, &[0xFF; 3]), 7);
    assert_eq!(read_out(&A, &[0xFF; 4], &mut [0; 2]), 6);
    assert_eq!(judge(&A, &[0xFE, 0xFF, 0xFF, 0xFF]), 8);
    assert_eq!(write(&A, 8, &[0xFF; 3], &mut page), 8);
    assert_eq!(write(&A, 8, &ONES, &mut page[..3]), 7);
}

/// Nine of fifteen coefficients are stored: seven bits of each second byte are spare. A blank page is one with the nine at
/// 1; its blocks are written, since it is not their page.
#[test]
fn blank_pages_shortened() {
    let p = A.shortened(6);
    for (first, second) in (0..=0x7F).flat_map(|first| (0..=0x7F).map(move |second| (first, second))) {
        let page = [0xFF, 2 * first + 1, 0xFF, 2 * second + 1];
        assert_eq!(judge(&p, &page), BLANK, "{page:02X?}");
        let mut blocks = [0xA5; 2];
        assert_eq!(read_out(&p, &page, &mut blocks), BLANK, "{page:02X?}");
        assert_eq!(blocks, [0x01, 0x1F], "{page:02X?}");
        // Without a coefficient it is not blank, and its spare bits count.
        let expected = if (first, second) == (0, 0) { 32 } else { 8 };
        assert_eq!(judge(&p, &[0xFF, 2 * first, 0xFF, 2 * second + 1]), expected);
    }
    let mut page = [0xA5; 4];
    assert_eq!(write(&p, 8, &[0x01, 0x1F], &mut page), 0);
    assert_eq!(judge(&p, &page), 0);
    assert_ne!(page, [0xFF, 0x01, 0xFF, 0x01]);
}

#[test]
fn syndromes_of_a_word() {
    let mut list = [0xA5; 4];
    assert_eq!(syndromes(&C, &[0x02, 0x00, 0x00, 0x00], 0, &mut list), 0);
    assert_eq!(list, [2, 0, 8, 0]);
    let mut list = [0xA5; 4];
    assert_eq!(nested_syndromes(&A, &[0x02, 0x00, 0x00, 0x00], 0, &mut list), 0);
    assert_eq!(list, [2, 0, 8, 0]);
    let mut all = [0xA5; 8];
    assert_eq!(all_syndromes(&A, 1, &list, &mut all), 0);
    assert_eq!(all, [2, 0, 4, 0, 8, 0, 3, 0]);
    // x^10, the highest of eleven coefficients stored, of sub-word 2 is x^12 in nested word 1: α^12, α^9, α^6, α^3.
    assert_eq!(nested_syndromes(&B.shortened(4), &[0x00, 0x00, 0x00, 0x00, 0x00, 0x04], 1, &mut list), 0);
    assert_eq!(list, [15, 0, 12, 0]);
    assert_eq!(all_syndromes(&B.shortened(4), 1, &list, &mut all), 0);
    assert_eq!(all, [15, 0, 10, 0, 12, 0, 8, 0]);
    // A list is measured by the odd ones alone.
    for (length, expected) in [(0, 10), (2, 10), (3, 10), (4, 0), (5, 10), (8, 10)] {
        assert_eq!(syndromes(&C, &[0x02, 0x00, 0x00, 0x00], 0, &mut vec![0; length]), expected, "{length} bytes");
        assert_eq!(nested_syndromes(&A, &[0x02, 0x00, 0x00, 0x00], 0, &mut vec![0; length]), expected);
    }
}

/// From the odd ones all: those are copied, the others are squares, at 4t of a square. A number that is no element is taken
/// for a polynomial: of degree 4 at q = 4, x^8 is x^2 + 1; of degree 15, x^30 is 1 at q = 4, α^30 at q = 8 and 12.
#[test]
fn all_from_the_odd_ones() {
    let [middle, large] = [8, 12].map(|q| Parameters::full(q, 2, 1, [1, 2, 0, 0]));
    for (p, level, odd, expected) in [
        (A, 0, &[0][..], &[0, 0][..]),
        (A, 0, &[1], &[1, 1]),
        (A, 0, &[2], &[2, 4]),
        (A, 1, &[2, 8], &[2, 4, 8, 3]),
        (A, 1, &[0, 1], &[0, 0, 1, 0]),
        (B, 2, &[2, 8, 6], &[2, 4, 8, 3, 6, 12]),
        (A, 0, &[0x10], &[0x10, 5]),
        (A, 0, &[0x8000], &[0x8000, 1]),
        (A, 1, &[0x8000, 0x13], &[0x8000, 1, 0x13, 1]),
        (middle, 0, &[0x10], &[0x10, 0x1D]),
        (middle, 0, &[0x11D], &[0x11D, 0]),
        (middle, 0, &[0x8000], &[0x8000, 0x60]),
        (large, 0, &[0x40], &[0x40, 0x53]),
        (large, 0, &[0x1053], &[0x1053, 0]),
        (large, 0, &[0x8000], &[0x8000, 0x49F]),
    ] {
        let bytes = |numbers: &[u16]| numbers.iter().flat_map(|number| number.to_le_bytes()).collect::<Vec<u8>>();
        let mut list = vec![0xA5; 2 * expected.len()];
        for p in [p, p.shortened(3)] {
            assert_eq!(all_syndromes(&p, level, &bytes(odd), &mut list), 0, "{p:?}, {odd:X?}");
            assert_eq!(list, bytes(expected), "{p:?}, {odd:X?}");
        }
    }
}

/// What refuses all syndromes, and in which order; every byte stays.
#[test]
fn all_syndromes_refused() {
    const MOST: u32 = u32::MAX;
    for (p, level, odd, length, expected) in [
        (Parameters { q: 5, ..A }, MOST, 0, 0, 1),
        (Parameters { m: 1, ..A }, MOST, 0, 0, 2),
        (Parameters { t: [2, 2, 0, 0], ..A }, MOST, 0, 0, 3),
        (Parameters::full(4, 4, 2, [1, 2, 3, 0]).shortened(MOST), MOST, 0, 0, 4),
        (A.shortened(7), MOST, 0, 0, 14),
        (A.shortened(7), 0, 2, 4, 14),
        // Levels 0 and 1; t_2 and t_3 are 0, as the lengths are.
        (A, 2, 0, 0, 9),
        (A, 3, 0, 0, 9),
        (A, 2, 4, 8, 9),
        (A, MOST, 1, 1, 9),
        (B, 3, 6, 12, 9),
        (A, 0, 0, 4, 10),
        (A, 0, 1, 4, 10),
        (A, 0, 3, 4, 10),
        (A, 0, 4, 4, 10),
        (A, 0, 2, 0, 10),
        (A, 0, 2, 2, 10),
        (A, 0, 2, 3, 10),
        (A, 0, 2, 5, 10),
        (A, 0, 2, 8, 10),
        (A, 0, 4, 2, 10),
        // Those of the other level.
        (A, 0, 4, 8, 10),
        (A, 1, 2, 4, 10),
    ] {
        let odd = vec![0x5A; odd];
        let mut list = vec![0xA5; length];
        assert_eq!(all_syndromes(&p, level, &odd, &mut list), expected, "{p:?}, level {level}, {odd:?}, {length}");
        assert_eq!(list, vec![0xA5; length], "{p:?}, level {level}");
    }
}

#[test]
fn parameters() {
    for (p, expected) in [
        (Parameters::full(4, 4, 2, [1, 2, 3, 0]), 4),
        (Parameters::full(4, 4, 2, [1, 2, 2, 0]), 0),
        (Parameters::full(8, 4, 1, [1, 42, 0, 0]), 0),
        (Parameters::full(8, 4, 1, [1, 43, 0, 0]), 4),
        (LARGE, 0),
        // n − w_v − 1 is 6, 4, 46 and 3,404; 14 comes after 4.
        (A.shortened(6), 0),
        (A.shortened(7), 14),
        (B.shortened(4), 0),
        (B.shortened(5), 14),
        (Parameters::full(8, 4, 1, [1, 42, 0, 0]).shortened(46), 0),
        (Parameters::full(8, 4, 1, [1, 42, 0, 0]).shortened(47), 14),
        (Parameters::full(8, 4, 1, [1, 43, 0, 0]).shortened(u32::MAX), 4),
        (LARGE.shortened(3404), 0),
        (LARGE.shortened(3405), 14),
        (LARGE.shortened(4096), 14),
        (LARGE.shortened(1 << 16), 14),
        (LARGE.shortened(u32::MAX), 14),
    ] {
        assert_eq!(p.refusal(), expected, "{p:?}");
    }
    assert_eq!(sample::all_parameters(4, 8).len(), 104);
}

#[test]
fn degrees() {
    for (q, t, expected) in [
        (4, 1, 4),
        (4, 2, 8),
        (4, 3, 10),
        (4, 4, 14),
        (4, 7, 14),
        (12, 28, 336),
        (12, 32, 384),
        (12, 39, 462),
        (12, 58, 690),
    ] {
        let field = Field::of(q);
        assert_eq!(Level::of(field, t).degree(), expected, "q = {q}, t = {t}");
        // The number of different j × 2^e modulo n.
        let exponents: BTreeSet<_> = (1..=2 * t).flat_map(|j| (0..q).map(move |e| (j << e) % field.n)).collect();
        assert_eq!(exponents.len(), expected, "q = {q}, t = {t}");
    }
    // 33 is 9 × 2^5 modulo 255, so that α^33 and α^34 are roots already.
    assert_eq!(Level::of(Field::of(8), 16).degree(), Level::of(Field::of(8), 17).degree());
}

#[test]
fn quotes() {
    for (p, numbers, page, data, bits) in [
        (A, [4, 8, 0, 0, 7, 11, 0, 0, 0, 0, 0, 0], 4, 3, 5),
        (B, [4, 8, 10, 0, 5, 7, 11, 0, 0, 0, 0, 0], 6, 4, 7),
        (LARGE, [336, 384, 462, 690, 3405, 3633, 3711, 3759, 3759, 3759, 3759, 3759], 4096, 3695, 117),
        (A.shortened(6), [4, 8, 0, 0, 1, 5, 0, 0, 0, 0, 0, 0], 4, 2, 5),
        (
            LARGE.shortened(1900),
            [336, 384, 462, 690, 1505, 1733, 1811, 1859, 1859, 1859, 1859, 1859],
            8 * 275,
            189 + 217 + 227 + 5 * 233,
            117,
        ),
    ] {
        let mut list = [0xA5; QUOTE_BYTES];
        assert_eq!(quote(&p, &mut list), 0, "{p:?}");
        assert_eq!(list.to_vec(), numbers.map(u16::to_le_bytes).concat(), "{p:?}");
        assert_eq!((page_bytes(&p), data_bytes(&p), distance(&p)), (page, data, bits), "{p:?}");
    }
}

/// The list's length is looked at where the parameters are accepted; a refusal leaves every byte.
#[test]
fn quotes_refused() {
    let clash = Parameters::full(4, 4, 2, [1, 2, 3, 0]);
    for length in [0, 12, QUOTE_BYTES - 1, QUOTE_BYTES, QUOTE_BYTES + 1, 2 * QUOTE_BYTES] {
        for (p, refusal) in [
            (Parameters { q: 5, ..A }, 1),
            (Parameters { m: 1, ..A }, 2),
            (Parameters { t: [2, 2, 0, 0], ..A }, 3),
            (clash, 4),
            (clash.shortened(7), 4),
            (A.shortened(7), 14),
            (A, 10),
        ] {
            if p.accepted() && length == QUOTE_BYTES {
                continue;
            }
            let mut list = vec![0xA5; length];
            assert_eq!(quote(&p, &mut list), refusal, "{p:?}, {length} bytes");
            assert_eq!(list, vec![0xA5; length]);
        }
    }
    let wrong = [Parameters { q: 5, ..A }, Parameters { m: 1, ..A }, Parameters { t: [2, 2, 0, 0], ..A }];
    for p in wrong.into_iter().chain([clash, A.shortened(7)]) {
        assert_eq!((page_bytes(&p), data_bytes(&p), distance(&p)), (0, 0, 0), "{p:?}");
    }
}

#[test]
fn widths_and_lengths() {
    let blocks = [0x01, 0x01, 0x00];
    for (width, expected) in [(0, 5), (1, 0), (64, 0), (65, 5)] {
        assert_eq!(write(&A, width, &blocks, &mut [0; 4]), expected);
        assert_eq!(write(&A.shortened(7), width, &blocks, &mut [0; 4]), 14);
    }
    for length in [3, 5] {
        assert_eq!(write(&A, 8, &blocks, &mut vec![0; length]), 7);
        assert_eq!(judge(&A, &vec![0; length]), 7);
    }
}

/// Each page as it is alone: written, refused by a stray bit, by both, or since it would be blank; and the order of what
/// refuses the call: the width, the count, the lengths of blocks, pages and list.
#[test]
fn many_pages() {
    let sets = [[0x01, 0x01, 0x00], [0x81, 0x01, 0x00], [0xFF, 0xFF, 0x07], [0x7F, 0xFF, 0x07], [0x00, 0x01, 0x00]];
    let (mut pages, mut list) = ([[0xA5; 4]; 5], [0xA5; 5]);
    assert_eq!(write_many(&A, 8, 5, sets.as_flattened(), pages.as_flattened_mut(), &mut list), 0);
    assert_eq!(list, [0, 8, 8, 13, 0]);
    assert_eq!(pages, [[0xC2, 0x01, 0x13, 0x00], [0xA5; 4], [0xA5; 4], [0xA5; 4], [0x13, 0x00, 0x13, 0x00]]);

    for (width, count, blocks, room, listed, expected) in [
        (0, 0, 0, 0, 0, 5),
        (8, 0, 0, 0, 0, 9),
        (8, 17, 51, 68, 17, 9),
        (8, u32::MAX, 3, 4, 1, 9),
        (8, (1 << 30) + 1, 3, 4, 1, 9),
        (8, 2, 3, 4, 1, 6),
        (8, 2, 7, 8, 2, 6),
        (8, 2, 6, 9, 1, 7),
        (8, 2, 6, 8, 1, 10),
        (8, 2, 6, 8, 3, 10),
        (8, 1, 3, 4, 1, 0),
        (8, 16, 48, 64, 16, 0),
    ] {
        let (mut pages, mut list) = (vec![0xA5; room], vec![0xA5; listed]);
        let number = write_many(&A, width, count, &vec![0; blocks], &mut pages, &mut list);
        assert_eq!(number, expected, "{count} pages, lengths {blocks}, {room}, {listed}");
        let holds = if expected == 0 { 0 } else { 0xA5 };
        assert_eq!((pages, list), (vec![holds; room], vec![holds; listed]), "{count} pages");
    }
}

/// Sheet A: the page of bit 0 of block 0 is g_1, D1 01, in sub-word 0; that of bit 0 of block 1 is g_0, 13 00, in both. Sheet
/// B: that of bit 0 of block 2 is 26 00, 35 00, 13 00, and that of bit 0 of block 0 is g_2, 37 05.
#[test]
fn altered_bits() {
    for (p, page, [block, bit, value], expected) in [
        (A, &[0x00, 0x00, 0x00, 0x00][..], [0, 0, 1], &[0xD1, 0x01, 0x00, 0x00][..]),
        (A, &[0x13, 0x00, 0x13, 0x00], [0, 0, 1], &[0xC2, 0x01, 0x13, 0x00]),
        (A, &[0xC2, 0x01, 0x13, 0x00], [0, 0, 0], &[0x13, 0x00, 0x13, 0x00]),
        (A, &[0xC2, 0x01, 0x13, 0x00], [0, 0, 1], &[0xC2, 0x01, 0x13, 0x00]),
        (A, &[0xC2, 0x01, 0x13, 0x00], [1, 0, 0], &[0xD1, 0x01, 0x00, 0x00]),
        // No members, of which what is wrong stays: check bits, and a data bit of sub-word 1.
        (A, &[0x04, 0x00, 0x07, 0x20], [1, 0, 1], &[0x17, 0x00, 0x14, 0x20]),
        (A, &[0x04, 0x00, 0x07, 0x20], [1, 0, 0], &[0x04, 0x00, 0x07, 0x20]),
        // A blank page takes 0.
        (A, &[0xFF, 0x7F, 0xFF, 0x7F], [0, 0, 0], &[0x2E, 0x7E, 0xFF, 0x7F]),
        (A, &[0xFF, 0x7F, 0xFF, 0x7F], [1, 0, 0], &[0xEC, 0x7F, 0xEC, 0x7F]),
        (B, &[0x00, 0x00, 0x00, 0x00, 0x00, 0x00], [2, 0, 1], &[0x26, 0x00, 0x35, 0x00, 0x13, 0x00]),
        (B, &[0x26, 0x00, 0x35, 0x00, 0x13, 0x00], [0, 0, 1], &[0x11, 0x05, 0x35, 0x00, 0x13, 0x00]),
        (A.shortened(6), &[0x13, 0x00, 0x13, 0x00], [0, 0, 1], &[0xC2, 0x01, 0x13, 0x00]),
        (A.shortened(6), &[0xFF, 0x01, 0xFF, 0x01], [0, 0, 0], &[0x2E, 0x00, 0xFF, 0x01]),
        (B.shortened(4), &[0x00, 0x00, 0x00, 0x00, 0x00, 0x00], [2, 0, 1], &[0x26, 0x00, 0x35, 0x00, 0x13, 0x00]),
    ] {
        let mut altered = page.to_vec();
        assert_eq!(alter(&p, &mut altered, block, bit, value), 0, "{p:?}, {page:02X?}");
        assert_eq!(altered, expected, "{p:?}, {page:02X?}");
    }
}

/// What refuses an alteration, and in which order; every byte stays.
#[test]
fn alterations_refused() {
    const MOST: u32 = u32::MAX;
    let clear = [0xFF, 0x7F, 0xFF, 0x7F];
    for (p, page, [block, bit, value], expected) in [
        (Parameters { q: 5, ..A }, &[0xFF; 3][..], [MOST; 3], 1),
        (Parameters { m: 1, ..A }, &[0xFF; 3], [MOST; 3], 2),
        (Parameters { t: [2, 2, 0, 0], ..A }, &[0xFF; 3], [MOST; 3], 3),
        (Parameters::full(4, 4, 2, [1, 2, 3, 0]).shortened(MOST), &[0xFF; 3], [MOST; 3], 4),
        (A.shortened(7), &[0xFF; 3], [MOST; 3], 14),
        (A, &[0xFF; 3], [MOST; 3], 7),
        (A, &[0xFF; 5], [0, 0, 1], 7),
        (A, &[], [0, 0, 1], 7),
        (A, &[0xFF; 4], [MOST; 3], 8),
        (A, &[0xFF; 4], [0, 0, 1], 8),
        (A, &[0xFF; 4], [0, 0, 0], 8),
        (A, &[0x00, 0x80, 0x00, 0x00], [2, 0, 0], 8),
        (A, &[0x00, 0x00, 0x00, 0x80], [0, 0, 1], 8),
        // Seven and eleven data bits.
        (A, &clear, [2, 0, 1], 9),
        (A, &clear, [0, 7, 1], 9),
        (A, &clear, [1, 11, 1], 9),
        (A, &clear, [0, 0, 2], 9),
        (A, &clear, [MOST, 0, 1], 9),
        (A, &clear, [0, MOST, 1], 9),
        (A, &clear, [0, 0, MOST], 9),
        // A blank page, and pages that a bit makes blank: a member, whose other data bits are 1, and one that is none.
        (A, &clear, [0, 0, 1], 13),
        (A, &clear, [1, 10, 1], 13),
        (A, &[0x2E, 0x7E, 0xFF, 0x7F], [0, 0, 1], 13),
        (A.shortened(6), &[0xFF, 0x01, 0xFF, 0x01], [0, 0, 1], 13),
        (A.shortened(6), &[0x2E, 0x00, 0xFF, 0x01], [0, 0, 1], 13),
        (A.shortened(6), &[0xFF, 0x01, 0xFF, 0x01], [0, 1, 1], 9),
        (A.shortened(6), &[0xFF, 0x01, 0xFF, 0x01], [1, 5, 1], 9),
        (A.shortened(6), &[0xFF, 0x03, 0xFF, 0x01], [1, 5, 1], 8),
    ] {
        let mut altered = page.to_vec();
        assert_eq!(alter(&p, &mut altered, block, bit, value), expected, "{p:?}, {page:02X?}, {block}, {bit}, {value}");
        assert_eq!(altered, page, "{p:?}, {block}, {bit}, {value}");
    }
    assert_eq!(judge(&A, &[0x2E, 0x7E, 0xFF, 0x7F]), 0);
    assert_eq!(judge(&A.shortened(6), &[0x2E, 0x00, 0xFF, 0x01]), 32);
}

/// Sheet A: g_0 is 13 00, of strength 1; sheet C: D1 01, of strength 2. What differs from a multiple in few places is that
/// multiple afterwards, and the other sub-word stays.
#[test]
fn mended_sub_words() {
    for (p, page, index, expected, places) in [
        (A, [0xC2, 0x01, 0x13, 0x00], 0, [0xC2, 0x01, 0x13, 0x00], &[][..]),
        (A, [0xC2, 0x01, 0x33, 0x00], 0, [0xC2, 0x01, 0x33, 0x00], &[]),
        (A, [0xC2, 0x01, 0x33, 0x00], 1, [0xC2, 0x01, 0x13, 0x00], &[5]),
        (A, [0xC2, 0x41, 0x33, 0x00], 0, [0xC2, 0x01, 0x33, 0x00], &[14]),
        (A, [0x00, 0x00, 0x01, 0x00], 1, [0x00, 0x00, 0x00, 0x00], &[0]),
        // Two flips of 0: 1 + x + x^4 is nearer.
        (A, [0x03, 0x00, 0x00, 0x00], 0, [0x13, 0x00, 0x00, 0x00], &[4]),
        // A blank page, and one flip of it: x^14 + .. + 1 is a multiple of every generator.
        (A, [0xFF, 0x7F, 0xFF, 0x7F], 1, [0xFF, 0x7F, 0xFF, 0x7F], &[]),
        (A, [0xFF, 0x7F, 0xFF, 0x7E], 1, [0xFF, 0x7F, 0xFF, 0x7F], &[8]),
        (C, [0xD1, 0x01, 0x00, 0x00], 0, [0xD1, 0x01, 0x00, 0x00], &[]),
        (C, [0xD0, 0x41, 0x00, 0x00], 0, [0xD1, 0x01, 0x00, 0x00], &[0, 14]),
        (C, [0xD0, 0x41, 0x00, 0x09], 1, [0xD0, 0x41, 0x00, 0x00], &[8, 11]),
        (C.shortened(4), [0x00, 0x00, 0x00, 0x06], 1, [0x00, 0x00, 0x00, 0x00], &[9, 10]),
        (A.shortened(6), [0x00, 0x01, 0x02, 0x00], 0, [0x00, 0x00, 0x02, 0x00], &[8]),
    ] {
        let mut listed = vec![0xA5; 2 * p.t[0] as usize];
        let (mut mended, mut flips) = (page, 0xA5);
        assert_eq!(mend(&p, &mut mended, index, &mut listed, &mut flips), 0, "{p:?}, {page:02X?}");
        assert_eq!((mended, usize::from(flips)), (expected, places.len()), "{p:?}, {page:02X?}");
        let numbers: Vec<u16> = listed.chunks(2).map(|pair| u16::from_le_bytes([pair[0], pair[1]])).collect();
        let fillers = numbers.len() - places.len();
        assert_eq!(numbers, [places, &[65535; 2][..fillers]].concat(), "{p:?}, {page:02X?}");
    }
}

/// What refuses to mend, and in which order; every byte stays.
#[test]
fn sub_words_not_mended() {
    const MOST: u32 = u32::MAX;
    for (p, page, index, length, expected) in [
        (Parameters { q: 5, ..A }, &[0xFF; 3][..], MOST, 0, 1),
        (Parameters { m: 1, ..A }, &[0xFF; 3], MOST, 0, 2),
        (Parameters { t: [2, 2, 0, 0], ..A }, &[0xFF; 3], MOST, 0, 3),
        (Parameters::full(4, 4, 2, [1, 2, 3, 0]).shortened(MOST), &[0xFF; 3], MOST, 0, 4),
        (A.shortened(7), &[0xFF; 3], MOST, 0, 14),
        (A, &[0xFF; 3], MOST, 0, 7),
        (A, &[0x00; 5], 0, 2, 7),
        (A, &[], 0, 2, 7),
        // A spare bit anywhere, of an erased page too.
        (A, &[0xFF; 4], MOST, 0, 8),
        (A, &[0xFF; 4], 0, 2, 8),
        (A, &[0x00, 0x00, 0x00, 0x80], 0, 2, 8),
        (A, &[0x00, 0x80, 0x00, 0x00], 1, 2, 8),
        (A, &[0x00; 4], 2, 2, 9),
        (A, &[0x00; 4], MOST, 0, 9),
        (A, &[0x00; 4], 0, 0, 10),
        (A, &[0x00; 4], 0, 1, 10),
        (A, &[0x00; 4], 1, 3, 10),
        (A, &[0x00; 4], 1, 4, 10),
        (C, &[0x00; 4], 0, 6, 10),
        // 1 + x + x^3 differs from every multiple in at least three places; the length comes first.
        (C, &[0x0B, 0x00, 0x00, 0x00], 0, 2, 10),
        (C, &[0x0B, 0x00, 0x00, 0x00], 0, 4, 15),
        // x^10 + x^7 + x^6 and x^14 + x^11 + x^10 without their highest places, which are not stored.
        (A.shortened(5), &[0xC0, 0x00, 0x00, 0x00], 0, 2, 15),
        (A.shortened(1), &[0x00, 0x00, 0x00, 0x0C], 1, 2, 15),
        // Ones in fewer than n places.
        (C.shortened(4), &[0xFF, 0x07, 0xFF, 0x07], 0, 4, 15),
    ] {
        let (mut lent, mut listed, mut flips) = (page.to_vec(), vec![0xA5; length], 0xA5);
        assert_eq!(mend(&p, &mut lent, index, &mut listed, &mut flips), expected, "{p:?}, {page:02X?}, {index}");
        assert_eq!((&lent[..], listed, flips), (page, vec![0xA5; length], 0xA5), "{p:?}, {page:02X?}, {index}");
    }
}

/// Pages mended through their nested words. On sheet A every full word is within one flip of a multiple of g_0; shortened by 5
/// x^6 + x^7 is not, nor is 1 + x + x^3 on sheet C, nor x^7 + x^8 on sheet B shortened by 4.
#[test]
fn mended_pages() {
    for (p, page, expected) in [
        (A, &[0xC2, 0x01, 0x13, 0x00][..], &[0xC2, 0x01, 0x13, 0x00][..]),
        (A, &[0xC2, 0x41, 0x33, 0x00], &[0xC2, 0x01, 0x13, 0x00]),
        // Level 1 corrects two and three faults.
        (A.shortened(5), &[0xC0, 0x00, 0x00, 0x00], &[0x00; 4]),
        (A.shortened(5), &[0x02, 0x00, 0xC0, 0x00], &[0x00; 4]),
        (C, &[0x0B, 0x00, 0x00, 0x00], &[0x00; 4]),
        (C, &[0x03, 0x00, 0x0B, 0x00], &[0x00; 4]),
        (C, &[0xF4, 0x7F, 0x00, 0x00], &[0xFF, 0x7F, 0x00, 0x00]),
        // On sheet B level 1 corrects two faults of each of two sub-words, level 2 three of one, the last one after a round.
        (B.shortened(4), &[0x80, 0x01, 0x80, 0x01, 0x00, 0x00], &[0x00; 6]),
        (B.shortened(4), &[0x80, 0x01, 0x01, 0x00, 0x80, 0x01], &[0x00; 6]),
        (B.shortened(4), &[0x00, 0x00, 0x0E, 0x00, 0x00, 0x00], &[0x00; 6]),
        (B.shortened(4), &[0x80, 0x01, 0x00, 0x01, 0x0E, 0x00], &[0x00; 6]),
    ] {
        let mut mended = page.to_vec();
        assert_eq!(mend_page(&p, &mut mended), 0, "{p:?}, {page:02X?}");
        assert_eq!(mended, expected, "{p:?}, {page:02X?}");
    }
}

/// What refuses to mend a page, and in which order; every byte stays.
#[test]
fn pages_not_mended() {
    for (p, page, expected) in [
        (Parameters { q: 5, ..A }, &[0xFF; 3][..], 1),
        (Parameters { m: 1, ..A }, &[0xFF; 3], 2),
        (Parameters { t: [2, 2, 0, 0], ..A }, &[0xFF; 3], 3),
        (Parameters::full(4, 4, 2, [1, 2, 3, 0]).shortened(u32::MAX), &[0xFF; 3], 4),
        (A.shortened(7), &[0xFF; 3], 14),
        (A, &[0xFF; 3], 7),
        (A, &[0x00; 5], 7),
        (A, &[], 7),
        // A spare bit anywhere, of an erased page too.
        (A, &[0xFF; 4], 8),
        (A, &[0x00, 0x00, 0x00, 0x80], 8),
        (A, &[0x13, 0x80, 0x00, 0x00], 8),
        // A blank page, and one that would be.
        (A, &[0xFF, 0x7F, 0xFF, 0x7F], 17),
        (A, &[0xFE, 0x7F, 0xFF, 0x3F], 17),
        (C, &[0xF4, 0x7F, 0xFF, 0x7F], 17),
        // Sub-words of sheet A that are multiples, or have come to be, while nested word 0 is none.
        (A, &[0x13, 0x00, 0x00, 0x00], 17),
        (A, &[0x03, 0x00, 0x00, 0x00], 17),
        // Two broken sub-words at v = 1, three at v = 2.
        (C, &[0x0B, 0x00, 0x0B, 0x00], 17),
        (B.shortened(4), &[0x80, 0x01, 0x80, 0x01, 0x80, 0x01], 17),
        // Ones in fewer than n places.
        (C.shortened(4), &[0xFF, 0x07, 0xFF, 0x07], 17),
    ] {
        let mut lent = page.to_vec();
        assert_eq!(mend_page(&p, &mut lent), expected, "{p:?}, {page:02X?}");
        assert_eq!(lent, page, "{p:?}, {page:02X?}");
    }
}

/// Input 04 02 01 08 01 02 01 01 00 of the writer program gives 00 C2 01 13 00; empty input, all numbers 0, gives 01.
#[test]
fn writer() {
    let input = [0x04, 0x02, 0x01, 0x08, 0x01, 0x02, 0x01, 0x01, 0x00];
    let numbers = input.map(u32::from);
    let p = Parameters::full(numbers[0], numbers[1], numbers[2], [numbers[4], numbers[5], 0, 0]);
    let mut page = [0; 4];
    assert_eq!(write(&p, numbers[3], &input[6..], &mut page), 0);
    assert_eq!(page, [0xC2, 0x01, 0x13, 0x00]);
    assert_eq!(write(&Parameters::full(0, 0, 0, [0; 4]), 0, &[], &mut []), 1);
}
