//! The time that shortened sub-words save: write's on a shortened sheet, in times of write's on the full one. The time that
//! many pages in one call save: that of the call, in times of as many single ones. The time of an alteration of one bit, in
//! times of a write. Those of a mended sub-word and of odd syndromes, in times of a CRC-32. And that of a mended page, in times
//! of judge and of a CRC-32.

use crate::call::{Call, Name};
use crate::draw::{any_page, damage, exact, flip_some, list_bytes, many, member, mending};
use reference::Parameters;
use reference::calls::MOST_PAGES;
use reference::layout::bit;
use reference::parameters::Sheet;
use reference::sample::Random;
use std::array::from_fn;
use std::hint::black_box;
use std::time::{Duration, Instant};

/// The sheet that is timed, with full sub-words and shortened by S.
pub const FULL: Parameters = Parameters::full(12, 8, 3, [28, 32, 39, 58]);
pub const S: u32 = 2000;
pub const WIDTHS: [u32; 4] = [1, 8, 32, 64];

/// Shortened by S, write may take so much of its time on full sub-words.
pub const LIMIT: f64 = 0.7;

/// And so much in the gate, which runs on machines of other speeds and beside other work.
pub const GATE_LIMIT: f64 = 0.8;

/// So many pages are written in one call, or in as many single ones, at this width.
pub const PAGES: usize = MOST_PAGES as usize;
pub const MANY_WIDTH: u32 = 64;

/// The one call may take so much of the time of the single ones, and so much in the gate.
pub const MANY_LIMIT: f64 = 0.75;
pub const MANY_GATE_LIMIT: f64 = 0.85;

/// An alteration may take so much of the time of a write at this width: of a bit of block v or above, and of block 0.
pub const ALTER_WIDTH: u32 = 64;
pub const ALTER_LIMITS: [f64; 2] = [0.7, 0.35];
pub const ALTER_GATE_LIMITS: [f64; 2] = [0.8, 0.45];

/// So many bytes are gone through by a CRC-32, a byte at a time, beside the sub-word that is mended or the odd syndromes.
pub const CRC_BYTES: usize = 4096;

/// Mending may take so much of the time of that CRC-32: without a flip, with t_0 / 2 and with t_0.
pub const MEND_LIMITS: [f64; 3] = [0.5, 8.0, 12.0];
pub const MEND_GATE_LIMITS: [f64; 3] = [0.65, 9.0, 14.0];

/// The odd syndromes of a sub-word may take so much of it, and those of nested word 0.
pub const ODD_LIMITS: [f64; 2] = [0.8, 1.5];
pub const ODD_GATE_LIMITS: [f64; 2] = [1.0, 1.9];

/// Mending a page without faults may take so much of the time of judge.
pub const MEND_PAGE_LIMIT: f64 = 1.2;
pub const MEND_PAGE_GATE_LIMIT: f64 = 1.35;

/// Linux's BCH library decodes one word with so many flips as it corrects, 28 or 58, in so many µs, least and most, where a
/// CRC-32 of CRC_BYTES bytes takes LINUX_CRC µs. With 14 flips of 28 it takes 14 µs.
const LINUX_28: [f64; 2] = [26.0, 40.0];
const LINUX_58: [f64; 2] = [90.0, 90.0];
const LINUX_CRC: f64 = 13.0;

/// Mending takes most time on this sheet, of the greatest t_0.
pub const STRONGEST: Parameters = Parameters::full(12, 2, 1, [63, 64, 0, 0]);

const ROUNDS: usize = 300;
const TIME: Duration = Duration::from_millis(300);

/// The least times of some works that take turns, of many rounds, so that what else the machine does falls on all and on no
/// least time.
fn least_times<const N: usize>(mut works: [&mut dyn FnMut(); N]) -> [f64; N] {
    let mut least = [Duration::MAX; N];
    let start = Instant::now();
    let mut rounds = 0;
    while rounds < ROUNDS || start.elapsed() < TIME {
        for (work, least) in works.iter_mut().zip(&mut least) {
            let start = Instant::now();
            work();
            *least = (*least).min(start.elapsed());
        }
        rounds += 1;
    }
    least.map(|time| time.as_secs_f64())
}

/// The archive's write shortened by S in times of the full one, single calls.
pub fn shortened_to_full(width: u32) -> f64 {
    let mut random = Random::new(1);
    let [mut full, mut shortened] = [FULL, FULL.shortened(S)].map(|p| {
        let call = Call { number: width, ..exact(&mut random, Name::Write, &p) };
        let mut page = call.lent.clone();
        move || {
            let number = call.by_archive(black_box(&call.read), black_box(&mut page), &mut [], &mut 0);
            assert_eq!(number, 0, "{:?}", call.p);
        }
    });
    let [full, shortened] = least_times([&mut full, &mut shortened]);
    shortened / full
}

/// The archive's write of PAGES pages of full sub-words in one call, in times of as many single calls.
pub fn many_to_single() -> f64 {
    let mut random = Random::new(1);
    let single = Call { number: MANY_WIDTH, ..exact(&mut random, Name::Write, &FULL) };
    let blocks: Vec<Vec<u8>> = (0..PAGES).map(|_| exact(&mut random, Name::Write, &FULL).read).collect();
    let many = Call { number: MANY_WIDTH, ..many(&mut random, &FULL, &blocks) };
    let sheet = Sheet::of(&FULL);
    let (mut together, mut list, mut apart) = (many.lent.clone(), many.list.clone(), many.lent.clone());
    let times = least_times([
        &mut || {
            let number = many.by_archive(black_box(&many.read), black_box(&mut together), black_box(&mut list), &mut 0);
            assert_eq!(number, 0);
        },
        &mut || {
            let blocks = many.read.chunks_exact(sheet.blocks_bytes());
            for (blocks, page) in blocks.zip(apart.chunks_exact_mut(sheet.page_bytes())) {
                assert_eq!(single.by_archive(black_box(blocks), black_box(page), &mut [], &mut 0), 0);
            }
        },
    ]);
    assert_eq!((list, together == apart), (vec![0; PAGES], true));
    times[0] / times[1]
}

/// The alterations that are timed, in words, with block and bit: where most check bits change, where as many sub-words do,
/// and where one does.
pub fn alterations(p: &Parameters) -> [(&'static str, u32, u32); 3] {
    let last = |i: u32| Sheet::of(p).block_bits(i as usize) as u32 - 1;
    [
        ("alter the last bit of block m - 1", p.m - 1, last(p.m - 1)),
        ("alter the first bit of block v", p.v, 0),
        ("alter the last bit of block 0", 0, last(0)),
    ]
}

/// A call that alters this bit of a page to its other value.
pub fn altering(p: &Parameters, page: &[u8], block: u32, at: u32) -> Call {
    let (sheet, i) = (Sheet::of(p), block as usize);
    let is = bit(page, sheet.place(i, sheet.level(i).degree() + at as usize));
    Call::alter(p, page.to_vec(), block, at, u32::from(!is))
}

/// The archive's alterations, to and fro, of a member of full sub-words, in times of a write.
pub fn alter_to_write() -> [f64; 3] {
    let mut random = Random::new(1);
    let write = Call { number: ALTER_WIDTH, ..exact(&mut random, Name::Write, &FULL) };
    let (mut written, page) = (write.lent.clone(), member(&mut random, &FULL));
    let [mut last, mut first, mut of_block_0] = alterations(&FULL).map(|(name, block, at)| {
        let mut call = altering(&FULL, &page, block, at);
        let (mut page, mut before) = (page.clone(), page.clone());
        move || {
            let number = call.by_archive(&[], black_box(&mut page), &mut [], &mut 0);
            assert!(number == 0 && page != before, "{name}: {number}");
            call.value ^= 1;
            before[..].copy_from_slice(&page);
        }
    });
    let [write, times @ ..] = least_times([
        &mut || assert_eq!(write.by_archive(black_box(&write.read), black_box(&mut written), &mut [], &mut 0), 0),
        &mut last,
        &mut first,
        &mut of_block_0,
    ]);
    times.map(|time| time / write)
}

/// The table of a CRC-32, a byte at a time.
pub fn crc_table() -> [u32; 256] {
    from_fn(|byte| (0..8).fold(byte as u32, |c, _| if c & 1 == 1 { c >> 1 ^ 0xEDB8_8320 } else { c >> 1 }))
}

pub fn crc(table: &[u32; 256], bytes: &[u8]) -> u32 {
    !bytes.iter().fold(!0, |c, &byte| c >> 8 ^ table[(c as u8 ^ byte) as usize])
}

/// The calls of mend that are timed, in words, on the last sub-word of a member with so many flips: none, t_0 / 2 and t_0; and
/// with t_0 + 5, so that, if t_0 is large, it is refused by 15.
pub fn mendings(p: &Parameters) -> [(&'static str, Call); 4] {
    let (sheet, mut random) = (Sheet::of(p), Random::new(1));
    let (t, i) = (sheet.levels[0].t, sheet.m - 1);
    let names = ["mend no flip", "mend t0 / 2 flips", "mend t0 flips", "mend t0 + 5 flips"];
    let mut flips = [0, t / 2, t, t + 5].into_iter();
    names.map(|name| {
        let mut page = member(&mut random, p);
        flip_some(&mut random, &sheet, &mut page, i, flips.next().unwrap());
        (name, mending(&mut random, p, page, i))
    })
}

/// The archive's mends of a member of a sheet, in times of a CRC-32 of CRC_BYTES bytes. Before each call the damaged page is
/// copied, which takes about 0.1 µs and is timed with it.
pub fn mend_to_crc(p: &Parameters) -> [f64; 4] {
    let (table, bytes) = (crc_table(), Random::new(1).bytes(CRC_BYTES));
    let mut works = mendings(p).map(|(name, call)| {
        let answer = call.outcome(Call::by_reference).number;
        let (mut page, mut places, mut flips) = (call.lent.clone(), call.list.clone(), 0);
        move || {
            page.copy_from_slice(&call.lent);
            let number = call.by_archive(&[], black_box(&mut page), black_box(&mut places), black_box(&mut flips));
            assert_eq!(number, answer, "{name}");
        }
    });
    let [none, half, all, more] = &mut works;
    let mut sum = || {
        black_box(crc(black_box(&table), black_box(&bytes)));
    };
    let [crc, times @ ..] = least_times([&mut sum, none, half, all, more]);
    times.map(|time| time / crc)
}

/// A mended page that is timed.
pub struct PageMending {
    pub name: &'static str,
    pub call: Call,
    /// What Linux's decodes of as many single words with as many flips take, least and most, in times of a CRC-32 of CRC_BYTES
    /// bytes; none where that is not known.
    pub linux: Option<[f64; 2]>,
}

/// The calls of mend page that are timed, on a member of full sub-words: without a flip; with one in each sub-word; with t_0 in
/// each; with t_v in one and t_0 in the others; with t_v, t_(v−1), .., t_1 in v of them and t_0 in the others; with t_v in v + 1
/// of them and t_0 in the others, so that it is refused by 17.
pub fn page_mendings() -> [PageMending; 6] {
    let (sheet, mut random) = (Sheet::of(&FULL), Random::new(1));
    let (m, v, t) = (sheet.m, sheet.v, sheet.levels[0].t);
    let each = |beyond: &[usize], others: usize| -> Vec<usize> {
        beyond.iter().copied().chain(std::iter::repeat(others)).take(m).collect()
    };
    let strengths: Vec<usize> = (0..v).map(|l| sheet.nested_level(l).t).collect();
    // Words of t_1 to t_(v−1) are between those of t_0 and of t_v.
    let sum = |weak: usize, between: usize, strong: usize| {
        let least = (weak + between) as f64 * LINUX_28[0] + strong as f64 * LINUX_58[0];
        let most = weak as f64 * LINUX_28[1] + (between + strong) as f64 * LINUX_58[1];
        Some([least / LINUX_CRC, most / LINUX_CRC])
    };
    [
        ("mend page no flip", each(&[], 0), None),
        ("mend page 1 flip in each", each(&[], 1), None),
        ("mend page t0 flips in each", each(&[], t), sum(m, 0, 0)),
        ("mend page t_v flips in one", each(&strengths[..1], t), sum(m - 1, 0, 1)),
        ("mend page t_v to t_1 flips in v", each(&strengths, t), sum(m - v, v - 1, 1)),
        ("mend page t_v flips in v + 1", each(&vec![strengths[0]; v + 1], t), None),
    ]
    .map(|(name, flips, linux)| {
        let mut page = member(&mut random, &FULL);
        damage(&mut random, &sheet, &mut page, &flips.into_iter().enumerate().collect::<Vec<_>>());
        PageMending { name, call: Call::mend_page(&FULL, page), linux }
    })
}

/// The archive's mended pages, in times of judge on a member and in times of a CRC-32 of CRC_BYTES bytes. Before each call the
/// damaged page is copied, which takes about 0.1 µs and is timed with it.
pub fn mend_page_to_judge() -> [(f64, f64); 6] {
    let mut random = Random::new(1);
    let (table, bytes) = (crc_table(), random.bytes(CRC_BYTES));
    let judge = Call::new(Name::Judge, &FULL, 0, member(&mut random, &FULL), Vec::new());
    let mut works = page_mendings().map(|PageMending { name, call, .. }| {
        let answer = call.outcome(Call::by_reference).number;
        let mut page = call.lent.clone();
        move || {
            page.copy_from_slice(&call.lent);
            assert_eq!(call.by_archive(&[], black_box(&mut page), &mut [], &mut 0), answer, "{name}");
        }
    });
    let [none, one, few, strong, steps, refused] = &mut works;
    let [crc, judge, times @ ..] = least_times([
        &mut || {
            black_box(crc(black_box(&table), black_box(&bytes)));
        },
        &mut || assert_eq!(judge.by_archive(black_box(&judge.read), &mut [], &mut [], &mut 0), 0),
        none,
        one,
        few,
        strong,
        steps,
        refused,
    ]);
    times.map(|time| (time / judge, time / crc))
}

/// The calls of syndromes that are timed, in words, on a page: the odd ones of a sub-word and of nested word 0, and all from
/// those of nested word 0.
pub fn listings(p: &Parameters, page: &[u8]) -> [(&'static str, Call); 3] {
    let of_page = |name| Call::new(name, p, 0, page.to_vec(), vec![0; list_bytes(p, name, 0)]);
    let nested = of_page(Name::NestedSyndromes);
    let (odd, level) = (nested.outcome(Call::by_reference).lent, p.v);
    let all = Call::new(Name::AllSyndromes, p, level, odd, vec![0; 2 * nested.lent.len()]);
    [
        ("odd syndromes of a sub-word", of_page(Name::Syndromes)),
        ("odd syndromes of a nested word", nested),
        ("all syndromes from the odd ones", all),
    ]
}

/// The archive's lists of syndromes of any page of full sub-words, in times of a CRC-32 of CRC_BYTES bytes.
pub fn odd_to_crc() -> [f64; 3] {
    let mut random = Random::new(1);
    let (table, bytes) = (crc_table(), random.bytes(CRC_BYTES));
    let mut works = listings(&FULL, &any_page(&mut random, &Sheet::of(&FULL))).map(|(name, call)| {
        let mut list = call.lent.clone();
        move || {
            let number = call.by_archive(black_box(&call.read), black_box(&mut list), &mut [], &mut 0);
            assert_eq!(number, 0, "{name}");
        }
    });
    let [sub_word, nested, all] = &mut works;
    let mut sum = || {
        black_box(crc(black_box(&table), black_box(&bytes)));
    };
    let [crc, times @ ..] = least_times([&mut sum, sub_word, nested, all]);
    times.map(|time| time / crc)
}

/// A sheet in words.
pub fn title(p: &Parameters) -> String {
    let t: Vec<String> = p.t[..=p.v as usize].iter().map(u32::to_string).collect();
    let shortened = if p.s == 0 { String::new() } else { format!(" s {}", p.s) };
    format!("q {} m {} v {} t {}{shortened}", p.q, p.m, p.v, t.join(" "))
}

/// The ratios of shortened writes at some widths in words, and the greatest of them.
pub fn stated() -> (String, [f64; 1]) {
    let ratios = WIDTHS.map(|width| (width, shortened_to_full(width)));
    let each: Vec<String> = ratios.iter().map(|(width, ratio)| format!("{ratio:.2} at width {width}")).collect();
    let line = format!(
        "Write on {} at s {S}, in times of write at s 0, calls by turns, least times: {}; at most {LIMIT}",
        title(&FULL),
        each.join(", ")
    );
    (line, [ratios.iter().fold(0.0, |most, &(_, ratio)| ratio.max(most))])
}

/// The ratio of many pages in one call in words, and the ratio.
pub fn many_stated() -> (String, [f64; 1]) {
    let ratio = many_to_single();
    let line = format!(
        "Write of {PAGES} pages in one call on {}, in times of {PAGES} single calls, by turns, least times: {ratio:.3} at width \
         {MANY_WIDTH}; at most {MANY_LIMIT}",
        title(&FULL)
    );
    (line, [ratio])
}

/// The ratios of alterations in words; the greatest of those of block v and above, and that of block 0.
pub fn alter_stated() -> (String, [f64; 2]) {
    let ratios = alter_to_write();
    let [last, first, of_block_0] = ratios;
    let [limit, limit_0] = ALTER_LIMITS;
    let line = format!(
        "One bit altered, to and fro, in a page of {}, in times of write at width {ALTER_WIDTH}, by turns, least times: \
         {last:.3} for the last bit of block m - 1, {first:.3} for the first of block v; at most {limit}; {of_block_0:.3} for \
         the last of block 0; at most {limit_0}",
        title(&FULL)
    );
    (line, [last.max(first), of_block_0])
}

/// The ratios of mends in words, and those without a flip, with t_0 / 2 and with t_0.
pub fn mend_stated() -> (String, [f64; 3]) {
    let [none, half, all, more] = mend_to_crc(&FULL);
    let [.., strongest, _] = mend_to_crc(&STRONGEST);
    let ([limit, limit_half, limit_all], t) = (MEND_LIMITS, FULL.t[0]);
    let line = format!(
        "A sub-word of {} mended, in times of a CRC-32 of {CRC_BYTES} bytes, by turns, least times: {none:.3} without a flip; \
         at most {limit}; {half:.2} with {} flips; at most {limit_half}; {all:.2} with {t}; at most {limit_all}; refused with \
         {} {more:.2}; of {} with {} flips {strongest:.2}",
        title(&FULL),
        t / 2,
        t + 5,
        title(&STRONGEST),
        STRONGEST.t[0]
    );
    (line, [none, half, all])
}

/// The ratios of mended pages in words, and that of a page without faults to judge.
pub fn mend_page_stated() -> (String, [f64; 1]) {
    let ratios = mend_page_to_judge();
    let [(none, of_crc), rest @ ..] = ratios;
    let mendings = page_mendings();
    let others = mendings[1..].iter().zip(rest).map(|(PageMending { name, linux, .. }, (judge, crc))| {
        let beside = linux.map_or(String::new(), |[least, most]| format!(" (Linux's decodes {least:.1} to {most:.1})"));
        format!("{name} {judge:.1} and {crc:.1}{beside}")
    });
    let line = format!(
        "A page of {} mended, in times of judge and of a CRC-32 of {CRC_BYTES} bytes, by turns, least times: without a flip \
         {none:.3}; at most {MEND_PAGE_LIMIT}; and {of_crc:.2}; {}",
        title(&FULL),
        others.collect::<Vec<_>>().join("; ")
    );
    (line, [none])
}

/// The ratios of odd syndromes in words, and those of a sub-word and of nested word 0.
pub fn odd_stated() -> (String, [f64; 2]) {
    let [sub_word, nested, all] = odd_to_crc();
    let ([limit, limit_nested], t) = (ODD_LIMITS, FULL.t[FULL.v as usize]);
    let line = format!(
        "Odd syndromes of any page of {}, in times of a CRC-32 of {CRC_BYTES} bytes, by turns, least times: {sub_word:.3} for \
         the {} of a sub-word; at most {limit}; {nested:.3} for the {t} of a nested word; at most {limit_nested}; {all:.4} for \
         all {} from the {t}",
        title(&FULL),
        FULL.t[0],
        2 * t
    );
    (line, [sub_word, nested])
}

/// Whether no ratio is above its limit.
pub fn within<const N: usize>(ratios: [f64; N], limits: [f64; N]) -> bool {
    ratios.iter().zip(limits).all(|(&ratio, limit)| ratio <= limit)
}
