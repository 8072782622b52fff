//! Times of the archive's calls, the reference beside them, with memcpy and CRC-32 of 4,096 bytes in the same run.
//!
//!     cargo run --release --bin bench [FILE.csv]
//!
//! Writes a markdown table to standard output, and the figures to the file. A time is the median of SAMPLES samples, a
//! sample the mean of as many calls as fill about a millisecond; beside it stand the tenth and the ninetieth percentile.
//! Samples of all rows take turns, so that a disturbance of the machine falls on all. Buffers are not cleared between
//! calls, and the data are drawn once. The reference keeps its generators and tables between calls, the archive nothing.
//! The time of a write of 16 pages is that of each: a sixteenth of the call's. A bit is altered to and fro, so that each call
//! changes the page. A sub-word, or a page, is damaged anew before each call that mends it, by a copy of the page, which is
//! timed with it. Mended pages have a table of their own, in times of a CRC-32 and of judge, with what is known of decodes of
//! as many single words by Linux's BCH library.
//! Last, write on shortened sub-words in times of write on full ones, 16 pages in one call in times of single calls, an
//! altered bit in times of a write, a mended sub-word and odd syndromes in times of a CRC-32, and a mended page in times of
//! judge; ends with status 1 where one is above its limit.

use compare::call::{Call, Name, Side};
use compare::draw::many;
use compare::work::{
    ALTER_LIMITS, CRC_BYTES, FULL, LIMIT, MANY_LIMIT, MEND_LIMITS, MEND_PAGE_LIMIT, ODD_LIMITS, PAGES, PageMending,
    STRONGEST, WIDTHS, alter_stated, alterations, altering, crc, crc_table, listings, many_stated, mend_page_stated,
    mend_stated, mendings, odd_stated, page_mendings, stated, title, within,
};
use reference::Parameters;
use reference::calls::QUOTE_BYTES;
use reference::parameters::Sheet;
use reference::sample::Random;
use std::hint::black_box;
use std::time::Instant;

const SAMPLES: usize = 101;
const SAMPLE_NANOSECONDS: f64 = 1e6;
const SHEETS: [Parameters; 5] = [
    Parameters::full(4, 2, 1, [1, 2, 0, 0]),
    Parameters::full(8, 4, 2, [4, 8, 16, 0]),
    Parameters::full(12, 4, 1, [4, 12, 0, 0]).shortened(3071),
    Parameters::full(12, 8, 3, [28, 32, 39, 58]).shortened(1900),
    Parameters::full(12, 8, 3, [28, 32, 39, 58]),
];

/// Something that is timed, over and over.
struct Timed {
    run: Box<dyn FnMut()>,
    calls_in_sample: usize,
    /// The pages of a call, by which its time is divided.
    pages: usize,
    nanoseconds: Vec<f64>,
}

impl Timed {
    fn new(pages: usize, run: impl FnMut() + 'static) -> Timed {
        let mut timed = Timed { run: Box::new(run), calls_in_sample: 1, pages, nanoseconds: Vec::new() };
        timed.sample();
        while timed.sample() * (timed.calls_in_sample as f64) < SAMPLE_NANOSECONDS {
            timed.calls_in_sample *= 2;
        }
        timed
    }

    /// The mean time of a call over one sample.
    fn sample(&mut self) -> f64 {
        let start = Instant::now();
        for _ in 0..self.calls_in_sample {
            (self.run)();
        }
        start.elapsed().as_nanos() as f64 / self.calls_in_sample as f64
    }

    /// The 10th, 50th and 90th percentile of the sorted samples, for one page.
    fn percentiles(&self) -> [f64; 3] {
        let samples = &self.nanoseconds;
        [10, 50, 90].map(|percent| samples[(samples.len() - 1) * percent / 100] / self.pages as f64)
    }
}

struct Row {
    sheet: String,
    call: &'static str,
    width: String,
    /// Bytes of the page, or of the buffer of memcpy and CRC-32; 0 for a call without a page.
    bytes: usize,
    /// The archive and the reference; for memcpy and CRC-32 that alone.
    sides: Vec<(&'static str, Timed)>,
}

fn rows() -> Vec<Row> {
    let mut random = Random::new(1);
    let plain = |call, run: Timed| Row {
        sheet: String::new(),
        call,
        width: String::new(),
        bytes: CRC_BYTES,
        sides: vec![("", run)],
    };

    let (from, mut to) = (random.bytes(CRC_BYTES), vec![0; CRC_BYTES]);
    let memcpy = Timed::new(1, move || black_box(&mut to[..]).copy_from_slice(black_box(&from)));
    let (table, bytes) = (crc_table(), random.bytes(CRC_BYTES));
    assert_eq!(crc(&table, b"123456789"), 0xCBF4_3926);
    let crc = Timed::new(1, move || {
        black_box(crc(black_box(&table), black_box(&bytes)));
    });

    let mut rows = vec![plain("memcpy", memcpy), plain("CRC-32", crc)];
    rows.extend(SHEETS.into_iter().flat_map(|p| sheet_rows(&mut random, p)));
    rows.extend(mend_rows(STRONGEST));
    rows.extend(page_mendings().map(|PageMending { name, call, .. }| row(name, String::new(), call)));
    rows
}

/// A call, made over and over to the archive and to the reference.
fn row(name: &'static str, width: String, call: Call) -> Row {
    let bytes = if call.name.has_page() { Sheet::of(&call.p).page_bytes() } else { 0 };
    let outcome = call.outcome(Call::by_reference);
    let refused = call.name.refuses(outcome.number) && ![15, 17].contains(&outcome.number);
    assert!(!refused, "{name} is refused by {}", outcome.number);
    let pages = if call.name == Name::WriteMany { PAGES } else { 1 };
    assert!(pages == 1 || outcome.list.iter().all(|&listed| listed == 0), "{name} lists {:?}", outcome.list);
    let timed = |side: Side| {
        let (mut call, mut lent, mut list, mut flips) = (call.clone(), call.lent.clone(), call.list.clone(), 0);
        Timed::new(pages, move || {
            if matches!(call.name, Name::Mend | Name::MendPage) {
                lent.copy_from_slice(&call.lent);
            }
            let (read, lent, list) = (black_box(&call.read), black_box(&mut lent), black_box(&mut list));
            assert_eq!(side(black_box(&call), read, lent, list, black_box(&mut flips)), outcome.number);
            // To and fro; of no meaning to any call but alter.
            call.value ^= 1;
        })
    };
    let sides = vec![("archive", timed(Call::by_archive)), ("reference", timed(Call::by_reference))];
    Row { sheet: title(&call.p), call: name, width, bytes, sides }
}

/// Sub-words of a member mended, with more and more flips.
fn mend_rows(p: Parameters) -> Vec<Row> {
    mendings(&p).map(|(name, call)| row(name, String::new(), call)).into()
}

/// Drawn blocks, unused bits 0.
fn drawn_blocks(random: &mut Random, sheet: &Sheet) -> Vec<u8> {
    let mut blocks = vec![0; sheet.blocks_bytes()];
    sheet.put_blocks(&sheet.words_of_blocks(&random.bytes(sheet.blocks_bytes())), &mut blocks);
    blocks
}

/// Every call on a member of drawn data.
fn sheet_rows(random: &mut Random, p: Parameters) -> Vec<Row> {
    let sheet = Sheet::of(&p);
    let blocks = drawn_blocks(random, &sheet);
    let mut page = vec![0; sheet.page_bytes()];
    let write = |number| Call::new(Name::Write, &p, number, blocks.clone(), vec![0; sheet.page_bytes()]);
    assert_eq!(write(64).by_reference(&blocks, &mut page, &mut [], &mut 0), 0);
    let read = |name, lent| Call::new(name, &p, 0, page.clone(), vec![0; lent]);
    let without_page = |name, lent| Call::new(name, &p, 0, Vec::new(), vec![0; lent]);
    let sets: Vec<Vec<u8>> = (0..PAGES).map(|_| drawn_blocks(random, &sheet)).collect();
    let write_many = many(random, &p, &sets);

    let mut rows: Vec<Row> = WIDTHS.into_iter().map(|width| row("write", width.to_string(), write(width))).collect();
    rows.extend(
        WIDTHS
            .into_iter()
            .map(|number| row("write of 16 pages (each)", number.to_string(), Call { number, ..write_many.clone() })),
    );
    let plain = |name, call| row(name, String::new(), call);
    rows.extend(alterations(&p).map(|(name, block, bit)| plain(name, altering(&p, &page, block, bit))));
    rows.extend(mend_rows(p));
    rows.push(plain("read out", read(Name::ReadOut, blocks.len())));
    rows.push(plain("judge", read(Name::Judge, 0)));
    rows.extend(listings(&p, &page).map(|(name, call)| plain(name, call)));
    rows.push(plain("quote", without_page(Name::Quote, QUOTE_BYTES)));
    let sizes = [("page bytes", Name::PageBytes), ("data bytes", Name::DataBytes), ("distance", Name::Distance)];
    rows.extend(sizes.map(|(name, call)| plain(name, without_page(call, 0))));
    rows
}

fn machine() -> String {
    let text = std::fs::read_to_string("/proc/cpuinfo").unwrap_or_default();
    let field = |name: &str| {
        let line = text.lines().find(|line| line.starts_with(name));
        line.and_then(|line| line.split(':').nth(1)).map_or("unknown", str::trim).to_string()
    };
    let processors = text.lines().filter(|line| line.starts_with("processor")).count();
    let load = std::fs::read_to_string("/proc/loadavg").unwrap_or_default();
    let load = load.split(' ').next().unwrap_or_default();
    let (model, clock, cache) = (field("model name"), field("cpu MHz"), field("cache size"));
    format!("{model}, {clock} MHz, cache {cache}, {processors} processors, load {load}")
}

/// Nanoseconds or microseconds, three digits.
fn shown(nanoseconds: f64) -> String {
    match nanoseconds {
        n if n < 99.95 => format!("{n:.1} ns"),
        n if n < 999.5 => format!("{n:.0} ns"),
        n if n < 99_950.0 => format!("{:.1} µs", n / 1000.0),
        n => format!("{:.0} µs", n / 1000.0),
    }
}

fn main() {
    let mut rows = rows();
    for _ in 0..SAMPLES {
        for (_, timed) in rows.iter_mut().flat_map(|row| &mut row.sides) {
            let time = timed.sample();
            timed.nanoseconds.push(time);
        }
    }
    for (_, timed) in rows.iter_mut().flat_map(|row| &mut row.sides) {
        timed.nanoseconds.sort_by(f64::total_cmp);
    }

    let with_spread = |timed: &Timed| {
        let [low, median, high] = timed.percentiles().map(shown);
        format!("{median} ({low} to {high})")
    };
    println!("{}; medians of {SAMPLES} samples (10 % to 90 %)\n", machine());
    println!("| 4,096 bytes | time |\n|---|---|");
    for row in rows.iter().filter(|row| row.sides.len() == 1) {
        println!("| {} | {} |", row.call, with_spread(&row.sides[0].1));
    }
    let median = |timed: &Timed| timed.percentiles()[1];
    let crc = rows.iter().find(|row| row.call == "CRC-32").map_or(1.0, |row| median(&row.sides[0].1));
    println!(
        "\n| sheet | page bytes | call | width | archive | of a CRC-32 of 4,096 bytes | per byte | reference | reference to archive |"
    );
    println!("|---|---|---|---|---|---|---|---|---|");
    for row in rows.iter().filter(|row| row.sides.len() == 2 && row.bytes > 0) {
        let Row { sheet, call, width, bytes, sides } = row;
        let time = median(&sides[0].1);
        let (of_crc, per_byte, slower) = (time / crc, time / *bytes as f64, median(&sides[1].1) / time);
        let (archive, reference) = (with_spread(&sides[0].1), with_spread(&sides[1].1));
        println!(
            "| {sheet} | {bytes} | {call} | {width} | {archive} | {of_crc:.2} | {per_byte:.2} ns | {reference} | {slower:.1} |"
        );
    }
    println!(
        "\n| sheet | call without a page | archive | of a CRC-32 of 4,096 bytes | reference | reference to archive |"
    );
    println!("|---|---|---|---|---|---|");
    for Row { sheet, call, sides, .. } in rows.iter().filter(|row| row.bytes == 0) {
        let time = median(&sides[0].1);
        let (of_crc, slower) = (time / crc, median(&sides[1].1) / time);
        let (archive, reference) = (with_spread(&sides[0].1), with_spread(&sides[1].1));
        println!("| {sheet} | {call} | {archive} | {of_crc:.4} | {reference} | {slower:.1} |");
    }

    println!(
        "\n| {}, page mended | archive | of a CRC-32 of 4,096 bytes | of judge | Linux's decodes, of a CRC-32 |\n|---|---|---|---|---|",
        title(&FULL)
    );
    let time_of = |call: &str| {
        let found = rows.iter().find(|row| row.sheet == title(&FULL) && row.call == call);
        &found.expect("a call that is timed").sides[0].1
    };
    let judge = median(time_of("judge"));
    for PageMending { name, linux, .. } in page_mendings() {
        let timed = time_of(name);
        let (archive, time) = (with_spread(timed), median(timed));
        let (of_crc, of_judge) = (time / crc, time / judge);
        let linux = linux.map_or("–".to_string(), |[least, most]| format!("{least:.1} to {most:.1}"));
        println!("| {name} | {archive} | {of_crc:.2} | {of_judge:.2} | {linux} |");
    }

    if let Some(file) = std::env::args().nth(1) {
        let mut csv = "sheet,call,width,side,bytes,bits,median_ns,low_ns,high_ns,samples,calls_in_sample\n".to_string();
        for Row { sheet, call, width, bytes, sides } in &rows {
            for (side, timed) in sides {
                let [low, median, high] = timed.percentiles();
                let (bits, calls) = (8 * bytes, timed.calls_in_sample);
                let times = format!("{median:.1},{low:.1},{high:.1}");
                csv += &format!("{sheet},{call},{width},{side},{bytes},{bits},{times},{SAMPLES},{calls}\n");
            }
        }
        std::fs::write(&file, csv).expect("the file can be written");
    }

    let ((line, ratios), (many_line, many)) = (stated(), many_stated());
    let ((alter_line, alter), (mend_line, mend)) = (alter_stated(), mend_stated());
    let ((odd_line, odd), (page_line, page)) = (odd_stated(), mend_page_stated());
    println!("\n{line}.\n\n{many_line}.\n\n{alter_line}.\n\n{mend_line}.\n\n{odd_line}.\n\n{page_line}.");
    let kept = within(ratios, [LIMIT]) && within(many, [MANY_LIMIT]) && within(odd, ODD_LIMITS);
    if !(kept && within(alter, ALTER_LIMITS) && within(mend, MEND_LIMITS) && within(page, [MEND_PAGE_LIMIT])) {
        std::process::exit(1);
    }
}
