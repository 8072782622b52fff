//! Refusals: every set of conditions that a call can meet gives the number of the first, no size is given, and every byte
//! stays. A blank page, which is no refusal, has its place among them. Full sub-words and shortened ones.

use compare::call::{Call, NAMES, Name};
use compare::draw::{conditions, exact, many_drawn, one_in, say, seed, spoil};
use reference::Parameters;
use reference::calls::{BLANK, QUOTE_BYTES};
use reference::parameters::Sheet;
use reference::sample::{Random, all_parameters, all_shortened};
use std::collections::BTreeSet;

/// A small sheet.
const A: Parameters = Parameters::full(4, 2, 1, [1, 2, 0, 0]);

/// Every set of conditions, met by each call, on the given parameters.
fn refuse(random: &mut Random, p: &Parameters, met: &mut BTreeSet<(Name, u32)>) -> usize {
    let mut calls = 0;
    for name in NAMES {
        let all = conditions(name);
        for chosen in 1usize..1 << all.len() {
            let mut call = exact(random, name, p);
            // The last first: an earlier one may alter what a later one is measured by.
            let chosen: Vec<u32> = (0..all.len()).filter(|k| chosen >> k & 1 == 1).map(|k| all[k]).collect();
            if !chosen.iter().rev().all(|&condition| spoil(random, &mut call, condition)) {
                continue;
            }
            calls += 1;
            let outcome = call
                .compare(random.from_to(0, 255))
                .unwrap_or_else(|found| panic!("seed {}, conditions {chosen:?}: {found}", seed()));
            let number = name.refused_by(chosen[0]);
            assert_eq!(outcome.number, number, "{name:?} {p:?}, conditions {chosen:?}");
            match (name, number) {
                (Name::ReadOut, BLANK) => assert_eq!(outcome.lent, Sheet::of(p).ones(), "{p:?}, conditions {chosen:?}"),
                _ => assert_eq!(outcome, call.refused(number)),
            }
            met.insert((name, chosen[0]));
        }
    }
    calls
}

#[test]
fn first_number_and_untouched_bytes() {
    let mut random = Random::new(seed());
    let mut met = BTreeSet::new();
    let mut calls = 0;
    let mut sheets: Vec<Parameters> = all_parameters(4, 8).iter().flat_map(all_shortened).collect();
    for (q, pairs) in [(8, 15), (12, 1)] {
        for _ in 0..pairs {
            let p = random.parameters(q);
            sheets.extend([p, random.shortened(&p)]);
        }
    }
    let sheets: Vec<Parameters> = sheets.into_iter().step_by(one_in()).collect();
    for p in &sheets {
        calls += refuse(&mut random, p, &mut met);
    }
    say(&format!("refusals: {} sheets, {calls} calls, seed {}", sheets.len(), seed()));
    for name in NAMES {
        for &condition in conditions(name) {
            assert!(met.contains(&(name, condition)), "{name:?} never gave {condition}");
        }
    }
}

/// Sheets on which a number is gone through.
const BASES: [Parameters; 3] = [
    Parameters::full(4, 3, 2, [1, 2, 3, 0]),
    Parameters::full(8, 4, 3, [4, 8, 16, 42]),
    Parameters::full(12, 4, 1, [1, 2, 0, 0]),
];

/// Small numbers, some round powers of 2, the greatest.
fn wide() -> impl Iterator<Item = u32> {
    let small = (0..=140).step_by(one_in());
    small.chain([254, 255, 256, 257, 260, 264, 268, 4094, 4095, 1 << 16, 1 << 31, u32::MAX - 1, u32::MAX])
}

/// Each number of the parameters over a range, the others right: the edges of every rule.
#[test]
fn every_parameter_over_a_range() {
    let mut random = Random::new(seed() + 1);
    let mut calls = 0;
    let mut compare = |random: &mut Random, p: Parameters| {
        for name in NAMES {
            // Buffers that fit the parameters where these are accepted, and those of sheet A where not.
            let exact_for = if p.accepted() { p } else { A };
            let call = Call { p, ..exact(random, name, &exact_for) };
            calls += 1;
            if let Err(found) = call.compare(0) {
                panic!("seed {}: {found}", seed());
            }
        }
    };
    for base in BASES {
        for number in wide() {
            compare(&mut random, Parameters { q: number, ..base });
            compare(&mut random, Parameters { m: number, ..base });
            compare(&mut random, Parameters { v: number, ..base });
            for place in 0..4 {
                let mut t = base.t;
                t[place] = number;
                compare(&mut random, Parameters { t, ..base });
            }
            compare(&mut random, base.shortened(number));
        }
        // Round the greatest s and n, at the end of the numbers, and s that would pass modulo a power of 2.
        let (most, n) = (base.most(), (1 << base.q) - 1);
        let near =
            (most.saturating_sub(9)..=most + 9).chain(n - 2..=n + 2).chain(u32::MAX - most - 1..=u32::MAX - most + 1);
        let modulo = [8, 12, 15, 16, 24, 31].into_iter().flat_map(|power| [0, 1, most].map(|s| s + (1 << power)));
        for s in near.chain(modulo) {
            compare(&mut random, base.shortened(s));
        }
    }
    // Every shape and every pair of strengths of q = 4, accepted or not.
    for m in 0..=9 {
        for t0 in 0..=9 {
            for t1 in 0..=9 {
                compare(&mut random, Parameters::full(4, m, 1, [t0, t1, 0, 0]));
            }
        }
    }
    say(&format!("parameters: {calls} calls, seed {}", seed()));
}

/// Each width and each count of pages over a range, with buffers that fit: 5 and 9, but for 1 to 64 and 1 to 16.
#[test]
fn every_width_and_count_over_a_range() {
    let mut random = Random::new(seed() + 5);
    for base in BASES {
        for p in [base, random.shortened(&base)] {
            for number in wide() {
                let answer = |call: &Call| {
                    let found = call.compare(0).unwrap_or_else(|found| panic!("seed {}: {found}", seed()));
                    let left = found == call.refused(found.number);
                    assert!(found.number == 0 || left, "{:?} {p:?}, {number}: bytes are altered", call.name);
                    found.number
                };
                for name in [Name::Write, Name::WriteMany] {
                    let expected = if (1..=64).contains(&number) { 0 } else { 5 };
                    let call = Call { number, ..exact(&mut random, name, &p) };
                    assert_eq!(answer(&call), expected, "{name:?} {p:?}, width {number}");
                }
                // For great counts those of one page.
                let pages = if number <= 40 { number } else { 1 };
                let call = Call { count: number, ..many_drawn(&mut random, &p, pages as usize) };
                let expected = if (1..=16).contains(&number) { 0 } else { 9 };
                assert_eq!(answer(&call), expected, "{p:?}, {number} pages");
            }
        }
    }
}

#[test]
fn every_length_near_the_exact_one() {
    let mut random = Random::new(seed() + 2);
    let full = [4, 8, 12].map(|q| random.parameters(q));
    let shortened = [A, full[1], full[2]].map(|p| random.shortened(&p));
    for p in full.into_iter().chain(shortened) {
        for name in NAMES.into_iter().filter(|name| name.has_page() || *name == Name::AllSyndromes) {
            let call = exact(&mut random, name, &p);
            // None, one less, the length, one more; only none where the call has no such buffer.
            let near = |exact: usize| BTreeSet::from([0, exact.saturating_sub(1), exact, exact + 1]);
            // Of one buffer all, or many: of the one that is read, and of the page of alter, mend and mend page.
            let every = |exact: usize| (0..exact + 40).filter(|&length| p.q == 4 || length + 40 > exact).collect();
            let reads = if name.reads() { every(call.read.len()) } else { BTreeSet::from([0]) };
            let lents = match name {
                _ if name.changes_page() => every(call.lent.len()),
                _ if name.writes() => near(call.lent.len()),
                _ => BTreeSet::from([0]),
            };
            let lists = if name.lists() { near(call.list.len()) } else { BTreeSet::from([0]) };
            for &read in &reads {
                for (&lent, &list) in lents.iter().flat_map(|lent| lists.iter().map(move |list| (lent, list))) {
                    let mut call = call.clone();
                    call.read.resize(read, 0);
                    call.lent.resize(lent, 0xA5);
                    call.list.resize(list, 0xA5);
                    if let Err(found) = call.compare(0) {
                        panic!("seed {}: {found}", seed());
                    }
                }
            }
        }
    }
}

/// Buffers that fit the same sheet at another s are refused where they differ: the blocks by 6, then the page by 7.
#[test]
fn lengths_of_another_shortening() {
    let mut random = Random::new(seed() + 4);
    let mut met = BTreeSet::new();
    let mut sheets = vec![A; 30];
    for (q, drawn) in [(8, 60), (12, 10)] {
        sheets.extend((0..drawn).map(|_| random.parameters(q)));
    }
    for full in sheets {
        let p = random.shortened(&full);
        for (p, of) in [(p, full), (full, p), (p, random.shortened(&full))] {
            let (sheet, other) = (Sheet::of(&p), Sheet::of(&of));
            let blocks_differ = sheet.blocks_bytes() != other.blocks_bytes();
            let pages_differ = sheet.page_bytes() != other.page_bytes();
            for name in NAMES.into_iter().filter(|name| name.has_page()) {
                let (right, wrong) = match name {
                    // As many pages, so that a length is another by s alone.
                    Name::WriteMany => {
                        let count = random.from_to(1, 16);
                        (many_drawn(&mut random, &p, count), many_drawn(&mut random, &of, count))
                    }
                    _ => (exact(&mut random, name, &p), exact(&mut random, name, &of)),
                };
                let has_blocks = matches!(name, Name::Write | Name::WriteMany | Name::ReadOut);
                for (blocks, page) in [(true, false), (false, true), (true, true)] {
                    let number = match name {
                        _ if blocks && blocks_differ && has_blocks => 6,
                        _ if page && pages_differ => 7,
                        _ => continue,
                    };
                    let (read, lent) = match name {
                        Name::Write | Name::WriteMany => (blocks, page),
                        _ if name.changes_page() => (false, page),
                        _ => (page, blocks && has_blocks),
                    };
                    let mut call = right.clone();
                    if read {
                        call.read = wrong.read.clone();
                    }
                    if lent {
                        call.lent = wrong.lent.clone();
                    }
                    let found = call.compare(0).unwrap_or_else(|found| panic!("seed {}: {found}", seed()));
                    assert_eq!(found, call.refused(number), "{name:?} {p:?} with buffers of s = {}", of.s);
                    met.insert((name, number));
                }
            }
        }
    }
    let with_blocks = [Name::Write, Name::WriteMany, Name::ReadOut].map(|name| (name, 6));
    let with_page = NAMES.into_iter().filter(|name| name.has_page()).map(|name| (name, 7));
    assert_eq!(met, with_page.chain(with_blocks).collect());
}

/// Every length of the quote's list but one is refused by 10, and only where the parameters are not refused.
#[test]
fn every_length_of_a_quote() {
    let mut random = Random::new(seed() + 3);
    let clash = Parameters::full(4, 4, 2, [1, 2, 3, 0]);
    let refused = [
        Parameters { q: 5, ..A },
        Parameters { m: 1, ..A },
        Parameters { t: [2, 2, 0, 0], ..A },
        clash,
        clash.shortened(u32::MAX),
        A.shortened(A.most() + 1),
        A.shortened(u32::MAX),
    ];
    assert_eq!(refused.map(|p| p.refusal()), [1, 2, 3, 4, 4, 14, 14]);
    let drawn = [4, 8, 12].map(|q| random.parameters(q));
    let shortened = [A, drawn[1], drawn[2]].map(|p| random.shortened(&p));
    for p in refused.into_iter().chain([A]).chain(drawn).chain(shortened) {
        // Small ones, and ones that are the exact length modulo 2^8 or 2^16.
        for length in (0..=4 * QUOTE_BYTES).chain([QUOTE_BYTES + (1 << 8), QUOTE_BYTES + (1 << 16)]) {
            let call = Call::new(Name::Quote, &p, 0, Vec::new(), random.bytes(length));
            let found = call.compare(length).unwrap_or_else(|found| panic!("seed {}: {found}", seed()));
            let expected = match p.refusal() {
                0 if length == QUOTE_BYTES => 0,
                0 => 10,
                refusal => refusal,
            };
            assert_eq!(found.number, expected, "{p:?}, {length} bytes");
            assert!(expected == 0 || found == call.refused(expected), "{p:?}, {length} bytes");
        }
    }
}
