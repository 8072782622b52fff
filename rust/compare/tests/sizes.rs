//! Sizes: what the crate gii-bch gives of a sheet by the archive's calls, beside the reference.

use compare::call::sheet;
use compare::draw::{count, one_in, seed};
use gii_bch::{Refusal, Sheet as Made};
use reference::parameters::{Parameters, Sheet};
use reference::sample::{Random, all_parameters, all_shortened};

fn compare(p: &Parameters) {
    let (made, expected) = (sheet(p), Sheet::of(p));
    assert_eq!(made.test(), Ok(()), "{p:?}");
    assert_eq!(made.page_bytes(), Ok(expected.page_bytes()), "{p:?}");
    assert_eq!(made.data_bytes(), Ok(expected.blocks_bytes()), "{p:?}");
    assert_eq!(made.distance(), Ok(expected.distance()), "{p:?}");
    (0..p.m).for_each(|i| assert_eq!(made.block_bits(i), Ok(expected.block_bits(i as usize)), "{p:?}, block {i}"));
    assert_eq!(made.list_bytes(), Ok(2 * expected.levels[0].t), "{p:?}");
    (0..p.v).for_each(|l| {
        assert_eq!(made.nested_list_bytes(l), Ok(2 * expected.nested_level(l as usize).t), "{p:?}, nested word {l}")
    });
    (0..=p.v).for_each(|a| assert_eq!(made.all_bytes(a), Ok(4 * expected.levels[a as usize].t), "{p:?}, level {a}"));
    assert_eq!(made.places_bytes(), Ok(2 * expected.levels[0].t), "{p:?}");
    assert_eq!(made.block_bits(p.m), Err(Refusal::Index));
    assert_eq!(made.nested_list_bytes(p.v), Err(Refusal::Index));
    assert_eq!(made.all_bytes(p.v + 1), Err(Refusal::Index));

    let quote = made.quote().unwrap();
    for (a, degree) in quote.degrees.into_iter().enumerate() {
        assert_eq!(usize::from(degree), expected.levels.get(a).map_or(0, |level| level.degree()), "{p:?}, level {a}");
    }
    for (i, bits) in quote.data_bits.into_iter().enumerate() {
        let expected = if i < expected.m { expected.block_bits(i) } else { 0 };
        assert_eq!(usize::from(bits), expected, "{p:?}, block {i}");
    }
}

fn refused(made: &Made, refusal: Refusal) {
    assert_eq!(made.quote(), Err(refusal), "{made:?}");
    for size in [Made::page_bytes, Made::data_bytes, Made::distance, Made::list_bytes] {
        assert_eq!(size(made), Err(refusal), "{made:?}");
    }
    assert_eq!(made.block_bits(0), Err(refusal), "{made:?}");
    assert_eq!(made.nested_list_bytes(0), Err(refusal), "{made:?}");
    assert_eq!(made.all_bytes(0), Err(refusal), "{made:?}");
}

/// A sheet at every s that is accepted, and the first and some others that are not.
fn compare_shortened(p: &Parameters) {
    all_shortened(p).step_by(one_in()).for_each(|p| compare(&p));
    let (most, n) = (p.most(), (1 << p.q) - 1);
    for s in [most + 1, most + 2, n, n + 1, most + (1 << 8).max(n), most + (1 << 16), u32::MAX - most, u32::MAX] {
        refused(&sheet(&p.shortened(s)), Refusal::Shortening);
    }
}

/// All sheets of q = 4; at q = 8 and 12 all pairs of strengths, and drawn sheets of more levels; every s of some of them. The
/// header's greatest sizes are met, and none is above.
#[test]
fn sizes_of_sheets() {
    all_parameters(4, 8).iter().for_each(compare_shortened);
    let mut random = Random::new(seed());
    for q in [8, 12] {
        (0..count(200)).for_each(|_| compare(&random.parameters(q)));
        (0..6).for_each(|_| compare_shortened(&random.parameters(q)));
    }
    let [mut page, mut data, mut list, mut all] = [0; 4];
    // The least, the greatest and, but where lists are thinned out, all between.
    let strengths = |least: u32, greatest: u32| {
        (least..=greatest).filter(move |&t| t == least || (greatest - t) % one_in() as u32 == 0)
    };
    for (q, m) in [(8, 2), (8, 8), (12, 2), (12, 8)] {
        for t1 in strengths(2, 64) {
            for t0 in strengths(1, t1 - 1) {
                let p = Parameters::full(q, m, 1, [t0, t1, 0, 0]);
                let made = sheet(&p);
                match made.test() {
                    Ok(()) => compare(&p),
                    Err(refusal) => {
                        assert_eq!(refusal.number(), p.refusal(), "{p:?}");
                        refused(&made, refusal);
                        continue;
                    }
                }
                page = page.max(made.page_bytes().unwrap());
                data = data.max(made.data_bytes().unwrap());
                list = list.max(made.nested_list_bytes(0).unwrap());
                all = all.max(made.all_bytes(1).unwrap());
            }
        }
    }
    assert_eq!((page, data, list, all), (4096, 4086, 128, 256));
}
