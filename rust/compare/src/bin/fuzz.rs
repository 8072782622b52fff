//! Any calls, archive and reference alike: fuzz CALLS, 100,000 if none is given. The seed is GII_SEED, or 1.

use compare::call::{NAMES, Name, Outcome};
use compare::draw;
use reference::sample::Random;
use std::collections::BTreeMap;

fn main() {
    let calls: u64 = std::env::args().nth(1).map_or(100_000, |text| text.parse().expect("a number of calls"));
    let seed = draw::seed();
    println!("fuzz: {calls} calls, seed {seed}");
    let mut random = Random::new(seed);
    let mut answers = BTreeMap::new();
    let mut pages = BTreeMap::new();
    let mut altered = 0;
    let mut mended = BTreeMap::new();
    let mut mended_pages = [0, 0];
    for count in 1..=calls {
        let call = draw::any(&mut random);
        match call.compare(random.from_to(0, 255)) {
            Ok(Outcome { number, lent, list, flips }) => {
                // Sizes are counted together.
                let number = if call.name.is_size() { number.min(1) } else { number };
                *answers.entry((call.name, number)).or_insert(0) += 1;
                if call.name == Name::WriteMany && number == 0 {
                    list.iter().for_each(|listed| *pages.entry(*listed).or_insert(0) += 1);
                }
                altered += u64::from(call.name == Name::Alter && lent != call.lent);
                if call.name == Name::Mend && number == 0 {
                    *mended.entry(flips).or_insert(0) += 1;
                }
                if call.name == Name::MendPage && number == 0 {
                    mended_pages[usize::from(lent != call.lent)] += 1;
                }
            }
            Err(found) => {
                println!("seed {seed}, call {count}: {found}");
                std::process::exit(1);
            }
        }
        if count % 1_000_000 == 0 {
            println!("{count} calls");
        }
    }
    for name in NAMES {
        let of_name: Vec<String> = answers
            .iter()
            .filter(|((of, _), _)| *of == name)
            .map(|((_, number), times)| match number {
                1 if name.is_size() => format!("a size: {times}"),
                number => format!("{number}: {times}"),
            })
            .collect();
        println!("{name:?}  {}", of_name.join(", "));
    }
    let listed: Vec<String> = pages.iter().map(|(listed, times)| format!("{listed}: {times}")).collect();
    println!("of many pages listed  {}; pages altered  {altered}", listed.join(", "));
    let flips: Vec<String> = mended.iter().map(|(flips, times)| format!("{flips}: {times}")).collect();
    let [without, with] = mended_pages;
    println!("flips of mended sub-words  {}; pages mended  {with}, without faults  {without}", flips.join(", "));
    println!("{calls} calls alike");
}
