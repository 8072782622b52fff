//! Degrees, data bytes, rate and distance of usual sheets, as a markdown table.

use reference::parameters::{Parameters, Sheet};

const SHEETS: [Parameters; 20] = [
    Parameters::full(4, 2, 1, [1, 2, 0, 0]),
    Parameters::full(4, 3, 2, [1, 2, 3, 0]),
    Parameters::full(4, 4, 2, [1, 2, 2, 0]),
    Parameters::full(8, 4, 1, [2, 6, 0, 0]),
    Parameters::full(8, 4, 2, [4, 8, 16, 0]),
    Parameters::full(8, 8, 1, [3, 8, 0, 0]),
    Parameters::full(8, 8, 3, [2, 4, 8, 15]),
    Parameters::full(8, 8, 3, [4, 6, 8, 16]),
    Parameters::full(12, 4, 1, [8, 24, 0, 0]),
    Parameters::full(12, 8, 1, [16, 48, 0, 0]),
    Parameters::full(12, 8, 2, [16, 24, 48, 0]),
    Parameters::full(12, 8, 3, [16, 24, 32, 64]),
    Parameters::full(12, 8, 3, [28, 32, 39, 58]),
    Parameters::full(12, 8, 3, [40, 48, 56, 64]),
    // Pages of 16, 128, 256, 512 and 2,048 bytes without spare bits, and one with five spare bits a sub-word.
    Parameters::full(8, 2, 1, [2, 4, 0, 0]).shortened(191),
    Parameters::full(8, 8, 1, [2, 6, 0, 0]).shortened(127),
    Parameters::full(12, 4, 1, [2, 6, 0, 0]).shortened(3583),
    Parameters::full(12, 4, 1, [4, 12, 0, 0]).shortened(3071),
    Parameters::full(12, 8, 3, [16, 24, 32, 64]).shortened(2047),
    Parameters::full(12, 8, 3, [28, 32, 39, 58]).shortened(1900),
];

fn main() {
    println!("| q | m | v | t_0 .. t_v | s | degrees | data bytes | page bytes | data bits | distance |");
    println!("|---|---|---|---|---|---|---|---|---|---|");
    for p in SHEETS {
        let Parameters { q, m, v, t, s } = p;
        let refusal = p.refusal();
        let strengths: Vec<String> = t[..=v as usize].iter().map(u32::to_string).collect();
        if refusal != 0 {
            panic!("q {q} m {m} v {v} t {} s {s}: refused, {refusal}", strengths.join(" "));
        }
        let sheet = Sheet::of(&p);
        let degrees: Vec<String> = (0..=v as usize).rev().map(|l| sheet.level(l).degree().to_string()).collect();
        let bits: usize = (0..m as usize).map(|i| sheet.block_bits(i)).sum();
        let all = sheet.m * sheet.stored();
        println!(
            "| {q} | {m} | {v} | {} | {s} | {} | {} | {} | {bits} of {all} ({:.1} %) | {} |",
            strengths.join(", "),
            degrees.join(", "),
            sheet.blocks_bytes(),
            sheet.page_bytes(),
            100.0 * bits as f64 / all as f64,
            sheet.distance()
        );
    }
}
