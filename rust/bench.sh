#!/usr/bin/env bash
# The benchmark, on a machine that does nothing else: times of the C calls and of the library's leaves into
# docs/BENCHMARKS.md, and their drawing into docs/benchmarks.svg. Prints what shortened sub-words save, what 16 pages in one
# call do, what an altered bit takes of a write, a mended sub-word and odd syndromes of a CRC-32, and a mended page of judge,
# and fails where that is too little or too much.
set -euo pipefail
cd "$(dirname "$0")"
mkdir -p target
(cd ../crates/gii_bch && rt lib) > target/bench.log
cargo build --offline --quiet --release -p compare
target/release/bench target/figures.csv > target/calls.md || { tail -n 11 target/calls.md; echo 'writes of shortened sub-words, or of 16 pages in one call, or an altered bit, or a mended sub-word, or odd syndromes, or a page without faults that is mended, are slower than that'; exit 1; }
./leaves.sh > target/leaves.md
python3 plot.py target/figures.csv ../docs/benchmarks.svg
cat > ../docs/BENCHMARKS.md <<TEXT
# Benchmarks

Made by \`rust/bench.sh\` from the archive that \`rt lib\` builds in crates/gii_bch. *Archive* is that archive's calls: in each call the sheet is tested, the generators are read from constants and their tables made; nothing is kept between
calls. A write of 16 pages is one call, and its time that of each page. A bit is altered to and fro: each call changes the page. The last sub-word of a member is mended, damaged anew
before each call by a copy of the page, which takes about 0.1 µs and is timed with it; with t0 + 5 flips it is refused, if t0 is not small. So is a page that is mended, of the sheet q 12, m 8, v 3, t 28, 32, 39, 58; with t_v flips in v + 1 sub-words it is refused. Beside it stand the decodes of as many single words by Linux's BCH library, in times of a CRC-32, measured on a machine where that takes 13 µs: 26 to 40 µs of t 28 with 28 flips (14 µs with 14), 90 of t 58 with 58; those of t 32 and 39 are taken to be between. Odd syndromes are S_1, S_3, .., t_0 of sub-word 0 and t_v of nested word 0; all are S_1, S_2, .., made from the latter. *Reference* is the independent Rust encoder of \`rust/reference\`, written for comparison and not for speed; it keeps its generators and tables between calls. CRC-32 is a table CRC, a byte at a time.

![Time against width, and against the page's bits](benchmarks.svg)

## The C calls

$(cat target/calls.md)

## Leaves

On the sheet q 12, m 8, v 3, t 28, 32, 39, 58, beside plain versions that take a coefficient or a root at a time, on drawn data.

$(cat target/leaves.md)
TEXT
tail -n 11 target/calls.md
