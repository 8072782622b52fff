#!/usr/bin/env bash
# Times of the library's leaves, which the archive of the C calls does not export: a copy of the repository gets the crate
# leaves/crate (its files end in .txt here, being in no crate of the gate), whose archive is measured by leaves/bench.c.
# Prints a markdown table.
set -euo pipefail
cd "$(dirname "$0")"
copy=$(mktemp -d)
trap 'rm -rf "$copy"' EXIT
cp -r ../crates ../crates.txt "$copy"
cp -r leaves/crate "$copy/crates/leaves"
find "$copy/crates/leaves" -name '*.txt' -exec sh -c 'mv "$1" "${1%.txt}"' _ {} \;
echo 'leaves staticlib: polynomial field generator code tables element kernels reduction generator_rows sheet levels layout' >> "$copy/crates.txt"
(cd "$copy/crates/leaves" && rt lib && cd ../gii_bch && rt lib) > target/leaves.log
gcc -std=c11 -Wall -Wextra -Werror -O2 -I../include leaves/bench.c "$copy/crates/leaves/out/libleaves.a" "$copy/crates/gii_bch/out/libgii_bch.a" -o target/leaves
target/leaves
