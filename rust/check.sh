#!/usr/bin/env bash
# All that surrounds the archive, in one run: what it exports and needs, the header in C and C++, the installed library under the
# C program, the stack of the calls, any calls from C, the Rust crate's examples, the reference, the comparison, the time that
# shortened sub-words and many pages in one call save and an altered bit, a mended sub-word, a mended page and odd syndromes take,
# any calls beside the reference. The archive is that of GII_ARCHIVE (a path from rust/), or ../crates/gii_bch/out/libgii_bch.a; FUZZ sets the number
# of any calls.
set -euo pipefail
cd "$(dirname "$0")"
../tools/needed.sh gcc g++ cargo nm
archive=${GII_ARCHIVE:-../crates/gii_bch/out/libgii_bch.a}
[ -f "$archive" ] || { echo "there is no archive at $archive (from rust/): 'rt lib' in crates/gii_bch makes it"; exit 1; }
mkdir -p target
warnings=(-pedantic -Wall -Wextra -Werror)

# The stand-in is built with Rust's own library: it exports and needs more.
if [ -z "${GII_ARCHIVE:-}" ]; then
    nm -g --defined-only "$archive" | awk 'NF == 3 { print $3 }' | sort -u > target/exported
    nm -u "$archive" | awk 'NF == 2 { print $2 }' | sort -u | comm -23 - target/exported > target/undefined
    exported=$(xargs < target/exported)
    undefined=$(xargs < target/undefined)
    expected="gii_all_syndromes gii_alter gii_data_bytes gii_distance gii_judge gii_mend gii_mend_page gii_nested_syndromes gii_page_bytes gii_quote gii_read_out gii_syndromes gii_write gii_write_many"
    [ "$exported" = "$expected" ] || { echo "the archive exports $exported"; exit 1; }
    [ "$undefined" = "memcpy memset" ] || { echo "the archive needs $undefined"; exit 1; }
    echo "the archive exports $exported and needs $undefined"
fi

# The C side takes one processor: the Rust side is built beside it.
(cargo test --offline --quiet --release --no-run && cargo build --offline --quiet --release) > target/built 2>&1 &
built=$!

echo '#include "gii_bch.h"' > target/header.c
gcc -std=c99 "${warnings[@]}" -fsyntax-only -I../include target/header.c
g++ -std=c++11 "${warnings[@]}" -fsyntax-only -I../include -x c++ target/header.c

# The C program, from what install.sh has put away and pkg-config says of it.
rm -rf target/installed target/staged
PREFIX=$PWD/target/installed ../install.sh
DESTDIR=$PWD/target/staged PREFIX=/usr ../install.sh > target/staged.out
grep -qx 'prefix=/usr' target/staged/usr/lib/pkgconfig/gii_bch.pc
version=$(sed -n 's/^version = "\(.*\)"$/\1/p' Cargo.toml)
if command -v pkg-config > /dev/null; then
    export PKG_CONFIG_PATH=$PWD/target/installed/lib/pkgconfig
    pkg-config --exact-version="$version" gii_bch || { echo "the header and rust/Cargo.toml ($version) have different versions"; exit 1; }
    read -ra flags < <(pkg-config --cflags --libs gii_bch)
else
    # No pkg-config on this machine: the file's variables and flags are read as shell.
    echo 'pkg-config is not here: gii_bch.pc is read without it'
    said=$(sed -n -e '/^[a-z]*=/p' -e 's/^Version: *\(.*\)/version_said="\1"/p' -e 's/^Cflags: *\(.*\)/cflags="\1"/p' -e 's/^Libs: *\(.*\)/libs="\1"/p' target/installed/lib/pkgconfig/gii_bch.pc)
    eval "$said"
    [ "$version_said" = "$version" ] || { echo "the header ($version_said) and rust/Cargo.toml ($version) have different versions"; exit 1; }
    read -ra flags <<< "$cflags $libs"
fi
gcc -std=c99 "${warnings[@]}" -O2 ../examples/c/demo.c "${flags[@]}" -o target/demo
target/demo > target/demo.out || { cat target/demo.out; exit 1; }
tail -n 1 target/demo.out

gcc -std=c11 "${warnings[@]}" -O2 -pthread -I../include stack.c "$archive" -o target/stack
target/stack
gcc -std=c11 "${warnings[@]}" -O1 -g -fsanitize=address,undefined -fno-sanitize-recover=all -I../include fuzz.c "$archive" -o target/fuzz-sanitized
target/fuzz-sanitized 100000 1
gcc -std=c11 "${warnings[@]}" -O2 -g -I../include fuzz.c "$archive" -o target/fuzz-plain

if command -v valgrind > /dev/null; then
    valgrind --quiet --error-exitcode=9 target/demo > target/demo.out
    valgrind --quiet --error-exitcode=9 target/fuzz-plain 1000 2
else
    echo 'valgrind is not here: the runs under it are left out'
fi

wait "$built" || { cat target/built; exit 1; }
cat target/built

# The tests, the comparison and the examples of gii-bch's documentation among them.
cargo test --offline --quiet --release
target/release/sheets > target/sheets.md
sed -n '/^|/p' ../docs/SHEETS.md | cmp -s - target/sheets.md || { echo 'docs/SHEETS.md is not what cargo run --release --bin sheets makes'; exit 1; }
target/release/fuzz "${FUZZ:-360000}"
