#!/usr/bin/env bash
# Whether the named tools are there: tools/needed.sh TOOL ... Says of each that is not what it is for, and ends with 1.
set -uo pipefail
cd "$(dirname "$0")/.."
rust=$(sed -n 's/^rust-version = "\(.*\)"$/\1/p' rust/Cargo.toml)
missing=0

lacks() {
    echo "needed and not here: $1" >&2
    missing=1
}

for tool; do
    if ! command -v "$tool" > /dev/null; then
        case $tool in
        rt) lacks 'rt, the Rattle kit, which proves and builds the crates' ;;
        gcc) lacks 'gcc, for the C programs on the archive' ;;
        g++) lacks 'g++, for the header in C++' ;;
        cargo) lacks "cargo of Rust $rust or later, for the comparison with the independent encoder" ;;
        python3) lacks 'python3, which works out cases beside the library' ;;
        nm) lacks 'nm (binutils), which lists what the archive exports and needs' ;;
        *) lacks "$tool" ;;
        esac
    elif [ "$tool" = cargo ]; then
        found=$(cargo --version | awk '{ print $2 }')
        [ "$(printf '%s\n' "$rust" "$found" | sort -V | head -n 1)" = "$rust" ] || lacks "cargo of Rust $rust or later; here is $found"
    fi
done
exit $missing
