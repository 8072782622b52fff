#!/usr/bin/env bash
# Whether the stored files that tools make are what the tools make today. Says which is not and how it is made; ends with 1.
set -uo pipefail
cd "$(dirname "$0")/.."
made=$(mktemp -d)
trap 'rm -rf "$made"' EXIT

# same MADE STORED COMMAND
same() {
    cmp -s "$1" "$2" || { echo "$2 is not what its tool makes: $3" >&2; return 1; }
}

trial() {
    mkdir "$made/trial" && python3 tools/trial.py "$made/trial" || return 1
    local k wrong=0
    for k in stdin stdout; do
        same "$made/trial/$k" "crates/gate_trial/$k" 'python3 tools/trial.py crates/gate_trial' || wrong=1
    done
    return $wrong
}

rest() {
    local wrong=0
    python3 tools/tables.py --check || wrong=1
    python3 tools/cases.py --check || wrong=1
    python3 tools/counter.py > "$made/counter" && same "$made/counter" crates/gate_counter/stdout 'python3 tools/counter.py > crates/gate_counter/stdout' || wrong=1
    python3 tools/quote.py > "$made/quote" && same "$made/quote" crates/quote/stdout 'python3 tools/quote.py > crates/quote/stdout' || wrong=1
    python3 tools/layout.py "$made/layout.svg" && same "$made/layout.svg" docs/layout.svg 'python3 tools/layout.py docs/layout.svg' || wrong=1
    return $wrong
}

# Two at a time.
trial &
rest && others=0 || others=1
wait $! && [ $others = 0 ] && echo 'made files: as their tools make them'
