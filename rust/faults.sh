#!/usr/bin/env bash
# Whether the tests find what is wrong: the reference stands in for the archive, first as it is, which every test must
# pass, then with one fault at a time, which some test must find; NAME@s is a fault on shortened sub-words alone. Prints for
# each fault the tests that fail, and whether the any calls part; last, how many were tried and not found. Faults that are
# named are tried alone.
set -euo pipefail
cd "$(dirname "$0")"
export GII_ARCHIVE=target/release/libstandin.a GII_CASES=${GII_CASES:-2}
cargo build --offline --quiet --release -p standin
cargo build --offline --quiet --release -p compare --tests
cargo build --offline --quiet --release -p compare

run() { GII_FAULT=$1 cargo test --offline --quiet --release -p compare --no-fail-fast > target/faults.out 2>&1; }
run none || { cat target/faults.out; echo "the tests fail without a fault"; exit 1; }
target/release/fuzz 20000 > target/faults.out || { cat target/faults.out; exit 1; }
echo "no fault: nothing found"

faults=(data-high zero-page level-0-only write-touches-nothing width-37 one-strength last-byte-left overrun alters-blocks \
    nested-power nested-sum-of-powers nested-not-turned nested-0-one-level-lower judge-names-nested-0 judge-names-last-nested \
    read-out-of-members-only read-out-answers-done unused-bits-left high-byte-first last-syndrome-left \
    refuse-all refusal-clears half-written-refusal page-before-blocks index-before-stray stray-missed clash-missed \
    quote-q-times-t quote-coset-twice quote-level-i quote-places-left quote-list-first quote-longer-list \
    size-of-a-clash data-bytes-packed distance-of-one-level \
    blank-after-stray blank-before-page blank-before-blocks blank-a-member blank-by-one-sub-word blank-by-sub-word-0 \
    blank-where-spare-set blank-mixed-missed blank-blocks-left blank-spare-bits-left \
    ones-written ones-half-written ones-last-bit-missed ones-by-block-0 ones-before-page ones-before-stray \
    syndromes-say-blank syndromes-of-erased \
    shortening-one-too-many shortening-one-too-few shortening-by-level-0 shortening-modulo-2-8 shortening-modulo-2-16 \
    shortening-after-width shortening-after-list shortening-before-clash distance-without-14 full-sub-words data-bytes-without-s quote-without-s low-bits-lost \
    low-spare-bits-left spare-top-bit-only nested-folded syndromes-from-the-top blank-over-n blank-all-but-top-bit \
    ones-refused-shortened \
    data-high@s width-37@s last-byte-left@s nested-power@s judge-names-last-nested@s read-out-of-members-only@s \
    unused-bits-left@s last-syndrome-left@s half-written-refusal@s page-before-blocks@s blank-after-stray@s \
    blank-before-page@s blank-before-blocks@s blank-by-one-sub-word@s blank-mixed-missed@s blank-spare-bits-left@s \
    syndromes-of-erased@s \
    many-count-0 many-count-17 many-count-15 many-count-modulo-2-8 many-count-modulo-2-16 many-count-wraps \
    many-lengths-modulo-2-8 many-lengths-modulo-2-16 many-shortening-after-width many-count-before-width \
    many-count-after-blocks many-count-after-pages many-count-after-list many-pages-before-blocks \
    many-list-before-count many-list-before-blocks many-list-before-pages many-list-any-length \
    many-list-cleared many-half-written many-blocks-before many-stray-of-first-page many-13-before-8 \
    many-ones-refused-shortened many-stray-carried many-refused-carried many-refused-cleared many-stray-written \
    many-blank-written many-level-0-only many-width-37 many-page-16 many-one-strength many-last-left \
    many-stray-stops many-blank-stops many-list-reversed many-done-not-listed many-refused-not-listed \
    many-listed-by-1 many-13-as-8 many-overrun many-list-overrun many-clears-stray many-answers-8 many-all-refused \
    many-blocks-before@s many-stray-carried@s many-refused-carried@s many-refused-cleared@s many-stray-written@s \
    many-last-left@s many-list-any-length@s many-count-17@s \
    alter-bit-alone alter-own-check-bits alter-level-0-only alter-none-below-under-v alter-sub-word-0-left \
    alter-touches-above alter-touches-between alter-as-if-higher alter-or alter-written-afresh alter-repairs-the-same \
    alter-one-strength alter-last-byte-left alter-overrun \
    alter-value-not-compared alter-value-inverted alter-clears-only alter-looks-without-offset alter-looks-by-level-0 \
    alter-from-the-end alter-byte-reversed alter-bit-modulo-2-8 alter-bit-modulo-2-16 alter-block-modulo-2-8 \
    alter-value-modulo-2-8 alter-value-2-as-1 alter-value-2-as-0 \
    alter-bit-one-too-many alter-bit-one-too-few alter-bits-of-block-0 alter-bits-of-last-block alter-bits-without-s \
    alter-block-m alter-block-as-2 alter-index-any alter-index-before-page alter-index-before-stray \
    alter-page-before-14 alter-full-page alter-stray-missed alter-blank-before-stray alter-blank-before-index \
    alter-13-never alter-13-at-s-0 alter-13-of-changes alter-13-of-the-same alter-13-of-the-lent alter-13-of-both \
    alter-13-by-sub-word alter-13-by-data-bits alter-13-as-8 alter-13-half-written alter-refusal-writes \
    alter-members-only alter-answers-verdict \
    alter-own-check-bits@s alter-none-below-under-v@s alter-value-not-compared@s alter-bit-one-too-many@s \
    alter-stray-missed@s alter-13-of-changes@s alter-13-half-written@s \
    mend-page-before-14 mend-index-before-14 mend-full-page mend-stray-missed mend-stray-of-the-sub-word \
    mend-stray-of-the-last mend-erased-taken mend-index-m mend-index-one-fewer mend-index-by-v mend-index-any \
    mend-index-modulo-2-8 mend-index-modulo-2-16 mend-index-before-page mend-index-before-stray \
    mend-list-as-all-syndromes mend-list-by-level-v mend-list-longer mend-list-odd mend-list-modulo-2-8 \
    mend-list-before-page mend-list-before-stray mend-list-before-index mend-15-before-list \
    mend-13-before-stray mend-13-of-the-lent mend-13-of-the-mended mend-blank-passed \
    mend-refusal-writes mend-refusal-lists mend-refusal-counts \
    mend-no-last-look mend-one-more mend-one-fewer mend-search-to-n mend-unstored-dropped mend-last-place-missed \
    mend-place-0-missed mend-check-bits-missed mend-by-level-1 mend-by-own-level mend-fault-free-15 \
    mend-members-only mend-others-asked mend-15-half-written mend-15-lists mend-15-counts mend-no-15 mend-15-as-9 \
    mend-15-as-verdict \
    mend-reads-sub-word-0 mend-into-sub-word-0 mend-into-the-next mend-page-left mend-clears-only mend-all-sub-words \
    mend-last-byte-left mend-next-byte-cleared mend-spare-set mend-one-strength mend-overrun \
    mend-falling mend-fillers-first mend-filler-0 mend-filler-255 mend-filler-n mend-filler-left mend-last-entry-left \
    mend-high-byte-first mend-low-byte-alone mend-places-from-the-end mend-places-inverse mend-places-from-1 \
    mend-places-from-the-top mend-places-of-the-page mend-list-left mend-list-left-at-0 mend-list-overrun \
    mend-count-off mend-count-of-the-list mend-count-bytes mend-count-left mend-count-left-at-0 mend-count-overrun \
    mend-answers-flips mend-answers-verdict \
    mend-stray-missed@s mend-into-sub-word-0@s mend-15-half-written@s mend-no-15@s mend-falling@s mend-filler-left@s \
    mend-list-longer@s mend-one-fewer@s mend-count-left-at-0@s \
    odd-even-listed odd-first-t odd-from-3 odd-list-as-before odd-list-either odd-list-longer odd-list-any \
    odd-list-before-page odd-list-before-stray odd-list-before-index odd-list-by-level-v odd-nested-by-level-l \
    odd-nested-by-level-0 odd-nested-past-g-0 odd-one-strength odd-refusal-clears \
    all-level-before-14 all-without-14 all-level-v-refused all-level-to-3 all-level-any all-level-inverted \
    all-level-modulo-2-8 all-level-modulo-2-16 all-list-before-level all-odd-any-length all-list-any-length \
    all-lengths-longer all-lengths-modulo-2-8 all-lengths-twice all-lengths-together all-lengths-swapped all-from-all \
    all-elements-only all-refusal-clears \
    all-polynomial-of-q-4 all-polynomial-of-q-8 all-polynomial-of-q-12 all-other-polynomials all-not-reduced \
    all-reduced-as-elements all-square-masked all-masked all-squares-in-order all-squared-once all-from-before \
    all-from-next all-odd-masked all-odd-reduced all-odd-first all-one-strength all-last-left all-high-byte-first \
    all-low-byte-alone all-overrun all-alters-odd all-answers-count \
    odd-even-listed@s odd-list-either@s odd-nested-past-g-0@s all-level-inverted@s all-masked@s \
    all-squares-in-order@s all-refusal-clears@s \
    rounds-page-before-14 rounds-full-page rounds-length-longer rounds-length-modulo-2-8 rounds-stray-missed \
    rounds-stray-of-the-first rounds-stray-of-the-last rounds-erased-taken rounds-stray-before-page \
    rounds-17-before-stray rounds-13-before-stray rounds-13-of-the-lent rounds-blank-of-the-lent \
    rounds-no-first-pass rounds-first-one-fewer rounds-first-by-level-1 rounds-first-by-own-level \
    rounds-first-unstored rounds-last-sub-word-passed rounds-nested-folded rounds-nested-not-turned rounds-level-v \
    rounds-level-1 rounds-level-of-the-first rounds-level-by-b rounds-level-lower rounds-level-higher rounds-t-more \
    rounds-from-nested-1 rounds-nodes-i rounds-nodes-of-the-next rounds-nodes-by-order rounds-nodes-inverse \
    rounds-no-last-look rounds-unstored-dropped rounds-unstored-flipped rounds-t-fewer rounds-place-0-missed \
    rounds-last-place-missed rounds-into-the-next rounds-all-or-none rounds-first-pass-only rounds-one-round \
    rounds-two-rounds rounds-v-fewer rounds-nested-of-the-lent rounds-nested-of-the-first rounds-same-round \
    rounds-clears-only rounds-blank-passed rounds-blank-lent-alone rounds-blank-by-one-sub-word \
    rounds-blank-by-sub-word-0 rounds-blank-by-the-last rounds-no-end-test rounds-end-nested-0-alone \
    rounds-end-last-alone rounds-end-last-missed rounds-end-level-1 rounds-refusal-writes rounds-none-found-done \
    rounds-v-more-done rounds-written-afresh rounds-members-refused rounds-17-half-written rounds-17-first-written \
    rounds-17-clears rounds-no-17 rounds-17-as-15 rounds-17-as-16 rounds-17-as-verdict rounds-15-of-a-sub-word \
    rounds-13-of-the-mended rounds-blank-of-the-mended rounds-page-left rounds-sub-word-0-left rounds-broken-left \
    rounds-last-byte-left rounds-spare-set rounds-one-strength rounds-overrun rounds-answers-broken \
    rounds-answers-verdict rounds-stray-missed@s rounds-first-pass-only@s rounds-level-v@s \
    rounds-nested-of-the-lent@s rounds-no-end-test@s rounds-17-half-written@s rounds-nodes-by-order@s \
    rounds-v-fewer@s)
[ $# = 0 ] || faults=("$@")
tried=0 missed=0
for fault in "${faults[@]}"; do
    tried=$((tried + 1))
    if run "$fault"; then
        found="NOT FOUND"
        missed=$((missed + 1))
    else
        found=$(sed -n 's/^    \([a-z_0-9]*\)$/\1/p' target/faults.out | sort -u | tr '\n' ' ')
    fi
    # A number that a call never gives makes the crate gii-bch panic.
    GII_FAULT=$fault target/release/fuzz 20000 > target/faults.out 2>&1 && calls="none" || calls=$(sed -n 's/.*, call \([0-9]*\):.*/\1/p' target/faults.out)
    printf '%-27s %s(any calls: part at %s)\n' "$fault" "$found" "${calls:-a panic}"
done
echo "$tried faults, $missed not found"
[ $missed = 0 ]
