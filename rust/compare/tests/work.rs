//! Shortened sub-words are less work, and so are many pages in one call; one bit altered is less than a write, one sub-word
//! mended is a few CRC-32 sums, the odd syndromes of a word are about one, and a page without faults is mended in about the time
//! of judge. The stand-in, which is not made for speed, is not asked.

use compare::draw::say;
use compare::work::{
    ALTER_GATE_LIMITS, GATE_LIMIT, MANY_GATE_LIMIT, MEND_GATE_LIMITS, MEND_PAGE_GATE_LIMIT, ODD_GATE_LIMITS,
    alter_stated, many_stated, mend_page_stated, mend_stated, odd_stated, stated, within,
};
use std::sync::Mutex;

/// One work at a time is timed.
static TURN: Mutex<()> = Mutex::new(());

/// Asks that each ratio, stated in words, is no greater than its limit.
fn ask<const N: usize>(stated: fn() -> (String, [f64; N]), limits: [f64; N]) {
    if std::env::var("GII_ARCHIVE").is_ok_and(|archive| archive.ends_with("libstandin.a")) {
        return say("work: left out, the stand-in is not timed");
    }
    let turn = TURN.lock();
    let (line, ratios) = stated();
    drop(turn);
    say(&line);
    assert!(within(ratios, limits), "{line}, {limits:?} in the gate");
}

#[test]
fn shortened_writes_take_less_time() {
    ask(stated, [GATE_LIMIT]);
}

#[test]
fn many_pages_in_one_call_take_less_time() {
    ask(many_stated, [MANY_GATE_LIMIT]);
}

#[test]
fn an_altered_bit_takes_less_time_than_a_write() {
    ask(alter_stated, ALTER_GATE_LIMITS);
}

#[test]
fn a_mended_sub_word_takes_a_few_sums() {
    ask(mend_stated, MEND_GATE_LIMITS);
}

#[test]
fn odd_syndromes_take_about_a_sum() {
    ask(odd_stated, ODD_GATE_LIMITS);
}

#[test]
fn a_page_without_faults_takes_about_a_judge() {
    ask(mend_page_stated, [MEND_PAGE_GATE_LIMIT]);
}
