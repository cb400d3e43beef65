//! The stored set: small enough, reaching every ending, and the same as the files that stand beside the model; random calls reach every ending too.

use crate::call::{ALL_CODES, REPLAY_CODES};
use crate::format::{answer_text, call_text, replayed, REPLAY};
use crate::hostile::random_call;
use crate::random::Random;
use crate::reach::Reached;
use crate::stored::calls;
use crate::yards::Limits;

const BYTES_MOST: usize = 300_000;

fn texts() -> (String, String) {
    let all = calls();
    let written = all.iter().map(call_text).collect();
    let answered = all.iter().map(|call| answer_text(&call.answer())).collect();
    (written, answered)
}

#[test]
fn the_stored_set_is_small() {
    let (written, answered) = texts();
    assert!(written.len() <= BYTES_MOST, "{} bytes", written.len());
    assert!(answered.len() <= BYTES_MOST, "{} bytes", answered.len());
    assert!((300..1_000).contains(&calls().len()), "{}", calls().len());
}

#[test]
fn the_files_hold_the_stored_set() {
    let (written, answered) = texts();
    assert!(written == include_str!("../../stored/calls.txt"));
    assert!(answered == include_str!("../../stored/answers.txt"));
}

#[test]
fn replay_takes_the_stored_set() {
    let (written, answered) = texts();
    assert!(replayed(written.as_bytes(), REPLAY) == answered);
}

#[test]
fn the_stored_set_reaches_every_ending() {
    let mut reached = Reached::default();
    for call in calls() {
        reached.add(&call, &call.answer());
    }
    assert_eq!(reached.missing(&REPLAY_CODES), [""; 0]);
}

#[test]
fn random_calls_reach_every_ending() {
    let limits = Limits {
        tiles_most: 15,
        footprints_most: 40,
        table_most: REPLAY.table_most,
    };
    let mut reached = Reached::default();
    for place in 0..8_000 {
        let call = random_call(&mut Random::of_place(1, place), &limits, &ALL_CODES);
        reached.add(&call, &call.answer());
    }
    assert_eq!(reached.missing(&ALL_CODES), [""; 0]);
}
