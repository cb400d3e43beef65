//! The format: calls read back as they were written, answers as long as told, and broken inputs stop.

use crate::call::{ALL_CODES, REPLAY_CODES};
use crate::format::{call_text, replayed, Reader, DRIVER, REPLAY};
use crate::hostile::random_call;
use crate::random::Random;
use crate::texts;
use crate::yards::Limits;

const LIMITS: Limits = Limits {
    tiles_most: 15,
    footprints_most: 40,
    table_most: REPLAY.table_most,
};

#[test]
fn calls_read_back() {
    for place in 0..600 {
        let call = random_call(&mut Random::of_place(5, place), &LIMITS, &ALL_CODES);
        let text = call_text(&call);
        let mut reader = Reader::new(text.as_bytes(), DRIVER);
        assert_eq!(reader.call(), Ok(Some(call)));
        assert_eq!(reader.call(), Ok(None));
    }
}

#[test]
fn replay_takes_every_random_call() {
    for place in 0..2_000 {
        let call = random_call(&mut Random::of_place(6, place), &LIMITS, &REPLAY_CODES);
        let text = call_text(&call);
        let mut reader = Reader::new(text.as_bytes(), REPLAY);
        assert_eq!(reader.call(), Ok(Some(call)));
    }
}

#[test]
fn answers_are_as_long_as_told() {
    for place in 0..2_000 {
        let call = random_call(&mut Random::of_place(7, place), &LIMITS, &ALL_CODES);
        let numbers = call.answer().numbers;
        let told = call.answer_length(numbers[0], numbers[1]);
        assert_eq!(numbers.len() as u64, told, "code {}", call.code());
    }
}

#[test]
fn broken_inputs_stop() {
    for place in 0..2_000 {
        let text = texts::stopped(&mut Random::of_place(8, place));
        assert!(replayed(&text, REPLAY).ends_with("stop\n"), "{place}");
    }
}

#[test]
fn broken_lists_stop() {
    for place in 0..1_000 {
        let text = texts::stopped_list(&mut Random::of_place(9, place));
        assert!(replayed(&text, DRIVER).ends_with("stop\n"), "{place}");
    }
}

#[test]
fn no_input_is_no_call() {
    assert_eq!(replayed(b"", REPLAY), "");
    assert_eq!(replayed(b"7", REPLAY), "stop\n");
}
