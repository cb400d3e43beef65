//! Every fault alone brings its refusal, and of two the one that is judged first.

use crate::call::Call;
use crate::checks::accepted;
use crate::faults;
use crate::format::call_numbers;
use crate::index::{build, check};
use crate::refusal::Refusal;
use crate::sizes::Grid;
use crate::stored::{SMALL, SMALL_GRID};
use crate::tables::run;

/// The order in which refusals are judged.
fn order(code: u64) -> &'static [u64] {
    match code {
        6 => &[1, 2, 4, 6, 7],
        _ => &[1, 2, 3, 4, 5, 7, 6],
    }
}

fn rank(code: u64, refusal: u64) -> usize {
    let place = order(code).iter().position(|&one| one == refusal);
    place.expect("the refusal is in the order")
}

fn refusal_of(call: &Call) -> u64 {
    call.answer().numbers[0]
}

#[test]
fn the_calls_without_faults_are_accepted() {
    for call in accepted() {
        assert_eq!(refusal_of(&call), 0, "code {}", call.code());
    }
}

#[test]
fn a_fault_alone_brings_its_refusal() {
    for accepted in accepted() {
        for (place, fault) in faults::of_code(accepted.code()).iter().enumerate() {
            let call = fault.put(&accepted);
            let told = format!("code {}, fault {place}", call.code());
            assert_eq!(refusal_of(&call), fault.refusal, "{told}");
        }
    }
}

#[test]
fn of_two_faults_the_first_judged_is_told() {
    for accepted in accepted() {
        let code = accepted.code();
        let faults = faults::of_code(code);
        for one in &faults {
            let apart = |other: &&faults::Fault| other.refusal != one.refusal;
            for other in faults.iter().filter(apart) {
                let (low, high) = match rank(code, one.refusal) < rank(code, other.refusal) {
                    true => (one, other),
                    false => (other, one),
                };
                let call = low.put(&high.put(&accepted));
                assert_eq!(refusal_of(&call), low.refusal, "{:?}", call_numbers(&call));
            }
        }
    }
}

#[test]
fn a_register_has_at_most_65536_footprints() {
    let g = Grid { n: 1, side: 1 };
    let room = |footprints: usize| {
        let mut starts = [0; 17];
        build(g, &vec![0; 4 * footprints], &mut starts, &mut [])
    };
    assert_eq!(room(65_536), Err(Refusal::Room(65_536)));
    assert_eq!(room(65_537), Err(Refusal::Lengths));
}

#[test]
fn an_end_is_at_most_268435456() {
    let g = Grid { n: 1, side: 1 };
    let ends_at = |end, lent| {
        let mut starts = [0; 17];
        starts[1] = end;
        run(g, &starts, lent, 0, 0).is_ok()
    };
    assert!(ends_at(268_435_456, 268_435_456));
    assert!(!ends_at(268_435_456, 268_435_455));
    assert!(!ends_at(268_435_457, 300_000_000));
}

#[test]
fn the_lowest_bad_footprint_is_told_before_all_about_tables() {
    let mut reg = SMALL;
    reg[7] = 20;
    reg[16] = 12;
    let mut starts = [5; 65];
    let lowest = Err(Refusal::Footprint(1));
    assert_eq!(build(SMALL_GRID, &reg, &mut starts, &mut []), lowest);
    assert_eq!(check(SMALL_GRID, &reg, &starts, &[]).map(u64::from), lowest);
}
