//! Memory after a refusal: all as it was lent, but for an ask that met damage. Damage that is not read is not met.

use crate::call::{Asked, Call};
use crate::checks::accepted;
use crate::faults;
use crate::format::{call_numbers, REPLAY};
use crate::hostile::random_call;
use crate::random::Random;
use crate::refusal::{Damage, Refusal};
use crate::sizes::CLASSES;
use crate::stored::{self, SMALL, SMALL_GRID};
use crate::yards::Limits;

/// Calls on number tables that are lent whole.
const NUMBER_CODES: [u64; 8] = [1, 2, 3, 4, 5, 6, 7, 8];

fn numbers<T: Copy + Into<u64>>(table: &[T]) -> Vec<u64> {
    table.iter().map(|&number| number.into()).collect()
}

/// What a refusal answers after its number and value.
fn as_lent(call: &Call) -> Vec<u64> {
    match &call.asked {
        Asked::Build { lent } => [numbers(&lent.starts), numbers(&lent.entries)].concat(),
        Asked::Check { .. } => vec![],
        Asked::Run { .. } => vec![0],
        Asked::Search { out, .. } | Asked::Join { out, .. } => numbers(out),
        Asked::Start { front, .. } => [vec![0, 0, 0, 1], front.clone()].concat(),
        Asked::Ask {
            front,
            x,
            y,
            waiting,
            mark,
            out,
            ..
        } => {
            let mark = u64::from(*mark != 0);
            let state = vec![u64::from(*x), u64::from(*y), *waiting, mark];
            [state, front.clone(), out.clone()].concat()
        }
        Asked::SearchAll { out, ends, .. } => [numbers(out), ends.clone()].concat(),
        _ => unreachable!("only calls on numbers come here"),
    }
}

/// What an ask that met damage answers after its number and value.
fn as_damaged(call: &Call) -> Vec<u64> {
    let Asked::Ask {
        front,
        x,
        y,
        j,
        out,
        ..
    } = &call.asked
    else {
        return as_lent(call);
    };
    let asked = 2 * *j as usize;
    let state = vec![u64::from(*x), u64::from(*y), 0, 1];
    let cleared = vec![0; front.len() + asked];
    [state, cleared, out[asked..].to_vec()].concat()
}

fn check_refused(call: &Call) {
    let answer = call.answer();
    let expected = match answer.result {
        Ok(_) => return,
        Err(Refusal::Damaged(_)) => as_damaged(call),
        Err(_) => as_lent(call),
    };
    assert!(answer.numbers[2..] == expected, "{:?}", call_numbers(call));
}

#[test]
fn refusals_leave_memory_as_it_was() {
    for accepted in accepted() {
        for fault in faults::of_code(accepted.code()) {
            check_refused(&fault.put(&accepted));
        }
    }
    let limits = Limits {
        tiles_most: 4,
        footprints_most: 9,
        table_most: REPLAY.table_most,
    };
    for place in 0..3_000 {
        let mut random = Random::of_place(11, place);
        check_refused(&random_call(&mut random, &limits, &NUMBER_CODES));
    }
}

/// A search from a point, where the run of a tile and class has one entry more, of no footprint.
fn search_beside_damage(at: (u32, u32), r: u32, tile: u32, class: u32) -> Option<Refusal> {
    let mut lent = stored::lent(SMALL_GRID, &SMALL, &[]);
    let next = (CLASSES * tile + class) as usize + 1;
    lent.entries.insert(lent.starts[next] as usize, 99);
    lent.starts[next..].iter_mut().for_each(|start| *start += 1);
    let call = stored::search(SMALL_GRID, lent, at, r, 5);
    call.answer().result.err()
}

#[test]
fn only_allowed_classes_of_visited_tiles_are_read() {
    let damaged = Some(Refusal::Damaged(Damage::EntryNotBelow));
    assert_eq!(search_beside_damage((5, 5), 4, 3, 15), None);
    assert_eq!(search_beside_damage((5, 5), 8, 3, 15), None);
    assert_eq!(search_beside_damage((5, 5), 7, 3, 0), None);
    assert_eq!(search_beside_damage((5, 5), 8, 3, 0), damaged);
    assert_eq!(search_beside_damage((5, 5), 0, 0, 15), damaged);
    assert_eq!(search_beside_damage((15, 15), 0, 3, 15), damaged);
    assert_eq!(search_beside_damage((15, 5), 6, 0, 15), None);
    assert_eq!(search_beside_damage((15, 5), 6, 0, 10), damaged);
}
