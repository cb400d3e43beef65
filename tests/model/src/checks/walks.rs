//! Walks by hand: fronts that are not sorted, rooms that end, and what damage leaves behind.

use crate::call::Lent;
use crate::refusal::{Damage, Refusal};
use crate::stored::{lent, SMALL, SMALL_GRID};
use crate::walk::{ask, start, Walk, FOOTPRINT, GROUP, REFUSED, TILE};

fn small() -> Lent {
    lent(SMALL_GRID, &SMALL, &[])
}

fn walk(waiting: u64) -> Walk {
    Walk {
        x: 5,
        y: 5,
        waiting,
        damaged: false,
    }
}

/// What an ask for j rows leaves in a front of these rows and some room.
fn asked(rows: &[[u64; 3]], room: usize, j: u32) -> (Result<u64, Refusal>, Walk, Vec<u64>) {
    let owned = small();
    let mut front = rows.concat();
    front.resize(3 * room, 7);
    let mut out = vec![4; 2 * j as usize];
    let waiting = walk(rows.len() as u64);
    let (answer, after) = ask(&owned.tables(SMALL_GRID), &mut front, waiting, j, &mut out);
    (answer, after, front)
}

#[test]
fn the_first_row_is_taken_as_it_stands() {
    let rows = [[9, FOOTPRINT, 0], [4, FOOTPRINT, 1]];
    let (answer, after, front) = asked(&rows, 3, 1);
    assert_eq!((answer, after.waiting), (Ok(1), 1));
    assert_eq!(front, [4, FOOTPRINT, 1, 0, 0, 0, 0, 0, 0]);
}

#[test]
fn a_new_row_goes_before_the_first_greater() {
    let rows = [[0, GROUP, 65], [30, FOOTPRINT, 0], [3, FOOTPRINT, 1]];
    let (answer, _, front) = asked(&rows, 4, 1);
    assert_eq!(answer, Ok(1));
    assert_eq!(front[..6], [3, FOOTPRINT, 1, 50, TILE, 3]);
}

#[test]
fn a_footprint_is_given_with_the_square_of_its_row() {
    let owned = small();
    let mut front = vec![12_345, FOOTPRINT, 1];
    let mut out = [0; 2];
    let tables = owned.tables(SMALL_GRID);
    let (answer, _) = ask(&tables, &mut front, walk(1), 1, &mut out);
    assert_eq!((answer, out), (Ok(1), [1, 12_345]));
}

#[test]
fn rows_past_the_count_do_not_wait() {
    let owned = small();
    let mut front = vec![1, FOOTPRINT, 0, 2, FOOTPRINT, 1];
    let mut out = [9; 4];
    let tables = owned.tables(SMALL_GRID);
    let (answer, after) = ask(&tables, &mut front, walk(1), 2, &mut out);
    assert_eq!((answer, after.waiting), (Ok(1), 0));
    assert_eq!((front, out), (vec![0; 6], [0, 1, 9, 9]));
}

#[test]
fn rows_of_nothing_are_damage() {
    let group = |number| asked(&[[0, GROUP, number]], 9, 1).0;
    for number in [0, 64, 128, 192, 2, 66, 129, 193, 256, 257, u64::MAX] {
        assert_eq!(group(number), Err(Refusal::Damaged(Damage::Group)));
    }
    assert!(group(1).is_ok() && group(65).is_ok());
    let tile = asked(&[[0, TILE, 4]], 9, 1).0;
    assert_eq!(tile, Err(Refusal::Damaged(Damage::TileRow)));
    let footprint = asked(&[[0, FOOTPRINT, 5]], 9, 1).0;
    assert_eq!(footprint, Err(Refusal::Damaged(Damage::FootprintRow)));
}

#[test]
fn the_place_of_a_taken_row_is_room() {
    let (answer, _, _) = asked(&[[0, TILE, 3]], 1, 1);
    assert_eq!(answer, Ok(0));
    let (answer, _, _) = asked(&[[0, TILE, 2]], 1, 1);
    assert_eq!(answer, Ok(1));
    let (answer, _, _) = asked(&[[0, TILE, 0]], 1, 1);
    assert_eq!(answer, Err(Refusal::Damaged(Damage::RowRoom)));
}

#[test]
fn damage_clears_front_and_asked_output() {
    let owned = small();
    let mut front = vec![5, FOOTPRINT, 0, 6, 3, 0, 8, 8];
    let mut out = [4; 5];
    let (answer, after) = ask(&owned.tables(SMALL_GRID), &mut front, walk(2), 2, &mut out);
    assert_eq!(answer, Err(Refusal::Damaged(Damage::Kind)));
    assert_eq!(front, [0; 8]);
    assert_eq!(out, [0, 0, 0, 0, 4]);
    let marked = Walk {
        x: 5,
        y: 5,
        waiting: 0,
        damaged: true,
    };
    assert_eq!(after, marked);
}

#[test]
fn an_ask_of_none_clears_past_the_waiting_rows() {
    let rows = [[5, 3, 9]];
    let (answer, after, front) = asked(&rows, 2, 0);
    assert_eq!((answer, after.waiting), (Ok(0), 1));
    assert_eq!(front, [5, 3, 9, 0, 0, 0]);
}

#[test]
fn a_refused_start_is_marked_and_its_ask_is_damage() {
    let owned = small();
    let tables = owned.tables(SMALL_GRID);
    let mut front = vec![1; 39];
    let (answer, walk) = start(&tables, 20, 0, &mut front);
    assert_eq!((answer, walk), (Err(Refusal::Place), REFUSED));
    assert_eq!(front, [1; 39]);
    let (answer, _) = ask(&tables, &mut front, walk, 0, &mut []);
    assert_eq!(answer, Err(Refusal::Damaged(Damage::Mark)));
}

#[test]
fn equal_counts_in_the_first_tile_are_no_damage() {
    let mut owned = small();
    owned.starts[1..].fill(5);
    let (answer, _) = start(&owned.tables(SMALL_GRID), 0, 0, &mut [0; 39]);
    assert_eq!(answer, Ok(0));
    owned.starts[1..].fill(6);
    let (answer, _) = start(&owned.tables(SMALL_GRID), 0, 0, &mut [0; 39]);
    assert_eq!(answer, Err(Refusal::Damaged(Damage::TooManyEntries)));
}

#[test]
fn an_opened_tile_may_have_more_entries_than_footprints() {
    let mut owned = small();
    owned.starts[1..].fill(7);
    owned.entries = vec![0, 0, 0, 1, 1, 2, 0];
    let mut front = [vec![0, TILE, 0], vec![0; 18]].concat();
    let mut out = [0; 14];
    let tables = owned.tables(SMALL_GRID);
    let (answer, _) = ask(&tables, &mut front, walk(1), 7, &mut out);
    assert_eq!(answer, Ok(7));
}

#[test]
fn the_need_of_a_large_ask_is_told_whole() {
    let owned = small();
    let tables = owned.tables(SMALL_GRID);
    for j in [1 << 31, u32::MAX] {
        let (answer, _) = ask(&tables, &mut [], walk(0), j, &mut [0; 4]);
        assert_eq!(answer, Err(Refusal::Room(2 * u64::from(j))));
    }
}
