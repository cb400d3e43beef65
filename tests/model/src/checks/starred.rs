//! The starred cases of document 01, by the steps and by brute force.

use crate::brute;
use crate::call::Lent;
use crate::classes::class_in;
use crate::index::build;
use crate::join::join;
use crate::refusal::Refusal;
use crate::register::footprint;
use crate::search::search;
use crate::sizes::Grid;
use crate::span::Rectangle;
use crate::stored::{lent, DIG, Y, Y_GRID};
use crate::walk::{ask, start};

fn y() -> Lent {
    lent(Y_GRID, &Y, &[])
}

fn room_gives(room: usize) -> Result<u64, Refusal> {
    let mut starts = vec![0; Y_GRID.starts_length()];
    build(Y_GRID, &Y, &mut starts, &mut vec![0; room])
}

fn class_at(number: u32, tile: u32) -> u32 {
    let covered = Rectangle::of_tile(Y_GRID, Y_GRID.tile_numbered(tile));
    assert!(footprint(&Y, number).stands_in(covered));
    class_in(footprint(&Y, number), covered)
}

fn hits(x: u32, y_at: u32, r: u32) -> Result<Vec<u32>, Refusal> {
    let owned = y();
    let mut out = vec![0; 5];
    let count = search(&owned.tables(Y_GRID), x, y_at, r, &mut out)?;
    out.truncate(count as usize);
    assert_eq!(out, brute::hits(Y_GRID, &Y, x, y_at, r));
    Ok(out)
}

#[test]
fn case_1_entries_and_room() {
    assert_eq!(room_gives(23), Ok(23));
    assert_eq!(room_gives(22), Err(Refusal::Room(23)));
}

#[test]
fn case_2_classes_of_footprint_1() {
    assert_eq!([8, 9, 10].map(|tile| class_at(1, tile)), [4, 12, 8]);
}

#[test]
fn case_3_classes_of_footprint_3() {
    assert_eq!([0, 5, 15].map(|tile| class_at(3, tile)), [5, 15, 10]);
}

#[test]
fn cases_4_to_7_searches() {
    assert_eq!(hits(150, 150, 69), Ok(vec![0, 3]));
    assert_eq!(hits(150, 150, 70), Ok(vec![0, 3, 1]));
    assert_eq!(hits(150, 150, 71), Ok(vec![0, 3, 2, 1]));
    assert_eq!(hits(150, 150, 0), Ok(vec![0, 3]));
}

#[test]
fn case_8_walk() {
    let owned = y();
    let tables = owned.tables(Y_GRID);
    let mut front = vec![0; 75];
    let (_, walk) = start(&tables, 150, 150, &mut front);
    let mut out = [0; 10];
    let (given, _) = ask(&tables, &mut front, walk, 5, &mut out);
    assert_eq!(given, Ok(5));
    assert_eq!(out, [0, 0, 3, 0, 1, 4900, 2, 4901, 4, 45000]);
}

#[test]
fn case_9_start() {
    let owned = y();
    let tables = owned.tables(Y_GRID);
    let mut front = vec![9; 75];
    let (answer, walk) = start(&tables, 150, 150, &mut front);
    let rows = [
        [0, 2, 0],
        [0, 2, 3],
        [2500, 0, 1],
        [2500, 0, 65],
        [2601, 0, 129],
        [2601, 0, 193],
    ];
    assert_eq!((answer, walk.waiting), (Ok(0), 6));
    assert_eq!(front[..18], rows.concat());
    assert_eq!(front[18..], [0; 57]);
    let (refused, _) = start(&tables, 150, 150, &mut [0; 74]);
    assert_eq!(refused, Err(Refusal::Room(75)));
}

#[test]
fn case_10_join() {
    let (dig, owned) = (lent(Y_GRID, &DIG, &[]), y());
    let (r_tables, s_tables) = (dig.tables(Y_GRID), owned.tables(Y_GRID));
    let mut out = [0; 8];
    assert_eq!(join(&r_tables, &s_tables, 100, &mut out), Ok(4));
    assert_eq!(out, [0, 0, 0, 3, 0, 2, 0, 1]);
    let refused = join(&r_tables, &s_tables, 101, &mut out);
    assert_eq!(refused, Err(Refusal::Radius));
    let declared = brute::pairs(Y_GRID, &DIG, &Y, 100);
    assert_eq!(declared, [(0, 0), (0, 3), (0, 2), (0, 1)]);
}

#[test]
fn case_11_points() {
    assert_eq!(hits(400, 0, 70), Err(Refusal::Place));
    assert!(hits(399, 399, 70).is_ok());
}

#[test]
fn case_12_empty_register() {
    for g in [Y_GRID, Grid { n: 1, side: 1 }] {
        let none = lent(g, &[], &[]);
        assert_eq!(none.entries, []);
        assert_eq!(search(&none.tables(g), 0, 0, 70, &mut []), Ok(0));
    }
}
