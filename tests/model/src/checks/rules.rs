//! The rules alone: how many classes a tile gives, how many class pairs are joined, and that the groups share out the tiles.

use crate::classes::{allowed, joined};
use crate::groups::{Centre, Group};
use crate::sizes::{Grid, Tile, DIRECTIONS};
use crate::span::{Rectangle, Span};

fn mask(column: u32, row: u32) -> u32 {
    let searched = Tile { column: 1, row: 1 };
    allowed(Tile { column, row }, searched)
        .map(|class| 1 << class)
        .sum()
}

#[test]
fn nine_sets_of_classes() {
    let rows = [0, 1, 2].map(|row| [0, 1, 2].map(|column| mask(column, row)));
    assert_eq!(rows[0], [0x0505, 0x5555, 0x0055]);
    assert_eq!(rows[1], [0x0F0F, 0xFFFF, 0x00FF]);
    assert_eq!(rows[2], [0x0303, 0x3333, 0x0033]);
}

#[test]
fn marks_of_class_pairs() {
    for (dx, dy) in (-1..=1).flat_map(|dx| (-1..=1).map(move |dy| (dx, dy))) {
        let pairs = (0..16).flat_map(|r| (0..16).map(move |s| (r, s)));
        let marks = pairs.filter(|&(r, s)| joined(dx, dy, r, s)).count();
        let wanted = [144, 48, 16][(dx.abs() + dy.abs()) as usize];
        assert_eq!(marks, wanted, "offset {dx}, {dy}");
    }
}

#[test]
fn a_tile_ends_before_the_next_begins() {
    let (first, second) = (Span::of_column(0, 100), Span::of_column(1, 100));
    assert_eq!((first.lo, first.hi, second.lo), (0, 99, 100));
    assert!(!Span { lo: 40, hi: 99 }.shares_a_point(second));
    assert!(!Span { lo: 40, hi: 99 }.ends_after(first));
    assert!(Span { lo: 40, hi: 100 }.ends_after(first));
    assert_eq!(first.gap(second), 1);
}

/// How often each tile of the grid is in a group around the centre.
fn shares(centre: Centre) -> Vec<u32> {
    let mut times = vec![0; centre.g.tile_count() as usize];
    for direction in 0..DIRECTIONS {
        for group in centre.groups(direction) {
            for tile in centre.tiles(group) {
                times[centre.g.tile_number(tile) as usize] += 1;
            }
        }
    }
    times
}

#[test]
fn every_other_tile_is_in_one_group() {
    for n in 1..=6 {
        let g = Grid { n, side: 3 };
        for tile in g.tiles() {
            let centre = Centre {
                g,
                x: tile.column * 3,
                y: tile.row * 3 + 2,
            };
            let own = g.tile_number(tile) as usize;
            let mut wanted = vec![1; g.tile_count() as usize];
            wanted[own] = 0;
            assert_eq!(shares(centre), wanted);
        }
    }
}

#[test]
fn a_group_is_no_farther_than_its_tiles_and_the_next_group() {
    let g = Grid { n: 5, side: 4 };
    for (x, y) in [(0, 0), (9, 10), (19, 7), (8, 11)] {
        let centre = Centre { g, x, y };
        let point = Rectangle::of_point(x, y);
        for group in (0..DIRECTIONS).flat_map(|direction| centre.groups(direction)) {
            let square = centre.square(group).unwrap();
            for tile in centre.tiles(group) {
                assert!(square <= point.square(Rectangle::of_tile(g, tile)));
            }
            assert!(centre.square(group.next()).is_none_or(|next| square < next));
        }
    }
}

#[test]
fn largest_grid_has_63_levels() {
    let g = Grid { n: 64, side: 1 };
    let centre = Centre { g, x: 0, y: 63 };
    let counts = [0, 1, 2, 3].map(|direction| centre.groups(direction).count());
    assert_eq!(counts, [0, 63, 63, 0]);
    let outside = Group {
        direction: 1,
        level: 64,
    };
    assert!(!centre.exists(outside));
    assert!(!centre.exists(Group::numbered(256)));
}
