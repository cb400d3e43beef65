//! The steps against brute force: all footprints of tiny grids, and random yards.

use crate::random::Random;
use crate::selfcheck::{check_build, check_join, check_search, check_walk, check_yard};
use crate::sizes::Grid;
use crate::stored::lent;
use crate::yards::Limits;

/// Every footprint of a grid.
fn all_footprints(g: Grid) -> Vec<u32> {
    let reach = g.reach();
    let spans: Vec<(u32, u32)> = (0..reach)
        .flat_map(|lo| (lo..reach).map(move |hi| (lo, hi)))
        .collect();
    let both = spans.iter().flat_map(|x| spans.iter().map(move |y| (x, y)));
    both.flat_map(|(x, y)| [x.0, y.0, x.1, y.1]).collect()
}

/// Every search and join of a grid's whole register, and a walk from every point.
fn check_all(g: Grid) {
    let reg = all_footprints(g);
    let owned = lent(g, &reg, &[1, 2, 3]);
    let tables = owned.tables(g);
    let mut random = Random::new(u64::from(g.n));
    check_build(g, &reg, &owned).unwrap();
    for x in 0..g.reach() {
        for y in 0..g.reach() {
            for r in 0..=2 * g.reach() {
                check_search(&tables, (x, y), r).unwrap();
            }
            check_walk(&mut random, &tables, (x, y)).unwrap();
        }
    }
    for r in 0..=g.side {
        check_join(&tables, &tables, r).unwrap();
    }
}

#[test]
fn all_footprints_of_tiny_grids() {
    for (n, side) in [
        (1, 1),
        (1, 4),
        (2, 1),
        (2, 2),
        (3, 1),
        (4, 1),
        (2, 3),
        (3, 2),
    ] {
        check_all(Grid { n, side });
    }
}

fn check_yards(seed: u64, count: u64, limits: Limits) {
    for place in 0..count {
        let mut random = Random::of_place(seed, place);
        if let Err(difference) = check_yard(&mut random, &limits) {
            panic!("yard {place} of seed {seed}: {difference}");
        }
    }
}

#[test]
fn random_small_yards() {
    let limits = Limits {
        tiles_most: 5,
        footprints_most: 14,
        table_most: 4_000,
    };
    check_yards(1, 600, limits);
}

#[test]
fn random_larger_yards() {
    let limits = Limits {
        tiles_most: 12,
        footprints_most: 60,
        table_most: 4_000,
    };
    check_yards(2, 60, limits);
}
