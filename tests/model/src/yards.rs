//! Random yards: grids, footprints of every sort, points and radii that meet edges, and tables of every origin.

use crate::call::Lent;
use crate::index::{built, entry_count};
use crate::random::Random;
use crate::register::{footprint, footprint_count};
use crate::sizes::{Grid, NUMBERS_A_FOOTPRINT, RADIUS_MOST, SIDE_MOST};
use crate::span::Rectangle;

/// How large random calls may become. A table of starts of the most tiles fits the longest table.
#[derive(Clone, Copy)]
pub struct Limits {
    pub tiles_most: u32,
    pub footprints_most: usize,
    pub table_most: usize,
}

/// The most footprints of a walk and of both sides of a join: there the model's work grows with their square.
const FOOTPRINTS_WALKED_MOST: usize = 20_000;
const FOOTPRINTS_JOINED_MOST: usize = 600;

/// From so many footprints on, a yard has small ones only.
const CROWD: usize = 200;

/// Room that is kept free in a table, so that faults can make it longer.
const SPARE: usize = 8;

impl Limits {
    fn with_footprints(self, most: usize) -> Limits {
        let footprints_most = self.footprints_most.min(most);
        Limits {
            footprints_most,
            ..self
        }
    }

    pub fn for_walks(self) -> Limits {
        self.with_footprints(FOOTPRINTS_WALKED_MOST)
    }

    pub fn for_joins(self) -> Limits {
        self.with_footprints(FOOTPRINTS_JOINED_MOST)
    }

    pub fn for_few(self) -> Limits {
        self.with_footprints(5)
    }
}

/// A grid within the limits, small ones often.
pub fn grid(random: &mut Random, limits: &Limits) -> Grid {
    let most = limits.tiles_most;
    let n = match random.below(20) {
        0..3 => 1,
        3..8 => 2,
        8..12 => 3,
        12..15 => 4,
        15 => most,
        16 => random.between(1, most),
        _ => random.between(1, most.min(6)),
    };
    let side = match random.below(8) {
        0 => 1,
        1 => 2,
        2 => SIDE_MOST,
        3 => random.between(1, SIDE_MOST),
        _ => random.between(1, 100),
    };
    let n = n.min(most);
    Grid { n, side }
}

/// A coordinate of the grid: anywhere, at the grid's ends or beside a tile's edge.
pub fn coordinate(random: &mut Random, g: Grid) -> u32 {
    let last = g.reach() - 1;
    let edge = random.small(g.n) * g.side;
    match random.below(8) {
        0 => 0,
        1 => last,
        2 => edge,
        3 => edge.saturating_sub(1),
        4 => (edge + 1).min(last),
        _ => random.between(0, last),
    }
}

fn ordered(random: &mut Random, g: Grid) -> (u32, u32) {
    let (one, other) = (coordinate(random, g), coordinate(random, g));
    (one.min(other), one.max(other))
}

/// A span of few coordinates.
fn short(random: &mut Random, g: Grid) -> (u32, u32) {
    let lo = coordinate(random, g);
    let length = random.small(g.side.min(20) + 1);
    (lo, (lo + length).min(g.reach() - 1))
}

fn whole_tile(random: &mut Random, g: Grid) -> (u32, u32) {
    let column = random.small(g.n);
    (column * g.side, (column + 1) * g.side - 1)
}

/// A good footprint: any, a point, a duct, full width or height, the whole grid, whole tiles, or small.
pub fn good_footprint(random: &mut Random, g: Grid) -> [u32; 4] {
    let all = (0, g.reach() - 1);
    let (x, y) = match random.below(10) {
        0 => (all, all),
        1 => (all, short(random, g)),
        2 => (short(random, g), all),
        3 => (ordered(random, g), short(random, g)),
        4 => (short(random, g), ordered(random, g)),
        5 => (whole_tile(random, g), whole_tile(random, g)),
        6 => {
            let (x, y) = (coordinate(random, g), coordinate(random, g));
            ((x, x), (y, y))
        }
        7 => (short(random, g), short(random, g)),
        _ => (ordered(random, g), ordered(random, g)),
    };
    [x.0, y.0, x.1, y.1]
}

/// A footprint of few coordinates.
fn small_footprint(random: &mut Random, g: Grid) -> [u32; 4] {
    let (x, y) = (short(random, g), short(random, g));
    [x.0, y.0, x.1, y.1]
}

/// A footprint that meets refusal 3.
pub fn bad_footprint(random: &mut Random, g: Grid) -> [u32; 4] {
    let mut numbers = good_footprint(random, g);
    let dimension = random.place(2);
    match random.below(4) {
        0 => numbers[2 + dimension] = g.reach(),
        1 => numbers[2 + dimension] = u32::MAX - random.small(2),
        2 => numbers[dimension] = numbers[2 + dimension] + 1,
        _ => numbers[dimension] = u32::MAX - random.small(2),
    }
    numbers
}

/// How many footprints a yard has: none, one, few or up to the limit.
fn footprints_wanted(random: &mut Random, limits: &Limits) -> usize {
    let most = limits.footprints_most;
    let wanted = match random.below(10) {
        0 => 0,
        1 => 1,
        8 if random.chance(20) => most,
        9 => random.place(most + 1),
        _ => 2 + random.place(10),
    };
    wanted.min(most)
}

/// The next footprint of a register: one that stands there already, or a new one.
fn next_footprint(random: &mut Random, g: Grid, reg: &[u32], crowded: bool) -> [u32; 4] {
    if !reg.is_empty() && random.chance(15) {
        let first = NUMBERS_A_FOOTPRINT * random.place(footprint_count(reg));
        return [reg[first], reg[first + 1], reg[first + 2], reg[first + 3]];
    }
    if crowded {
        small_footprint(random, g)
    } else {
        good_footprint(random, g)
    }
}

/// Good footprints, some of them equal, that need no more entries than the limit.
pub fn register(random: &mut Random, g: Grid, limits: &Limits) -> Vec<u32> {
    let wanted = footprints_wanted(random, limits);
    let mut reg: Vec<u32> = Vec::new();
    let mut room = limits.table_most as u64;
    for _ in 0..wanted {
        let numbers = next_footprint(random, g, &reg, wanted >= CROWD);
        let need = entry_count(g, &numbers);
        if need > room || reg.len() + SPARE > limits.table_most {
            break;
        }
        room -= need;
        reg.extend(numbers);
    }
    reg
}

/// Puts bad footprints in the places of one or two of a register's.
pub fn spoil_register(random: &mut Random, g: Grid, reg: &mut [u32]) {
    let count = footprint_count(reg);
    if count == 0 {
        return;
    }
    for _ in 0..random.pick(&[1, 1, 2]) {
        let first = NUMBERS_A_FOOTPRINT * random.place(count);
        let bad = bad_footprint(random, g);
        reg[first..first + NUMBERS_A_FOOTPRINT].copy_from_slice(&bad);
    }
}

/// A point of the grid, often at a corner of a footprint or one beside it.
pub fn point(random: &mut Random, g: Grid, reg: &[u32]) -> (u32, u32) {
    if footprint_count(reg) == 0 || random.chance(60) {
        return (coordinate(random, g), coordinate(random, g));
    }
    let first = NUMBERS_A_FOOTPRINT * random.place(footprint_count(reg));
    let last = g.reach() - 1;
    let mut beside = |at: u32| (at.min(last) + random.small(3)).saturating_sub(1).min(last);
    (beside(reg[first]), beside(reg[first + 3]))
}

fn root(square: u64) -> u32 {
    (square as f64).sqrt() as u32
}

/// A radius of the search: small, just at a footprint's distance, or up to the limit.
pub fn radius(random: &mut Random, g: Grid, reg: &[u32], x: u32, y: u32) -> u32 {
    match random.below(10) {
        0 => 0,
        1 => RADIUS_MOST,
        2 => random.between(0, RADIUS_MOST),
        3 | 4 => random.between(0, g.reach()),
        5 | 6 => random.between(0, 2 * g.side),
        _ if footprint_count(reg) > 0 => {
            let number = random.small(footprint_count(reg) as u32);
            let square = Rectangle::of_point(x, y).square(footprint(reg, number));
            let near = root(square).min(RADIUS_MOST - 1) + random.small(3);
            near.saturating_sub(1).min(RADIUS_MOST)
        }
        _ => g.side,
    }
}

/// Built tables of good footprints, and entries past the count.
pub fn built_tables(random: &mut Random, g: Grid, reg: Vec<u32>, limits: &Limits) -> Lent {
    let index = built(g, &reg);
    let mut entries = index.entries;
    let space = limits.table_most.saturating_sub(entries.len());
    let tail = random.pick(&[0, 0, 1, 2, 7]).min(space);
    entries.extend(random.wild_table(tail));
    Lent {
        reg,
        starts: index.starts,
        entries,
    }
}

/// A start, or an entry, that is not what stood there.
fn change_one(random: &mut Random, lent: &mut Lent) {
    let count = footprint_count(&lent.reg) as u32;
    let in_entries = random.chance(50) && !lent.entries.is_empty();
    let table = if in_entries {
        &mut lent.entries
    } else {
        &mut lent.starts
    };
    let place = random.place(table.len());
    table[place] = match random.below(8) {
        0 => table[place].wrapping_add(1),
        1 => table[place].wrapping_sub(1),
        2 => count,
        3 => random.small(count + 1),
        4 => table[random.place(place + 1)],
        5 => table[place].wrapping_add(random.pick(&[1 << 28, 1 << 30, 1 << 31])),
        _ => random.wild(),
    };
}

/// Starts that never fall, not from 0 in most cases, over entries that name footprints.
fn rising_tables(random: &mut Random, g: Grid, reg: Vec<u32>) -> Lent {
    let count = footprint_count(&reg) as u32;
    let length = if count == 0 { 0 } else { random.place(60) };
    let entries: Vec<u32> = (0..length).map(|_| random.small(count)).collect();
    let mut starts: Vec<u32> = (0..g.starts_length())
        .map(|_| random.small(length as u32 + 1))
        .collect();
    starts.sort();
    Lent {
        reg,
        starts,
        entries,
    }
}

/// Built tables behind some entries of no run, so that the starts are not from 0.
fn shifted(random: &mut Random, mut lent: Lent) -> Lent {
    let shift = 1 + random.small(5);
    let mut entries = random.wild_table(shift as usize);
    entries.append(&mut lent.entries);
    lent.entries = entries;
    for start in &mut lent.starts {
        *start = start.wrapping_add(shift);
    }
    lent
}

/// Built starts over entries in another order, or with one number many times.
fn reordered(random: &mut Random, mut lent: Lent) -> Lent {
    if random.chance(50) {
        random.shuffle(&mut lent.entries);
    } else {
        let count = footprint_count(&lent.reg) as u32;
        for entry in &mut lent.entries {
            *entry = random.small(count + 1).saturating_sub(1);
        }
    }
    lent
}

fn wild_tables(random: &mut Random, g: Grid, reg: Vec<u32>) -> Lent {
    let length = random.place(40);
    Lent {
        reg,
        starts: random.wild_table(g.starts_length()),
        entries: random.wild_table(length),
    }
}

/// Changes tables in one way; most of the ways leave them no longer as the build does.
pub fn disturb(random: &mut Random, g: Grid, mut lent: Lent, limits: &Limits) -> Lent {
    match random.below(10) {
        0..4 => change_one(random, &mut lent),
        4 => lent.entries.truncate(lent.entries.len() / 2),
        5 => lent = reordered(random, lent),
        6 if lent.entries.len() + SPARE <= limits.table_most => lent = shifted(random, lent),
        7 => lent.reg = register(random, g, limits),
        _ => spoil_register(random, g, &mut lent.reg),
    }
    lent
}

/// Tables of any origin.
pub fn any_tables(random: &mut Random, g: Grid, limits: &Limits) -> Lent {
    let reg = register(random, g, limits);
    let lent = match random.below(20) {
        0 => wild_tables(random, g, reg),
        1..5 => rising_tables(random, g, reg),
        _ => built_tables(random, g, reg, limits),
    };
    if random.chance(60) {
        disturb(random, g, lent, limits)
    } else {
        lent
    }
}

/// Tables as the build leaves them, for calls that should be accepted.
pub fn fair_tables(random: &mut Random, g: Grid, limits: &Limits) -> Lent {
    let reg = register(random, g, limits);
    built_tables(random, g, reg, limits)
}
