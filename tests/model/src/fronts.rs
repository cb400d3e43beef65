//! Random asks: fronts as walks leave them, then shuffled, shortened, changed in one number or wholly random, with states to match or not.

use crate::call::{Asked, Lent};
use crate::groups::{Centre, Group};
use crate::random::Random;
use crate::register::footprint_count;
use crate::sizes::{Grid, DIRECTIONS, LEVELS, NUMBERS_A_ROW, NUMBERS_GIVEN};
use crate::tables::Tables;
use crate::walk::{self, start_need, Row, Walk, FOOTPRINT, GROUP, TILE};
use crate::yards::{self, Limits};

/// A front and the state that goes with it.
struct Waiting {
    front: Vec<u64>,
    walk: Walk,
}

/// Starts a walk and asks a few times; none where that is refused.
fn walked(
    random: &mut Random,
    tables: &Tables,
    at: (u32, u32),
    limits: &Limits,
) -> Option<Waiting> {
    let need = start_need(tables) as usize;
    if need > limits.table_most {
        return None;
    }
    let longer = random
        .pick(&[0, 0, 0, 1, 2, 3, 5])
        .min(limits.table_most - need);
    let mut front = random.wild_long_table(need + longer);
    let (started, mut walk) = walk::start(tables, at.0, at.1, &mut front);
    started.ok()?;
    for _ in 0..random.below(3) {
        let j = random.small(footprint_count(tables.reg) as u32 + 1);
        let mut out = vec![0; NUMBERS_GIVEN * j as usize];
        let (asked, after) = walk::ask(tables, &mut front, walk, j, &mut out);
        asked.ok()?;
        walk = after;
    }
    Some(Waiting { front, walk })
}

/// What exists around the point of a walk.
struct Around {
    groups: Vec<u64>,
    tiles: u64,
    footprints: u64,
}

impl Around {
    fn new(tables: &Tables, (x, y): (u32, u32)) -> Around {
        let centre = Centre { g: tables.g, x, y };
        let groups = (0..DIRECTIONS).flat_map(|direction| centre.groups(direction));
        Around {
            groups: groups.map(Group::number).collect(),
            tiles: u64::from(tables.g.tile_count()),
            footprints: footprint_count(tables.reg) as u64,
        }
    }

    /// A number for a row of this kind: of something that exists, if there is any.
    fn number(&self, random: &mut Random, kind: u64) -> u64 {
        match kind {
            GROUP if !self.groups.is_empty() => random.pick(&self.groups),
            TILE => random.below(self.tiles),
            FOOTPRINT if self.footprints > 0 => random.below(self.footprints),
            _ => random.below(3),
        }
    }

    /// A number for a row of this kind that is none of those.
    fn wrong_number(&self, random: &mut Random, kind: u64) -> u64 {
        match random.below(7) {
            0 => random.below(DIRECTIONS) * LEVELS,
            1 => DIRECTIONS * LEVELS + random.below(3),
            2 => random.wild_long(),
            3 => self.tiles,
            4 => self.footprints,
            5 => self.number(random, GROUP) + 1,
            _ => self.number(random, kind) + (1 << 32),
        }
    }
}

fn any_kind(random: &mut Random) -> u64 {
    match random.below(30) {
        0 => 3,
        1 => random.wild_long(),
        2 => (1 << 32) + random.below(3),
        _ => random.pick(&[GROUP, TILE, FOOTPRINT]),
    }
}

/// A row that in most cases exists, with any square.
fn any_row(random: &mut Random, around: &Around) -> Row {
    let kind = any_kind(random);
    let square = match random.below(3) {
        0 => random.below(4),
        1 => random.below(20_000),
        _ => random.wild_long(),
    };
    let number = match random.chance(10) {
        true => around.wrong_number(random, kind),
        false => around.number(random, kind),
    };
    Row {
        square,
        kind,
        number,
    }
}

fn rows_to_numbers(rows: &[Row]) -> Vec<u64> {
    let numbers = rows
        .iter()
        .flat_map(|row| [row.square, row.kind, row.number]);
    numbers.collect()
}

/// A front of rows that no walk left there.
fn made_up(random: &mut Random, tables: &Tables, at: (u32, u32)) -> Waiting {
    let count = random.place(6);
    let around = Around::new(tables, at);
    let mut rows: Vec<Row> = (0..count).map(|_| any_row(random, &around)).collect();
    if random.chance(35) {
        rows.sort();
    }
    let mut front = rows_to_numbers(&rows);
    let room = random.place(80);
    front.extend(random.wild_long_table(room));
    let walk = Walk {
        x: at.0,
        y: at.1,
        waiting: count as u64,
        damaged: false,
    };
    Waiting { front, walk }
}

/// Rows of a front in another order.
fn shuffle_rows(random: &mut Random, waiting: &mut Waiting) {
    let rows = (waiting.walk.waiting as usize).min(waiting.front.len() / NUMBERS_A_ROW);
    for end in (1..rows).rev() {
        let other = random.place(end + 1);
        for number in 0..NUMBERS_A_ROW {
            let (one, two) = (NUMBERS_A_ROW * end, NUMBERS_A_ROW * other);
            waiting.front.swap(one + number, two + number);
        }
    }
}

/// Rows of a front in another order, a group or tile that exists put first.
fn disorder(random: &mut Random, waiting: &mut Waiting, around: &Around) {
    shuffle_rows(random, waiting);
    if waiting.walk.waiting > 0 && random.chance(60) {
        let kind = random.pick(&[GROUP, TILE]);
        waiting.front[1] = kind;
        waiting.front[2] = around.number(random, kind);
    }
}

/// Puts any row in the place of a waiting one.
fn change_row(random: &mut Random, waiting: &mut Waiting, around: &Around) {
    let rows = (waiting.walk.waiting as usize).min(waiting.front.len() / NUMBERS_A_ROW);
    if rows == 0 {
        return;
    }
    let any = random.place(rows);
    let first = NUMBERS_A_ROW * random.pick(&[0, any, rows - 1]);
    let new = rows_to_numbers(&[any_row(random, around)]);
    if random.chance(50) {
        waiting.front[first..first + NUMBERS_A_ROW].copy_from_slice(&new);
    } else {
        let number = random.place(NUMBERS_A_ROW);
        waiting.front[first + number] = new[number];
    }
}

/// Leaves little room, or none, for new rows.
fn shorten(random: &mut Random, waiting: &mut Waiting) {
    let rows = waiting.walk.waiting as usize;
    let length = NUMBERS_A_ROW * rows + random.place(12);
    waiting.front.truncate(length);
}

/// Changes the front or the state in one way.
fn spoil(random: &mut Random, waiting: &mut Waiting, around: &Around) {
    match random.below(10) {
        0..3 => disorder(random, waiting, around),
        3..5 => change_row(random, waiting, around),
        5 | 6 => shorten(random, waiting),
        7 => waiting.walk.waiting = (waiting.front.len() / NUMBERS_A_ROW) as u64 + random.below(2),
        8 => waiting.walk.waiting = other_count(random, waiting.walk.waiting),
        _ => waiting.walk.damaged = true,
    }
}

/// A count of waiting rows that is not the front's: less, or so large that three times it runs over.
fn other_count(random: &mut Random, count: u64) -> u64 {
    let third = u64::MAX / NUMBERS_A_ROW as u64;
    match random.below(4) {
        0 | 1 => random.below(count.saturating_add(1)),
        2 => third + random.below(3),
        _ => random.wild_long(),
    }
}

/// How many rows are asked for: none, a few, exactly all, more than all, or more than there can be room for.
fn asked_rows(random: &mut Random, tables: &Tables) -> u32 {
    let count = footprint_count(tables.reg) as u32;
    match random.below(16) {
        0 | 1 => 0,
        2..5 => 1,
        5 | 6 => count,
        7 | 8 => count + 1,
        9 => count + random.small(5),
        10 if random.chance(30) => random.wild(),
        11 if random.chance(20) => (1 << 31) + random.small(3),
        _ => random.small(count + 2),
    }
}

/// The output of an ask: in most cases enough, else one short or less.
fn output(random: &mut Random, j: u32, limits: &Limits) -> Vec<u64> {
    let need = NUMBERS_GIVEN * j as usize;
    if need > limits.table_most {
        let length = random.place(20);
        return random.wild_long_table(length);
    }
    let length = match random.below(20) {
        0 => need.saturating_sub(1),
        1 => need / 2,
        2..7 => need + 1 + random.place(4),
        _ => need,
    };
    random.wild_long_table(length.min(limits.table_most))
}

/// The front and state of a walk over these tables, or made up, and spoiled in some cases.
fn any_waiting(random: &mut Random, tables: &Tables, at: (u32, u32), limits: &Limits) -> Waiting {
    let walked = walked(random, tables, at, limits);
    let made = random.chance(20);
    let mut waiting = match walked {
        Some(waiting) if !made => waiting,
        _ => made_up(random, tables, at),
    };
    if random.chance(45) {
        spoil(random, &mut waiting, &Around::new(tables, at));
    }
    waiting
}

fn mark(random: &mut Random, damaged: bool) -> u32 {
    match damaged {
        true => random.pick(&[1, 1, 1, 2, u32::MAX]),
        false => 0,
    }
}

/// A random ask over these tables from this point; in some cases the tables change after the walk began.
pub fn ask(random: &mut Random, g: Grid, lent: Lent, at: (u32, u32), limits: &Limits) -> Asked {
    let waiting = any_waiting(random, &lent.tables(g), at, limits);
    let j = asked_rows(random, &lent.tables(g));
    let lent = match random.chance(20) {
        true => yards::disturb(random, g, lent, limits),
        false => lent,
    };
    Asked::Ask {
        front: waiting.front,
        x: waiting.walk.x,
        y: waiting.walk.y,
        waiting: waiting.walk.waiting,
        mark: mark(random, waiting.walk.damaged),
        j,
        out: output(random, j, limits),
        lent,
    }
}
