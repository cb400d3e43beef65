//! Brute force from the register alone, for built tables: what the entries, the hits, the pairs, the rows of a walk and its front must be.
//! Nothing here reads starts or entries, and nothing but the bits, the distance and a group's square is shared with the steps.

use crate::classes::class_in;
use crate::groups::{Centre, Group};
use crate::index::{lay_out, Built};
use crate::register::{footprint, numbers};
use crate::sizes::{Grid, Tile, CLASSES, DIRECTIONS};
use crate::span::{Rectangle, Span};
use crate::walk::{Row, FOOTPRINT, GROUP, TILE};

/// The tables: for every tile and class, the footprints that stand there with this class, ascending.
pub fn tables(g: Grid, reg: &[u32]) -> Built {
    let mut runs = Vec::new();
    for tile in g.tiles() {
        let covered = Rectangle::of_tile(g, tile);
        for class in 0..CLASSES {
            let stands = |&number: &u32| {
                let rectangle = footprint(reg, number);
                rectangle.stands_in(covered) && class_in(rectangle, covered) == class
            };
            runs.push(numbers(reg).filter(stands).collect());
        }
    }
    lay_out(&runs)
}

/// The columns lo..hi that a span stands in.
fn columns(g: Grid, span: Span) -> (u32, u32) {
    (span.lo / g.side, span.hi / g.side)
}

/// The point's column drawn into the footprint's span.
fn reporting_column(g: Grid, at: u32, span: Span) -> u32 {
    let (low, high) = columns(g, span);
    (at / g.side).clamp(low, high)
}

/// The one tile that gives a footprint to a search from a point.
pub fn reporting_tile(g: Grid, x: u32, y: u32, footprint: Rectangle) -> Tile {
    Tile {
        column: reporting_column(g, x, footprint.x),
        row: reporting_column(g, y, footprint.y),
    }
}

/// The radius list: footprints within r by reporting tile, class there and number.
pub fn hits(g: Grid, reg: &[u32], x: u32, y: u32, r: u32) -> Vec<u32> {
    let point = Rectangle::of_point(x, y);
    let near = |&number: &u32| point.within(footprint(reg, number), r);
    let mut found: Vec<u32> = numbers(reg).filter(near).collect();
    found.sort_by_key(|&number| {
        let rectangle = footprint(reg, number);
        let tile = reporting_tile(g, x, y, rectangle);
        let class = class_in(rectangle, Rectangle::of_tile(g, tile));
        (g.tile_number(tile), class, number)
    });
    found
}

/// The columns at which two spans are joined: R's and S's facing ends, or the first column that both stand in.
fn joined_columns(g: Grid, r: Span, s: Span) -> (u32, u32) {
    let (r_low, r_high) = columns(g, r);
    let (s_low, s_high) = columns(g, s);
    if r_high < s_low {
        (r_high, s_low)
    } else if s_high < r_low {
        (r_low, s_high)
    } else {
        (r_low.max(s_low), r_low.max(s_low))
    }
}

/// What a pair is ordered by: R tile, S tile, R class, S class.
fn pair_key(g: Grid, r: Rectangle, s: Rectangle) -> (u32, u32, u32, u32) {
    let (r_column, s_column) = joined_columns(g, r.x, s.x);
    let (r_row, s_row) = joined_columns(g, r.y, s.y);
    let r_tile = Tile {
        column: r_column,
        row: r_row,
    };
    let s_tile = Tile {
        column: s_column,
        row: s_row,
    };
    let r_class = class_in(r, Rectangle::of_tile(g, r_tile));
    let s_class = class_in(s, Rectangle::of_tile(g, s_tile));
    (
        g.tile_number(r_tile),
        g.tile_number(s_tile),
        r_class,
        s_class,
    )
}

/// The join of two registers: pairs within r in their order.
pub fn pairs(g: Grid, r_reg: &[u32], s_reg: &[u32], r: u32) -> Vec<(u32, u32)> {
    let mut found = Vec::new();
    for in_r in numbers(r_reg) {
        let from = footprint(r_reg, in_r);
        let near = |&in_s: &u32| from.within(footprint(s_reg, in_s), r);
        found.extend(numbers(s_reg).filter(near).map(|in_s| (in_r, in_s)));
    }
    found.sort_by_key(|&(in_r, in_s)| {
        let key = pair_key(g, footprint(r_reg, in_r), footprint(s_reg, in_s));
        (key, in_r, in_s)
    });
    found
}

/// All rows of a walk, as (square, footprint) in the order in which they are given.
pub fn rows(reg: &[u32], x: u32, y: u32) -> Vec<(u64, u32)> {
    let point = Rectangle::of_point(x, y);
    let mut all: Vec<(u64, u32)> = numbers(reg)
        .map(|number| (point.square(footprint(reg, number)), number))
        .collect();
    all.sort();
    all
}

/// A walk on built tables: its register and its point.
pub struct Declared<'a> {
    pub reg: &'a [u32],
    pub centre: Centre,
}

impl Declared<'_> {
    fn square(&self, tile: Tile) -> u64 {
        let point = Rectangle::of_point(self.centre.x, self.centre.y);
        point.square(Rectangle::of_tile(self.centre.g, tile))
    }

    /// The one group that a tile belongs to, by its offset from Tq; none for Tq itself.
    fn group_of(&self, tile: Tile) -> Option<Group> {
        let from = self.centre.tile();
        let columns = i64::from(tile.column) - i64::from(from.column);
        let rows = i64::from(tile.row) - i64::from(from.row);
        let level = columns.abs().max(rows.abs());
        let direction = match level {
            0 => return None,
            up if rows == up && columns < up => 0,
            right if columns == right && rows > -right => 1,
            down if rows == -down && columns > -down => 2,
            _ => 3,
        };
        let level = level as u64;
        Some(Group { direction, level })
    }

    /// The tile waits for its turn: its group is open.
    fn is_reached(&self, tile: Tile, d: u64) -> bool {
        let group = self.group_of(tile);
        group.is_some_and(|group| self.group_square(group) <= d)
    }

    fn group_square(&self, group: Group) -> u64 {
        self.centre.square(group).expect("the group exists")
    }

    /// The footprints not among the first `given` rows whose reporting tile is Tq or has square ≤ d.
    fn footprints(&self, given: usize, d: Option<u64>) -> Vec<Row> {
        let Centre { g, x, y } = self.centre;
        let later = rows(self.reg, x, y).into_iter().skip(given);
        let reached = later.filter(|&(_, number)| {
            let tile = reporting_tile(g, x, y, footprint(self.reg, number));
            tile == self.centre.tile() || d.is_some_and(|d| self.square(tile) <= d)
        });
        let as_row = |(square, number)| Row {
            square,
            kind: FOOTPRINT,
            number: u64::from(number),
        };
        reached.map(as_row).collect()
    }

    /// The tiles of square > d that have a group of square ≤ d.
    fn tiles(&self, d: u64) -> Vec<Row> {
        let g = self.centre.g;
        let reached = g.tiles().filter(|&tile| self.is_reached(tile, d));
        let far = reached.filter(|&tile| self.square(tile) > d);
        let as_row = |tile| Row {
            square: self.square(tile),
            kind: TILE,
            number: u64::from(g.tile_number(tile)),
        };
        far.map(as_row).collect()
    }

    /// The first group of each direction with square > d; without d, the first of each.
    fn groups(&self, d: Option<u64>) -> Vec<Row> {
        let beyond = |group: &Group| d.is_none_or(|d| self.group_square(*group) > d);
        let first = |direction| self.centre.groups(direction).find(beyond);
        let as_row = |group: Group| Row {
            square: self.group_square(group),
            kind: GROUP,
            number: group.number(),
        };
        (0..DIRECTIONS).filter_map(first).map(as_row).collect()
    }

    /// What waits after the first `given` rows were given and no ask was short.
    pub fn front(&self, given: usize) -> Vec<Row> {
        let all = rows(self.reg, self.centre.x, self.centre.y);
        let last = given.checked_sub(1).map(|place| all[place].0);
        let mut waiting = self.footprints(given, last);
        if let Some(d) = last {
            waiting.extend(self.tiles(d));
        }
        waiting.extend(self.groups(last));
        waiting.sort();
        waiting
    }
}
