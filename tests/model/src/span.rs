//! Spans (one dimension, used for x and for y alike) and the rectangles that two of them make: footprints, tiles and points.

use crate::sizes::{Grid, Tile};

/// The coordinates lo..hi, both ends belonging to it.
#[derive(Clone, Copy, PartialEq, Eq, Debug)]
pub struct Span {
    pub lo: u32,
    pub hi: u32,
}

impl Span {
    pub fn of_point(at: u32) -> Span {
        Span { lo: at, hi: at }
    }

    /// What a tile column (or tile row) covers.
    pub fn of_column(column: u32, side: u32) -> Span {
        Span {
            lo: column * side,
            hi: (column + 1) * side - 1,
        }
    }

    pub fn shares_a_point(self, other: Span) -> bool {
        self.lo <= other.hi && other.lo <= self.hi
    }

    /// The begin bit in a tile column.
    pub fn begins_before(self, column: Span) -> bool {
        self.lo < column.lo
    }

    /// The end bit in a tile column.
    pub fn ends_after(self, column: Span) -> bool {
        self.hi > column.hi
    }

    /// The larger of 0 and what separates the two ends.
    pub fn gap(self, other: Span) -> u64 {
        let above = other.lo.saturating_sub(self.hi);
        let below = self.lo.saturating_sub(other.hi);
        u64::from(above.max(below))
    }
}

/// A span in each dimension.
#[derive(Clone, Copy, PartialEq, Eq, Debug)]
pub struct Rectangle {
    pub x: Span,
    pub y: Span,
}

impl Rectangle {
    pub fn of_point(x: u32, y: u32) -> Rectangle {
        Rectangle {
            x: Span::of_point(x),
            y: Span::of_point(y),
        }
    }

    pub fn of_tile(g: Grid, tile: Tile) -> Rectangle {
        Rectangle {
            x: Span::of_column(tile.column, g.side),
            y: Span::of_column(tile.row, g.side),
        }
    }

    /// It stands in a tile when it shares a coordinate point with it.
    pub fn stands_in(self, tile: Rectangle) -> bool {
        self.x.shares_a_point(tile.x) && self.y.shares_a_point(tile.y)
    }

    /// The square of the distance: the sum of the two gaps' squares.
    pub fn square(self, other: Rectangle) -> u64 {
        let across = self.x.gap(other.x);
        let along = self.y.gap(other.y);
        across * across + along * along
    }

    pub fn within(self, other: Rectangle, r: u32) -> bool {
        self.square(other) <= u64::from(r) * u64::from(r)
    }
}
