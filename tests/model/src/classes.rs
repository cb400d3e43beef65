//! Classes: the four bits of a footprint in a tile, the classes that a tile gives to a search, and the class pairs that a join takes.

use crate::sizes::{Tile, CLASSES};
use crate::span::{Rectangle, Span};
use std::cmp::Ordering;

/// The two bits of one dimension.
#[derive(Clone, Copy, PartialEq, Eq, Debug)]
pub struct Bits {
    pub begin: bool,
    pub end: bool,
}

fn bits_of(span: Span, column: Span) -> Bits {
    Bits {
        begin: span.begins_before(column),
        end: span.ends_after(column),
    }
}

/// The class of a footprint in a tile that it stands in.
pub fn class_in(footprint: Rectangle, tile: Rectangle) -> u32 {
    let x = bits_of(footprint.x, tile.x);
    let y = bits_of(footprint.y, tile.y);
    8 * u32::from(x.begin) + 4 * u32::from(x.end) + 2 * u32::from(y.begin) + u32::from(y.end)
}

fn x_bits(class: u32) -> Bits {
    Bits {
        begin: class & 8 != 0,
        end: class & 4 != 0,
    }
}

fn y_bits(class: u32) -> Bits {
    Bits {
        begin: class & 2 != 0,
        end: class & 1 != 0,
    }
}

/// One dimension of "a tile gives a class": before, level with or after the tile of the search.
fn gives(column: u32, searched: u32, bits: Bits) -> bool {
    match column.cmp(&searched) {
        Ordering::Less => !bits.end,
        Ordering::Equal => true,
        Ordering::Greater => !bits.begin,
    }
}

/// The classes that a tile gives to a search from tile `searched`, in ascending order.
pub fn allowed(tile: Tile, searched: Tile) -> impl Iterator<Item = u32> {
    (0..CLASSES).filter(move |&class| {
        gives(tile.column, searched.column, x_bits(class))
            && gives(tile.row, searched.row, y_bits(class))
    })
}

/// One dimension of "a class pair is joined": S's tile stands `offset` after R's.
fn joins(offset: i64, r: Bits, s: Bits) -> bool {
    match offset {
        0 => !(r.begin && s.begin),
        1 => !r.end && !s.begin,
        -1 => !r.begin && !s.end,
        _ => false,
    }
}

/// The class pair is joined where S's tile stands at (dx, dy) from R's.
pub fn joined(dx: i64, dy: i64, r_class: u32, s_class: u32) -> bool {
    joins(dx, x_bits(r_class), x_bits(s_class)) && joins(dy, y_bits(r_class), y_bits(s_class))
}
