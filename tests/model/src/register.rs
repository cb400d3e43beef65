//! The register: four numbers a footprint, and which footprints would meet refusal 3.

use crate::sizes::{Grid, NUMBERS_A_FOOTPRINT};
use crate::span::{Rectangle, Span};

pub fn footprint_count(reg: &[u32]) -> usize {
    reg.len() / NUMBERS_A_FOOTPRINT
}

/// The footprint at a place of the register that has it.
pub fn footprint(reg: &[u32], number: u32) -> Rectangle {
    let first = number as usize * NUMBERS_A_FOOTPRINT;
    let (xlo, ylo, xhi, yhi) = (reg[first], reg[first + 1], reg[first + 2], reg[first + 3]);
    Rectangle {
        x: Span { lo: xlo, hi: xhi },
        y: Span { lo: ylo, hi: yhi },
    }
}

pub fn numbers(reg: &[u32]) -> std::ops::Range<u32> {
    0..footprint_count(reg) as u32
}

fn is_bad_span(g: Grid, span: Span) -> bool {
    span.lo > span.hi || span.hi >= g.reach()
}

/// The footprint would meet refusal 3: lo over hi, or hi off the grid.
pub fn is_bad(g: Grid, footprint: Rectangle) -> bool {
    is_bad_span(g, footprint.x) || is_bad_span(g, footprint.y)
}

pub fn lowest_bad(g: Grid, reg: &[u32]) -> Option<u32> {
    numbers(reg).find(|&number| is_bad(g, footprint(reg, number)))
}
