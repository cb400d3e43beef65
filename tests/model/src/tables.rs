//! Tables: the lent register, starts and entries; a run and its ends; the damage that reading a run can meet.

use crate::refusal::{judge_register, judge_sizes, judge_starts, Damage, Judged, Refusal};
use crate::register::{footprint, footprint_count, is_bad};
use crate::sizes::{Grid, Tile, CLASSES, ENTRIES_MOST};

/// A grid and the three tables lent with it, of any origin.
#[derive(Clone, Copy)]
pub struct Tables<'a> {
    pub g: Grid,
    pub reg: &'a [u32],
    pub starts: &'a [u32],
    pub entries: &'a [u32],
}

/// From where to where a run stands in the entries.
#[derive(Clone, Copy, PartialEq, Eq, Debug)]
pub struct Part {
    pub from: usize,
    pub to: usize,
}

/// The ends of a run, judged by its two starts and the count of lent entries alone.
fn ends(starts: &[u32], lent: usize, run: usize) -> Result<Part, Damage> {
    let (from, to) = (starts[run], starts[run + 1]);
    if to < from {
        return Err(Damage::StartBelow);
    }
    if to as usize > lent || to > ENTRIES_MOST {
        return Err(Damage::EndBeyond);
    }
    Ok(Part {
        from: from as usize,
        to: to as usize,
    })
}

/// The run of a tile and class as a part of the lent entries, whose contents are not looked at.
pub fn run(g: Grid, starts: &[u32], lent: usize, tile: u32, class: u32) -> Result<Part, Refusal> {
    judge_sizes(g)?;
    judge_starts(g, starts)?;
    if tile >= g.tile_count() || class >= CLASSES {
        return Err(Refusal::Place);
    }
    ends(starts, lent, (CLASSES * tile + class) as usize).map_err(Refusal::Damaged)
}

impl<'a> Tables<'a> {
    /// Refusals 1 and 2.
    pub fn judge(&self) -> Judged {
        judge_sizes(self.g)?;
        self.judge_lengths()
    }

    /// Refusal 2, for a good grid.
    pub fn judge_lengths(&self) -> Judged {
        judge_register(self.reg)?;
        judge_starts(self.g, self.starts)
    }

    /// Reads a run: its entries in their order, or the damage met in it.
    pub fn read(&self, tile: Tile, class: u32) -> Result<&'a [u32], Damage> {
        let run = (CLASSES * self.g.tile_number(tile) + class) as usize;
        let part = ends(self.starts, self.entries.len(), run)?;
        let read = &self.entries[part.from..part.to];
        for &entry in read {
            self.judge_entry(entry)?;
        }
        Ok(read)
    }

    fn judge_entry(&self, entry: u32) -> Result<(), Damage> {
        if entry as usize >= footprint_count(self.reg) {
            return Err(Damage::EntryNotBelow);
        }
        if is_bad(self.g, footprint(self.reg, entry)) {
            return Err(Damage::EntryBad);
        }
        Ok(())
    }

    /// An entry may name this number.
    pub fn may_name(&self, number: u64) -> bool {
        u32::try_from(number).is_ok_and(|entry| self.judge_entry(entry).is_ok())
    }
}
