//! Refusals: their numbers and values, why damage was met, and the judgements that more than one call makes.

use crate::register::{footprint_count, lowest_bad};
use crate::sizes::{Grid, FOOTPRINTS_MOST, NUMBERS_A_FOOTPRINT, PROBES_MOST};

/// What was damaged. The rules know only number 7; the kind tells which branches a set of calls reaches.
#[derive(Clone, Copy, PartialEq, Eq, PartialOrd, Ord, Debug)]
pub enum Damage {
    StartBelow,
    EndBeyond,
    EntryNotBelow,
    EntryBad,
    TooManyEntries,
    Mark,
    WaitingBeyond,
    Kind,
    Group,
    TileRow,
    FootprintRow,
    RowRoom,
}

/// A refusal of document 01 with the value that it returns. Room for the ends of a list of searches stands apart, to tell which calls reach it.
#[derive(Clone, Copy, PartialEq, Eq, PartialOrd, Ord, Debug)]
pub enum Refusal {
    Sizes,
    Lengths,
    Footprint(u32),
    Place,
    Radius,
    Room(u64),
    EndsRoom(u64),
    Damaged(Damage),
    Text(u32),
}

impl Refusal {
    pub fn number(self) -> u64 {
        match self {
            Refusal::Sizes => 1,
            Refusal::Lengths => 2,
            Refusal::Footprint(_) => 3,
            Refusal::Place => 4,
            Refusal::Radius => 5,
            Refusal::Room(_) | Refusal::EndsRoom(_) => 6,
            Refusal::Damaged(_) => 7,
            Refusal::Text(_) => 8,
        }
    }

    /// The value that goes with the number; 0 where the rules name none.
    pub fn value(self) -> u64 {
        match self {
            Refusal::Footprint(number) => u64::from(number),
            Refusal::Room(need) | Refusal::EndsRoom(need) => need,
            Refusal::Text(line) => u64::from(line),
            _ => 0,
        }
    }
}

pub type Judged = Result<(), Refusal>;

fn refuse_if(wrong: bool, refusal: Refusal) -> Judged {
    if wrong {
        Err(refusal)
    } else {
        Ok(())
    }
}

pub fn judge_sizes(g: Grid) -> Judged {
    refuse_if(!g.is_good(), Refusal::Sizes)
}

pub fn judge_register(reg: &[u32]) -> Judged {
    let whole = reg.len().is_multiple_of(NUMBERS_A_FOOTPRINT);
    let few = footprint_count(reg) <= FOOTPRINTS_MOST;
    refuse_if(!whole || !few, Refusal::Lengths)
}

pub fn judge_starts(g: Grid, starts: &[u32]) -> Judged {
    refuse_if(starts.len() != g.starts_length(), Refusal::Lengths)
}

pub fn judge_probes(count: usize) -> Judged {
    refuse_if(count > PROBES_MOST, Refusal::Lengths)
}

pub fn judge_footprints(g: Grid, reg: &[u32]) -> Judged {
    match lowest_bad(g, reg) {
        Some(number) => Err(Refusal::Footprint(number)),
        None => Ok(()),
    }
}

pub fn judge_point(g: Grid, x: u32, y: u32) -> Judged {
    refuse_if(x >= g.reach() || y >= g.reach(), Refusal::Place)
}

pub fn judge_radius(r: u32, most: u32) -> Judged {
    refuse_if(r > most, Refusal::Radius)
}

pub fn judge_room(need: u64, lent: usize) -> Judged {
    refuse_if(need > lent as u64, Refusal::Room(need))
}

pub fn judge_ends(need: u64, lent: usize) -> Judged {
    refuse_if(need > lent as u64, Refusal::EndsRoom(need))
}
