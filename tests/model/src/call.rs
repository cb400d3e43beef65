//! Calls: each public function with all that is lent to it, as the numbers that `replay` reads, and the numbers that it must answer.
//! Codes 1 to 7 are `replay`'s. Codes 8 (a list of searches), 11, 12, 14 (byte doors) and 23 (a run over entries of a length alone) are for the C
//! driver.

use crate::bytes::{self, ByteTables};
use crate::index;
use crate::join;
use crate::probes::{self, Probe, Refused};
use crate::refusal::Refusal;
use crate::search;
use crate::sizes::Grid;
use crate::tables::{self, Tables};
use crate::walk::{self, Walk};

pub const REPLAY_CODES: [u64; 7] = [1, 2, 3, 4, 5, 6, 7];
pub const LIST_CODES: [u64; 1] = [8];
pub const ALL_CODES: [u64; 12] = [1, 2, 3, 4, 5, 6, 7, 8, 11, 12, 14, 23];

/// The tables of a call as the caller owns them.
#[derive(Clone, PartialEq, Eq, Debug)]
pub struct Lent {
    pub reg: Vec<u32>,
    pub starts: Vec<u32>,
    pub entries: Vec<u32>,
}

impl Lent {
    pub fn tables(&self, g: Grid) -> Tables<'_> {
        Tables {
            g,
            reg: &self.reg,
            starts: &self.starts,
            entries: &self.entries,
        }
    }
}

/// The tables of a byte call.
#[derive(Clone, PartialEq, Eq, Debug)]
pub struct LentBytes {
    pub reg: Vec<u8>,
    pub starts: Vec<u8>,
    pub entries: Vec<u8>,
}

impl LentBytes {
    fn tables(&self, g: Grid) -> ByteTables<'_> {
        ByteTables {
            g,
            reg: &self.reg,
            starts: &self.starts,
            entries: &self.entries,
        }
    }
}

/// What a call asks for and lends beside its grid.
#[derive(Clone, PartialEq, Eq, Debug)]
pub enum Asked {
    Build {
        lent: Lent,
    },
    Check {
        lent: Lent,
    },
    Run {
        starts: Vec<u32>,
        entries: Vec<u32>,
        tile: u32,
        class: u32,
    },
    Search {
        lent: Lent,
        x: u32,
        y: u32,
        r: u32,
        out: Vec<u32>,
    },
    Start {
        lent: Lent,
        x: u32,
        y: u32,
        front: Vec<u64>,
    },
    Ask {
        lent: Lent,
        front: Vec<u64>,
        x: u32,
        y: u32,
        waiting: u64,
        mark: u32,
        j: u32,
        out: Vec<u64>,
    },
    Join {
        r_lent: Lent,
        s_lent: Lent,
        r: u32,
        out: Vec<u32>,
    },
    SearchAll {
        lent: Lent,
        probes: Vec<Probe>,
        out: Vec<u32>,
        ends: Vec<u64>,
    },
    BuildBytes {
        lent: LentBytes,
    },
    CheckBytes {
        lent: LentBytes,
    },
    SearchBytes {
        lent: LentBytes,
        x: u32,
        y: u32,
        r: u32,
        out: Vec<u8>,
    },
    LongRun {
        starts: Vec<u32>,
        entries: u64,
        tile: u32,
        class: u32,
    },
}

/// A whole call.
#[derive(Clone, PartialEq, Eq, Debug)]
pub struct Call {
    pub g: Grid,
    pub asked: Asked,
}

/// How a call ended, and every number that must be answered.
pub struct Answer {
    pub result: Result<u64, Refusal>,
    pub numbers: Vec<u64>,
}

impl Call {
    pub fn code(&self) -> u64 {
        match self.asked {
            Asked::Build { .. } => 1,
            Asked::Check { .. } => 2,
            Asked::Run { .. } => 3,
            Asked::Search { .. } => 4,
            Asked::Start { .. } => 5,
            Asked::Ask { .. } => 6,
            Asked::Join { .. } => 7,
            Asked::SearchAll { .. } => 8,
            Asked::BuildBytes { .. } => 11,
            Asked::CheckBytes { .. } => 12,
            Asked::SearchBytes { .. } => 14,
            Asked::LongRun { .. } => 23,
        }
    }

    /// Runs the call on copies of what it lends.
    pub fn answer(&self) -> Answer {
        let mut after = self.clone();
        after.run()
    }

    fn run(&mut self) -> Answer {
        let g = self.g;
        match &mut self.asked {
            Asked::Build { lent } => {
                let result = index::build(g, &lent.reg, &mut lent.starts, &mut lent.entries);
                answered(result).table(&lent.starts).table(&lent.entries)
            }
            Asked::Check { lent } => {
                let result = index::check(g, &lent.reg, &lent.starts, &lent.entries);
                answered(result.map(u64::from))
            }
            Asked::Run {
                starts,
                entries,
                tile,
                class,
            } => answer_run(g, starts, entries, *tile, *class),
            Asked::Search { lent, x, y, r, out } => {
                answered(search::search(&lent.tables(g), *x, *y, *r, out)).table(out)
            }
            Asked::Start { lent, x, y, front } => {
                let (result, walk) = walk::start(&lent.tables(g), *x, *y, front);
                answered(result).state(walk).table(front)
            }
            Asked::Ask { .. } => self.run_ask(),
            Asked::Join {
                r_lent,
                s_lent,
                r,
                out,
            } => answered(join::join(&r_lent.tables(g), &s_lent.tables(g), *r, out)).table(out),
            _ => self.run_for_driver(),
        }
    }

    fn run_ask(&mut self) -> Answer {
        let Asked::Ask {
            lent,
            front,
            x,
            y,
            waiting,
            mark,
            j,
            out,
        } = &mut self.asked
        else {
            unreachable!("only asks come here")
        };
        let walk = Walk {
            x: *x,
            y: *y,
            waiting: *waiting,
            damaged: *mark != 0,
        };
        let (result, after) = walk::ask(&lent.tables(self.g), front, walk, *j, out);
        answered(result).state(after).table(front).table(out)
    }

    fn run_for_driver(&mut self) -> Answer {
        let g = self.g;
        match &mut self.asked {
            Asked::SearchAll {
                lent,
                probes,
                out,
                ends,
            } => {
                let result = probes::search_all(&lent.tables(g), probes, out, ends);
                answered_list(result).table(out).table(ends)
            }
            Asked::BuildBytes { lent } => {
                let result = bytes::build(g, &lent.reg, &mut lent.starts, &mut lent.entries);
                answered(result).table(&lent.starts).table(&lent.entries)
            }
            Asked::CheckBytes { lent } => {
                let result = bytes::check(g, &lent.reg, &lent.starts, &lent.entries);
                answered(result.map(u64::from))
            }
            Asked::SearchBytes { lent, x, y, r, out } => {
                answered(bytes::search(&lent.tables(g), *x, *y, *r, out)).table(out)
            }
            Asked::LongRun {
                starts,
                entries,
                tile,
                class,
            } => answer_long_run(g, starts, *entries, *tile, *class),
            _ => unreachable!("the other calls do not come here"),
        }
    }

    /// How many numbers an answer has, once its first two are known.
    pub fn answer_length(&self, number: u64, value: u64) -> u64 {
        let rest = match &self.asked {
            Asked::Build { lent } => lent.starts.len() + lent.entries.len(),
            Asked::Check { .. } | Asked::CheckBytes { .. } => 0,
            Asked::Run { .. } if number == 0 => return 3u64.saturating_add(value),
            Asked::Run { .. } | Asked::LongRun { .. } => 1,
            Asked::Search { out, .. } | Asked::Join { out, .. } => out.len(),
            Asked::Start { front, .. } => 4 + front.len(),
            Asked::Ask { front, out, .. } => 4 + front.len() + out.len(),
            Asked::SearchAll { out, ends, .. } => out.len() + ends.len(),
            Asked::BuildBytes { lent } => lent.starts.len() + lent.entries.len(),
            Asked::SearchBytes { out, .. } => out.len(),
        };
        2 + rest as u64
    }
}

fn answer_run(g: Grid, starts: &[u32], entries: &[u32], tile: u32, class: u32) -> Answer {
    match tables::run(g, starts, entries.len(), tile, class) {
        Ok(part) => {
            let run = &entries[part.from..part.to];
            answered(Ok(run.len() as u64))
                .number(part.from as u64)
                .table(run)
        }
        Err(refusal) => answered(Err(refusal)).number(0),
    }
}

fn answer_long_run(g: Grid, starts: &[u32], entries: u64, tile: u32, class: u32) -> Answer {
    match tables::run(g, starts, entries as usize, tile, class) {
        Ok(part) => answered(Ok((part.to - part.from) as u64)).number(part.from as u64),
        Err(refusal) => answered(Err(refusal)).number(0),
    }
}

/// The number and value that every answer begins with.
fn answered(result: Result<u64, Refusal>) -> Answer {
    let numbers = match result {
        Ok(value) => vec![0, value],
        Err(refusal) => vec![refusal.number(), refusal.value()],
    };
    Answer { result, numbers }
}

/// The same for a list of searches, whose refusals tell an index.
fn answered_list(result: Result<u64, Refused>) -> Answer {
    let numbers = match result {
        Ok(value) => vec![0, value],
        Err(refused) => vec![refused.why.number(), refused.value],
    };
    let result = result.map_err(|refused| refused.why);
    Answer { result, numbers }
}

impl Answer {
    fn number(mut self, number: u64) -> Answer {
        self.numbers.push(number);
        self
    }

    fn table<T: Copy + Into<u64>>(mut self, table: &[T]) -> Answer {
        self.numbers
            .extend(table.iter().map(|&number| number.into()));
        self
    }

    fn state(self, walk: Walk) -> Answer {
        self.number(u64::from(walk.x))
            .number(u64::from(walk.y))
            .number(walk.waiting)
            .number(u64::from(walk.damaged))
    }
}
