//! The model against itself on random built yards: the steps against brute force from the register.

use crate::brute::{self, Declared};
use crate::call::Lent;
use crate::groups::Centre;
use crate::index;
use crate::join::join;
use crate::probes::{search_all, Probe};
use crate::random::Random;
use crate::refusal::Refusal;
use crate::register::footprint_count;
use crate::search::search;
use crate::sizes::{Grid, NUMBERS_A_ROW, NUMBERS_GIVEN};
use crate::tables::Tables;
use crate::walk::{self, start_need, Walk};
use crate::yards::{self, Limits};

/// A difference between the steps and brute force.
pub type Found = Result<(), String>;

fn same<T: PartialEq + std::fmt::Debug>(what: &str, steps: T, declared: T) -> Found {
    if steps == declared {
        return Ok(());
    }
    Err(format!(
        "{what}: by the steps {steps:?}, declared {declared:?}"
    ))
}

/// Build and check of a register.
pub fn check_build(g: Grid, reg: &[u32], lent: &Lent) -> Found {
    let declared = brute::tables(g, reg);
    let count = declared.entries.len();
    same("starts", &lent.starts, &declared.starts)?;
    same("entries", &lent.entries[..count], &declared.entries)?;
    let mut starts = vec![u32::MAX; g.starts_length()];
    let mut entries = vec![u32::MAX; count + 2];
    let built = index::build(g, reg, &mut starts, &mut entries);
    same("entry count", built, Ok(count as u64))?;
    same("starts built", starts, declared.starts)?;
    let expected = [&declared.entries[..], &[u32::MAX, u32::MAX]].concat();
    same("entries built", entries, expected)?;
    let checked = index::check(g, reg, &lent.starts, &lent.entries);
    same("check", checked, Ok(true))
}

/// One search, with exact room and with one number less.
pub fn check_search(tables: &Tables, (x, y): (u32, u32), r: u32) -> Found {
    let declared = brute::hits(tables.g, tables.reg, x, y, r);
    let mut out = vec![0; declared.len()];
    let count = declared.len() as u64;
    same("hits", search(tables, x, y, r, &mut out), Ok(count))?;
    same("radius list", &out, &declared)?;
    if count > 0 {
        let short = search(tables, x, y, r, &mut out[1..]);
        same("short search", short, Err(Refusal::Room(count)))?;
    }
    Ok(())
}

/// A list of searches, with exact room and with one number more.
pub fn check_lists(tables: &Tables, probes: &[Probe]) -> Found {
    let mut declared = Vec::new();
    let mut declared_ends = Vec::new();
    for probe in probes {
        declared.extend(brute::hits(tables.g, tables.reg, probe.x, probe.y, probe.r));
        declared_ends.push(declared.len() as u64);
    }
    let total = declared.len() as u64;
    for more in [0, 1] {
        declared.resize(declared.len() + more, 7);
        declared_ends.resize(declared_ends.len() + more, 7);
        let mut out = vec![7; declared.len()];
        let mut ends = vec![7; declared_ends.len()];
        let listed = search_all(tables, probes, &mut out, &mut ends);
        same("listed", listed, Ok(total))?;
        same("lists", &out, &declared)?;
        same("ends", &ends, &declared_ends)?;
    }
    Ok(())
}

/// One join of two registers, with exact room.
pub fn check_join(r_tables: &Tables, s_tables: &Tables, r: u32) -> Found {
    let declared = brute::pairs(r_tables.g, r_tables.reg, s_tables.reg, r);
    let mut out = vec![0; 2 * declared.len()];
    let count = join(r_tables, s_tables, r, &mut out);
    same("pairs", count, Ok(declared.len() as u64))?;
    let pairs: Vec<(u32, u32)> = out.chunks(2).map(|pair| (pair[0], pair[1])).collect();
    same("join", pairs, declared)
}

/// A front as the numbers of its rows, then zeros.
fn front_numbers(rows: &[walk::Row], length: usize) -> Vec<u64> {
    let mut numbers: Vec<u64> = rows
        .iter()
        .flat_map(|row| [row.square, row.kind, row.number])
        .collect();
    numbers.resize(length, 0);
    numbers
}

/// A walk on its way, with what was given so far and whether an ask was short.
struct Way<'a> {
    tables: &'a Tables<'a>,
    front: Vec<u64>,
    walk: Walk,
    given: usize,
    short: bool,
}

impl Way<'_> {
    /// The front and the state are what is declared for the rows given so far.
    fn check_front(&self) -> Found {
        let centre = Centre {
            g: self.tables.g,
            x: self.walk.x,
            y: self.walk.y,
        };
        let reg = self.tables.reg;
        let declared = match self.short {
            true => Vec::new(),
            false => Declared { reg, centre }.front(self.given),
        };
        same("waiting", self.walk.waiting, declared.len() as u64)?;
        same("mark", self.walk.damaged, false)?;
        let numbers = front_numbers(&declared, self.front.len());
        same("front", &self.front, &numbers)
    }

    /// Asks for j rows and checks what is given and what waits.
    fn ask(&mut self, j: u32) -> Found {
        let all = brute::rows(self.tables.reg, self.walk.x, self.walk.y);
        let expected = (all.len() - self.given).min(j as usize);
        let mut out = vec![9; NUMBERS_GIVEN * j as usize + 1];
        let (answer, after) = walk::ask(self.tables, &mut self.front, self.walk, j, &mut out);
        same("rows given", answer, Ok(expected as u64))?;
        let rows = &all[self.given..self.given + expected];
        let mut declared: Vec<u64> = rows
            .iter()
            .flat_map(|&(square, number)| [u64::from(number), square])
            .collect();
        declared.resize(out.len(), 9);
        same("rows", out, declared)?;
        self.given += expected;
        self.short |= expected < j as usize;
        self.walk = after;
        self.check_front()
    }
}

/// A walk in asks of random sizes, until one is short, and one more after it.
pub fn check_walk(random: &mut Random, tables: &Tables, (x, y): (u32, u32)) -> Found {
    let need = start_need(tables) as usize;
    let mut front = random.wild_long_table(need + random.clone().place(2 * NUMBERS_A_ROW));
    let (answer, walk) = walk::start(tables, x, y, &mut front);
    same("start", answer, Ok(0))?;
    let mut way = Way {
        tables,
        front,
        walk,
        given: 0,
        short: false,
    };
    way.check_front()?;
    let most = footprint_count(tables.reg) as u32 + 2;
    while !way.short {
        let j = random.pick(&[0, 1, 1, 2, 3, most]).min(most);
        way.ask(j)?;
    }
    way.ask(1)
}

/// All of one random yard: build, check, searches, alone and in a list, a walk and joins.
pub fn check_yard(random: &mut Random, limits: &Limits) -> Found {
    let g = yards::grid(random, limits);
    let lent = yards::fair_tables(random, g, limits);
    let other = yards::fair_tables(random, g, limits);
    let tables = lent.tables(g);
    check_build(g, &lent.reg, &lent)?;
    let mut probes = Vec::new();
    for _ in 0..4 {
        let (x, y) = yards::point(random, g, &lent.reg);
        let r = yards::radius(random, g, &lent.reg, x, y);
        check_search(&tables, (x, y), r)?;
        check_walk(random, &tables, (x, y))?;
        probes.push(Probe { x, y, r });
        check_lists(&tables, &probes)?;
    }
    for r in [0, g.side, random.between(0, g.side)] {
        check_join(&tables, &other.tables(g), r)?;
        check_join(&tables, &tables, r)?;
    }
    Ok(())
}
