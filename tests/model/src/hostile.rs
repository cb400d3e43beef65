//! Random calls: mostly sound, often damaged, with rooms that just fit or just fail, and faults of every sort on top.

use crate::bytes::to_bytes;
use crate::call::{Asked, Call, Lent, LentBytes};
use crate::fronts;
use crate::index::entry_count;
use crate::join::join;
use crate::probes::{search_all, Probe};
use crate::random::Random;
use crate::refusal::Refusal;
use crate::register::lowest_bad;
use crate::search::search;
use crate::sizes::{
    Grid, CLASSES, ENTRIES_MOST, FOOTPRINTS_MOST, NUMBERS_A_FOOTPRINT, NUMBERS_A_PROBE,
    PROBES_MOST, RADIUS_MOST, SIDE_MOST, TILES_MOST,
};
use crate::walk::start_need;
use crate::yards::{self, Limits};

/// A random call of one of the codes.
pub fn random_call(random: &mut Random, limits: &Limits, codes: &[u64]) -> Call {
    let g = yards::grid(random, limits);
    let asked = match random.pick(codes) {
        1 => build(random, g, limits),
        2 => check(random, g, limits),
        3 => run(random, g, limits),
        4 => search_call(random, g, limits),
        5 => start(random, g, &limits.for_walks()),
        6 => ask(random, g, &limits.for_walks()),
        7 => join_call(random, g, limits),
        8 => search_all_call(random, g, limits),
        23 => long_run(random, g),
        code => as_bytes(random, g, limits, code),
    };
    let mut call = Call { g, asked };
    if random.chance(12) {
        add_fault(random, &mut call, limits);
    }
    if random.chance(7) {
        add_fault(random, &mut call, limits);
    }
    call
}

/// A length around what is needed: exact, one short, longer, much shorter or none.
pub fn room(random: &mut Random, need: u64, limits: &Limits) -> usize {
    let need = need.min(limits.table_most as u64) as usize;
    let length = match random.below(10) {
        0..4 => need,
        4 | 5 => need.saturating_sub(1),
        6 => need + 1 + random.place(4),
        7 => need + 1,
        8 => need / 2,
        _ => need + random.place(20),
    };
    length.min(limits.table_most)
}

fn any_or_fair(random: &mut Random, g: Grid, limits: &Limits) -> Lent {
    if random.chance(50) {
        yards::fair_tables(random, g, limits)
    } else {
        yards::any_tables(random, g, limits)
    }
}

fn build(random: &mut Random, g: Grid, limits: &Limits) -> Asked {
    let mut reg = yards::register(random, g, limits);
    if random.chance(12) {
        yards::spoil_register(random, g, &mut reg);
    }
    let need = match lowest_bad(g, &reg) {
        Some(_) => random.below(20),
        None => entry_count(g, &reg),
    };
    let length = room(random, need, limits);
    Asked::Build {
        lent: Lent {
            reg,
            starts: random.wild_table(g.starts_length()),
            entries: random.wild_table(length),
        },
    }
}

fn check(random: &mut Random, g: Grid, limits: &Limits) -> Asked {
    Asked::Check {
        lent: any_or_fair(random, g, limits),
    }
}

/// A tile and a class, in most cases of the grid.
fn tile_and_class(random: &mut Random, g: Grid) -> (u32, u32) {
    let tiles = g.tile_count();
    let tile = match random.below(20) {
        0 => tiles,
        1 => random.wild(),
        2 => random.pick(&[1 << 28, (1 << 28) + 1, u32::MAX]),
        3 => tiles - 1,
        _ => random.small(tiles),
    };
    let class = match random.below(20) {
        0 => CLASSES,
        1 => random.wild(),
        _ => random.small(CLASSES),
    };
    (tile, class)
}

/// The tile and class of a run that has entries, if there is one.
fn filled_run(random: &mut Random, starts: &[u32]) -> Option<(u32, u32)> {
    let filled: Vec<usize> = (1..starts.len())
        .filter(|&next| starts[next - 1] < starts[next])
        .collect();
    if filled.is_empty() {
        return None;
    }
    let run = random.pick(&filled) as u32 - 1;
    Some((run / CLASSES, run % CLASSES))
}

fn run(random: &mut Random, g: Grid, limits: &Limits) -> Asked {
    let lent = any_or_fair(random, g, limits);
    let any = tile_and_class(random, g);
    let (tile, class) = match random.chance(50) {
        true => filled_run(random, &lent.starts).unwrap_or(any),
        false => any,
    };
    Asked::Run {
        starts: lent.starts,
        entries: lent.entries,
        tile,
        class,
    }
}

/// A run over entries of which only the length is told, around the limit of ends.
fn long_run(random: &mut Random, g: Grid) -> Asked {
    let (tile, class) = tile_and_class(random, g);
    let mut starts = random.wild_table(g.starts_length());
    let place = (CLASSES.wrapping_mul(tile).wrapping_add(class)) as usize;
    if place + 1 < starts.len() {
        let end = ENTRIES_MOST - 2 + random.small(5);
        starts[place] = (end + 1).saturating_sub(random.small(5));
        starts[place + 1] = end;
    }
    Asked::LongRun {
        starts,
        entries: u64::from(ENTRIES_MOST) - 2 + random.below(6),
        tile,
        class,
    }
}

/// The numbers of room that a search or join would need.
fn needed(result: Result<u64, Refusal>) -> u64 {
    match result {
        Err(Refusal::Room(need)) => need,
        _ => 0,
    }
}

fn search_call(random: &mut Random, g: Grid, limits: &Limits) -> Asked {
    let lent = any_or_fair(random, g, limits);
    let (x, y) = yards::point(random, g, &lent.reg);
    let r = yards::radius(random, g, &lent.reg, x, y);
    let need = needed(search(&lent.tables(g), x, y, r, &mut []));
    let length = room(random, need, limits);
    let out = random.wild_table(length);
    Asked::Search { lent, x, y, r, out }
}

/// How many probes a list has: none, one, few, and at times scores or hundreds.
fn probes_wanted(random: &mut Random) -> usize {
    match random.below(12) {
        0 => 0,
        1 => 1,
        2 => 60 + random.place(10),
        3 => random.place(300),
        _ => 2 + random.place(8),
    }
}

/// The next probe of a list: one that stands there already, or a new one.
fn next_probe(random: &mut Random, g: Grid, reg: &[u32], before: &[Probe]) -> Probe {
    if !before.is_empty() && random.chance(15) {
        return random.pick(before);
    }
    let (x, y) = yards::point(random, g, reg);
    let r = yards::radius(random, g, reg, x, y);
    Probe { x, y, r }
}

/// Makes a probe one that is refused.
fn spoil_probe(random: &mut Random, g: Grid, probes: &mut [Probe]) {
    let place = random.place(probes.len());
    let probe = &mut probes[place];
    match random.below(4) {
        0 => fault_in_point(random, g, &mut probe.x),
        1 => fault_in_point(random, g, &mut probe.y),
        _ => fault_in_radius(random, &mut probe.r, RADIUS_MOST),
    }
}

fn search_all_call(random: &mut Random, g: Grid, limits: &Limits) -> Asked {
    let lent = any_or_fair(random, g, limits);
    let mut probes = Vec::new();
    for _ in 0..probes_wanted(random).min(limits.table_most / NUMBERS_A_PROBE) {
        probes.push(next_probe(random, g, &lent.reg, &probes));
    }
    for _ in 0..random.pick(&[0, 0, 0, 0, 0, 1, 2]) {
        if !probes.is_empty() {
            spoil_probe(random, g, &mut probes);
        }
    }
    let listed = search_all(&lent.tables(g), &probes, &mut [], &mut []);
    let need = needed(listed.map_err(|refused| refused.why));
    let length = room(random, need, limits);
    let out = random.wild_table(length);
    let ends_length = room(random, probes.len() as u64, limits);
    let ends = random.wild_long_table(ends_length);
    Asked::SearchAll {
        lent,
        probes,
        out,
        ends,
    }
}

fn start(random: &mut Random, g: Grid, limits: &Limits) -> Asked {
    let lent = any_or_fair(random, g, limits);
    let (x, y) = yards::point(random, g, &lent.reg);
    let length = room(random, start_need(&lent.tables(g)), limits);
    let front = random.wild_long_table(length);
    Asked::Start { lent, x, y, front }
}

fn ask(random: &mut Random, g: Grid, limits: &Limits) -> Asked {
    let lent = any_or_fair(random, g, limits);
    let at = yards::point(random, g, &lent.reg);
    fronts::ask(random, g, lent, at, limits)
}

/// A join's radius: up to the side, and just over it.
fn join_radius(random: &mut Random, g: Grid) -> u32 {
    match random.below(8) {
        0 => 0,
        1 | 2 => g.side,
        3 => g.side - 1,
        4 if random.chance(30) => g.side + 1,
        _ => random.between(0, g.side),
    }
}

fn join_call(random: &mut Random, g: Grid, limits: &Limits) -> Asked {
    let (many, few) = match random.below(10) {
        0 => (limits.for_walks(), limits.for_few()),
        1 => (limits.for_few(), limits.for_walks()),
        _ => (limits.for_joins(), limits.for_joins()),
    };
    let r_lent = any_or_fair(random, g, &many);
    let s_lent = match random.below(6) {
        0 if r_lent.reg.len() < 1_000 => r_lent.clone(),
        1 => yards::any_tables(random, g, &few),
        _ => yards::fair_tables(random, g, &few),
    };
    let r = join_radius(random, g);
    let need = needed(join(&r_lent.tables(g), &s_lent.tables(g), r, &mut []));
    let length = room(random, need, limits);
    let out = random.wild_table(length);
    Asked::Join {
        r_lent,
        s_lent,
        r,
        out,
    }
}

fn lent_bytes(lent: &Lent) -> LentBytes {
    LentBytes {
        reg: to_bytes(&lent.reg),
        starts: to_bytes(&lent.starts),
        entries: to_bytes(&lent.entries),
    }
}

/// One byte more or less, or another few.
fn cut(random: &mut Random, bytes: &mut Vec<u8>) {
    match random.below(3) {
        0 => bytes.truncate(bytes.len().saturating_sub(1 + random.place(3))),
        1 => bytes.push(random.next() as u8),
        _ => bytes.resize(bytes.len() + 1 + random.place(4), 7),
    }
}

/// Cuts each of the byte tables in some cases.
fn cut_some(random: &mut Random, lent: &mut LentBytes) {
    for table in [&mut lent.reg, &mut lent.starts, &mut lent.entries] {
        if random.chance(6) {
            cut(random, table);
        }
    }
}

/// A build, check or search over bytes.
fn as_bytes(random: &mut Random, g: Grid, limits: &Limits, code: u64) -> Asked {
    let asked = match code {
        11 => build(random, g, limits),
        12 => check(random, g, limits),
        _ => search_call(random, g, limits),
    };
    match asked {
        Asked::Build { lent } => {
            let mut lent = lent_bytes(&lent);
            cut_some(random, &mut lent);
            Asked::BuildBytes { lent }
        }
        Asked::Check { lent } => {
            let mut lent = lent_bytes(&lent);
            cut_some(random, &mut lent);
            Asked::CheckBytes { lent }
        }
        Asked::Search { lent, x, y, r, out } => {
            let mut lent = lent_bytes(&lent);
            cut_some(random, &mut lent);
            let mut out = to_bytes(&out);
            if random.chance(6) {
                cut(random, &mut out);
            }
            Asked::SearchBytes { lent, x, y, r, out }
        }
        _ => unreachable!("these three have byte doors"),
    }
}

/// A size out of its range.
fn bad_size(random: &mut Random, most: u32) -> u32 {
    match random.below(5) {
        0 => 0,
        1 => most + 1,
        2 => u32::MAX - random.small(2),
        3 => 1 << random.between(15, 31),
        _ => most + 1 + random.small(1 << 30),
    }
}

/// A size out of its range, or a good side that the tables were not made for.
fn fault_in_grid(random: &mut Random, g: &mut Grid) {
    match random.below(5) {
        0 | 1 => g.n = bad_size(random, TILES_MOST),
        2 | 3 => g.side = bad_size(random, SIDE_MOST),
        _ => g.side = random.between(1, g.side.clamp(1, SIDE_MOST)),
    }
}

/// A wild n with the one start that 16×n²+1 comes to for 0, or where 32 bits run over.
fn fault_in_tiles(random: &mut Random, call: &mut Call) {
    call.g.n = random.pick(&[0, 1 << 14, 1 << 16, 1 << 31]);
    match &mut call.asked {
        Asked::Build { lent } | Asked::Check { lent } => lent.starts.truncate(1),
        Asked::Search { lent, .. } | Asked::Start { lent, .. } => lent.starts.truncate(1),
        Asked::Ask { lent, .. } | Asked::SearchAll { lent, .. } => lent.starts.truncate(1),
        Asked::Run { starts, .. } => starts.truncate(1),
        _ => {}
    }
}

/// One number more, up to three less, none at all, or three more.
fn fault_in_length(random: &mut Random, table: &mut Vec<u32>) {
    match random.below(4) {
        0 => table.clear(),
        1 => table.truncate(table.len().saturating_sub(1 + random.place(3))),
        2 => table.push(random.wild()),
        _ => table.extend([0, 1, 2]),
    }
}

/// More footprints than a register may have, where a table may be so long.
fn too_many_footprints(reg: &mut Vec<u32>, limits: &Limits) {
    let length = NUMBERS_A_FOOTPRINT * (FOOTPRINTS_MOST + 1);
    if length <= limits.table_most {
        reg.resize(length, 0);
    }
}

fn fault_in_lent(random: &mut Random, g: Grid, lent: &mut Lent, limits: &Limits) {
    match random.below(4) {
        0 if random.chance(20) => too_many_footprints(&mut lent.reg, limits),
        0 => fault_in_length(random, &mut lent.reg),
        1 | 2 => fault_in_length(random, &mut lent.starts),
        _ if g.is_good() => yards::spoil_register(random, g, &mut lent.reg),
        _ => {}
    }
}

/// A coordinate that is off the grid.
fn fault_in_point(random: &mut Random, g: Grid, at: &mut u32) {
    *at = match random.below(3) {
        0 if g.is_good() => g.reach(),
        1 if g.is_good() => g.reach() + random.small(100),
        _ => u32::MAX - random.small(2),
    };
}

fn fault_in_radius(random: &mut Random, r: &mut u32, most: u32) {
    *r = match random.below(3) {
        0 => most + 1,
        1 => most + random.small(3),
        _ => u32::MAX - random.small(2),
    };
}

/// More probes than a list may have, where a table may be so long; else a fault in one of them.
fn fault_in_probes(random: &mut Random, g: Grid, probes: &mut Vec<Probe>, limits: &Limits) {
    let Some(&last) = probes.last() else {
        return;
    };
    let many = PROBES_MOST + 1;
    if random.chance(10) && many * NUMBERS_A_PROBE <= limits.table_most {
        probes.resize(many, last);
    } else {
        spoil_probe(random, g, probes);
    }
}

/// Adds a fault that may bring a refusal, or hide behind an earlier one.
fn add_fault(random: &mut Random, call: &mut Call, limits: &Limits) {
    match random.below(20) {
        0 => return fault_in_tiles(random, call),
        1..5 => return fault_in_grid(random, &mut call.g),
        _ => {}
    }
    let g = call.g;
    let which = random.below(4);
    match (&mut call.asked, which) {
        (Asked::Build { lent } | Asked::Check { lent }, _) => {
            fault_in_lent(random, g, lent, limits)
        }
        (Asked::Run { starts, .. } | Asked::LongRun { starts, .. }, _) => {
            fault_in_length(random, starts)
        }
        (Asked::Search { x, .. } | Asked::Start { x, .. } | Asked::Ask { x, .. }, 0) => {
            fault_in_point(random, g, x)
        }
        (Asked::Search { y, .. } | Asked::Start { y, .. } | Asked::Ask { y, .. }, 1) => {
            fault_in_point(random, g, y)
        }
        (Asked::Search { r, .. } | Asked::SearchBytes { r, .. }, 2) => {
            fault_in_radius(random, r, RADIUS_MOST)
        }
        (Asked::Search { lent, .. } | Asked::Start { lent, .. } | Asked::Ask { lent, .. }, _) => {
            fault_in_lent(random, g, lent, limits)
        }
        (Asked::SearchAll { probes, .. }, 0 | 1) => fault_in_probes(random, g, probes, limits),
        (Asked::SearchAll { lent, .. }, _) => fault_in_lent(random, g, lent, limits),
        (Asked::Join { r, .. }, 0) => fault_in_radius(random, r, g.side.min(SIDE_MOST)),
        (Asked::Join { r_lent, .. }, 1) => fault_in_lent(random, g, r_lent, limits),
        (Asked::Join { s_lent, .. }, _) => fault_in_lent(random, g, s_lent, limits),
        (Asked::SearchBytes { x, .. }, _) => fault_in_point(random, g, x),
        (Asked::BuildBytes { lent } | Asked::CheckBytes { lent }, _) => cut_some(random, lent),
    }
}
