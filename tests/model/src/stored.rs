//! The stored set of calls for `replay`: the cases of document 01, every refusal of every call alone and in pairs, hand-made walks, and random calls of a fixed seed.

use crate::call::{Asked, Call, Lent, REPLAY_CODES};
use crate::faults::{self, Fault};
use crate::format::call_numbers;
use crate::hostile::random_call;
use crate::index::built;
use crate::random::Random;
use crate::register::footprint_count;
use crate::sizes::{Grid, CLASSES};
use crate::walk::{self, start_need, Walk, FOOTPRINT, GROUP, TILE};
use crate::yards::Limits;

/// Yard Y of document 01.
pub const Y_GRID: Grid = Grid { n: 4, side: 100 };
pub const Y: [u32; 20] = [
    120, 120, 180, 180, 50, 220, 250, 260, 199, 200, 200, 299, 0, 0, 399, 399, 300, 300, 300, 300,
];
pub const DIG: [u32; 4] = [100, 100, 149, 149];

/// A small yard: a point, a duct over both columns, the whole grid and two equal footprints.
pub const SMALL_GRID: Grid = Grid { n: 2, side: 10 };
pub const SMALL: [u32; 20] = [
    5, 5, 5, 5, 2, 12, 17, 13, 0, 0, 19, 19, 8, 3, 11, 9, 8, 3, 11, 9,
];

/// A tile as far from (5, 5) as a footprint of the first tile, and holding a lower number.
const TIES: [u32; 16] = [10, 5, 10, 5, 0, 5, 0, 5, 5, 10, 5, 12, 0, 5, 0, 5];

/// Footprints that lie across rows or columns beside each other, so that their join is met in two tiles and listed in one.
const BESIDE_R: [u32; 16] = [5, 5, 8, 15, 5, 5, 15, 8, 0, 0, 9, 19, 3, 12, 4, 19];
const BESIDE_S: [u32; 16] = [12, 5, 15, 15, 5, 12, 15, 15, 10, 0, 19, 19, 12, 0, 19, 13];

const RANDOM_SEED: u64 = 9;
const RANDOM_CALLS: u64 = 140;
const RANDOM_NUMBERS_MOST: usize = 160;
const RANDOM_LIMITS: Limits = Limits {
    tiles_most: 2,
    footprints_most: 6,
    table_most: 4_000,
};

/// The tables that the build leaves, and entries past the count.
pub fn lent(g: Grid, reg: &[u32], tail: &[u32]) -> Lent {
    let index = built(g, reg);
    Lent {
        reg: reg.to_vec(),
        starts: index.starts,
        entries: [&index.entries[..], tail].concat(),
    }
}

fn call(g: Grid, asked: Asked) -> Call {
    Call { g, asked }
}

pub fn build(g: Grid, reg: &[u32], room: usize) -> Call {
    let lent = Lent {
        reg: reg.to_vec(),
        starts: vec![77; g.starts_length()],
        entries: vec![88; room],
    };
    call(g, Asked::Build { lent })
}

pub fn check(g: Grid, lent: Lent) -> Call {
    call(g, Asked::Check { lent })
}

pub fn run(g: Grid, lent: Lent, tile: u32, class: u32) -> Call {
    let Lent {
        starts, entries, ..
    } = lent;
    let asked = Asked::Run {
        starts,
        entries,
        tile,
        class,
    };
    call(g, asked)
}

pub fn search(g: Grid, lent: Lent, (x, y): (u32, u32), r: u32, room: usize) -> Call {
    let out = vec![99; room];
    call(g, Asked::Search { lent, x, y, r, out })
}

pub fn start(g: Grid, lent: Lent, (x, y): (u32, u32), room: usize) -> Call {
    let front = vec![11; room];
    call(g, Asked::Start { lent, x, y, front })
}

/// An ask for j rows with room for one row more than asked.
pub fn ask(g: Grid, lent: Lent, front: Vec<u64>, walk: Walk, j: u32) -> Call {
    let asked = Asked::Ask {
        lent,
        front,
        x: walk.x,
        y: walk.y,
        waiting: walk.waiting,
        mark: u32::from(walk.damaged),
        j,
        out: vec![55; 2 * j as usize + 2],
    };
    call(g, asked)
}

pub fn join(g: Grid, r_lent: Lent, s_lent: Lent, r: u32, room: usize) -> Call {
    let asked = Asked::Join {
        r_lent,
        s_lent,
        r,
        out: vec![66; room],
    };
    call(g, asked)
}

/// The cases of yard Y.
fn cases_of_y() -> Vec<Call> {
    let g = Y_GRID;
    let y = || lent(g, &Y, &[7, 4_294_967_295]);
    let mut calls: Vec<Call> = [23, 22, 26, 0].map(|room| build(g, &Y, room)).into();
    calls.push(check(g, y()));
    calls.extend(other_tables_of_y().map(|other| check(g, other)));
    for (tile, class) in [
        (8, 4),
        (9, 12),
        (0, 5),
        (15, 10),
        (3, 0),
        (16, 0),
        (0, CLASSES),
    ] {
        calls.push(run(g, y(), tile, class));
    }
    for (r, room) in [(69, 5), (70, 3), (70, 2), (71, 5), (0, 2), (2_097_151, 5)] {
        calls.push(search(g, y(), (150, 150), r, room));
    }
    for point in [(400, 0), (0, 400), (399, 399), (4_294_967_295, 0)] {
        calls.push(search(g, y(), point, 70, 5));
    }
    for room in [75, 74, 77] {
        calls.push(start(g, y(), (150, 150), room));
    }
    let dig = || lent(g, &DIG, &[]);
    for (r, room) in [(100, 8), (100, 7), (101, 8), (0, 4)] {
        calls.push(join(g, dig(), y(), r, room));
    }
    calls.push(join(g, y(), dig(), 100, 9));
    calls.push(join(g, y(), y(), 100, 60));
    calls
}

/// Tables that are not what the build leaves for Y.
fn other_tables_of_y() -> [Lent; 5] {
    let changes: [fn(&mut Lent); 5] = [
        |lent| lent.entries[22] = 4,
        |lent| lent.entries.swap(20, 21),
        |lent| lent.entries.truncate(22),
        |lent| lent.starts[256] = 24,
        |lent| lent.starts[1] = 1,
    ];
    changes.map(|change| {
        let mut other = lent(Y_GRID, &Y, &[3]);
        change(&mut other);
        other
    })
}

/// Joins of footprints beside each other, both ways.
fn joins_beside() -> Vec<Call> {
    let g = SMALL_GRID;
    let (one, other) = (|| lent(g, &BESIDE_R, &[]), || lent(g, &BESIDE_S, &[]));
    let mut calls = Vec::new();
    for r in [0, 1, 3, 10] {
        calls.push(join(g, one(), other(), r, 32));
        calls.push(join(g, other(), one(), r, 32));
    }
    calls.push(join(g, one(), one(), 10, 32));
    calls
}

/// The empty register in every call.
fn empty_register() -> Vec<Call> {
    let g = Grid { n: 1, side: 1 };
    let none = || lent(g, &[], &[]);
    let walk = |waiting| Walk {
        x: 0,
        y: 0,
        waiting,
        damaged: false,
    };
    vec![
        build(g, &[], 0),
        build(g, &[], 2),
        check(g, none()),
        run(g, none(), 0, 15),
        search(g, none(), (0, 0), 5, 0),
        start(g, none(), (0, 0), 15),
        start(g, none(), (0, 0), 14),
        ask(g, none(), vec![0; 15], walk(0), 2),
        ask(g, none(), vec![], walk(0), 0),
        join(g, none(), none(), 1, 0),
        build(
            Grid {
                n: 15,
                side: 16_384,
            },
            &[245_759, 0, 245_759, 0],
            1,
        ),
    ]
}

/// A walk cut into asks of these sizes, each ask as a call of its own.
fn walk_calls(g: Grid, reg: &[u32], (x, y): (u32, u32), asks: &[u32]) -> Vec<Call> {
    let owned = lent(g, reg, &[3]);
    let tables = owned.tables(g);
    let mut front = vec![1; start_need(&tables) as usize + 1];
    let (_, mut walk) = walk::start(&tables, x, y, &mut front);
    let mut calls = Vec::new();
    for &j in asks {
        calls.push(ask(g, owned.clone(), front.clone(), walk, j));
        let mut out = vec![0; 2 * j as usize];
        (_, walk) = walk::ask(&tables, &mut front, walk, j, &mut out);
    }
    calls
}

fn walks() -> Vec<Call> {
    let mut calls = walk_calls(Y_GRID, &Y, (150, 150), &[1, 1, 1, 1, 1, 1]);
    calls.extend(walk_calls(Y_GRID, &Y, (399, 0), &[0, 2, 6]));
    calls.extend(walk_calls(
        SMALL_GRID,
        &SMALL,
        (5, 5),
        &[0, 1, 2, 2, 0, 1, 1],
    ));
    calls.extend(walk_calls(SMALL_GRID, &SMALL, (10, 9), &[5, 1]));
    calls.extend(walk_calls(SMALL_GRID, &SMALL, (0, 19), &[9]));
    calls.extend(walk_calls(SMALL_GRID, &TIES, (5, 5), &[1, 1, 1, 1, 1]));
    calls
}

/// Asks that meet damage as they open the last tile.
fn damage_on_the_way() -> Vec<Call> {
    let changes: [fn(&mut Lent); 6] = [
        |lent| lent.starts[64] = 0,
        |lent| lent.starts[64] = 4_000_000_000,
        |lent| lent.entries.truncate(1),
        |lent| lent.entries.fill(5),
        |lent| lent.entries.fill(u32::MAX),
        |lent| lent.reg[11] = 20,
    ];
    let mut calls = Vec::new();
    for change in changes {
        for j in [0, 1, 3] {
            let mut call = made_front(&[[3, FOOTPRINT, 0], [4, TILE, 3]], j, 30);
            let Asked::Ask { lent, x, y, .. } = &mut call.asked else {
                unreachable!("a made front is asked")
            };
            (*x, *y) = (15, 15);
            change(lent);
            calls.push(call);
        }
    }
    calls
}

/// Fronts that no walk leaves, in the small yard from (5, 5).
fn made_fronts() -> Vec<Call> {
    let rows: [&[[u64; 3]]; 20] = [
        &[[0, GROUP, 65], [30, FOOTPRINT, 0], [3, FOOTPRINT, 1]],
        &[[0, GROUP, 65], [900, GROUP, 1], [3, FOOTPRINT, 1]],
        &[
            [9, TILE, 0],
            [0, FOOTPRINT, 0],
            [90, FOOTPRINT, 1],
            [0, FOOTPRINT, 3],
            [0, TILE, 2],
        ],
        &[[9, TILE, 1], [25, FOOTPRINT, 0], [9, TILE, 0], [0, TILE, 0]],
        &[[9, FOOTPRINT, 0], [4, FOOTPRINT, 1], [2, TILE, 3]],
        &[[7, TILE, 0]],
        &[[7, TILE, 1], [7, TILE, 1]],
        &[[0, GROUP, 1], [5, FOOTPRINT, 2]],
        &[[900, GROUP, 65], [1, FOOTPRINT, 4], [0, GROUP, 1]],
        &[[1, GROUP, 0]],
        &[[1, GROUP, 64]],
        &[[1, GROUP, 2]],
        &[[1, GROUP, 129]],
        &[[1, GROUP, 256]],
        &[[1, GROUP, 257], [0, FOOTPRINT, 0]],
        &[[1, TILE, 4]],
        &[[1, TILE, 1 << 32]],
        &[[1, FOOTPRINT, 5]],
        &[[1, FOOTPRINT, 1 << 32]],
        &[[1, 3, 0]],
    ];
    let mut calls = Vec::new();
    for waiting in rows {
        for (j, spare) in [(1, 30), (6, 30), (3, 4)] {
            calls.push(made_front(waiting, j, spare));
        }
    }
    calls.push(made_front(&[[1, 3, 0]], 0, 0));
    calls.push(made_front(&[[5, FOOTPRINT, 0], [1, 3, 0]], 1, 0));
    calls
}

fn made_front(rows: &[[u64; 3]], j: u32, spare: usize) -> Call {
    let g = SMALL_GRID;
    let mut front: Vec<u64> = rows.concat();
    front.extend(vec![u64::MAX; spare]);
    let walk = Walk {
        x: 5,
        y: 5,
        waiting: rows.len() as u64,
        damaged: false,
    };
    ask(g, lent(g, &SMALL, &[]), front, walk, j)
}

/// States that their fronts do not bear out.
fn states() -> Vec<Call> {
    let g = SMALL_GRID;
    let mut calls = Vec::new();
    let most = u64::MAX;
    let told = [
        (1, 0),
        (4, 0),
        (5, 0),
        (most, 0),
        (6_148_914_691_236_517_206, 0),
        (0, 1),
    ];
    for (waiting, mark) in told.into_iter().chain([(0, 2), (2, 4_294_967_295)]) {
        for j in [0, 2] {
            calls.push(told_state(waiting, mark, j, 5));
        }
    }
    for (x, mark) in [(20, 0), (20, 1), (4_294_967_295, 1)] {
        calls.push(told_state(0, mark, 1, x));
    }
    for j in [1 << 31, (1 << 31) + 2, u32::MAX] {
        calls.push(told_state(0, 0, j, 5));
        calls.push(told_state(9, 1, j, 5));
    }
    for tail in [0, 1, 2] {
        let walk = Walk {
            x: 0,
            y: 0,
            waiting: 1,
            damaged: false,
        };
        let front = [vec![3, FOOTPRINT, 1], vec![8; 3 + tail]].concat();
        calls.push(ask(g, lent(g, &SMALL, &[]), front, walk, 0));
    }
    calls
}

/// An ask over four whole rows and a number more.
fn told_state(waiting: u64, mark: u32, j: u32, x: u32) -> Call {
    let g = SMALL_GRID;
    let front = [0, FOOTPRINT, 1].iter().copied().cycle().take(13).collect();
    call(
        g,
        Asked::Ask {
            lent: lent(g, &SMALL, &[]),
            front,
            x,
            y: 5,
            waiting,
            mark,
            j,
            out: vec![55; 5],
        },
    )
}

/// A call of each code in the small yard that is accepted, its room an exact fit.
pub fn accepted_calls() -> Vec<Call> {
    let g = SMALL_GRID;
    let small = || lent(g, &SMALL, &[9]);
    let count = small().entries.len() - 1;
    let rows = footprint_count(&SMALL) + g.tile_count() as usize + 4;
    let mut calls = vec![
        build(g, &SMALL, count),
        check(g, small()),
        run(g, small(), 0, 0),
        search(g, small(), (5, 5), 3, 4),
        start(g, small(), (5, 5), 3 * rows),
    ];
    calls.extend(walk_calls(g, &SMALL, (5, 5), &[4]));
    calls.push(join(g, small(), small(), 10, 50));
    calls
}

/// Every fault of every call alone, and one of each refusal in pairs.
fn refusals() -> Vec<Call> {
    let mut calls = Vec::new();
    for accepted in accepted_calls() {
        let faults = faults::of_code(accepted.code());
        for fault in &faults {
            calls.push(fault.put(&accepted));
        }
        for pair in pairs(&faults) {
            calls.push(pair.1.put(&pair.0.put(&accepted)));
        }
    }
    calls
}

/// Pairs of the first faults of two refusals.
pub fn pairs(faults: &[Fault]) -> Vec<(Fault, Fault)> {
    let mut firsts: Vec<Fault> = Vec::new();
    for fault in faults {
        if firsts.iter().all(|first| first.refusal != fault.refusal) {
            firsts.push(*fault);
        }
    }
    let mut found = Vec::new();
    for (place, &one) in firsts.iter().enumerate() {
        found.extend(firsts[place + 1..].iter().map(|&other| (one, other)));
    }
    found
}

/// Damage where nothing is read: a search accepts it.
fn unread_damage() -> Vec<Call> {
    let g = SMALL_GRID;
    let mut far = lent(g, &SMALL, &[]);
    let last = far.starts.len() - 1;
    far.starts[last] = 4_000_000_000;
    let mut barred = lent(g, &SMALL, &[]);
    let place = (CLASSES * 3 + 15) as usize;
    barred.starts[place + 1] = 0;
    let mut bad = lent(g, &[&SMALL[..], &[3, 3, 2, 3]].concat()[..20], &[]);
    bad.reg.extend([3, 3, 2, 3]);
    vec![
        search(g, far.clone(), (5, 5), 1, 5),
        search(g, far, (5, 5), 20, 5),
        search(g, barred.clone(), (0, 0), 30, 5),
        search(g, barred, (19, 19), 0, 5),
        search(g, bad.clone(), (5, 5), 30, 5),
        check(g, bad),
    ]
}

/// Tables of another origin without damage: not from 0, one run with entries out of order, twice and in the wrong tile.
pub fn foreign() -> Lent {
    let mut other = lent(SMALL_GRID, &SMALL, &[]);
    other.starts.fill(6);
    other.starts[0] = 2;
    other.entries = vec![9, 9, 4, 1, 1, 0, 9];
    other
}

/// Every call on such tables.
fn foreign_tables() -> Vec<Call> {
    let g = SMALL_GRID;
    let small = || lent(g, &SMALL, &[]);
    let walk = Walk {
        x: 19,
        y: 0,
        waiting: 1,
        damaged: false,
    };
    let front = [vec![0, TILE, 0], vec![0; 12]].concat();
    let long_front = [vec![0, TILE, 0], vec![0; 27]].concat();
    let mut many = foreign();
    let mut bad = foreign();
    bad.reg[6] = 20;
    bad.reg[13] = 20;
    many.starts[1..].fill(9);
    many.entries = vec![9, 9, 0, 1, 3, 3, 4, 0, 0];
    vec![
        ask(g, many.clone(), long_front.clone(), walk, 2),
        ask(g, many.clone(), long_front, walk, 7),
        start(g, many, (5, 5), 39),
        check(g, foreign()),
        check(g, bad),
        run(g, foreign(), 0, 0),
        run(g, foreign(), 3, 15),
        search(g, foreign(), (5, 5), 30, 4),
        search(g, foreign(), (19, 19), 13, 3),
        search(g, foreign(), (5, 5), 30, 3),
        start(g, foreign(), (5, 5), 39),
        start(g, foreign(), (15, 5), 39),
        ask(g, foreign(), front.clone(), walk, 3),
        ask(g, foreign(), front, walk, 5),
        join(g, foreign(), foreign(), 10, 32),
        join(g, foreign(), small(), 3, 40),
        join(g, small(), foreign(), 3, 40),
        join(g, small(), foreign(), 3, 3),
    ]
}

/// Random calls of a fixed seed, as many of each code, none of them long.
fn random_calls() -> Vec<Call> {
    let mut random = Random::new(RANDOM_SEED);
    let mut calls = Vec::new();
    while (calls.len() as u64) < RANDOM_CALLS {
        let code = REPLAY_CODES[calls.len() % REPLAY_CODES.len()];
        let call = random_call(&mut random, &RANDOM_LIMITS, &[code]);
        if call_numbers(&call).len() <= RANDOM_NUMBERS_MOST {
            calls.push(call);
        }
    }
    calls
}

/// The whole stored set.
pub fn calls() -> Vec<Call> {
    [
        cases_of_y(),
        joins_beside(),
        empty_register(),
        walks(),
        made_fronts(),
        damage_on_the_way(),
        states(),
        accepted_calls(),
        refusals(),
        unread_damage(),
        foreign_tables(),
        random_calls(),
    ]
    .concat()
}
