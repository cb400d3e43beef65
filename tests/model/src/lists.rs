//! The stored set of lists of searches, and lists too long to be stored, for the C driver.

use crate::call::{Asked, Call, Lent, LIST_CODES};
use crate::faults;
use crate::format::call_numbers;
use crate::hostile::random_call;
use crate::probes::Probe;
use crate::random::Random;
use crate::sizes::{
    Grid, CLASSES, FOOTPRINTS_MOST, NUMBERS_A_FOOTPRINT, PROBES_MOST, RADIUS_MOST, SIDE_MOST,
    TILES_MOST,
};
use crate::stored::{foreign, lent, pairs, SMALL, SMALL_GRID, Y, Y_GRID};
use crate::yards::Limits;

/// Two equal footprints in the first tile, one in the last, and one over all four; nothing near (15, 1).
const APART_GRID: Grid = Grid { n: 2, side: 10 };
const APART: [u32; 16] = [1, 1, 2, 2, 15, 15, 16, 16, 1, 1, 2, 2, 9, 9, 10, 10];

/// Its probes: two hits, none, one.
const PAIR: Probe = probe(1, 1, 0);
const NOTHING: Probe = probe(15, 1, 3);
const LAST: Probe = probe(16, 16, 0);

/// Probes that a single search refuses; the last by the damage of `damaged` alone.
const OFF_GRID: Probe = probe(20, 0, 1);
const TOO_FAR: Probe = probe(1, 1, RADIUS_MOST + 1);
const MEETS_DAMAGE: Probe = LAST;

const RANDOM_SEED: u64 = 10;
const RANDOM_CALLS: usize = 60;
const RANDOM_NUMBERS_MOST: usize = 300;
const RANDOM_LIMITS: Limits = Limits {
    tiles_most: 2,
    footprints_most: 6,
    table_most: 4_000,
};

const fn probe(x: u32, y: u32, r: u32) -> Probe {
    Probe { x, y, r }
}

/// A list of searches with so much room for the numbers and for the ends.
pub fn list(g: Grid, lent: Lent, probes: &[Probe], out_room: usize, ends_room: usize) -> Call {
    let asked = Asked::SearchAll {
        lent,
        probes: probes.to_vec(),
        out: vec![99; out_room],
        ends: vec![u64::MAX - 1; ends_room],
    };
    Call { g, asked }
}

fn apart() -> Lent {
    lent(APART_GRID, &APART, &[9])
}

/// The runs of the last tile fall; only a probe that visits it meets this.
fn damaged() -> Lent {
    let mut other = apart();
    let last = (CLASSES * 3) as usize;
    other.starts[last + 1] = 0;
    other
}

fn in_apart(probes: &[Probe], out_room: usize, ends_room: usize) -> Call {
    list(APART_GRID, apart(), probes, out_room, ends_room)
}

/// The starred searches of yard Y together, and its corners.
fn cases_of_y() -> Vec<Call> {
    let y = || lent(Y_GRID, &Y, &[7]);
    let from = |r| probe(150, 150, r);
    let stars = [from(69), from(70), from(71), from(0)];
    let corners = [probe(399, 399, 70), probe(0, 0, RADIUS_MOST)];
    let off = [probe(399, 399, 70), probe(400, 0, 70)];
    let mut calls = Vec::new();
    for room in [11, 10, 13] {
        calls.push(list(Y_GRID, y(), &stars, room, 4));
    }
    calls.push(list(Y_GRID, y(), &corners, 10, 2));
    calls.push(list(Y_GRID, y(), &off, 10, 2));
    calls
}

/// Without probes only sizes and lengths are judged.
fn no_probes() -> Vec<Call> {
    let none = |g, lent| list(g, lent, &[], 2, 3);
    let mut calls = Vec::new();
    let (most_n, most_side) = (TILES_MOST, SIDE_MOST);
    for (n, side) in [
        (0, 10),
        (most_n + 1, 10),
        (u32::MAX, 10),
        (2, 0),
        (2, most_side + 1),
        (2, u32::MAX),
        (0, 0),
    ] {
        calls.push(none(Grid { n, side }, apart()));
    }
    let changes: [fn(&mut Lent); 13] = [
        |lent| lent.starts.truncate(64),
        |lent| lent.starts.push(0),
        |lent| lent.starts.clear(),
        |lent| lent.reg.truncate(15),
        |lent| lent.reg.extend([1, 1]),
        |lent| lent.starts.reverse(),
        |lent| lent.starts.fill(u32::MAX),
        |lent| lent.entries.fill(4),
        |lent| lent.entries.fill(u32::MAX),
        |lent| lent.entries.clear(),
        |lent| lent.reg.fill(20),
        |lent| lent.reg.clear(),
        |_| {},
    ];
    for change in changes {
        let mut other = apart();
        change(&mut other);
        calls.push(none(APART_GRID, other));
    }
    calls.push(in_apart(&[], 0, 0));
    calls.push(list(APART_GRID, damaged(), &[], 0, 0));
    calls
}

/// Of two probes that are refused the earlier one is told, whatever their refusals are, and whatever room there is.
fn orders() -> Vec<Call> {
    let kinds = [OFF_GRID, TOO_FAR, MEETS_DAMAGE];
    let mut calls = Vec::new();
    for one in kinds {
        for other in kinds {
            for probes in [
                &[one, other][..],
                &[PAIR, one, other],
                &[PAIR, NOTHING, one, PAIR, other, PAIR],
            ] {
                calls.push(list(APART_GRID, damaged(), probes, 9, 6));
            }
        }
        for (out_room, ends_room) in [(0, 0), (0, 9), (9, 0)] {
            let probes = [PAIR, NOTHING, PAIR, one];
            calls.push(list(APART_GRID, damaged(), &probes, out_room, ends_room));
        }
        calls.push(list(APART_GRID, damaged(), &[one], 0, 0));
    }
    calls
}

/// Probes with more than one fault: the single search says which is told.
fn twice_refused() -> Vec<Call> {
    let far = RADIUS_MOST + 1;
    let faults = [
        probe(20, 20, far),
        probe(16, 20, far),
        probe(16, 20, 0),
        probe(16, 16, far),
        probe(u32::MAX, 0, u32::MAX),
    ];
    let with = |fault| list(APART_GRID, damaged(), &[PAIR, fault, OFF_GRID], 9, 9);
    faults.map(with).into()
}

/// Damage that no probe meets, and that one meets by its radius alone.
fn unread_damage() -> Vec<Call> {
    let probes = [PAIR, NOTHING, probe(1, 1, 8), probe(9, 9, 0)];
    let on_the_way = [PAIR, probe(1, 1, 12), probe(1, 1, 13), OFF_GRID];
    vec![
        list(APART_GRID, damaged(), &probes, 9, 4),
        list(APART_GRID, damaged(), &on_the_way, 9, 4),
    ]
}

/// Every sort of damage in the last tile, met by the third probe, whatever room there is.
fn damage_met_later() -> Vec<Call> {
    let run = (CLASSES * 3) as usize;
    let changes: [fn(&mut Lent, usize); 5] = [
        |lent, run| lent.starts[run + 1] = lent.starts[run] - 1,
        |lent, run| lent.starts[run + 1] = u32::MAX,
        |lent, run| lent.entries.truncate(lent.starts[run] as usize),
        |lent, run| lent.entries[lent.starts[run] as usize] = 4,
        |lent, _| lent.reg[6] = 20,
    ];
    let mut calls = Vec::new();
    for change in changes {
        let mut other = apart();
        change(&mut other, run);
        let probes = [PAIR, NOTHING, LAST, OFF_GRID];
        calls.push(list(APART_GRID, other.clone(), &probes, 9, 4));
        calls.push(list(APART_GRID, other.clone(), &probes[..3], 0, 0));
        calls.push(list(APART_GRID, other, &probes[..2], 2, 2));
    }
    calls
}

/// Every room around what is needed: five numbers, and four ends of which two are equal.
fn rooms() -> Vec<Call> {
    let probes = [PAIR, NOTHING, LAST, PAIR];
    let mut calls = Vec::new();
    for out_room in [0, 4, 5, 6] {
        for ends_room in [0, 3, 4, 7] {
            calls.push(in_apart(&probes, out_room, ends_room));
        }
    }
    for (out_room, ends_room) in [(0, 3), (0, 2), (0, 0), (2, 2), (2, 5)] {
        calls.push(in_apart(&[NOTHING; 3], out_room, ends_room));
    }
    calls.push(list(APART_GRID, lent(APART_GRID, &[], &[]), &probes, 0, 4));
    calls
}

/// Equal probes, probes in another order, and the largest radius.
fn equal_probes() -> Vec<Call> {
    let all = probe(1, 1, RADIUS_MOST);
    vec![
        in_apart(&[PAIR; 5], 10, 5),
        in_apart(&[PAIR, LAST, PAIR, LAST, PAIR], 8, 5),
        in_apart(&[LAST, NOTHING, PAIR], 3, 3),
        in_apart(&[NOTHING, NOTHING, PAIR], 3, 4),
        in_apart(&[all, all], 8, 2),
        in_apart(&[all, NOTHING, all], 7, 3),
    ]
}

/// Tables of another origin: each list is the single search's there too.
fn foreign_tables() -> Vec<Call> {
    let probes = [
        probe(5, 5, 30),
        probe(15, 5, 7),
        probe(19, 19, 13),
        probe(5, 5, 0),
    ];
    let rooms = [(8, 4), (7, 4), (9, 5), (8, 3)];
    let with = |(out, ends)| list(SMALL_GRID, foreign(), &probes, out, ends);
    rooms.map(with).into()
}

/// So many footprints at (0, 0) and one at (3, 3), and nothing in the other three tiles.
const CROWD_GRID: Grid = Grid { n: 2, side: 4 };
const CROWD_HITS: usize = 64;

fn crowd() -> Lent {
    let mut reg = vec![0; NUMBERS_A_FOOTPRINT * CROWD_HITS];
    reg.extend([3, 3, 3, 3]);
    lent(CROWD_GRID, &reg, &[])
}

/// Its probes: 64 hits, 65 and one.
const MANY: Probe = probe(0, 0, 0);
const MANY_AND_ONE: Probe = probe(0, 0, 5);
const ONE: Probe = probe(3, 3, 0);

/// So many probes of each, one kind after the other.
fn crowd_probes(many: usize, many_and_one: usize, one: usize) -> Vec<Probe> {
    [
        vec![MANY; many],
        vec![MANY_AND_ONE; many_and_one],
        vec![ONE; one],
    ]
    .concat()
}

/// Totals around 4,096 and counts of probes around 512, alone and together: what a program may keep on the way, and more.
fn crowds() -> Vec<Call> {
    let exact = |many, many_and_one, one| {
        let probes = crowd_probes(many, many_and_one, one);
        let total = CROWD_HITS * many + (CROWD_HITS + 1) * many_and_one + one;
        let count = probes.len();
        (probes, total, count)
    };
    let mut calls = Vec::new();
    for (many, many_and_one, one) in [
        (1, 62, 1),
        (64, 0, 0),
        (63, 1, 0),
        (62, 2, 0),
        (56, 0, 512),
        (0, 56, 456),
        (0, 56, 457),
        (0, 0, 511),
        (0, 0, 512),
        (0, 0, 513),
    ] {
        let (probes, total, count) = exact(many, many_and_one, one);
        calls.push(list(CROWD_GRID, crowd(), &probes, total, count));
    }
    let (probes, total, count) = exact(0, 56, 457);
    for (out_room, ends_room) in [
        (total - 1, count),
        (total, count - 1),
        (total - 1, count - 1),
        (total + 2, count + 2),
        (total, 0),
        (0, 0),
    ] {
        calls.push(list(CROWD_GRID, crowd(), &probes, out_room, ends_room));
    }
    let mut damaged = crowd();
    damaged.starts[(CLASSES * 3) as usize + 1] = 0;
    for last in [probe(8, 0, 0), probe(0, 0, RADIUS_MOST + 1), probe(7, 7, 0)] {
        let refused = [&probes[..], &[last]].concat();
        for (out_room, ends_room) in [(0, 0), (total, count + 1)] {
            let lent = damaged.clone();
            calls.push(list(CROWD_GRID, lent, &refused, out_room, ends_room));
        }
    }
    calls.push(list(CROWD_GRID, damaged, &probes, total, count));
    calls
}

/// A list in the small yard that is accepted, its room an exact fit.
pub fn accepted() -> Call {
    let probes = [probe(5, 5, 3), probe(15, 15, 0), probe(5, 5, 3)];
    list(SMALL_GRID, lent(SMALL_GRID, &SMALL, &[9]), &probes, 9, 3)
}

/// Every fault alone, and one of each refusal in pairs.
fn refusals() -> Vec<Call> {
    let faults = faults::of_code(LIST_CODES[0]);
    let mut calls: Vec<Call> = vec![accepted()];
    calls.extend(faults.iter().map(|fault| fault.put(&accepted())));
    for (one, other) in pairs(&faults) {
        calls.push(other.put(&one.put(&accepted())));
    }
    calls
}

/// Random calls of a fixed seed, none of them long.
fn random_calls() -> Vec<Call> {
    let mut random = Random::new(RANDOM_SEED);
    let mut calls = Vec::new();
    while calls.len() < RANDOM_CALLS {
        let call = random_call(&mut random, &RANDOM_LIMITS, &LIST_CODES);
        if call_numbers(&call).len() <= RANDOM_NUMBERS_MOST {
            calls.push(call);
        }
    }
    calls
}

/// The whole stored set.
pub fn calls() -> Vec<Call> {
    [
        cases_of_y(),
        no_probes(),
        orders(),
        twice_refused(),
        unread_damage(),
        damage_met_later(),
        rooms(),
        equal_probes(),
        foreign_tables(),
        refusals(),
        random_calls(),
    ]
    .concat()
}

/// All that is too long to be stored.
pub fn long() -> Vec<Call> {
    [crowds(), most_probes()].concat()
}

/// The most probes and one more, and the most footprints: in a yard of one point with two footprints.
fn most_probes() -> Vec<Call> {
    let g = Grid { n: 1, side: 1 };
    let (here, off) = (probe(0, 0, 0), probe(1, 0, 0));
    let two = || lent(g, &[0; 8], &[]);
    let most = vec![here; PROBES_MOST];
    let over = vec![here; PROBES_MOST + 1];
    let (total, count) = (2 * PROBES_MOST, PROBES_MOST);
    let ending = |last: Probe| [&most[1..], &[last]].concat();
    let beginning = |first: Probe| [&[first], &most[..]].concat();
    let bad = |n, side| Grid { n, side };
    let full = || lent(g, &vec![0; NUMBERS_A_FOOTPRINT * FOOTPRINTS_MOST], &[]);
    let mut overfull = full();
    overfull.reg.extend([0; NUMBERS_A_FOOTPRINT]);
    vec![
        list(g, two(), &most, total, count),
        list(g, two(), &most, total - 1, count),
        list(g, two(), &most, total, count - 1),
        list(g, two(), &most, total - 1, count - 1),
        list(g, lent(g, &[], &[]), &most, 0, count + 1),
        list(g, two(), &ending(off), 0, 0),
        list(g, two(), &ending(probe(0, 0, RADIUS_MOST + 1)), 3, count),
        list(g, two(), &over, total + 2, count + 1),
        list(g, two(), &over, 0, 0),
        list(g, two(), &beginning(off), 0, 0),
        list(bad(0, 1), two(), &over, 0, 0),
        list(bad(1, SIDE_MOST + 1), two(), &most, 0, 0),
        list(g, full(), &[here, off], 0, 0),
        list(g, full(), &[here, here], 2 * FOOTPRINTS_MOST, 2),
        list(g, full(), &[here, here], 2 * FOOTPRINTS_MOST - 1, 2),
        list(g, overfull.clone(), &[], 0, 0),
        list(g, overfull, &[off], 0, 0),
    ]
}
