//! Faults for accepted calls of the small yard: each brings one refusal when it stands alone.

use crate::call::{Asked, Call, Lent};
use crate::sizes::{CLASSES, RADIUS_MOST, SIDE_MOST, TILES_MOST};

/// A change of a call and the refusal that it brings.
#[derive(Clone, Copy)]
pub struct Fault {
    pub refusal: u64,
    change: fn(&mut Call),
}

impl Fault {
    /// The call with this fault.
    pub fn put(&self, call: &Call) -> Call {
        let mut with = call.clone();
        (self.change)(&mut with);
        with
    }
}

fn fault(refusal: u64, change: fn(&mut Call)) -> Fault {
    Fault { refusal, change }
}

/// The tables of a call; of a join those of R. A list of searches has its point and radius faults in its first probe. A run's are its starts and entries alone.
fn starts_of(call: &mut Call) -> &mut Vec<u32> {
    match &mut call.asked {
        Asked::Run { starts, .. } => starts,
        other => &mut lent_of(other).starts,
    }
}

fn entries_of(call: &mut Call) -> &mut Vec<u32> {
    match &mut call.asked {
        Asked::Run { entries, .. } => entries,
        other => &mut lent_of(other).entries,
    }
}

fn lent_of(asked: &mut Asked) -> &mut Lent {
    match asked {
        Asked::Build { lent } | Asked::Check { lent } => lent,
        Asked::Search { lent, .. } | Asked::Start { lent, .. } | Asked::Ask { lent, .. } => lent,
        Asked::SearchAll { lent, .. } => lent,
        Asked::Join { r_lent, .. } => r_lent,
        _ => unreachable!("faults are for calls on number tables with a register"),
    }
}

fn s_lent(call: &mut Call) -> &mut Lent {
    match &mut call.asked {
        Asked::Join { s_lent, .. } => s_lent,
        _ => unreachable!("only a join has S"),
    }
}

fn reg_of(call: &mut Call) -> &mut Vec<u32> {
    &mut lent_of(&mut call.asked).reg
}

fn set_x(call: &mut Call, to: u32) {
    match &mut call.asked {
        Asked::Search { x, .. } | Asked::Start { x, .. } | Asked::Ask { x, .. } => *x = to,
        Asked::SearchAll { probes, .. } => probes[0].x = to,
        _ => unreachable!("the call has no point"),
    }
}

fn set_y(call: &mut Call, to: u32) {
    match &mut call.asked {
        Asked::Search { y, .. } | Asked::Start { y, .. } | Asked::Ask { y, .. } => *y = to,
        Asked::SearchAll { probes, .. } => probes[0].y = to,
        _ => unreachable!("the call has no point"),
    }
}

fn set_r(call: &mut Call, to: u32) {
    match &mut call.asked {
        Asked::Search { r, .. } | Asked::Join { r, .. } => *r = to,
        Asked::SearchAll { probes, .. } => probes[0].r = to,
        _ => unreachable!("the call has no radius"),
    }
}

/// Takes a table's last number away.
fn shorten<T>(table: &mut Vec<T>) {
    table.pop();
}

/// Takes the last number of room away.
fn shorten_room(call: &mut Call) {
    match &mut call.asked {
        Asked::Build { lent } => shorten(&mut lent.entries),
        Asked::Search { out, .. } | Asked::Join { out, .. } => shorten(out),
        Asked::SearchAll { out, .. } => shorten(out),
        Asked::Start { front, .. } => shorten(front),
        Asked::Ask { j, out, .. } => out.truncate(2 * *j as usize - 1),
        _ => unreachable!("the call needs no room"),
    }
}

fn sizes() -> Vec<Fault> {
    vec![
        fault(1, |call| call.g.n = 0),
        fault(1, |call| call.g.n = TILES_MOST + 1),
        fault(1, |call| call.g.n = u32::MAX),
        fault(1, |call| call.g.side = 0),
        fault(1, |call| call.g.side = SIDE_MOST + 1),
        fault(1, |call| call.g.side = u32::MAX),
    ]
}

fn starts_length() -> Vec<Fault> {
    vec![
        fault(2, |call| shorten(starts_of(call))),
        fault(2, |call| starts_of(call).push(0)),
        fault(2, |call| starts_of(call).clear()),
    ]
}

fn register_length() -> Vec<Fault> {
    vec![
        fault(2, |call| shorten(reg_of(call))),
        fault(2, |call| reg_of(call).extend([1, 1])),
    ]
}

fn footprints() -> Vec<Fault> {
    vec![
        fault(3, |call| reg_of(call)[6] = 20),
        fault(3, |call| reg_of(call)[19] = 20),
        fault(3, |call| reg_of(call)[0] = 6),
        fault(3, |call| reg_of(call)[17] = 10),
        fault(3, |call| reg_of(call)[10] = u32::MAX),
        fault(3, |call| reg_of(call)[12..].fill(u32::MAX)),
    ]
}

fn points() -> Vec<Fault> {
    vec![
        fault(4, |call| set_x(call, 20)),
        fault(4, |call| set_y(call, 20)),
        fault(4, |call| set_x(call, u32::MAX)),
        fault(4, |call| set_y(call, u32::MAX)),
    ]
}

fn rooms() -> Vec<Fault> {
    vec![fault(6, shorten_room)]
}

fn ends_rooms() -> Vec<Fault> {
    fn shorten_ends(call: &mut Call) {
        match &mut call.asked {
            Asked::SearchAll { ends, .. } => shorten(ends),
            _ => unreachable!("only a list of searches has ends"),
        }
    }
    vec![fault(6, shorten_ends)]
}

/// Starts that damage the first run.
fn bad_ends() -> Vec<Fault> {
    vec![
        fault(7, |call| starts_of(call)[0] = 2),
        fault(7, |call| starts_of(call)[1] = u32::MAX),
        fault(7, |call| starts_of(call)[1] = 268_435_457),
        fault(7, |call| entries_of(call).clear()),
    ]
}

/// Entries, or footprints that entries name, that are damage.
fn bad_entries() -> Vec<Fault> {
    vec![
        fault(7, |call| entries_of(call)[0] = 5),
        fault(7, |call| entries_of(call)[1] = u32::MAX),
        fault(7, |call| reg_of(call)[3] = 20),
        fault(7, |call| reg_of(call)[8] = 20),
    ]
}

/// More entries in the point's tile than footprints: the first run takes them all.
fn too_many_entries() -> Vec<Fault> {
    vec![fault(7, |call| {
        starts_of(call)[1..].fill(6);
        entries_of(call)[..6].fill(0);
    })]
}

fn join_faults() -> Vec<Fault> {
    vec![
        fault(2, |call| shorten(&mut s_lent(call).reg)),
        fault(2, |call| s_lent(call).starts.push(0)),
        fault(7, |call| s_lent(call).starts[0] = 2),
        fault(7, |call| s_lent(call).entries.clear()),
        fault(7, |call| s_lent(call).entries[0] = 5),
        fault(7, |call| s_lent(call).reg[1] = 6),
        fault(5, |call| set_r(call, 11)),
        fault(5, |call| set_r(call, u32::MAX)),
    ]
}

fn run_faults() -> Vec<Fault> {
    fn set(call: &mut Call, new_tile: u32, new_class: u32) {
        if let Asked::Run { tile, class, .. } = &mut call.asked {
            (*tile, *class) = (new_tile, new_class);
        }
    }
    vec![
        fault(4, |call| set(call, 4, 0)),
        fault(4, |call| set(call, u32::MAX, 0)),
        fault(4, |call| set(call, 1 << 28, 0)),
        fault(4, |call| set(call, 0, CLASSES)),
        fault(4, |call| set(call, 0, u32::MAX)),
    ]
}

/// Damage of an ask's own.
fn ask_faults() -> Vec<Fault> {
    fn change(call: &mut Call, to: fn(&mut Vec<u64>, &mut u64, &mut u32)) {
        if let Asked::Ask {
            front,
            waiting,
            mark,
            ..
        } = &mut call.asked
        {
            to(front, waiting, mark);
        }
    }
    vec![
        fault(7, |call| change(call, |_, _, mark| *mark = 1)),
        fault(7, |call| change(call, |_, waiting, _| *waiting = 1 << 40)),
        fault(7, |call| change(call, |front, _, _| front[1] = 3)),
        fault(7, |call| change(call, |front, _, _| front[2] = 5)),
        fault(7, |call| {
            change(call, |front, waiting, _| {
                front.truncate(3 * *waiting as usize);
                front[1] = 1;
                front[2] = 0;
            })
        }),
    ]
}

/// All faults of a code's call.
pub fn of_code(code: u64) -> Vec<Fault> {
    let radius = vec![
        fault(5, |call| set_r(call, RADIUS_MOST + 1)),
        fault(5, |call| set_r(call, u32::MAX)),
    ];
    let parts = match code {
        1 => vec![
            sizes(),
            register_length(),
            starts_length(),
            footprints(),
            rooms(),
        ],
        2 => vec![sizes(), register_length(), starts_length(), footprints()],
        3 => vec![sizes(), starts_length(), run_faults(), bad_ends()],
        4 => vec![
            sizes(),
            register_length(),
            starts_length(),
            points(),
            radius,
            bad_ends(),
            bad_entries(),
            rooms(),
        ],
        8 => vec![
            sizes(),
            register_length(),
            starts_length(),
            points(),
            radius,
            bad_ends(),
            bad_entries(),
            rooms(),
            ends_rooms(),
        ],
        5 => vec![
            sizes(),
            register_length(),
            starts_length(),
            points(),
            bad_ends(),
            bad_entries(),
            too_many_entries(),
            rooms(),
        ],
        6 => vec![
            sizes(),
            register_length(),
            starts_length(),
            points(),
            rooms(),
            ask_faults(),
        ],
        _ => vec![
            sizes(),
            register_length(),
            starts_length(),
            join_faults(),
            bad_ends(),
            bad_entries(),
            rooms(),
        ],
    };
    parts.concat()
}
