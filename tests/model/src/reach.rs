//! What calls reach: each ending of each call by name, and the endings that a good set of calls must have.

use crate::call::{Answer, Asked, Call, Lent};
use crate::index::check;
use crate::refusal::Refusal;
use crate::sizes::{Grid, NUMBERS_A_ROW};
use std::collections::BTreeMap;

/// The name of a call's ending: code, then how it ended.
pub fn ending(call: &Call, answer: &Answer) -> String {
    let how = match answer.result {
        Ok(value) => format!("{}{}", accepted(call, value), origin(call)),
        Err(refusal) => format!("{}{}", refused(refusal), whose(call, answer)),
    };
    format!("{} {}", call.code(), how)
}

fn refused(refusal: Refusal) -> String {
    match refusal {
        Refusal::Damaged(damage) => format!("7 {damage:?}"),
        Refusal::EndsRoom(_) => "6 ends".to_string(),
        other => other.number().to_string(),
    }
}

/// Where a list of searches is refused for a probe that is not its first.
fn whose(call: &Call, answer: &Answer) -> &'static str {
    match (&call.asked, &answer.numbers[..]) {
        (Asked::SearchAll { .. }, [number, index, ..]) if *number != 6 && *index > 0 => " later",
        _ => "",
    }
}

fn accepted(call: &Call, value: u64) -> &'static str {
    match &call.asked {
        Asked::Check { .. } | Asked::CheckBytes { .. } if value == 1 => "yes",
        Asked::Check { .. } | Asked::CheckBytes { .. } => "no",
        Asked::Start { .. } => "accepted",
        Asked::Ask { j: 0, .. } => "none asked",
        Asked::Ask { j, .. } if value < u64::from(*j) => "short",
        Asked::SearchAll { probes, .. } if probes.is_empty() => "no probes",
        _ if value == 0 => "none",
        _ => "some",
    }
}

fn is_built(g: Grid, lent: &Lent) -> bool {
    check(g, &lent.reg, &lent.starts, &lent.entries) == Ok(true)
}

/// The waiting rows of an accepted ask stand in their order.
fn is_sorted(front: &[u64], waiting: u64) -> bool {
    let rows = front.chunks_exact(NUMBERS_A_ROW).take(waiting as usize);
    rows.is_sorted()
}

/// Where tables or fronts are of another origin than build and walk, for the calls that read them.
fn origin(call: &Call) -> &'static str {
    let g = call.g;
    let built = match &call.asked {
        Asked::Search { lent, .. } | Asked::Start { lent, .. } => is_built(g, lent),
        Asked::SearchAll { lent, .. } => is_built(g, lent),
        Asked::Ask {
            lent,
            front,
            waiting,
            ..
        } => {
            if !is_sorted(front, *waiting) {
                return " unsorted";
            }
            is_built(g, lent)
        }
        Asked::Join { r_lent, s_lent, .. } => is_built(g, r_lent) && is_built(g, s_lent),
        _ => true,
    };
    if built {
        ""
    } else {
        " foreign"
    }
}

const ENTRY_DAMAGE: [&str; 4] = [
    "7 StartBelow",
    "7 EndBeyond",
    "7 EntryNotBelow",
    "7 EntryBad",
];

const LATER_DAMAGE: [&str; 4] = [
    "7 StartBelow later",
    "7 EndBeyond later",
    "7 EntryNotBelow later",
    "7 EntryBad later",
];

const ASK_DAMAGE: [&str; 7] = [
    "7 Mark",
    "7 WaitingBeyond",
    "7 Kind",
    "7 Group",
    "7 TileRow",
    "7 FootprintRow",
    "7 RowRoom",
];

fn of_code(code: u64) -> Vec<&'static str> {
    let (own, more): (&[&str], Vec<&str>) = match code {
        1 | 11 => (&["none", "some", "1", "2", "3", "6"], vec![]),
        2 | 12 => (&["yes", "no", "1", "2", "3"], vec![]),
        3 => (&["none", "some", "1", "2", "4"], ENTRY_DAMAGE[..2].to_vec()),
        23 => (&["none", "some", "4"], ENTRY_DAMAGE[..2].to_vec()),
        4 => (
            &["none", "some", "some foreign", "1", "2", "4", "5", "6"],
            ENTRY_DAMAGE.to_vec(),
        ),
        8 => (
            &[
                "no probes",
                "no probes foreign",
                "none",
                "some",
                "some foreign",
                "1",
                "2",
                "4",
                "4 later",
                "5",
                "5 later",
                "6",
                "6 ends",
            ],
            [&ENTRY_DAMAGE[..], &LATER_DAMAGE[..]].concat(),
        ),
        14 => (
            &["none", "some", "1", "2", "4", "5", "6"],
            ENTRY_DAMAGE.to_vec(),
        ),
        5 => (
            &[
                "accepted",
                "accepted foreign",
                "1",
                "2",
                "4",
                "6",
                "7 TooManyEntries",
            ],
            ENTRY_DAMAGE.to_vec(),
        ),
        6 => (
            &[
                "none asked",
                "some",
                "some foreign",
                "some unsorted",
                "short",
                "short unsorted",
                "1",
                "2",
                "4",
                "6",
            ],
            [&ENTRY_DAMAGE[..], &ASK_DAMAGE[..]].concat(),
        ),
        _ => (
            &["none", "some", "some foreign", "1", "2", "5", "6"],
            ENTRY_DAMAGE.to_vec(),
        ),
    };
    [own, &more].concat()
}

/// The endings that calls of these codes must reach.
pub fn wanted(codes: &[u64]) -> Vec<String> {
    let named = |&code: &u64| {
        of_code(code)
            .into_iter()
            .map(move |how| format!("{code} {how}"))
    };
    codes.iter().flat_map(named).collect()
}

/// How often each ending was reached.
#[derive(Default)]
pub struct Reached {
    pub counts: BTreeMap<String, u64>,
}

impl Reached {
    pub fn add(&mut self, call: &Call, answer: &Answer) {
        *self.counts.entry(ending(call, answer)).or_default() += 1;
    }

    /// Wanted endings that no call reached.
    pub fn missing(&self, codes: &[u64]) -> Vec<String> {
        let mut endings = wanted(codes);
        endings.retain(|ending| !self.counts.contains_key(ending));
        endings
    }
}
