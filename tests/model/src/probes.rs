//! A list of searches (document 02, ticket 1): all radius lists one behind the other, and where each ends.

use crate::refusal::{judge_ends, judge_probes, judge_room, Refusal};
use crate::search::list;
use crate::tables::Tables;

/// A search of a list: a point and a radius.
#[derive(Clone, Copy, PartialEq, Eq, Debug)]
pub struct Probe {
    pub x: u32,
    pub y: u32,
    pub r: u32,
}

/// Why a list of searches is refused, and the value that is told: a probe's index, or for 6 what is needed.
#[derive(Clone, Copy, PartialEq, Eq, Debug)]
pub struct Refused {
    pub why: Refusal,
    pub value: u64,
}

fn at(index: usize) -> impl Fn(Refusal) -> Refused {
    move |why| Refused {
        why,
        value: index as u64,
    }
}

fn room(why: Refusal) -> Refused {
    let value = why.value();
    Refused { why, value }
}

/// The lists of all probes and their ends; or the first probe that a single search would refuse, room apart.
fn lists(tables: &Tables, probes: &[Probe]) -> Result<(Vec<u32>, Vec<u64>), Refused> {
    let (mut numbers, mut ends) = (Vec::new(), Vec::new());
    for (index, probe) in probes.iter().enumerate() {
        numbers.extend(list(tables, probe.x, probe.y, probe.r).map_err(at(index))?);
        ends.push(numbers.len() as u64);
    }
    Ok((numbers, ends))
}

/// Writes the lists and their ends to the beginnings of both tables and gives how many numbers the lists have in all.
pub fn search_all(
    tables: &Tables,
    probes: &[Probe],
    out: &mut [u32],
    ends: &mut [u64],
) -> Result<u64, Refused> {
    tables.judge().map_err(at(0))?;
    judge_probes(probes.len()).map_err(at(0))?;
    let (numbers, places) = lists(tables, probes)?;
    judge_room(numbers.len() as u64, out.len()).map_err(room)?;
    judge_ends(places.len() as u64, ends.len()).map_err(room)?;
    out[..numbers.len()].copy_from_slice(&numbers);
    ends[..places.len()].copy_from_slice(&places);
    Ok(numbers.len() as u64)
}
