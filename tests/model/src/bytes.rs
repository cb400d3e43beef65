//! Byte tables: numbers as four bytes each, lowest first, and the plan viewer's build, check and search over them.

use crate::index;
use crate::refusal::{judge_sizes, Refusal};
use crate::search;
use crate::sizes::Grid;
use crate::tables::Tables;

pub const BYTES_A_NUMBER: usize = 4;

pub fn to_bytes(numbers: &[u32]) -> Vec<u8> {
    numbers.iter().flat_map(|n| n.to_le_bytes()).collect()
}

/// The numbers in a byte table; refusal 2 for a length off four.
fn to_numbers(bytes: &[u8]) -> Result<Vec<u32>, Refusal> {
    if !bytes.len().is_multiple_of(BYTES_A_NUMBER) {
        return Err(Refusal::Lengths);
    }
    let four = |part: &[u8]| u32::from_le_bytes([part[0], part[1], part[2], part[3]]);
    Ok(bytes.chunks_exact(BYTES_A_NUMBER).map(four).collect())
}

/// Builds in byte tables, as `index::build` does in number tables.
pub fn build(g: Grid, reg: &[u8], starts: &mut [u8], entries: &mut [u8]) -> Result<u64, Refusal> {
    judge_sizes(g)?;
    let mut start_numbers = to_numbers(starts)?;
    let mut entry_numbers = to_numbers(entries)?;
    let count = index::build(g, &to_numbers(reg)?, &mut start_numbers, &mut entry_numbers)?;
    starts.copy_from_slice(&to_bytes(&start_numbers));
    entries.copy_from_slice(&to_bytes(&entry_numbers));
    Ok(count)
}

/// Checks byte tables, as `index::check` does number tables.
pub fn check(g: Grid, reg: &[u8], starts: &[u8], entries: &[u8]) -> Result<bool, Refusal> {
    judge_sizes(g)?;
    let (reg, starts) = (to_numbers(reg)?, to_numbers(starts)?);
    index::check(g, &reg, &starts, &to_numbers(entries)?)
}

/// The three byte tables of a search.
pub struct ByteTables<'a> {
    pub g: Grid,
    pub reg: &'a [u8],
    pub starts: &'a [u8],
    pub entries: &'a [u8],
}

/// Searches byte tables, as `search::search` does number tables.
pub fn search(tables: &ByteTables, x: u32, y: u32, r: u32, out: &mut [u8]) -> Result<u64, Refusal> {
    judge_sizes(tables.g)?;
    let mut hits = to_numbers(out)?;
    let (reg, starts) = (to_numbers(tables.reg)?, to_numbers(tables.starts)?);
    let numbers = Tables {
        g: tables.g,
        reg: &reg,
        starts: &starts,
        entries: &to_numbers(tables.entries)?,
    };
    let count = search::search(&numbers, x, y, r, &mut hits)?;
    out.copy_from_slice(&to_bytes(&hits));
    Ok(count)
}
