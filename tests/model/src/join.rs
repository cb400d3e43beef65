//! The join by the steps: every run of both registers is read, then each R tile meets the nine S tiles around it.

use crate::classes::joined;
use crate::refusal::{judge_radius, judge_room, judge_sizes, Damage, Refusal};
use crate::register::footprint;
use crate::sizes::{Tile, CLASSES};
use crate::tables::Tables;

/// All runs of one register by 16×tile+class.
type Runs<'a> = Vec<&'a [u32]>;

fn read_all<'a>(tables: &Tables<'a>) -> Result<Runs<'a>, Damage> {
    let mut runs = Vec::new();
    for tile in tables.g.tiles() {
        for class in 0..CLASSES {
            runs.push(tables.read(tile, class)?);
        }
    }
    Ok(runs)
}

/// One side of the join: its tables and the runs read from them.
struct Side<'a> {
    tables: &'a Tables<'a>,
    runs: Runs<'a>,
}

impl Side<'_> {
    fn run(&self, tile: Tile, class: u32) -> &[u32] {
        self.runs[(CLASSES * self.tables.g.tile_number(tile) + class) as usize]
    }
}

/// The pairs of two runs that are within r, R's place first.
fn pair_runs(sides: (&Side, &Side), runs: (&[u32], &[u32]), r: u32, pairs: &mut Vec<(u32, u32)>) {
    for &in_r in runs.0 {
        let from = footprint(sides.0.tables.reg, in_r);
        for &in_s in runs.1 {
            if from.within(footprint(sides.1.tables.reg, in_s), r) {
                pairs.push((in_r, in_s));
            }
        }
    }
}

/// The pairs of an R tile and the S tile at (dx, dy) from it.
fn pair_tiles(sides: (&Side, &Side), at: (Tile, Tile), r: u32, pairs: &mut Vec<(u32, u32)>) {
    let dx = i64::from(at.1.column) - i64::from(at.0.column);
    let dy = i64::from(at.1.row) - i64::from(at.0.row);
    for r_class in 0..CLASSES {
        for s_class in 0..CLASSES {
            if joined(dx, dy, r_class, s_class) {
                let runs = (sides.0.run(at.0, r_class), sides.1.run(at.1, s_class));
                pair_runs(sides, runs, r, pairs);
            }
        }
    }
}

fn pairs(r_tables: &Tables, s_tables: &Tables, r: u32) -> Result<Vec<(u32, u32)>, Damage> {
    let r_side = Side {
        tables: r_tables,
        runs: read_all(r_tables)?,
    };
    let s_side = Side {
        tables: s_tables,
        runs: read_all(s_tables)?,
    };
    let g = r_tables.g;
    let mut found = Vec::new();
    for r_tile in g.tiles() {
        for position in 0..9 {
            if let Some(s_tile) = g.tile_at(r_tile, position % 3 - 1, position / 3 - 1) {
                pair_tiles((&r_side, &s_side), (r_tile, s_tile), r, &mut found);
            }
        }
    }
    Ok(found)
}

/// Writes the pairs to the output's beginning, two numbers each, and gives their count. Both tables have the same grid.
pub fn join(r_tables: &Tables, s_tables: &Tables, r: u32, out: &mut [u32]) -> Result<u64, Refusal> {
    judge_sizes(r_tables.g)?;
    r_tables.judge_lengths()?;
    s_tables.judge_lengths()?;
    judge_radius(r, r_tables.g.side)?;
    let found = pairs(r_tables, s_tables, r).map_err(Refusal::Damaged)?;
    judge_room(2 * found.len() as u64, out.len())?;
    for (place, &(in_r, in_s)) in found.iter().enumerate() {
        out[2 * place] = in_r;
        out[2 * place + 1] = in_s;
    }
    Ok(found.len() as u64)
}
