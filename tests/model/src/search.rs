//! The radius search by the steps: allowed classes of visited tiles, in the order of tile, class and place in the run.

use crate::classes::allowed;
use crate::refusal::{judge_point, judge_radius, judge_room, Damage, Refusal};
use crate::register::footprint;
use crate::sizes::RADIUS_MOST;
use crate::span::Rectangle;
use crate::tables::Tables;

/// The hits in the order in which they are met, or the damage met on the way.
fn hits(tables: &Tables, x: u32, y: u32, r: u32) -> Result<Vec<u32>, Damage> {
    let g = tables.g;
    let point = Rectangle::of_point(x, y);
    let searched = g.tile_of(x, y);
    let mut found = Vec::new();
    for tile in g.tiles() {
        if !point.within(Rectangle::of_tile(g, tile), r) {
            continue;
        }
        for class in allowed(tile, searched) {
            let run = tables.read(tile, class)?;
            let near = |&&entry: &&u32| point.within(footprint(tables.reg, entry), r);
            found.extend(run.iter().filter(near));
        }
    }
    Ok(found)
}

/// The radius list, or why a search is refused, room apart.
pub fn list(tables: &Tables, x: u32, y: u32, r: u32) -> Result<Vec<u32>, Refusal> {
    tables.judge()?;
    judge_point(tables.g, x, y)?;
    judge_radius(r, RADIUS_MOST)?;
    hits(tables, x, y, r).map_err(Refusal::Damaged)
}

/// Writes the radius list to the output's beginning and gives its length.
pub fn search(tables: &Tables, x: u32, y: u32, r: u32, out: &mut [u32]) -> Result<u64, Refusal> {
    let found = list(tables, x, y, r)?;
    judge_room(found.len() as u64, out.len())?;
    out[..found.len()].copy_from_slice(&found);
    Ok(found.len() as u64)
}
