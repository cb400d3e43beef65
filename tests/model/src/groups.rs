//! The groups of tiles around the tile of a walk: up, right, down and left at each level.

use crate::sizes::{Grid, Tile, DIRECTIONS, LEVELS};
use crate::span::Span;

/// A direction (0 up, 1 right, 2 down, 3 left) and a level from 1.
#[derive(Clone, Copy, PartialEq, Eq, Debug)]
pub struct Group {
    pub direction: u64,
    pub level: u64,
}

/// The walk's point and its grid.
#[derive(Clone, Copy)]
pub struct Centre {
    pub g: Grid,
    pub x: u32,
    pub y: u32,
}

impl Group {
    pub fn number(self) -> u64 {
        self.direction * LEVELS + self.level
    }

    /// The group that a waiting row's number speaks of, whether it exists or not.
    pub fn numbered(number: u64) -> Group {
        Group {
            direction: number / LEVELS,
            level: number % LEVELS,
        }
    }

    pub fn next(self) -> Group {
        Group {
            level: self.level + 1,
            ..self
        }
    }
}

impl Centre {
    pub fn tile(self) -> Tile {
        self.g.tile_of(self.x, self.y)
    }

    /// The coordinate across the group's row or column, and the tile row or column that it has; none if that is off the grid.
    fn line(self, group: Group) -> Option<(u32, u32)> {
        let level = group.level as i64;
        let tile = self.tile();
        if group.level == 0 || group.level >= LEVELS {
            return None;
        }
        match group.direction {
            0 => Some((self.y, self.g.step(tile.row, level)?)),
            1 => Some((self.x, self.g.step(tile.column, level)?)),
            2 => Some((self.y, self.g.step(tile.row, -level)?)),
            3 => Some((self.x, self.g.step(tile.column, -level)?)),
            _ => None,
        }
    }

    pub fn exists(self, group: Group) -> bool {
        self.line(group).is_some()
    }

    /// The square of the gap to the group's row or column alone, if the group exists.
    pub fn square(self, group: Group) -> Option<u64> {
        let (at, column) = self.line(group)?;
        let gap = Span::of_point(at).gap(Span::of_column(column, self.g.side));
        Some(gap * gap)
    }

    /// The groups of a direction that exist, level 1 first.
    pub fn groups(self, direction: u64) -> impl Iterator<Item = Group> {
        (1..LEVELS)
            .map(move |level| Group { direction, level })
            .filter(move |&group| self.exists(group))
    }

    /// The level 1 groups that exist.
    pub fn first_groups(self) -> impl Iterator<Item = Group> {
        (0..DIRECTIONS).flat_map(move |direction| self.groups(direction).take(1))
    }

    /// The tiles of a group, those off the grid left out.
    pub fn tiles(self, group: Group) -> Vec<Tile> {
        let l = group.level as i64;
        let offsets: Vec<(i64, i64)> = match group.direction {
            0 => (-l..=l - 1).map(|column| (column, l)).collect(),
            1 => (-l + 1..=l).map(|row| (l, row)).collect(),
            2 => (-l + 1..=l).map(|column| (column, -l)).collect(),
            _ => (-l..=l - 1).map(|row| (-l, row)).collect(),
        };
        let at = |(columns, rows)| self.g.tile_at(self.tile(), columns, rows);
        offsets.into_iter().filter_map(at).collect()
    }
}
