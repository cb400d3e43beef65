//! Sizes: the limits of the rules, the grid and what follows from it.

pub const TILES_MOST: u32 = 64;
pub const SIDE_MOST: u32 = 16_384;
pub const FOOTPRINTS_MOST: usize = 65_536;
pub const RADIUS_MOST: u32 = 2_097_151;
pub const ENTRIES_MOST: u32 = 268_435_456;
pub const NUMBERS_A_FOOTPRINT: usize = 4;
pub const PROBES_MOST: usize = 65_536;
pub const NUMBERS_A_PROBE: usize = 3;
pub const NUMBERS_A_ROW: usize = 3;
pub const NUMBERS_GIVEN: usize = 2;
pub const CLASSES: u32 = 16;
pub const DIRECTIONS: u64 = 4;
pub const LEVELS: u64 = 64;

/// A grid of n by n tiles. Any two numbers can stand here; refusal 1 judges them.
#[derive(Clone, Copy, PartialEq, Eq, Debug)]
pub struct Grid {
    pub n: u32,
    pub side: u32,
}

/// A place of the grid by its tile column and tile row.
#[derive(Clone, Copy, PartialEq, Eq, Debug)]
pub struct Tile {
    pub column: u32,
    pub row: u32,
}

impl Grid {
    /// Both sizes are in their ranges. The other functions here are for such grids only.
    pub fn is_good(self) -> bool {
        (1..=TILES_MOST).contains(&self.n) && (1..=SIDE_MOST).contains(&self.side)
    }

    /// The first coordinate that is off the grid.
    pub fn reach(self) -> u32 {
        self.n * self.side
    }

    pub fn tile_count(self) -> u32 {
        self.n * self.n
    }

    pub fn starts_length(self) -> usize {
        (CLASSES * self.tile_count() + 1) as usize
    }

    /// The tile that a point of the grid lies in.
    pub fn tile_of(self, x: u32, y: u32) -> Tile {
        Tile {
            column: x / self.side,
            row: y / self.side,
        }
    }

    pub fn tile_number(self, tile: Tile) -> u32 {
        tile.row * self.n + tile.column
    }

    pub fn tile_numbered(self, number: u32) -> Tile {
        Tile {
            column: number % self.n,
            row: number / self.n,
        }
    }

    /// All tiles in the order of their numbers.
    pub fn tiles(self) -> impl Iterator<Item = Tile> {
        (0..self.tile_count()).map(move |number| self.tile_numbered(number))
    }

    /// The tile at an offset from another, if it is on the grid.
    pub fn tile_at(self, from: Tile, columns: i64, rows: i64) -> Option<Tile> {
        let column = self.step(from.column, columns)?;
        let row = self.step(from.row, rows)?;
        Some(Tile { column, row })
    }

    /// The column (or row) at an offset from another, if it is on the grid.
    pub fn step(self, from: u32, offset: i64) -> Option<u32> {
        let to = i64::from(from) + offset;
        (0..i64::from(self.n)).contains(&to).then_some(to as u32)
    }
}
