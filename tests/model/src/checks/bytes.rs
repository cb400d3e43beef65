//! The byte doors: the same answers as on numbers, lowest byte first, and refusal 2 for a length off four.

use crate::bytes::{build, check, search, to_bytes, ByteTables};
use crate::refusal::Refusal;
use crate::sizes::Grid;
use crate::stored::{lent, SMALL, SMALL_GRID};

#[test]
fn lowest_byte_first() {
    assert_eq!(to_bytes(&[1, 0x0A0B_0C0D]), [1, 0, 0, 0, 13, 12, 11, 10]);
}

#[test]
fn bytes_answer_as_numbers() {
    let owned = lent(SMALL_GRID, &SMALL, &[]);
    let reg = to_bytes(&SMALL);
    let mut starts = vec![1; 4 * owned.starts.len()];
    let mut entries = vec![2; 4 * owned.entries.len() + 8];
    let count = build(SMALL_GRID, &reg, &mut starts, &mut entries);
    assert_eq!(count, Ok(owned.entries.len() as u64));
    assert_eq!(starts, to_bytes(&owned.starts));
    let tail = entries.split_off(4 * owned.entries.len());
    assert_eq!(
        (entries.clone(), tail),
        (to_bytes(&owned.entries), vec![2; 8])
    );
    assert_eq!(check(SMALL_GRID, &reg, &starts, &entries), Ok(true));
    entries[0] ^= 1;
    assert_eq!(check(SMALL_GRID, &reg, &starts, &entries), Ok(false));
}

/// A search with so many bytes added to each of its four tables.
fn longer(g: Grid, more: [usize; 4]) -> Result<u64, Refusal> {
    let owned = lent(SMALL_GRID, &SMALL, &[]);
    let with = |numbers: &[u32], more| [to_bytes(numbers), vec![0; more]].concat();
    let tables = ByteTables {
        g,
        reg: &with(&owned.reg, more[0]),
        starts: &with(&owned.starts, more[1]),
        entries: &with(&owned.entries, more[2]),
    };
    search(&tables, 5, 5, 3, &mut vec![0; 20 + more[3]])
}

#[test]
fn a_length_off_four_is_refusal_2() {
    assert_eq!(longer(SMALL_GRID, [0; 4]), Ok(4));
    assert_eq!(longer(SMALL_GRID, [0, 0, 4, 4]), Ok(4));
    for place in 0..4 {
        for more in 1..4 {
            let mut all = [0; 4];
            all[place] = more;
            assert_eq!(longer(SMALL_GRID, all), Err(Refusal::Lengths));
            let wild = Grid { n: 0, side: 10 };
            assert_eq!(longer(wild, all), Err(Refusal::Sizes));
        }
    }
}
