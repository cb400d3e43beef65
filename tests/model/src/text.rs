//! The text program: a text register is judged whole, then built, then each question is answered. Gives what the program prints.

use crate::index::{built, entry_count};
use crate::refusal::{
    judge_footprints, judge_point, judge_radius, judge_room, judge_sizes, Judged, Refusal,
};
use crate::register::{footprint, footprint_count};
use crate::search::search;
use crate::sizes::{Grid, RADIUS_MOST};
use crate::span::Rectangle;
use crate::tables::Tables;

pub const BYTES_MOST: usize = 65_536;
pub const DIGITS_MOST: usize = 7;
pub const PROGRAM_TILES_MOST: u32 = 16;
pub const PROGRAM_FOOTPRINTS_MOST: usize = 512;
pub const PROGRAM_ENTRIES_MOST: usize = 8_192;

const FOOTPRINT_KEYS: [&str; 4] = ["xlo=", "ylo=", "xhi=", "yhi="];
const QUESTION_KEYS: [&str; 3] = ["x=", "y=", "r="];

/// A text that is as the rules say.
struct Sheet {
    g: Grid,
    reg: Vec<u32>,
    questions: Vec<[u32; 3]>,
}

/// The lines of a text, from the first not yet read; a last line without LF keeps its missing end visible.
struct Lines<'a> {
    left: Vec<&'a [u8]>,
    read: u32,
}

impl<'a> Lines<'a> {
    fn new(text: &'a [u8]) -> Lines<'a> {
        let left = text.split_inclusive(|&byte| byte == b'\n').collect();
        Lines { left, read: 0 }
    }

    fn begins_with(&self, key: &str) -> bool {
        let line = self.left.get(self.read as usize);
        line.is_some_and(|line| line.starts_with(key.as_bytes()))
    }

    fn at_end(&self) -> bool {
        self.read as usize == self.left.len()
    }

    /// The number of the next line, which must have this key.
    fn number(&mut self, key: &str) -> Result<u32, Refusal> {
        let line = self.left.get(self.read as usize);
        self.read += 1;
        line.and_then(|line| line_number(line, key))
            .ok_or(Refusal::Text(self.read))
    }

    fn numbers<const COUNT: usize>(
        &mut self,
        keys: [&str; COUNT],
    ) -> Result<[u32; COUNT], Refusal> {
        let mut found = [0; COUNT];
        for (place, key) in keys.iter().enumerate() {
            found[place] = self.number(key)?;
        }
        Ok(found)
    }
}

/// The number of a line `key`, digits, LF; none if the line is anything else.
fn line_number(line: &[u8], key: &str) -> Option<u32> {
    let digits = line
        .strip_prefix(key.as_bytes())?
        .strip_suffix(b"\n".as_slice())?;
    let length_good = (1..=DIGITS_MOST).contains(&digits.len());
    let zero_good = digits.len() == 1 || digits.first() != Some(&b'0');
    if !length_good || !zero_good || !digits.iter().all(u8::is_ascii_digit) {
        return None;
    }
    let value = |sum: u32, digit: &u8| 10 * sum + u32::from(digit - b'0');
    Some(digits.iter().fold(0, value))
}

/// Reads the whole text, or names its first bad or missing line.
fn read(text: &[u8]) -> Result<Sheet, Refusal> {
    if text.len() > BYTES_MOST {
        return Err(Refusal::Text(0));
    }
    let mut lines = Lines::new(text);
    let [n, side] = lines.numbers(["tiles=", "side="])?;
    let mut sheet = Sheet {
        g: Grid { n, side },
        reg: Vec::new(),
        questions: Vec::new(),
    };
    while lines.begins_with(FOOTPRINT_KEYS[0]) {
        sheet.reg.extend(lines.numbers(FOOTPRINT_KEYS)?);
    }
    while !lines.at_end() {
        sheet.questions.push(lines.numbers(QUESTION_KEYS)?);
    }
    Ok(sheet)
}

/// The program's own limits and the build's refusals.
fn judge_build(sheet: &Sheet) -> Judged {
    judge_sizes(sheet.g)?;
    if sheet.g.n > PROGRAM_TILES_MOST {
        return Err(Refusal::Sizes);
    }
    if footprint_count(&sheet.reg) > PROGRAM_FOOTPRINTS_MOST {
        return Err(Refusal::Lengths);
    }
    judge_footprints(sheet.g, &sheet.reg)?;
    judge_room(entry_count(sheet.g, &sheet.reg), PROGRAM_ENTRIES_MOST)
}

fn answer(tables: &Tables, [x, y, r]: [u32; 3], print: &mut String) -> Judged {
    judge_point(tables.g, x, y)?;
    judge_radius(r, RADIUS_MOST)?;
    let mut hits = vec![0; footprint_count(tables.reg)];
    let count = search(tables, x, y, r, &mut hits)? as usize;
    print.push_str(&format!("found={count}\n"));
    for &number in &hits[..count] {
        let square = Rectangle::of_point(x, y).square(footprint(tables.reg, number));
        print.push_str(&format!("no={number}\nsquare={square}\n"));
    }
    Ok(())
}

fn answer_all(text: &[u8], print: &mut String) -> Judged {
    let sheet = read(text)?;
    judge_build(&sheet)?;
    let index = built(sheet.g, &sheet.reg);
    let tables = Tables {
        g: sheet.g,
        reg: &sheet.reg,
        starts: &index.starts,
        entries: &index.entries,
    };
    for question in sheet.questions {
        answer(&tables, question, print)?;
    }
    Ok(())
}

/// Everything that the program prints for a text.
pub fn printed(text: &[u8]) -> String {
    let mut print = String::new();
    if let Err(refusal) = answer_all(text, &mut print) {
        print.push_str(&format!("refused={}\n", refusal.number()));
        if let Refusal::Text(line) = refusal {
            print.push_str(&format!("line={line}\n"));
        }
    }
    print
}
