//! Random texts for the programs: text registers, sound and broken, and broken inputs of `replay` and of the driver.

use crate::call::{Asked, Call, LIST_CODES, REPLAY_CODES};
use crate::format::{call_numbers, call_text, lines, REPLAY};
use crate::hostile::random_call;
use crate::random::Random;
use crate::sizes::{Grid, RADIUS_MOST};
use crate::text::{BYTES_MOST, PROGRAM_ENTRIES_MOST, PROGRAM_FOOTPRINTS_MOST, PROGRAM_TILES_MOST};
use crate::yards::{self, Limits};

const SHEET_LIMITS: Limits = Limits {
    tiles_most: PROGRAM_TILES_MOST,
    footprints_most: 40,
    table_most: 9_000,
};

const STOP_LIMITS: Limits = Limits {
    tiles_most: 2,
    footprints_most: 3,
    table_most: 100,
};

fn number_line(text: &mut String, key: &str, number: u32) {
    text.push_str(&format!("{key}={number}\n"));
}

fn footprint_lines(text: &mut String, numbers: &[u32]) {
    for (key, &number) in ["xlo", "ylo", "xhi", "yhi"].iter().zip(numbers) {
        number_line(text, key, number);
    }
}

/// A number of at most seven digits.
fn seven_digits(random: &mut Random) -> u32 {
    random.pick(&[0, 1, 64, 65, 9_999_999, RADIUS_MOST, RADIUS_MOST + 1])
}

fn question(random: &mut Random, g: Grid, reg: &[u32], text: &mut String) {
    let (x, y) = yards::point(random, g, reg);
    let mut numbers = [x, y, yards::radius(random, g, reg, x, y)];
    if random.chance(8) {
        numbers[random.place(3)] = seven_digits(random);
    }
    if random.chance(4) {
        numbers[random.place(2)] = g.reach();
    }
    for (key, number) in ["x", "y", "r"].iter().zip(numbers) {
        number_line(text, key, number);
    }
}

/// So many equal footprints.
fn many(footprint: [u32; 4], count: usize) -> Vec<u32> {
    footprint.iter().copied().cycle().take(4 * count).collect()
}

/// A register around the program's limit of footprints or of entries.
fn crowd(random: &mut Random, g: Grid) -> Vec<u32> {
    let last = g.reach() - 1;
    let point = [last, 0, last, 0];
    let whole = [0, 0, last, last];
    if random.chance(40) {
        return many(point, PROGRAM_FOOTPRINTS_MOST + random.place(2));
    }
    let fit = PROGRAM_ENTRIES_MOST / g.tile_count() as usize;
    let mut reg = many(whole, fit.min(PROGRAM_FOOTPRINTS_MOST));
    reg.extend(many(point, random.place(2)));
    reg
}

/// A sound text register, whose numbers may still be refused.
pub fn sound_sheet(random: &mut Random) -> String {
    let mut g = yards::grid(random, &SHEET_LIMITS);
    let mut reg = yards::register(random, g, &SHEET_LIMITS);
    match random.below(20) {
        0 => {
            g.n = random.pick(&[1, 4, 8, 16]);
            reg = crowd(random, g);
        }
        1 if !reg.is_empty() => {
            let place = random.place(reg.len());
            reg[place] = seven_digits(random);
        }
        _ => {}
    }
    let mut text = String::new();
    let told = match random.below(20) {
        0 => [seven_digits(random), g.side],
        1 => [g.n, seven_digits(random)],
        2 => [random.pick(&[16, 17]), g.side],
        _ => [g.n, g.side],
    };
    number_line(&mut text, "tiles", told[0]);
    number_line(&mut text, "side", told[1]);
    for footprint in reg.chunks(4) {
        footprint_lines(&mut text, footprint);
    }
    for _ in 0..random.below(4) {
        question(random, g, &reg, &mut text);
    }
    text
}

/// Breaks a text in one place.
pub fn broken(random: &mut Random, mut text: Vec<u8>) -> Vec<u8> {
    if text.is_empty() {
        return text;
    }
    let place = random.place(text.len());
    match random.below(10) {
        0 => text.truncate(place),
        1 => drop(text.remove(place)),
        2 => text[place] = random.next() as u8,
        3 => text.insert(place, random.pick(b"0123456789 \r\n=-+xXyr\0")),
        4 => drop(text.pop()),
        5 => text.push(b'\n'),
        6 => swap_lines(random, &mut text),
        7 => drop_line(random, &mut text),
        _ => other_number(random, &mut text),
    }
    text
}

fn lines_of(text: &[u8]) -> Vec<Vec<u8>> {
    text.split_inclusive(|&byte| byte == b'\n')
        .map(<[u8]>::to_vec)
        .collect()
}

fn swap_lines(random: &mut Random, text: &mut Vec<u8>) {
    let mut lines = lines_of(text);
    let (one, other) = (random.place(lines.len()), random.place(lines.len()));
    lines.swap(one, other);
    *text = lines.concat();
}

/// Another number in a line: as long as may be, one digit longer, or with a leading zero.
fn other_number(random: &mut Random, text: &mut Vec<u8>) {
    let mut lines = lines_of(text);
    let place = random.place(lines.len());
    let digits = random.pick(&["1234567", "12345678", "0", "00", "01", "0000001", ""]);
    let key = lines[place].split(|&byte| byte == b'=').next();
    let key = String::from_utf8_lossy(key.unwrap_or_default()).into_owned();
    lines[place] = format!("{key}={digits}\n").into_bytes();
    *text = lines.concat();
}

fn drop_line(random: &mut Random, text: &mut Vec<u8>) {
    let mut lines = lines_of(text);
    lines.remove(random.place(lines.len()));
    *text = lines.concat();
}

/// A text of exactly so many bytes, sound up to its last line.
fn long_sheet(bytes: usize) -> Vec<u8> {
    let mut text = b"tiles=1\nside=1\n".to_vec();
    while text.len() + 40 < bytes {
        text.extend(b"x=0\ny=0\nr=0\n");
    }
    text.extend(b"x=0\ny=0\nr=");
    while text.len() + 1 < bytes {
        text.push(b'1');
    }
    text.push(b'\n');
    text
}

/// A text for the text program: sound, broken or too long.
pub fn sheet(random: &mut Random) -> Vec<u8> {
    if random.chance(2) {
        return long_sheet(BYTES_MOST - 1 + random.place(3));
    }
    let mut text = sound_sheet(random).into_bytes();
    for _ in 0..random.pick(&[0, 0, 0, 0, 1, 1, 2]) {
        text = broken(random, text);
    }
    text
}

fn small_call(random: &mut Random) -> Call {
    random_call(random, &STOP_LIMITS, &REPLAY_CODES)
}

/// What stops `replay` after the calls before it.
fn stopping(random: &mut Random) -> Vec<u8> {
    let call = call_text(&small_call(random));
    let lines: Vec<&str> = call.split_inclusive('\n').collect();
    let whole = lines.len();
    let at = random.place(whole);
    let with = |new: &str| [&lines[..at].concat(), new, &lines[at + 1..].concat()].concat();
    match random.below(6) {
        0 => random
            .pick(&[
                "0\n",
                "8\n",
                "9\n",
                "10\n",
                "99\n",
                "18446744073709551615\n",
            ])
            .into(),
        1 => lines[..1 + random.place(whole - 1)].concat().into(),
        2 => with(random.pick(&[
            "x\n", "\n", "-1\n", "+1\n", " 1\n", "1 \n", "1\r\n", "1.0\n",
        ]))
        .into(),
        3 => with("18446744073709551616\n").into(),
        4 => with("99999999999999999999999999\n").into(),
        _ => too_large(random, &lines),
    }
}

/// A call whose sizes or first table length are too large for their parameters.
fn too_large(random: &mut Random, lines: &[&str]) -> Vec<u8> {
    let place = random.pick(&[1, 2, 3]);
    let number = match place {
        3 => random.pick(&[REPLAY.table_most as u64 + 1, 4_294_967_296, u64::MAX]),
        _ => random.pick(&[4_294_967_296, u64::MAX]),
    };
    let before = lines[..place].concat();
    let after = lines[place + 1..].concat();
    format!("{before}{number}\n{after}").into()
}

/// A broken input of `replay`: some whole calls, then what stops it.
pub fn stopped(random: &mut Random) -> Vec<u8> {
    let mut text = Vec::new();
    for _ in 0..random.below(3) {
        text.extend(call_text(&small_call(random)).into_bytes());
    }
    text.extend(stopping(random));
    text
}

/// Where the length of the probes stands among the numbers of a list of searches: behind code, sizes and three tables.
fn probes_place(call: &Call) -> usize {
    let Asked::SearchAll { lent, .. } = &call.asked else {
        unreachable!("only lists of searches come here")
    };
    let tables = [&lent.reg, &lent.starts, &lent.entries];
    3 + tables.iter().map(|table| 1 + table.len()).sum::<usize>()
}

/// A list of searches whose table of probes is off three, by numbers more or less, or one that is cut short.
fn off_three(random: &mut Random) -> Vec<u64> {
    let call = random_call(random, &STOP_LIMITS, &LIST_CODES);
    let mut numbers = call_numbers(&call);
    let at = probes_place(&call);
    let length = numbers[at];
    let off = random.pick(&[1, 2]);
    match random.below(3) {
        0 if length > 0 => {
            numbers[at] = length - off;
            numbers.drain(at + 1..at + 1 + off as usize);
        }
        1 => numbers.truncate(1 + random.place(numbers.len() - 1)),
        _ => {
            numbers[at] = length + off;
            let more = vec![0; off as usize];
            numbers.splice(at + 1..at + 1, more);
        }
    }
    numbers
}

/// A broken input of the driver: some whole lists of searches, then what is no such call.
pub fn stopped_list(random: &mut Random) -> Vec<u8> {
    let mut text = String::new();
    for _ in 0..random.below(3) {
        text.push_str(&call_text(&random_call(random, &STOP_LIMITS, &LIST_CODES)));
    }
    text.push_str(&lines(&off_three(random)));
    text.into_bytes()
}
