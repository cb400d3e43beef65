//! The format of `replay`: decimal numbers, each followed by LF. Calls are written and read here; what is no call stops the reading.

use crate::call::{Answer, Asked, Call, Lent, LentBytes, ALL_CODES, REPLAY_CODES};
use crate::probes::Probe;
use crate::sizes::{Grid, NUMBERS_A_PROBE};
use std::fmt::Write;

/// What a program that speaks the format takes: its longest table and its codes.
#[derive(Clone, Copy)]
pub struct Takes {
    pub table_most: usize,
    pub codes: &'static [u64],
}

pub const REPLAY: Takes = Takes {
    table_most: 4_096,
    codes: &REPLAY_CODES,
};

pub const DRIVER: Takes = Takes {
    table_most: usize::MAX,
    codes: &ALL_CODES,
};

/// Numbers one a line.
pub fn lines(numbers: &[u64]) -> String {
    let mut text = String::new();
    for number in numbers {
        writeln!(text, "{number}").expect("a string takes every line");
    }
    text
}

fn push_table<T: Copy + Into<u64>>(numbers: &mut Vec<u64>, table: &[T]) {
    numbers.push(table.len() as u64);
    numbers.extend(table.iter().map(|&number| number.into()));
}

fn push_lent(numbers: &mut Vec<u64>, lent: &Lent) {
    push_table(numbers, &lent.reg);
    push_table(numbers, &lent.starts);
    push_table(numbers, &lent.entries);
}

fn push_bytes(numbers: &mut Vec<u64>, lent: &LentBytes) {
    push_table(numbers, &lent.reg);
    push_table(numbers, &lent.starts);
    push_table(numbers, &lent.entries);
}

/// A list of probes as a table of numbers, three a probe.
fn probe_numbers(probes: &[Probe]) -> Vec<u32> {
    let numbers = |probe: &Probe| [probe.x, probe.y, probe.r];
    probes.iter().flat_map(numbers).collect()
}

fn push_all(numbers: &mut Vec<u64>, several: &[u32]) {
    numbers.extend(several.iter().map(|&number| u64::from(number)));
}

/// The numbers of a call: its code and its parameters in their order.
pub fn call_numbers(call: &Call) -> Vec<u64> {
    let mut to = vec![call.code()];
    push_all(&mut to, &[call.g.n, call.g.side]);
    match &call.asked {
        Asked::Build { lent } | Asked::Check { lent } => push_lent(&mut to, lent),
        Asked::Run {
            starts,
            entries,
            tile,
            class,
        } => {
            push_table(&mut to, starts);
            push_table(&mut to, entries);
            push_all(&mut to, &[*tile, *class]);
        }
        Asked::Search { lent, x, y, r, out } => {
            push_lent(&mut to, lent);
            push_all(&mut to, &[*x, *y, *r]);
            push_table(&mut to, out);
        }
        Asked::Start { lent, x, y, front } => {
            push_lent(&mut to, lent);
            push_all(&mut to, &[*x, *y]);
            push_table(&mut to, front);
        }
        Asked::Ask {
            lent,
            front,
            x,
            y,
            waiting,
            mark,
            j,
            out,
        } => {
            push_lent(&mut to, lent);
            push_table(&mut to, front);
            push_all(&mut to, &[*x, *y]);
            to.push(*waiting);
            push_all(&mut to, &[*mark, *j]);
            push_table(&mut to, out);
        }
        Asked::Join {
            r_lent,
            s_lent,
            r,
            out,
        } => {
            push_lent(&mut to, r_lent);
            push_lent(&mut to, s_lent);
            push_all(&mut to, &[*r]);
            push_table(&mut to, out);
        }
        Asked::SearchAll {
            lent,
            probes,
            out,
            ends,
        } => {
            push_lent(&mut to, lent);
            push_table(&mut to, &probe_numbers(probes));
            push_table(&mut to, out);
            push_table(&mut to, ends);
        }
        Asked::BuildBytes { lent } | Asked::CheckBytes { lent } => push_bytes(&mut to, lent),
        Asked::SearchBytes { lent, x, y, r, out } => {
            push_bytes(&mut to, lent);
            push_all(&mut to, &[*x, *y, *r]);
            push_table(&mut to, out);
        }
        Asked::LongRun {
            starts,
            entries,
            tile,
            class,
        } => {
            push_table(&mut to, starts);
            to.push(*entries);
            push_all(&mut to, &[*tile, *class]);
        }
    }
    to
}

pub fn call_text(call: &Call) -> String {
    lines(&call_numbers(call))
}

pub fn answer_text(answer: &Answer) -> String {
    lines(&answer.numbers)
}

/// The reading met what is no call.
#[derive(Clone, Copy, PartialEq, Eq, Debug)]
pub struct Stop;

/// Reads calls from a text.
pub struct Reader<'a> {
    text: &'a [u8],
    takes: Takes,
}

impl<'a> Reader<'a> {
    pub fn new(text: &'a [u8], takes: Takes) -> Reader<'a> {
        Reader { text, takes }
    }

    fn number(&mut self, most: u64) -> Result<u64, Stop> {
        let end = self.text.iter().position(|&byte| byte == b'\n');
        let (line, rest) = self.text.split_at(end.ok_or(Stop)?);
        self.text = &rest[1..];
        if line.is_empty() || !line.iter().all(u8::is_ascii_digit) {
            return Err(Stop);
        }
        let digits = std::str::from_utf8(line).map_err(|_| Stop)?;
        let number = digits.parse::<u64>().map_err(|_| Stop)?;
        if number > most {
            return Err(Stop);
        }
        Ok(number)
    }

    fn small(&mut self) -> Result<u32, Stop> {
        Ok(self.number(u64::from(u32::MAX))? as u32)
    }

    fn table<T>(&mut self, read: impl Fn(&mut Self) -> Result<T, Stop>) -> Result<Vec<T>, Stop> {
        let length = self.number(self.takes.table_most as u64)?;
        (0..length).map(|_| read(self)).collect()
    }

    fn numbers(&mut self) -> Result<Vec<u32>, Stop> {
        self.table(Self::small)
    }

    fn long_numbers(&mut self) -> Result<Vec<u64>, Stop> {
        self.table(|reader| reader.number(u64::MAX))
    }

    fn bytes(&mut self) -> Result<Vec<u8>, Stop> {
        self.table(|reader| Ok(reader.number(u64::from(u8::MAX))? as u8))
    }

    /// A table of three numbers a probe; a length off three stops.
    fn probes(&mut self) -> Result<Vec<Probe>, Stop> {
        let numbers = self.numbers()?;
        if !numbers.len().is_multiple_of(NUMBERS_A_PROBE) {
            return Err(Stop);
        }
        let probe = |three: &[u32]| Probe {
            x: three[0],
            y: three[1],
            r: three[2],
        };
        Ok(numbers.chunks(NUMBERS_A_PROBE).map(probe).collect())
    }

    fn lent(&mut self) -> Result<Lent, Stop> {
        Ok(Lent {
            reg: self.numbers()?,
            starts: self.numbers()?,
            entries: self.numbers()?,
        })
    }

    fn lent_bytes(&mut self) -> Result<LentBytes, Stop> {
        Ok(LentBytes {
            reg: self.bytes()?,
            starts: self.bytes()?,
            entries: self.bytes()?,
        })
    }

    fn asked(&mut self, code: u64) -> Result<Asked, Stop> {
        Ok(match code {
            1 => Asked::Build { lent: self.lent()? },
            2 => Asked::Check { lent: self.lent()? },
            3 => Asked::Run {
                starts: self.numbers()?,
                entries: self.numbers()?,
                tile: self.small()?,
                class: self.small()?,
            },
            4 => Asked::Search {
                lent: self.lent()?,
                x: self.small()?,
                y: self.small()?,
                r: self.small()?,
                out: self.numbers()?,
            },
            5 => Asked::Start {
                lent: self.lent()?,
                x: self.small()?,
                y: self.small()?,
                front: self.long_numbers()?,
            },
            6 => Asked::Ask {
                lent: self.lent()?,
                front: self.long_numbers()?,
                x: self.small()?,
                y: self.small()?,
                waiting: self.number(u64::MAX)?,
                mark: self.small()?,
                j: self.small()?,
                out: self.long_numbers()?,
            },
            7 => Asked::Join {
                r_lent: self.lent()?,
                s_lent: self.lent()?,
                r: self.small()?,
                out: self.numbers()?,
            },
            _ => self.asked_of_driver(code)?,
        })
    }

    fn asked_of_driver(&mut self, code: u64) -> Result<Asked, Stop> {
        Ok(match code {
            8 => Asked::SearchAll {
                lent: self.lent()?,
                probes: self.probes()?,
                out: self.numbers()?,
                ends: self.long_numbers()?,
            },
            11 => Asked::BuildBytes {
                lent: self.lent_bytes()?,
            },
            12 => Asked::CheckBytes {
                lent: self.lent_bytes()?,
            },
            14 => Asked::SearchBytes {
                lent: self.lent_bytes()?,
                x: self.small()?,
                y: self.small()?,
                r: self.small()?,
                out: self.bytes()?,
            },
            23 => Asked::LongRun {
                starts: self.numbers()?,
                entries: self.number(u64::MAX)?,
                tile: self.small()?,
                class: self.small()?,
            },
            _ => return Err(Stop),
        })
    }

    /// The next call; none at the end of the text.
    pub fn call(&mut self) -> Result<Option<Call>, Stop> {
        if self.text.is_empty() {
            return Ok(None);
        }
        let code = self.number(u64::MAX)?;
        if !self.takes.codes.contains(&code) {
            return Err(Stop);
        }
        let g = Grid {
            n: self.small()?,
            side: self.small()?,
        };
        let asked = self.asked(code)?;
        Ok(Some(Call { g, asked }))
    }
}

/// All that must be printed for a text of calls.
pub fn replayed(text: &[u8], takes: Takes) -> String {
    let mut reader = Reader::new(text, takes);
    let mut print = String::new();
    loop {
        match reader.call() {
            Ok(Some(call)) => print.push_str(&answer_text(&call.answer())),
            Ok(None) => return print,
            Err(Stop) => {
                print.push_str("stop\n");
                return print;
            }
        }
    }
}
