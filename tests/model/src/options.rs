//! The options of the commands: `--name number` before the other words.

use crate::call::{Call, LIST_CODES, REPLAY_CODES};
use crate::compare::Plan;
use crate::format::{Takes, DRIVER, REPLAY};
use crate::lists;
use crate::sizes::{CLASSES, FOOTPRINTS_MOST, TILES_MOST};
use crate::stored;
use crate::yards::Limits;
use std::ops::Range;

/// What was asked for, with the limits of `replay` unless told otherwise.
pub struct Options {
    pub seed: u64,
    pub from: u64,
    pub calls: u64,
    pub tiles: u32,
    pub footprints: usize,
    pub table: usize,
    pub codes: Vec<u64>,
    pub reach: bool,
    pub words: Vec<String>,
}

fn unset() -> Options {
    Options {
        seed: 1,
        from: 0,
        calls: 1_000,
        tiles: 15,
        footprints: 40,
        table: REPLAY.table_most,
        codes: REPLAY_CODES.to_vec(),
        reach: false,
        words: Vec::new(),
    }
}

fn number<T: std::str::FromStr>(name: &str, word: Option<String>) -> Result<T, String> {
    let number = word.and_then(|word| word.parse().ok());
    number.ok_or(format!("{name} needs a number"))
}

fn list(name: &str, word: Option<String>) -> Result<Vec<u64>, String> {
    let words = word.unwrap_or_default();
    let numbers = words.split(',').map(|one| one.parse().ok());
    let codes: Option<Vec<u64>> = numbers.collect();
    let known = codes.filter(|codes| codes.iter().all(|code| DRIVER.codes.contains(code)));
    known.ok_or(format!("{name} needs codes, with commas between"))
}

impl Options {
    /// Reads options up to the first other word or `--`.
    pub fn read(mut words: impl Iterator<Item = String>) -> Result<Options, String> {
        let mut options = unset();
        while let Some(word) = words.next() {
            match word.as_str() {
                "--seed" => options.seed = number(&word, words.next())?,
                "--from" => options.from = number(&word, words.next())?,
                "--calls" => options.calls = number(&word, words.next())?,
                "--tiles" => options.tiles = number(&word, words.next())?,
                "--footprints" => options.footprints = number(&word, words.next())?,
                "--table" => options.table = number(&word, words.next())?,
                "--codes" => options.codes = list(&word, words.next())?,
                "--reach" => options.reach = true,
                "--" => break,
                _ => {
                    options.words.push(word);
                    break;
                }
            }
        }
        options.words.extend(words);
        options.judged()
    }

    /// The limits must leave room for the starts of the largest grid.
    fn judged(self) -> Result<Options, String> {
        let tiles = (1..=TILES_MOST).contains(&self.tiles);
        let footprints = self.footprints <= FOOTPRINTS_MOST;
        if !tiles || !footprints {
            return Err("--tiles is 1 to 64, --footprints at most 65536".to_string());
        }
        let spare = 8;
        let starts = (CLASSES * self.tiles * self.tiles + 1) as usize;
        if starts + spare > self.table {
            return Err(format!("--table is too small for {} tiles", self.tiles));
        }
        Ok(self)
    }

    /// The places of the seed that are made.
    pub fn places(&self) -> Range<u64> {
        self.from..self.from + self.calls
    }

    pub fn limits(&self) -> Limits {
        Limits {
            tiles_most: self.tiles,
            footprints_most: self.footprints,
            table_most: self.table,
        }
    }

    pub fn plan(&self) -> Plan {
        Plan {
            seed: self.seed,
            places: self.places(),
            limits: self.limits(),
            codes: self.codes.clone(),
        }
    }

    /// The stored set: the lists of searches, where they alone are asked for, else the calls of `replay`.
    pub fn stored(&self) -> Vec<Call> {
        if self.codes == LIST_CODES {
            lists::calls()
        } else {
            stored::calls()
        }
    }

    /// What a program of these codes and tables takes.
    pub fn takes(&self) -> Takes {
        let small = self.table <= REPLAY.table_most;
        if small && self.codes.iter().all(|code| REPLAY.codes.contains(code)) {
            REPLAY
        } else {
            DRIVER
        }
    }

    pub fn command(&self) -> Result<&[String], String> {
        if self.words.is_empty() {
            return Err("no program to compare was named".to_string());
        }
        Ok(&self.words)
    }
}
