//! The comparer: random calls from a seed are written to a program that speaks the format, while its answers are read and compared.
//! The writer and the reader make the same calls from the seed, so neither waits for the other.

use crate::call::Call;
use crate::format::call_text;
use crate::hostile::random_call;
use crate::random::Random;
use crate::reach::Reached;
use crate::yards::Limits;
use std::io::{self, BufRead, BufReader, BufWriter, Write};
use std::ops::Range;
use std::process::{Child, ChildStdin, Command, ExitStatus, Stdio};
use std::sync::Arc;
use std::thread::{self, JoinHandle};

/// Where calls come from: the places that are compared, and the call at each.
pub trait Calls: Clone + Send + 'static {
    fn places(&self) -> Range<u64>;
    fn at(&self, place: u64) -> Call;
}

/// Random calls: every place of a seed has its own, whichever places are compared.
#[derive(Clone)]
pub struct Plan {
    pub seed: u64,
    pub places: Range<u64>,
    pub limits: Limits,
    pub codes: Vec<u64>,
}

impl Calls for Plan {
    fn places(&self) -> Range<u64> {
        self.places.clone()
    }

    fn at(&self, place: u64) -> Call {
        let mut random = Random::of_place(self.seed, place);
        random_call(&mut random, &self.limits, &self.codes)
    }
}

impl Calls for Arc<Vec<Call>> {
    fn places(&self) -> Range<u64> {
        0..self.len() as u64
    }

    fn at(&self, place: u64) -> Call {
        self[place as usize].clone()
    }
}

/// Starts a program with pipes to it and from it.
pub fn spawn(command: &[String]) -> io::Result<Child> {
    Command::new(&command[0])
        .args(&command[1..])
        .stdin(Stdio::piped())
        .stdout(Stdio::piped())
        .spawn()
}

/// Writes everything from a thread and closes the input. A program that ends early is seen by its answers.
pub fn write_all(
    stdin: ChildStdin,
    write: impl FnOnce(&mut dyn Write) -> io::Result<()> + Send + 'static,
) -> JoinHandle<()> {
    thread::spawn(move || {
        let mut to = BufWriter::new(stdin);
        let _ = write(&mut to).and_then(|()| to.flush());
    })
}

fn write_calls(calls: impl Calls, to: &mut dyn Write) -> io::Result<()> {
    for place in calls.places() {
        to.write_all(call_text(&calls.at(place)).as_bytes())?;
    }
    Ok(())
}

/// The answers of a program, number by number.
struct Answers<R> {
    from: R,
}

impl<R: BufRead> Answers<R> {
    /// The next number; what came instead, if it is none.
    fn number(&mut self) -> Result<u64, String> {
        let mut line = String::new();
        match self.from.read_line(&mut line) {
            Err(error) => Err(format!("no text: {error}")),
            Ok(0) => Err("the end of the output".to_string()),
            Ok(_) => parsed(&line).ok_or(format!("the line {line:?}")),
        }
    }

    fn at_end(&mut self) -> bool {
        self.from.fill_buf().is_ok_and(|left| left.is_empty())
    }

    /// All numbers of the answer to a call; those that came before something else, and what that was.
    fn answer(&mut self, call: &Call) -> (Vec<u64>, Option<String>) {
        let mut numbers = Vec::new();
        let mut length = 2;
        while (numbers.len() as u64) < length {
            match self.number() {
                Ok(number) => numbers.push(number),
                Err(other) => return (numbers, Some(other)),
            }
            if numbers.len() == 2 {
                length = call.answer_length(numbers[0], numbers[1]);
            }
        }
        (numbers, None)
    }
}

/// A number as the format has it: digits without a leading zero, and LF.
fn parsed(line: &str) -> Option<u64> {
    let digits = line.strip_suffix('\n')?;
    let plain = digits.bytes().all(|byte| byte.is_ascii_digit());
    let zero_good = digits == "0" || !digits.starts_with('0');
    (plain && zero_good).then(|| digits.parse().ok()).flatten()
}

/// What a comparison found.
pub struct Report {
    pub compared: u64,
    pub differ: u64,
    pub reached: Reached,
}

/// Tells a difference as a whole call that can be replayed.
fn tell(place: u64, call: &Call, expected: &[u64], came: &[u64], other: &Option<String>) {
    println!("call {place} differs; in the format of replay it is:");
    print!("{}", call_text(call));
    let same = expected.iter().zip(came).take_while(|(e, c)| e == c);
    println!(
        "first difference at number {} of the answer, from 0",
        same.count()
    );
    println!("expected: {expected:?}");
    println!("came:     {came:?}");
    if let Some(other) = other {
        println!("then came {other}");
    }
}

fn read_answers(calls: &impl Calls, from: impl BufRead) -> Report {
    let mut answers = Answers { from };
    let mut report = Report {
        compared: 0,
        differ: 0,
        reached: Reached::default(),
    };
    for place in calls.places() {
        let call = calls.at(place);
        let expected = call.answer();
        let (came, other) = answers.answer(&call);
        report.compared += 1;
        report.reached.add(&call, &expected);
        if came != expected.numbers {
            report.differ += 1;
            tell(place, &call, &expected.numbers, &came, &other);
        }
        if other.is_some() {
            return report;
        }
    }
    if !answers.at_end() {
        println!("more came after the last answer");
        report.differ += 1;
    }
    report
}

/// Compares a program with the model on all calls.
pub fn compare(calls: impl Calls, command: &[String]) -> io::Result<(Report, ExitStatus)> {
    let mut child = spawn(command)?;
    let stdin = child.stdin.take().expect("the input is a pipe");
    let stdout = child.stdout.take().expect("the output is a pipe");
    let written = calls.clone();
    let writer = write_all(stdin, move |to| write_calls(written, to));
    let report = read_answers(&calls, BufReader::new(stdout));
    let _ = writer.join();
    Ok((report, child.wait()?))
}

/// Runs a program on one input and gives all that it prints.
pub fn run_program(command: &[String], input: &[u8]) -> io::Result<Vec<u8>> {
    let mut child = spawn(command)?;
    let stdin = child.stdin.take().expect("the input is a pipe");
    let text = input.to_vec();
    let writer = write_all(stdin, move |to| to.write_all(&text));
    let output = child.wait_with_output()?;
    let _ = writer.join();
    Ok(output.stdout)
}
