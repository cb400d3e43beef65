//! The independent model of document 01, and of the tickets of document 02 that have landed, and its commands. See README.md.

mod brute;
mod bytes;
mod call;
#[cfg(test)]
mod checks;
mod classes;
mod compare;
mod faults;
mod format;
mod fronts;
mod groups;
mod hostile;
mod index;
mod join;
mod lists;
mod options;
mod probes;
mod random;
mod reach;
mod refusal;
mod register;
mod search;
mod selfcheck;
mod sizes;
mod span;
mod stored;
mod tables;
mod text;
mod texts;
mod walk;
mod yards;

use crate::compare::{compare, run_program, Calls};
use crate::options::Options;
use crate::random::Random;
use crate::reach::Reached;
use std::io::{self, Read, Write};
use std::process::ExitCode;
use std::sync::Arc;

const USAGE: &str =
    "model vectors | answers | stored COMMAND.. | long COMMAND.. | compare COMMAND.. | stops COMMAND.. \
| texts COMMAND.. | text | self | reach | calls; see README.md";

fn main() -> ExitCode {
    let mut words = std::env::args().skip(1);
    let name = words.next().unwrap_or_default();
    let done = Options::read(words).and_then(|options| match name.as_str() {
        "vectors" => vectors(&options),
        "answers" => answers(&options),
        "stored" => told(Arc::new(options.stored()), &options),
        "long" => told(Arc::new(lists::long()), &options),
        "compare" => told(options.plan(), &options),
        "stops" => stops(&options),
        "texts" => texts(&options),
        "text" => text(),
        "self" => selfchecks(&options),
        "reach" => reach(&options),
        "calls" => calls(&options),
        _ => Err(USAGE.to_string()),
    });
    match done {
        Ok(true) => ExitCode::SUCCESS,
        Ok(false) => ExitCode::FAILURE,
        Err(message) => {
            eprintln!("{message}");
            ExitCode::from(2)
        }
    }
}

/// Whether all was well, or why it could not be found out.
type Done = Result<bool, String>;

fn print(bytes: &[u8]) -> Done {
    let mut to = io::stdout().lock();
    let written = to.write_all(bytes).and_then(|()| to.flush());
    written.map(|()| true).map_err(|error| error.to_string())
}

fn input() -> Result<Vec<u8>, String> {
    let mut text = Vec::new();
    let read = io::stdin().lock().read_to_end(&mut text);
    read.map(|_| text).map_err(|error| error.to_string())
}

/// Prints the stored set of calls.
fn vectors(options: &Options) -> Done {
    let all: String = options.stored().iter().map(format::call_text).collect();
    print(all.as_bytes())
}

/// Reads calls and prints what must be answered.
fn answers(options: &Options) -> Done {
    print(format::replayed(&input()?, options.takes()).as_bytes())
}

/// Reads a text register and prints what the text program must print.
fn text() -> Done {
    print(text::printed(&input()?).as_bytes())
}

/// Compares a program on calls and tells how it went.
fn told(calls: impl Calls, options: &Options) -> Done {
    let command = options.command()?;
    let (report, status) = compare(calls, command).map_err(|error| error.to_string())?;
    if options.reach {
        print_reached(&report.reached);
    }
    if !status.success() {
        println!("the program ended with {status}");
    }
    println!(
        "{} calls compared, {} differ",
        report.compared, report.differ
    );
    Ok(report.differ == 0 && status.success())
}

/// Compares a program on whole inputs, each in a run of its own.
fn compare_inputs(
    options: &Options,
    what: &str,
    make: fn(&mut Random) -> Vec<u8>,
    expect: fn(&[u8]) -> String,
) -> Done {
    let command = options.command()?;
    let mut differ = 0;
    for place in options.places() {
        let input = make(&mut Random::of_place(options.seed, place));
        let expected = expect(&input);
        let came = run_program(command, &input).map_err(|error| error.to_string())?;
        if came != expected.as_bytes() {
            differ += 1;
            tell_input(place, &input, &expected, &came);
        }
    }
    println!("{} {what} compared, {differ} differ", options.calls);
    Ok(differ == 0)
}

fn tell_input(place: u64, input: &[u8], expected: &str, came: &[u8]) {
    println!("input {place} differs; it is:");
    println!("{}", String::from_utf8_lossy(input).escape_debug());
    println!("expected: {}", expected.escape_debug());
    println!("came:     {}", String::from_utf8_lossy(came).escape_debug());
}

/// Compares the text program on random texts.
fn texts(options: &Options) -> Done {
    compare_inputs(options, "texts", texts::sheet, text::printed)
}

/// Compares `replay` on broken inputs, or the driver on those of lists of searches.
fn stops(options: &Options) -> Done {
    if options.codes == call::LIST_CODES {
        let expect = |input: &[u8]| format::replayed(input, format::DRIVER);
        return compare_inputs(options, "inputs", texts::stopped_list, expect);
    }
    let expect = |input: &[u8]| format::replayed(input, format::REPLAY);
    compare_inputs(options, "inputs", texts::stopped, expect)
}

/// Compares the steps with brute force on random yards.
fn selfchecks(options: &Options) -> Done {
    let mut differ = 0;
    for place in options.places() {
        let mut random = Random::of_place(options.seed, place);
        if let Err(difference) = selfcheck::check_yard(&mut random, &options.limits()) {
            differ += 1;
            println!("yard {place}: {difference}");
        }
    }
    println!("{} yards compared, {differ} differ", options.calls);
    Ok(differ == 0)
}

fn print_reached(reached: &Reached) {
    for (ending, count) in &reached.counts {
        println!("{count:8}  {ending}");
    }
}

/// Counts the endings that random calls reach.
fn reach(options: &Options) -> Done {
    let plan = options.plan();
    let mut reached = Reached::default();
    for place in plan.places() {
        let call = plan.at(place);
        reached.add(&call, &call.answer());
    }
    print_reached(&reached);
    let missing = reached.missing(&plan.codes);
    for ending in &missing {
        println!("not reached: {ending}");
    }
    Ok(missing.is_empty())
}

/// Prints random calls without running them.
fn calls(options: &Options) -> Done {
    let plan = options.plan();
    for place in plan.places() {
        print(format::call_text(&plan.at(place)).as_bytes())?;
    }
    Ok(true)
}
