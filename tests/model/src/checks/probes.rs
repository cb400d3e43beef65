//! Lists of searches: the words of the ticket, case by case, and the stored set of them.

use crate::call::{Call, Lent, LIST_CODES};
use crate::format::{answer_text, call_text, replayed, DRIVER, REPLAY};
use crate::lists::{calls, list, long};
use crate::probes::{search_all, Probe, Refused};
use crate::reach::Reached;
use crate::refusal::{Damage, Refusal};
use crate::search::search;
use crate::sizes::{Grid, CLASSES, PROBES_MOST, RADIUS_MOST};
use crate::stored::{lent, SMALL, SMALL_GRID, Y, Y_GRID};

const BYTES_MOST: usize = 300_000;

fn probe(x: u32, y: u32, r: u32) -> Probe {
    Probe { x, y, r }
}

fn refused(why: Refusal, value: u64) -> Result<u64, Refused> {
    Err(Refused { why, value })
}

/// What a list answers in yard Y, and both tables afterwards.
fn in_y(probes: &[Probe], out: usize, ends: usize) -> (Result<u64, Refused>, Vec<u32>, Vec<u64>) {
    let owned = lent(Y_GRID, &Y, &[]);
    let (mut out, mut ends) = (vec![77; out], vec![88; ends]);
    let listed = search_all(&owned.tables(Y_GRID), probes, &mut out, &mut ends);
    (listed, out, ends)
}

fn starred() -> [Probe; 4] {
    [69, 70, 71, 0].map(|r| probe(150, 150, r))
}

#[test]
fn the_starred_searches_together() {
    let lists = vec![0, 3, 0, 3, 1, 0, 3, 2, 1, 0, 3];
    let ends = vec![2, 5, 9, 11];
    let (listed, out, told) = in_y(&starred(), 11, 4);
    assert_eq!((listed, &out, &told), (Ok(11), &lists, &ends));
    let (listed, out, told) = in_y(&starred(), 13, 5);
    assert_eq!(listed, Ok(11));
    assert_eq!(out, [&lists[..], &[77, 77]].concat());
    assert_eq!(told, [&ends[..], &[88]].concat());
}

#[test]
fn the_output_is_judged_before_the_ends() {
    for ends in [0, 3, 4] {
        let unwritten = (refused(Refusal::Room(11), 11), vec![77; 10], vec![88; ends]);
        assert_eq!(in_y(&starred(), 10, ends), unwritten);
    }
    let unwritten = (refused(Refusal::EndsRoom(4), 4), vec![77; 11], vec![88; 3]);
    assert_eq!(in_y(&starred(), 11, 3), unwritten);
    assert_eq!(Refusal::EndsRoom(4).number(), 6);
}

#[test]
fn without_probes_only_sizes_and_lengths_are_judged() {
    assert_eq!(in_y(&[], 0, 0).0, Ok(0));
    assert_eq!(in_y(&[], 1, 2), (Ok(0), vec![77], vec![88, 88]));
    let mut broken = lent(Y_GRID, &Y, &[]);
    broken.starts.reverse();
    broken.entries.fill(u32::MAX);
    broken.reg.fill(u32::MAX);
    assert_eq!(none_with(Y_GRID, &broken), Ok(0));
    let small = Grid { n: 0, side: 100 };
    assert_eq!(none_with(small, &broken), refused(Refusal::Sizes, 0));
    broken.starts.pop();
    assert_eq!(none_with(Y_GRID, &broken), refused(Refusal::Lengths, 0));
}

fn none_with(g: Grid, lent: &Lent) -> Result<u64, Refused> {
    search_all(&lent.tables(g), &[], &mut [], &mut [])
}

#[test]
fn a_list_has_at_most_65536_probes() {
    let listed = |count| in_y(&vec![probe(400, 0, 0); count], 0, 0).0;
    assert_eq!(PROBES_MOST, 65_536);
    assert_eq!(listed(65_536), refused(Refusal::Place, 0));
    assert_eq!(listed(65_537), refused(Refusal::Lengths, 0));
}

/// The small yard with an entry of no footprint in the last tile.
fn damaged() -> Lent {
    let mut owned = lent(SMALL_GRID, &SMALL, &[]);
    let next = (CLASSES * 3) as usize + 1;
    owned.entries.insert(owned.starts[next] as usize, 99);
    owned.starts[next..]
        .iter_mut()
        .for_each(|start| *start += 1);
    owned
}

#[test]
fn the_first_refused_probe_is_told() {
    let good = probe(5, 5, 0);
    let off = probe(20, 5, 0);
    let far = probe(5, 5, RADIUS_MOST + 1);
    let met = probe(15, 15, 0);
    let why = |probe: Probe| match probe {
        _ if probe == off => Refusal::Place,
        _ if probe == far => Refusal::Radius,
        _ => Refusal::Damaged(Damage::EntryNotBelow),
    };
    let owned = damaged();
    let listed = |probes: &[Probe]| search_all(&owned.tables(SMALL_GRID), probes, &mut [], &mut []);
    for one in [off, far, met] {
        for other in [off, far, met] {
            assert_eq!(listed(&[one, other]), refused(why(one), 0));
            assert_eq!(listed(&[good, one, other]), refused(why(one), 1));
            assert_eq!(
                listed(&[good, good, one, good, other]),
                refused(why(one), 2)
            );
        }
    }
    assert_eq!(listed(&[good, good]), refused(Refusal::Room(4), 4));
}

/// Each part of the output between two ends is what the single search writes.
#[test]
fn every_list_is_the_single_search() {
    for call in calls() {
        let crate::call::Asked::SearchAll { lent, probes, .. } = &call.asked else {
            unreachable!("the set has lists alone")
        };
        let tables = lent.tables(call.g);
        let mut out = vec![0; 5_000];
        let mut ends = vec![0; probes.len()];
        let listed = search_all(&tables, probes, &mut out, &mut ends);
        let mut from = 0;
        for (index, one) in probes.iter().enumerate().filter(|_| listed.is_ok()) {
            let mut single = vec![0; (ends[index] - from) as usize];
            let found = search(&tables, one.x, one.y, one.r, &mut single);
            assert_eq!(found, Ok(single.len() as u64));
            assert_eq!(out[from as usize..ends[index] as usize], single);
            from = ends[index];
        }
        assert!(listed.is_err() || listed == Ok(from));
    }
}

fn texts() -> (String, String) {
    let all = calls();
    let written = all.iter().map(call_text).collect();
    let answered = all.iter().map(|call| answer_text(&call.answer())).collect();
    (written, answered)
}

#[test]
fn the_files_hold_the_stored_lists() {
    let (written, answered) = texts();
    assert!(written.len() <= BYTES_MOST, "{} bytes", written.len());
    assert!(answered.len() <= BYTES_MOST, "{} bytes", answered.len());
    assert!(written == include_str!("../../stored/list-calls.txt"));
    assert!(answered == include_str!("../../stored/list-answers.txt"));
    assert!(replayed(written.as_bytes(), DRIVER) == answered);
    assert_eq!(replayed(written.as_bytes(), REPLAY), "stop\n");
}

#[test]
fn the_stored_lists_reach_every_ending() {
    let mut reached = Reached::default();
    for call in calls() {
        reached.add(&call, &call.answer());
    }
    assert_eq!(reached.missing(&LIST_CODES), [""; 0]);
}

#[test]
fn the_long_lists_end_as_the_ticket_says() {
    let told: Vec<(u64, u64)> = long().iter().map(number_and_value).collect();
    let expected = [
        // totals and counts around what a call keeps
        (0, 4_095),
        (0, 4_096),
        (0, 4_097),
        (0, 4_098),
        (0, 4_096),
        (0, 4_096),
        (0, 4_097),
        (0, 511),
        (0, 512),
        (0, 513),
        (6, 4_097),
        (6, 513),
        (6, 4_097),
        (0, 4_097),
        (6, 513),
        (6, 4_097),
        (4, 513),
        (4, 513),
        (5, 513),
        (5, 513),
        (7, 513),
        (7, 513),
        (0, 4_097),
        // the most probes, and one more
        (0, 131_072),
        (6, 131_072),
        (6, 65_536),
        (6, 131_072),
        (0, 0),
        (4, 65_535),
        (5, 65_535),
        (2, 0),
        (2, 0),
        (2, 0),
        (1, 0),
        (1, 0),
        (4, 1),
        (0, 131_072),
        (6, 131_072),
        (2, 0),
        (2, 0),
    ];
    assert_eq!(told, expected);
}

fn number_and_value(call: &Call) -> (u64, u64) {
    let numbers = call.answer().numbers;
    (numbers[0], numbers[1])
}

/// A table of probes whose length is off three is no call.
#[test]
fn probes_off_three_stop() {
    let whole = list(SMALL_GRID, damaged(), &[probe(5, 5, 0)], 2, 1);
    let text = call_text(&whole);
    let (before, after) = text.split_once("\n3\n5\n5\n0\n").expect("one probe");
    for numbers in ["1\n5\n", "2\n5\n5\n", "4\n5\n5\n0\n0\n"] {
        let broken = format!("{before}\n{numbers}{after}");
        assert_eq!(replayed(broken.as_bytes(), DRIVER), "stop\n");
    }
    assert_eq!(replayed(text.as_bytes(), DRIVER), "0\n2\n0\n2\n2\n");
}
