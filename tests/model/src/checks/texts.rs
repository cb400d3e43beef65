//! The text program: case P, what counts as a line, and its refusals.

use crate::random::Random;
use crate::text::printed;
use crate::texts;

const HEAD: &str = "tiles=4\nside=100\n";
const FOOTPRINTS: &str = "xlo=120\nylo=120\nxhi=180\nyhi=180\n\
xlo=50\nylo=220\nxhi=250\nyhi=260\nxlo=199\nylo=200\nxhi=200\nyhi=299\n\
xlo=0\nylo=0\nxhi=399\nyhi=399\nxlo=300\nylo=300\nxhi=300\nyhi=300\n";
const QUESTION: &str = "x=150\ny=150\nr=70\n";
const FOUND: &str = "found=3\nno=0\nsquare=0\nno=3\nsquare=0\nno=1\nsquare=4900\n";

fn prints(text: &str) -> String {
    printed(text.as_bytes())
}

fn bad_line(line: u32) -> String {
    format!("refused=8\nline={line}\n")
}

#[test]
fn case_p() {
    let text = [HEAD, FOOTPRINTS, QUESTION].concat();
    assert_eq!(prints(&text), FOUND);
    let twice = [HEAD, FOOTPRINTS, QUESTION, QUESTION].concat();
    assert_eq!(prints(&twice), [FOUND, FOUND].concat());
}

#[test]
fn nothing_to_find_or_to_ask() {
    assert_eq!(prints(HEAD), "");
    assert_eq!(prints(&[HEAD, FOOTPRINTS].concat()), "");
    assert_eq!(prints(&[HEAD, QUESTION].concat()), "found=0\n");
}

#[test]
fn missing_lines() {
    assert_eq!(prints(""), bad_line(1));
    assert_eq!(prints("tiles=4\n"), bad_line(2));
    assert_eq!(prints("tiles=4"), bad_line(1));
    assert_eq!(prints(&[HEAD, "xlo=1\nylo=1\n"].concat()), bad_line(5));
    assert_eq!(prints(&[HEAD, "x=1\ny=1\n"].concat()), bad_line(5));
    assert_eq!(prints(&[HEAD, "x=1\ny=1\nr=1"].concat()), bad_line(5));
}

#[test]
fn bad_lines() {
    let wrong = [
        "\n",
        "x=\n",
        "x=00\n",
        "x=01\n",
        "x=12345678\n",
        "x=+1\n",
        "x=-1\n",
        "x= 1\n",
        "x=1 \n",
        "x=1\r\n",
        "X=1\n",
        " x=1\n",
        "y=1\n",
        "xhi=1\n",
        "x=1x\n",
        "x=0x1\n",
        "x 1\n",
        "x=\u{0661}\n",
    ];
    for line in wrong {
        let text = [HEAD, line, "y=1\nr=1\n"].concat();
        assert_eq!(prints(&text), bad_line(3), "{line:?}");
    }
    let footprint_late = [HEAD, QUESTION, "xlo=1\nylo=1\nxhi=1\nyhi=1\n"].concat();
    assert_eq!(prints(&footprint_late), bad_line(6));
}

#[test]
fn text_is_judged_whole_first() {
    assert_eq!(prints("tiles=0\nside=0\nx=\n"), bad_line(3));
    let late = [HEAD, FOOTPRINTS, QUESTION, "x=1\n"].concat();
    assert_eq!(prints(&late), bad_line(27));
}

/// A text of so many bytes: questions, then a last one made long.
fn of_length(bytes: usize) -> String {
    let mut text = "tiles=1\nside=1\n".to_string();
    while text.len() + 24 <= bytes {
        text.push_str("x=0\ny=0\nr=0\n");
    }
    let digits = bytes - text.len() - 9;
    text.push_str("x=0\ny=0\nr=");
    text.push_str(&"1".repeat(digits - 2));
    text.push('\n');
    text
}

#[test]
fn the_most_bytes() {
    let most = of_length(65_536);
    assert_eq!(most.len(), 65_536);
    assert!(prints(&most).starts_with("found=0\n"));
    assert_eq!(prints(&of_length(65_537)), bad_line(0));
}

#[test]
fn numbers_refused() {
    assert_eq!(prints("tiles=0\nside=100\n"), "refused=1\n");
    assert_eq!(prints("tiles=17\nside=100\n"), "refused=1\n");
    assert_eq!(prints("tiles=16\nside=16384\n"), "");
    assert_eq!(prints("tiles=16\nside=16385\n"), "refused=1\n");
    assert_eq!(prints("tiles=1\nside=0\nx=0\ny=0\nr=0\n"), "refused=1\n");
    let bad = [HEAD, "xlo=0\nylo=0\nxhi=400\nyhi=0\n", QUESTION].concat();
    assert_eq!(prints(&bad), "refused=3\n");
}

#[test]
fn the_programs_own_limits() {
    let point = "xlo=0\nylo=0\nxhi=0\nyhi=0\n";
    let head = "tiles=16\nside=1\n";
    assert_eq!(prints(&[head, &point.repeat(512)].concat()), "");
    assert_eq!(prints(&[head, &point.repeat(513)].concat()), "refused=2\n");
    let whole = "xlo=0\nylo=0\nxhi=15\nyhi=15\n";
    assert_eq!(prints(&[head, &whole.repeat(32)].concat()), "");
    assert_eq!(
        prints(&[head, &whole.repeat(32), point].concat()),
        "refused=6\n"
    );
}

#[test]
fn earlier_answers_stand() {
    let off = "x=400\ny=0\nr=9999999\n";
    let far = "x=399\ny=0\nr=2097152\n";
    let text = [HEAD, FOOTPRINTS, QUESTION, off, QUESTION].concat();
    assert_eq!(prints(&text), [FOUND, "refused=4\n"].concat());
    let text = [HEAD, FOOTPRINTS, QUESTION, far].concat();
    assert_eq!(prints(&text), [FOUND, "refused=5\n"].concat());
}

#[test]
fn random_texts_reach_every_refusal() {
    let mut seen = [0; 9];
    for place in 0..4_000 {
        let text = texts::sheet(&mut Random::of_place(3, place));
        let print = printed(&text);
        let refused = print
            .split_once("refused=")
            .map_or("0", |(_, rest)| &rest[..1]);
        seen[refused.parse::<usize>().unwrap()] += 1;
        let zero = usize::from(print.ends_with("line=0\n"));
        seen[7] += zero;
    }
    assert!(seen.iter().all(|&times| times > 0), "{seen:?}");
}
