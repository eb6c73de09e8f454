//! The line program: what it has to write, by the second implementation, and inputs whose lines lie
//! across the ends of its buffer.

use crate::formats::Layout;
use crate::operands::Draw;
use crate::{Comparison, PAIR};
use second::{Format, Kind, SHOWN_MODULUS};

/// How many bytes the program's buffer holds, and how many it keeps of a line that has begun.
pub const BUFFER: usize = 65_536;
const KEPT: usize = 34;

/// How long a good line is, with its newline.
const GOOD: usize = 34;

/// Holds what the program has written to the expected lines. One that is missing is different, and
/// so is one too many, and a last one without its newline.
pub fn compare(input: &[u8], written: &[u8]) -> Comparison<'static> {
    let mut comparison = Comparison::new(PAIR);
    let expected = answers(input);
    let (mut ours, mut theirs) = (lines(written), lines(&expected));
    loop {
        let answers = [ours.next(), theirs.next()].map(|line| line.map(String::from_utf8_lossy));
        if answers == [None, None] {
            return comparison;
        }
        comparison.lines += 1;
        let line = comparison.lines;
        comparison.hold(&format_args!("line {line}"), &answers, None);
    }
}

/// The answers of an input's lines.
pub fn answers(input: &[u8]) -> Vec<u8> {
    let lines = lines(input).map(|line| line.strip_suffix(b"\n").unwrap_or(line));
    lines.flat_map(|line| answer(line).into_bytes()).collect()
}

/// The lines of a text, each with its newline, which the last one may lack.
fn lines(text: &[u8]) -> impl Iterator<Item = &[u8]> {
    text.split_inclusive(|&byte| byte == b'\n')
}

fn answer(line: &[u8]) -> String {
    match operands(line) {
        Some((x, y)) => {
            let told = second::remainder(Format::Binary64, Kind::Truncated, x, y);
            let shown = told.quotient % SHOWN_MODULUS;
            format!("{:016X} {shown} {}\n", told.value, told.number)
        }
        None => "bad line\n".into(),
    }
}

/// 16 hex digits in either case, a space, and 16 more.
fn operands(line: &[u8]) -> Option<(u128, u128)> {
    if line.len() != 33 || line[16] != b' ' {
        return None;
    }
    Some((word(&line[..16])?, word(&line[17..])?))
}

fn word(digits: &[u8]) -> Option<u128> {
    let mut digits = digits.iter().map(|&byte| char::from(byte).to_digit(16));
    digits.try_fold(0, |word, digit| Some(word << 4 | u128::from(digit?)))
}

/// Where the reads of a file end, all but the last: so many bytes into which line.
pub fn cuts(input: &[u8]) -> Vec<(usize, &[u8])> {
    let mut cuts = Vec::new();
    let mut from = 0;
    while from + BUFFER < input.len() {
        let end = from + BUFFER;
        let newline = input[..end].iter().rposition(|&byte| byte == b'\n');
        let begin = newline.map_or(0, |at| at + 1);
        let line = lines(&input[begin..]).next().unwrap_or_default();
        cuts.push((end - begin, line));
        from = end - KEPT.min(end - begin);
    }
    cuts
}

/// So many lines of every kind.
pub fn drawn(lines: usize) -> Vec<u8> {
    let mut draw = Draw(2);
    (0..lines).flat_map(|_| any_line(&mut draw)).collect()
}

/// An input in which every end of the buffer cuts a line: two good lines and one with a digit too
/// many for each number of bytes that they can be cut after. The last line has no newline.
pub fn cut_everywhere() -> Vec<u8> {
    let mut draw = Draw(3);
    let mut input = Vec::new();
    // a line that is cut is what the next buffer begins with
    let mut begin = 0;
    for more in [0, 0, 1] {
        for place in 0..GOOD + more {
            fill(&mut input, begin + BUFFER - place, &mut draw);
            begin = input.len();
            input.extend(vec![b'0'; more]);
            input.extend(good_line(&mut draw));
        }
    }
    input.extend(good_line(&mut draw));
    input.pop();
    input
}

/// Lines up to a length: drawn ones, and a bad one for the rest.
fn fill(input: &mut Vec<u8>, length: usize, draw: &mut Draw) {
    while input.len() + 2 * GOOD < length {
        input.extend(any_line(draw));
    }
    input.resize(length - 1, b'.');
    input.push(b'\n');
}

/// Three bad ones in eight: empty, a digit too few, a digit too many.
fn any_line(draw: &mut Draw) -> Vec<u8> {
    let mut line = good_line(draw);
    match draw.below(8) {
        0 => line = b"\n".to_vec(),
        1 => drop(line.remove(0)),
        2 => line.insert(0, b'0'),
        _ => {}
    }
    line
}

/// Any operands, in either case.
fn good_line(draw: &mut Draw) -> Vec<u8> {
    let (x, y) = draw.pair(&Layout::of(Format::Binary64));
    let line = match draw.below(2) {
        0 => format!("{x:016X} {y:016x}\n"),
        _ => format!("{x:016x} {y:016X}\n"),
    };
    line.into_bytes()
}
