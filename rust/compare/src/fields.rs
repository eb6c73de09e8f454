//! The files of vectors: lines of fields. A file that cannot be read ends the test.

use crate::formats::{Layout, FORMATS};
use second::{Format, Kind};
use std::fs;
use std::str::{FromStr, SplitWhitespace};

/// The text of a file, by its path among the vectors.
pub fn read(path: &str) -> String {
    String::from_utf8(read_bytes(path)).unwrap_or_else(|why| panic!("{path}: {why}"))
}

/// The same, where it may be no text.
pub fn read_bytes(path: &str) -> Vec<u8> {
    let path = format!("{}/../../vectors/{path}", env!("CARGO_MANIFEST_DIR"));
    fs::read(&path).unwrap_or_else(|why| panic!("{path}: {why}"))
}

pub fn format_named(name: &str) -> Format {
    let is_named = |format: &Format| format!("{format:?}").to_lowercase() == name;
    let named = FORMATS.into_iter().find(is_named);
    named.unwrap_or_else(|| panic!("no format: {name}"))
}

pub fn pattern(format: Format, word: &str) -> u128 {
    let right = word.len() == Layout::of(format).hex_digits() && word == word.to_uppercase();
    let read = u128::from_str_radix(word, 16).ok().filter(|_| right);
    read.unwrap_or_else(|| panic!("no pattern of {format:?}: {word}"))
}

pub fn number<T: FromStr>(word: &str) -> T {
    let read = word.parse().ok();
    read.unwrap_or_else(|| panic!("no number, or out of its range: {word}"))
}

/// The fields of a line, taken from left to right.
pub struct Fields<'a>(pub SplitWhitespace<'a>);

impl<'a> Fields<'a> {
    pub fn word(&mut self) -> &'a str {
        self.0.next().expect("one more field")
    }

    pub fn pattern(&mut self, format: Format) -> u128 {
        pattern(format, self.word())
    }

    pub fn number<T: FromStr>(&mut self) -> T {
        number(self.word())
    }

    pub fn kind(&mut self) -> Kind {
        match self.word() {
            "0" => Kind::Truncated,
            "1" => Kind::Nearest,
            other => panic!("no kind: {other}"),
        }
    }

    pub fn yes(&mut self) -> bool {
        match self.word() {
            "0" => false,
            "1" => true,
            other => panic!("neither yes nor no: {other}"),
        }
    }

    pub fn is_empty(&self) -> bool {
        self.0.clone().next().is_none()
    }
}
