//! A library that is wrong in one answer, or gives others, and a text that is wrong in one field.

// each test needs a part
#![allow(dead_code)]

use compare::{Answer, Call, Folded, Gauge, Implementation, Kind, Library, Point, Stem};
use std::sync::atomic::{AtomicI64, Ordering};

pub type Change<T> = fn(&mut T);

/// One for each field of an answer.
pub const CHANGES: [(&str, Change<Answer>); 8] = [
    ("a bit of the value", |answer| answer.value ^= 1),
    ("the number", |answer| answer.number = 5),
    ("the quotient", |answer| answer.quotient ^= 1 << 30),
    ("the signed quotient", |answer| answer.signed -= 1),
    ("the steps", |answer| answer.steps += 1),
    ("what it says", |answer| answer.says ^= 2),
    ("the exponent", |answer| answer.exponent -= 1),
    ("what it tells of denormals", |answer| {
        answer.denormal ^= true
    }),
];

/// The operations, by the names of their files, and their calls.
pub const OPERATIONS: [(&str, IsOne); 8] = [
    ("scale", |call| matches!(call, Call::Scale(..))),
    ("split", |call| matches!(call, Call::Split(..))),
    ("rem", |call| matches!(call, Call::Remainder(..))),
    ("remquo", |call| matches!(call, Call::Remquo(..))),
    ("step", |call| matches!(call, Call::Step(..))),
    ("run", |call| matches!(call, Call::Run(..))),
    ("denormal", |call| matches!(call, Call::Denormal(..))),
    ("nan", |call| matches!(call, Call::Nan(..))),
];

pub type IsOne = fn(&Call) -> bool;

/// The library, with other answers to calls.
pub struct Answering(pub Answerer);

pub type Answerer = fn(&Call) -> Answer;

impl Implementation for Answering {
    fn name(&self) -> &'static str {
        "answering"
    }

    fn answer(&self, call: &Call) -> Answer {
        (self.0)(call)
    }
}

/// The library, with one of its finished answers, its lists with a mark, its stem files with a point,
/// opened or written, or its folded points changed.
pub struct Altered {
    /// How many of them come before that one.
    left: AtomicI64,
    answer: Option<Change<Answer>>,
    /// Which calls count.
    is_one: IsOne,
    list: Option<Change<Result<Folded, u8>>>,
    stem: Option<Change<Result<Stem, u8>>>,
    point: Option<Change<Result<Point, u8>>>,
    file: Option<Change<Result<Vec<u8>, u8>>>,
}

impl Altered {
    /// Nothing is changed.
    fn after(left: i64) -> Altered {
        let left = AtomicI64::new(left);
        Altered {
            left,
            answer: None,
            is_one: |_| true,
            list: None,
            stem: None,
            point: None,
            file: None,
        }
    }

    pub fn answer(change: Change<Answer>) -> Altered {
        Altered::later_answer(change, 5)
    }

    /// The answer that comes after so many.
    pub fn later_answer(change: Change<Answer>, left: i64) -> Altered {
        Altered {
            answer: Some(change),
            ..Altered::after(left)
        }
    }

    /// The third answer to such calls.
    pub fn answer_to(is_one: IsOne, change: Change<Answer>) -> Altered {
        Altered {
            is_one,
            ..Altered::later_answer(change, 2)
        }
    }

    /// The list that comes after so many.
    pub fn list(change: Change<Result<Folded, u8>>, left: i64) -> Altered {
        Altered {
            list: Some(change),
            ..Altered::after(left)
        }
    }

    pub fn stem(change: Change<Result<Stem, u8>>) -> Altered {
        Altered {
            stem: Some(change),
            ..Altered::after(5)
        }
    }

    pub fn point(change: Change<Result<Point, u8>>) -> Altered {
        Altered {
            point: Some(change),
            ..Altered::after(5)
        }
    }

    pub fn file(change: Change<Result<Vec<u8>, u8>>) -> Altered {
        Altered {
            file: Some(change),
            ..Altered::after(5)
        }
    }

    /// What is told, changed if it is the one among those that count.
    fn told<T>(&self, change: Option<Change<T>>, counts: bool, mut told: T) -> T {
        let is_the_one = || self.left.fetch_sub(1, Ordering::Relaxed) == 0;
        if let Some(change) = change.filter(|_| counts && is_the_one()) {
            change(&mut told);
        }
        told
    }
}

impl Implementation for Altered {
    fn name(&self) -> &'static str {
        "altered"
    }

    fn answer(&self, call: &Call) -> Answer {
        let answer = Library.answer(call);
        let counts = answer.number == 0 && (self.is_one)(call);
        self.told(self.answer, counts, answer)
    }

    fn fold(&self, kind: Kind, dividends: &[u64], divisor: u64) -> Result<Folded, u8> {
        let list = Library.fold(kind, dividends, divisor);
        let is_marked = matches!(&list, Ok(folded) if folded.marked > 0);
        self.told(self.list, is_marked, list)
    }

    fn open(&self, file: &[u8]) -> Result<Stem, u8> {
        let stem = Library.open(file);
        let has_points = matches!(&stem, Ok(stem) if !stem.points.is_empty());
        self.told(self.stem, has_points, stem)
    }

    fn fold_point(&self, gauge: Gauge, point: Point) -> Result<Point, u8> {
        let folded = Library.fold_point(gauge, point);
        self.told(self.point, folded.is_ok(), folded)
    }

    fn write(
        &self,
        gauge: Gauge,
        readings: &[u64],
        radii: &[u64],
        room: usize,
    ) -> Result<Vec<u8>, u8> {
        let file = Library.write(gauge, readings, radii, room);
        self.told(self.file, file.is_ok() && !readings.is_empty(), file)
    }
}

/// A text with the last character of one field changed.
pub fn altered_text(text: &str, line: usize, field: usize) -> String {
    let mut lines: Vec<String> = text.lines().map(String::from).collect();
    let mut words: Vec<String> = lines[line].split(' ').map(String::from).collect();
    let last = words[field].pop();
    words[field].push(if last == Some('0') { '1' } else { '0' });
    lines[line] = words.join(" ");
    lines.join("\n")
}

/// A text without its last lines.
pub fn shortened(text: &str, lines: usize) -> String {
    let kept = text.lines().count() - lines;
    text.lines().take(kept).collect::<Vec<_>>().join("\n")
}
