//! The comparison itself: everyone is asked, and any difference is counted and written out.

use crate::call::{Call, Implementation, Pair};
use second::Answer;
use std::fmt::Debug;

/// Differences beyond these are counted alone.
const MOST_PRINTED: u64 = 20;
/// Characters that are printed of an answer.
const MOST_SHOWN: usize = 2_000;

/// What was compared so far.
pub struct Comparison<'a> {
    pair: Pair<'a>,
    /// Lines of a file, or dividends of binary16.
    pub lines: u64,
    /// Questions that both were asked.
    pub answers: u64,
    pub different: u64,
}

impl<'a> Comparison<'a> {
    pub fn new(pair: Pair<'a>) -> Self {
        Comparison {
            pair,
            lines: 0,
            answers: 0,
            different: 0,
        }
    }

    pub fn ask<T>(&self, question: impl Fn(&dyn Implementation) -> T) -> [T; 2] {
        self.pair.map(question)
    }

    /// Holds two answers to each other, and to the expected one where there is one. A difference
    /// is written out with the case and all answers, in hexadecimal.
    pub fn hold<T>(&mut self, case: &dyn Debug, answers: &[T; 2], expected: Option<&T>)
    where
        T: PartialEq + Debug,
    {
        self.answers += 1;
        if answers[0] == answers[1] && expected.map_or(true, |told| *told == answers[0]) {
            return;
        }
        self.different += 1;
        if self.different > MOST_PRINTED {
            return;
        }
        println!("different: {case:X?}");
        let names = self.pair.iter().map(|who| who.name()).chain(["expected"]);
        let texts = answers.iter().chain(expected);
        let texts: Vec<String> = texts.map(|answer| format!("{answer:X?}")).collect();
        for (name, text) in names.zip(shown(&texts)) {
            println!("  {name}: {text}");
        }
    }

    /// One call of both. Returns the library's answer.
    pub fn call(&mut self, call: &Call, expected: Option<&Answer>) -> Answer {
        let answers = self.ask(|who| who.answer(call));
        self.hold(call, &answers, expected);
        answers[0]
    }

    /// The line that a test prints of a file.
    pub fn sum_up(&self, name: &str) {
        println!("{name}: {} lines, {} different", self.lines, self.different);
    }
}

/// The texts; of long ones the part from a little before the first place where one differs.
fn shown(texts: &[String]) -> impl Iterator<Item = &str> {
    let differs = |other: &String| {
        texts[0]
            .bytes()
            .zip(other.bytes())
            .position(|(a, b)| a != b)
    };
    let first = texts.iter().filter_map(differs).min().unwrap_or(0);
    let is_long = texts.iter().any(|text| text.len() > MOST_SHOWN);
    let from = if is_long {
        first.saturating_sub(MOST_SHOWN / 4)
    } else {
        0
    };
    texts.iter().map(move |text| {
        let end = text.len().min(from + MOST_SHOWN);
        text.get(from..end).unwrap_or("")
    })
}
