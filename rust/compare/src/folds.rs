//! Lists of binary64 dividends folded by one divisor: from a file, and generated. Two lines of the
//! file are a list: divisor kind number count; then x, result and quotient byte for each place.

use crate::call::{divided, Pair};
use crate::fields::Fields;
use crate::formats::Layout;
use crate::operands::Draw;
use crate::Comparison;
use second::{Answer, Folded, Format, Kind};

/// A file, each list of which is folded by both.
pub fn compare<'a>(pair: Pair<'a>, text: &str) -> Comparison<'a> {
    let mut comparison = Comparison::new(pair);
    let mut lines = text.lines();
    while let Some(line) = lines.next() {
        let mut head = Fields(line.split_whitespace());
        let (divisor, kind) = (head.pattern(Format::Binary64) as u64, head.kind());
        let (number, marked) = (head.number(), head.number());
        let (dividends, folded) = read_places(lines.next().expect("a list"), marked);
        let expected = if number == 0 { Ok(folded) } else { Err(number) };
        hold(&mut comparison, kind, &dividends, divisor, Some(expected));
        comparison.lines += 2;
    }
    comparison
}

/// Generated lists of up to 4096 places, and how many marks the list with most of them has.
pub fn generated(pair: Pair, lists: u64) -> (Comparison, u32) {
    let layout = Layout::of(Format::Binary64);
    let mut comparison = Comparison::new(pair);
    let mut draw = Draw(lists);
    let mut most_marked = 0;
    for i in 0..lists {
        let places = draw.below(1 << (i % 13)) + 1;
        let dividends: Vec<u64> = (0..places).map(|_| draw.any(&layout) as u64).collect();
        let divisor = draw.any(&layout) as u64;
        for kind in [Kind::Truncated, Kind::Nearest] {
            let head = hold(&mut comparison, kind, &dividends, divisor, None);
            most_marked = most_marked.max(head.steps);
        }
    }
    (comparison, most_marked)
}

/// Two lists of so many places, of NaNs and of anything: answers, differences, and how many marks
/// the first one has.
pub fn long(pair: Pair, places: usize) -> (u64, u64, u32) {
    let layout = Layout::of(Format::Binary64);
    let mut comparison = Comparison::new(pair);
    let mut draw = Draw(2);
    let (kind, divisor) = (Kind::Truncated, 2f64.to_bits());
    let mut nan = || layout.nan(draw.below(2), draw.below(2) == 1, draw.bits()) as u64;
    let nans: Vec<u64> = (0..places).map(|_| nan()).collect();
    let marked = hold(&mut comparison, kind, &nans, divisor, None).steps;
    let any: Vec<u64> = (0..places).map(|_| draw.any(&layout) as u64).collect();
    hold(&mut comparison, kind, &any, divisor, None);
    (comparison.answers, comparison.different, marked)
}

/// A list through both, and each of its places. Returns the head of the library's.
fn hold(
    comparison: &mut Comparison,
    kind: Kind,
    dividends: &[u64],
    divisor: u64,
    expected: Option<Result<Folded, u8>>,
) -> Answer {
    let [ours, theirs] = comparison.ask(|who| answers(who.fold(kind, dividends, divisor)));
    let expected = expected.map(answers);
    for i in 0..ours.len().max(theirs.len()) {
        let dividend = i.checked_sub(1).and_then(|place| dividends.get(place));
        let case = (kind, divisor, dividend);
        let file = expected.as_ref().map(|answers| answers.get(i));
        comparison.hold(&case, &[ours.get(i), theirs.get(i)], file.as_ref());
    }
    ours[0]
}

/// A folded list as answers. The first is its head: the number, how many results and quotients
/// there are, and for the steps how many marks. Then each place.
fn answers(list: Result<Folded, u8>) -> Vec<Answer> {
    let folded = match list {
        Ok(folded) => folded,
        Err(number) => return vec![divided(0, number, 0, 0)],
    };
    let (results, quotients) = (folded.results, folded.quotients);
    let (n, bytes, marked) = (results.len(), quotients.len(), folded.marked);
    let head = divided(n as u128, 0, bytes as u32, marked as u32);
    let places = results.into_iter().zip(quotients);
    let places = places.map(|(result, byte)| divided(result.into(), 0, byte.into(), 0));
    std::iter::once(head).chain(places).collect()
}

fn read_places(line: &str, marked: usize) -> (Vec<u64>, Folded) {
    let mut f = Fields(line.split_whitespace());
    let (mut dividends, mut results, mut quotients) = (Vec::new(), Vec::new(), Vec::new());
    while !f.is_empty() {
        dividends.push(f.pattern(Format::Binary64) as u64);
        results.push(f.pattern(Format::Binary64) as u64);
        quotients.push(f.number());
    }
    let folded = Folded {
        results,
        quotients,
        marked,
    };
    (dividends, folded)
}
