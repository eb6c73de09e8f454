//! Computed vectors: files of remainders, with the quotient's magnitude or with its sign, of steps,
//! runs, scalings and splittings, of denormals and NaNs.

use crate::call::{
    divided, is_denormal, remained, scaled, signed, split, Call, Pair, Shown, LENGTH,
};
use crate::fields::{format_named, number, Fields};
use crate::Comparison;
use second::{Answer, Format, Kind};

/// A file by its name, which is OPERATION-FORMAT.txt, what it shows, and its text.
pub fn compare<'a>(pair: Pair<'a>, name: &str, shown: Shown, text: &str) -> Comparison<'a> {
    let parts = name.trim_end_matches(".txt").split_once('-');
    let (operation, format) = parts.expect("OPERATION-FORMAT.txt");
    let mut comparison = Comparison::new(pair);
    for line in text.lines() {
        let mut fields = Fields(line.split_whitespace());
        let mut cases = cases(operation, format_named(format), &mut fields);
        if shown.denormal && !matches!(operation, "denormal" | "nan") {
            let denormal = fields.yes();
            cases
                .iter_mut()
                .for_each(|(_, told)| told.denormal = denormal);
        }
        assert!(fields.is_empty(), "too long: {line}");
        for (call, expected) in cases {
            let answers = comparison.ask(|who| who.answer(&call));
            let expected = shown.completed(expected, &answers[0]);
            comparison.hold(&call, &answers, Some(&expected));
        }
        comparison.lines += 1;
    }
    comparison
}

/// The calls of a line with their answers, but for a last field that tells of denormal operands. The
/// fields are read in the order of this text.
fn cases(operation: &str, format: Format, f: &mut Fields) -> Vec<(Call, Answer)> {
    let x = f.pattern(format);
    match operation {
        "rem" | "remquo" => {
            let y = f.pattern(format);
            let (cut, cut_quotient) = (f.pattern(format), f.word());
            let (near, near_quotient) = (f.pattern(format), f.word());
            let told = f.number();
            let case = |kind, value, quotient| match operation {
                "rem" => (
                    Call::Remainder(format, kind, x, y),
                    remained(value, told, number(quotient)),
                ),
                _ => (
                    Call::Remquo(format, kind, x, y),
                    signed(value, told, number(quotient)),
                ),
            };
            vec![
                case(Kind::Truncated, cut, cut_quotient),
                case(Kind::Nearest, near, near_quotient),
            ]
        }
        "step" | "run" => {
            let (y, size, kind) = (f.pattern(format), f.number(), f.kind());
            let call = match operation {
                "step" => Call::Step(kind, size, x, y, LENGTH),
                _ => Call::Run(kind, size, f.number(), x, y, LENGTH),
            };
            let told = divided(f.pattern(format), f.number(), f.number(), f.number());
            vec![(call, told)]
        }
        "scale" => {
            let call = Call::Scale(format, x, f.number());
            vec![(call, scaled(f.pattern(format), f.number(), f.number()))]
        }
        "split" => {
            let told = split(f.pattern(format), f.number(), f.number());
            vec![(Call::Split(format, x), told)]
        }
        "denormal" => vec![(Call::Denormal(format, x), is_denormal(f.yes()))],
        "nan" => {
            let y = f.pattern(format);
            vec![(Call::Nan(format, x, y), remained(f.pattern(format), 0, 0))]
        }
        _ => panic!("no operation: {operation}"),
    }
}
