//! What the comparisons are worth where denormals and NaNs are told: a library that tells another NaN
//! or other denormals has to be noticed, and so have lists, lines and points with another NaN, and a
//! file with another fact. The differences that this prints are wanted.

mod altered;

use altered::{IsOne, OPERATIONS};
use compare::*;
use Format::{Binary16, Binary32, Binary64, X87};

const FORMATS: [&str; 4] = ["binary16", "binary32", "binary64", "x87"];

/// The differences in a file of vectors, by its operation and its format.
fn in_file(pair: Pair, operation: &str, format: &str) -> u64 {
    let name = format!("{operation}-{format}.txt");
    let text = read(&format!("computed/{name}"));
    vectors::compare(pair, &name, Shown::by(&name), &text).different
}

/// Pairs of the sequence. Among many there are, in x87 too, infinities by denormals and denormals by
/// zeros.
const FEW: usize = 4_000;
const MANY: usize = 12_000;

fn in_sequence(pair: Pair, pairs: usize) -> u64 {
    sequence::compare(pair, pairs).0.different
}

/// A pattern, cut into its parts.
#[derive(Clone, Copy)]
struct Parts {
    pattern: u128,
    /// The weight of its sign, or 0.
    sign: u128,
    field: u128,
    /// The digits of the fraction, and the weight of the top one.
    fraction: u128,
    quiet: u128,
    /// Whether it has a leading digit, stored or not.
    is_led: bool,
    is_nan: bool,
}

impl Parts {
    fn of(format: Format, pattern: u128) -> Parts {
        let (digits, field_bits) = match format {
            Binary16 => (10, 5),
            Binary32 => (23, 8),
            Binary64 => (52, 11),
            X87 => (63, 15),
        };
        let stored = digits + u32::from(format == X87);
        let (fraction, field) = (
            pattern % (1 << digits),
            (pattern >> stored) % (1 << field_bits),
        );
        let is_led = match format {
            X87 => pattern >> 63 & 1 == 1,
            _ => field > 0,
        };
        Parts {
            pattern,
            sign: pattern & 1 << (stored + field_bits),
            field,
            fraction,
            quiet: 1 << (digits - 1),
            is_led,
            is_nan: field + 1 == 1 << field_bits && is_led && fraction > 0,
        }
    }

    fn is_zero(self) -> bool {
        self.field == 0 && !self.is_led && self.fraction == 0
    }

    /// As it has to be.
    fn is_denormal(self) -> bool {
        self.field == 0 && !self.is_zero()
    }

    /// As it has to be.
    fn quieted(self) -> u128 {
        self.pattern | self.quiet
    }

    /// The digits that are kept of a NaN beside the top one.
    fn rest(self) -> u128 {
        self.fraction % self.quiet
    }
}

/// The format and the operands of a call; the only one stands for both.
fn operands(call: &Call) -> (Format, [Parts; 2]) {
    let (format, x, y) = match *call {
        Call::Remainder(format, _, x, y)
        | Call::Remquo(format, _, x, y)
        | Call::Nan(format, x, y) => (format, x, y),
        Call::Step(.., x, y, _) | Call::Run(.., x, y, _) => (X87, x, y),
        Call::Scale(format, x, _) | Call::Split(format, x) | Call::Denormal(format, x) => {
            (format, x, x)
        }
    };
    (format, [x, y].map(|x| Parts::of(format, x)))
}

/// The library, with another NaN in the answers to some calls: how it is chosen of two, and what is
/// made of it.
struct Nans {
    choose: Choice,
    make: Making,
    is_one: IsOne,
}

type Choice = fn(Parts, Parts) -> Parts;
type Making = fn(Parts) -> u128;

/// As it has to be.
const NANS: Nans = Nans {
    choose: larger,
    make: Parts::quieted,
    is_one: |_| true,
};

fn larger(x: Parts, y: Parts) -> Parts {
    if y.fraction > x.fraction {
        y
    } else {
        x
    }
}

impl Implementation for Nans {
    fn name(&self) -> &'static str {
        "nans"
    }

    fn answer(&self, call: &Call) -> Answer {
        let mut answer = Library.answer(call);
        let is_told = answer.number == 3 || matches!(call, Call::Nan(..));
        if is_told && (self.is_one)(call) {
            let (_, [x, y]) = operands(call);
            let nan = match (x.is_nan, y.is_nan) {
                (true, true) => (self.choose)(x, y),
                (true, false) => x,
                (false, true) => y,
                (false, false) => return answer,
            };
            answer.value = (self.make)(nan);
        }
        answer
    }

    fn fold(&self, kind: Kind, dividends: &[u64], divisor: u64) -> Result<Folded, u8> {
        let mut folded = Library.fold(kind, dividends, divisor)?;
        for (result, &x) in folded.results.iter_mut().zip(dividends) {
            let x = Parts::of(Binary64, x.into());
            if x.is_nan {
                *result = (self.make)(x) as u64;
            }
        }
        Ok(folded)
    }

    fn fold_point(&self, gauge: Gauge, point: Point) -> Result<Point, u8> {
        let mut folded = Library.fold_point(gauge, point)?;
        let reading = Parts::of(Binary64, point.reading.into());
        if reading.is_nan {
            folded.reading = (self.make)(reading) as u64;
        }
        Ok(folded)
    }
}

fn house_nan(x: Parts) -> u128 {
    x.quieted() - x.rest() - x.sign
}

const CHOICES: [(&str, Choice); 7] = [
    ("the smaller significand", |x, y| match larger(x, y) {
        nan if nan.pattern == x.pattern => y,
        _ => x,
    }),
    ("the divisor's where they are equal", |x, y| larger(y, x)),
    ("the dividend's", |x, _| x),
    ("the divisor's", |_, y| y),
    ("compared when quiet", |x, y| {
        if y.rest() > x.rest() {
            y
        } else {
            x
        }
    }),
    ("compared with their signs", |x, y| {
        if y.pattern > x.pattern {
            y
        } else {
            x
        }
    }),
    ("the positive one where they are equal", |x, y| {
        if x.fraction == y.fraction && x.sign > 0 {
            y
        } else {
            larger(x, y)
        }
    }),
];

const MAKINGS: [(&str, Making); 5] = [
    ("the sign dropped", |x| x.quieted() - x.sign),
    ("not quiet", |x| x.pattern),
    ("the other digits dropped", |x| x.quieted() - x.rest()),
    ("the last digit dropped", |x| x.quieted() & !1),
    ("the house NaN", house_nan),
];

/// Also where the calls of one operation alone are so.
#[test]
fn another_nan_is_noticed() {
    assert_eq!(in_sequence([&NANS, &Second], FEW), 0);
    let choices = CHOICES.map(|(what, choose)| (what, Nans { choose, ..NANS }, 2));
    let makings = MAKINGS.map(|(what, make)| (what, Nans { make, ..NANS }, 4));
    for (what, otherwise, operations) in choices.into_iter().chain(makings) {
        let pair: Pair = [&otherwise, &Second];
        for format in FORMATS {
            for operation in &["rem", "nan", "scale", "split"][..operations] {
                let different = in_file(pair, operation, format);
                assert!(different > 0, "{what}, {operation}-{format}");
            }
        }
        for operation in ["step", "run"] {
            assert!(in_file(pair, operation, "x87") > 0, "{what}, {operation}");
        }
        let nans = [0x7DFF, 0x7E00, 0xFC01];
        let different = half::compare(pair, &nans, &|_| ()).different;
        assert!(different > 0, "{what}, half");
        for (operation, is_one) in OPERATIONS {
            let has_two = !["scale", "split"].contains(&operation);
            if operation != "denormal" && (has_two || operations > 2) {
                let only = Nans {
                    is_one,
                    ..otherwise
                };
                let different = in_sequence([&only, &Second], FEW);
                assert!(different > 0, "{what}, {operation}");
            }
        }
    }
}

/// A NaN beside an unsupported operand: the call is refused with 2 and has the house NaN, but the
/// archive tells the NaN where it is asked for it.
#[test]
fn a_nan_beside_an_unsupported_operand_is_noticed() {
    struct Beside(IsOne, fn(Parts) -> u128);
    impl Implementation for Beside {
        fn name(&self) -> &'static str {
            "beside"
        }

        fn answer(&self, call: &Call) -> Answer {
            let mut answer = Library.answer(call);
            let (_, [x, y]) = operands(call);
            let is_unsupported = |x: Parts| x.field > 0 && !x.is_led;
            let nan = match (x.is_nan, y.is_nan) {
                (true, _) if is_unsupported(y) => x,
                (_, true) if is_unsupported(x) => y,
                _ => return answer,
            };
            if (self.0)(call) {
                answer.value = (self.1)(nan);
            }
            answer
        }
    }
    for (operation, is_one) in OPERATIONS {
        let shown = match operation {
            "nan" => Beside(is_one, house_nan),
            "rem" | "remquo" | "step" | "run" => Beside(is_one, Parts::quieted),
            _ => continue,
        };
        assert!(in_sequence([&shown, &Second], FEW) > 0, "{operation}");
    }
    let asked = Beside(|call| matches!(call, Call::Nan(..)), house_nan);
    assert!(in_file([&asked, &Second], "nan", "x87") > 0);
}

/// The library, with another answer to whether an operand was denormal, by some calls.
struct Denormals {
    tell: Teller,
    is_one: IsOne,
}

type Teller = fn(&Told) -> bool;

/// As it has to be.
const DENORMALS: Denormals = Denormals {
    tell: |told| told.any(Parts::is_denormal),
    is_one: |_| true,
};

struct Told {
    x: Parts,
    y: Parts,
    value: Parts,
    number: u8,
}

impl Told {
    /// Whether an operand is such a one, where it is told.
    fn any(&self, is_one: fn(Parts) -> bool) -> bool {
        self.number != 6 && (is_one(self.x) || is_one(self.y))
    }
}

impl Implementation for Denormals {
    fn name(&self) -> &'static str {
        "denormals"
    }

    fn answer(&self, call: &Call) -> Answer {
        let mut answer = Library.answer(call);
        if (self.is_one)(call) && !matches!(call, Call::Nan(..)) {
            let (format, [x, y]) = operands(call);
            answer.denormal = (self.tell)(&Told {
                x,
                y,
                value: Parts::of(format, answer.value),
                number: answer.number,
            });
        }
        answer
    }
}

const ALL: &[&str] = &["step", "run", "rem", "remquo", "scale", "split", "denormal"];
const VALUED: &[&str] = &["step", "run", "rem", "remquo", "scale", "split"];
const TWO: &[&str] = &["step", "run", "rem", "remquo"];
const SIZED: &[&str] = &["step", "run"];
const X87_ALONE: &[&str] = &["x87"];

/// What is told instead, and the operations and the formats that show it.
type Way = (&'static str, Names, Names, Teller);
type Names = &'static [&'static str];

#[rustfmt::skip]
const WAYS: [Way; 12] = [
    ("never", ALL, &FORMATS, |_| false),
    ("always", ALL, &FORMATS, |_| true),
    ("of the dividend alone", TWO, &FORMATS,
        |told| told.number != 6 && told.x.is_denormal()),
    ("of the divisor alone", TWO, &FORMATS,
        |told| told.number != 6 && told.y.is_denormal()),
    ("of both together", TWO, &FORMATS,
        |told| told.number != 6 && told.x.is_denormal() && told.y.is_denormal()),
    ("of the value", VALUED, &FORMATS,
        |told| told.value.is_denormal()),
    ("under 6 too", SIZED, X87_ALONE,
        |told| told.x.is_denormal() || told.y.is_denormal()),
    ("not of a pseudo-denormal", ALL, X87_ALONE,
        |told| told.any(|x| x.is_denormal() && !x.is_led)),
    ("not of a negative one", ALL, &FORMATS,
        |told| told.any(|x| x.is_denormal() && x.sign == 0)),
    ("of a normal one with field 1 too", ALL, &FORMATS,
        |told| told.any(|x| x.is_denormal() || x.field == 1 && x.is_led)),
    ("of an unsupported one with field 1 too", ALL, X87_ALONE,
        |told| told.any(|x| x.is_denormal() || x.field == 1 && !x.is_led)),
    ("of a zero too", ALL, &FORMATS,
        |told| told.any(|x| x.field == 0)),
];

/// Such as leave it out under a number.
#[rustfmt::skip]
const UNDER: [Way; 7] = [
    ("not under 1", &["step"], X87_ALONE, not_under::<1>),
    ("not under 7", &["run"], X87_ALONE, not_under::<7>),
    ("not under 2", TWO, X87_ALONE, not_under::<2>),
    ("not under 3", TWO, &FORMATS, not_under::<3>),
    ("not under 4", TWO, &FORMATS, not_under::<4>),
    ("not under 5", TWO, &FORMATS, not_under::<5>),
    ("not under 9", SIZED, X87_ALONE, not_under::<9>),
];

fn not_under<const NUMBER: u8>(told: &Told) -> bool {
    told.number != NUMBER && told.any(Parts::is_denormal)
}

/// A way by itself in each operation: the sequence shows it, and files do, but for numbers that they
/// have too few cases of.
#[test]
fn other_denormals_are_noticed() {
    assert_eq!(in_sequence([&DENORMALS, &Second], FEW), 0);
    for (what, operations, formats, tell) in WAYS {
        for (operation, is_one) in shown_by(operations) {
            let otherwise = Denormals { tell, is_one };
            let pair: Pair = [&otherwise, &Second];
            assert!(in_sequence(pair, FEW) > 0, "{what}, {operation}");
            let has_file = |format: &&&str| **format == "x87" || !SIZED.contains(&operation);
            let files = formats.iter().filter(has_file);
            let different: u64 = files.map(|format| in_file(pair, operation, format)).sum();
            assert!(different > 0, "{what}, files of {operation}");
        }
    }
    for (what, operations, _, tell) in UNDER {
        for (operation, is_one) in shown_by(operations) {
            let otherwise = Denormals { tell, is_one };
            let different = in_sequence([&otherwise, &Second], MANY);
            assert!(different > 0, "{what}, {operation}");
        }
    }
}

fn shown_by(operations: Names) -> impl Iterator<Item = (&'static str, IsOne)> {
    let is_shown = move |(operation, _): &(&str, IsOne)| operations.contains(operation);
    OPERATIONS.into_iter().filter(is_shown)
}

/// What is told of denormals is counted in cells: where both are wrong alike these are others.
#[test]
fn a_wrong_cell_of_denormals_is_noticed() {
    let (_, right) = sequence::compare(PAIR, FEW);
    for (what, .., tell) in WAYS {
        let otherwise = Denormals { tell, ..DENORMALS };
        let (comparison, wrong) = sequence::compare([&otherwise, &otherwise], FEW);
        assert_eq!(comparison.different, 0, "{what}");
        assert_ne!(wrong, right, "{what}");
    }
}

/// Places of NaN dividends in folded lists, in generated ones and in long ones.
#[test]
fn another_nan_in_a_list_is_noticed() {
    let text = read("computed/fold-binary64.txt");
    let different = |pair: Pair| {
        [
            folds::compare(pair, &text).different,
            folds::generated(pair, 100).0.different,
            folds::long(pair, 1_000).1,
        ]
    };
    assert_eq!(different([&NANS, &Second]), [0; 3]);
    for (what, make) in MAKINGS {
        let otherwise = Nans { make, ..NANS };
        assert!(!different([&otherwise, &Second]).contains(&0), "{what}");
    }
}

/// An infinite dividend's place in a list has the house NaN.
#[test]
fn an_infinity_in_a_list_is_noticed() {
    struct Infinities(Making);
    impl Implementation for Infinities {
        fn name(&self) -> &'static str {
            "infinities"
        }

        fn fold(&self, kind: Kind, dividends: &[u64], divisor: u64) -> Result<Folded, u8> {
            let mut folded = Library.fold(kind, dividends, divisor)?;
            for (result, &x) in folded.results.iter_mut().zip(dividends) {
                if f64::from_bits(x).is_infinite() {
                    *result = (self.0)(Parts::of(Binary64, x.into())) as u64;
                }
            }
            Ok(folded)
        }
    }
    let text = read("computed/fold-binary64.txt");
    let makings: [(&str, Making); 2] = [
        ("as it is", |x| x.pattern),
        ("its sign kept", Parts::quieted),
    ];
    for (what, make) in makings {
        let otherwise = Infinities(make);
        let pair: Pair = [&otherwise, &Second];
        assert!(folds::compare(pair, &text).different > 0, "{what}");
        assert!(folds::generated(pair, 100).0.different > 0, "{what}");
    }
}

/// Points have the house NaN.
#[test]
fn a_nan_in_a_point_is_noticed() {
    let folded = |make| {
        stems::folds([&Nans { make, ..NANS }, &Second], 2_000)
            .0
            .different
    };
    assert_eq!(folded(house_nan), 0);
    assert!(folded(Parts::quieted) > 0);
    assert!(folded(|x| x.pattern) > 0);
}

/// A line program that shows another NaN under number 3.
#[test]
fn another_nan_in_a_line_is_noticed() {
    let [input, output] = ["in", "out"].map(|end| read_bytes(&format!("computed/lines.{end}")));
    let lines = String::from_utf8(output).unwrap();
    let with = |make: Making| {
        let line = |line: &str| match line.strip_suffix(" 0 3") {
            Some(nan) => {
                let nan = Parts::of(Binary64, u128::from_str_radix(nan, 16).unwrap());
                format!("{:016X} 0 3\n", make(nan))
            }
            None => format!("{line}\n"),
        };
        let written: String = lines.lines().map(line).collect();
        lines::compare(&input, written.as_bytes()).different
    };
    assert_eq!(with(|nan| nan.pattern), 0);
    assert!(with(house_nan) > 0);
    assert!(with(|nan| nan.pattern - nan.sign) > 0);
    assert!(with(|nan| nan.pattern - nan.quiet) > 0);
}

/// The first line of each file that has a NaN, or tells of a denormal or of none, with another one.
#[test]
fn another_fact_in_a_file_is_noticed() {
    let last = |operation| match operation {
        "rem" => (6, 7),
        "step" => (5, 8),
        "run" => (6, 9),
        "scale" => (3, 5),
        _ => (2, 4),
    };
    for (operation, value) in [
        ("rem", 2),
        ("rem", 4),
        ("step", 4),
        ("run", 5),
        ("scale", 2),
        ("split", 1),
    ] {
        let (number, denormal) = last(operation);
        for format in FORMATS {
            if SIZED.contains(&operation) && format != "x87" {
                continue;
            }
            let name = format!("{operation}-{format}.txt");
            let text = read(&format!("computed/{name}"));
            let different = |at, is_one: &dyn Fn(&[&str]) -> bool, other: &str| {
                let text = with_field(&text, at, is_one, other);
                vectors::compare(PAIR, &name, Shown::ALL, &text).different
            };
            let house_nan = match format {
                "binary16" => "7E00",
                "binary32" => "7FC00000",
                "binary64" => "7FF8000000000000",
                _ => "7FFFC000000000000000",
            };
            let is_nan = |fields: &[&str]| fields[number] == "3" && fields[value] != house_nan;
            assert_eq!(different(value, &is_nan, house_nan), 1, "{name}");
            // both kinds of a remainder tell it
            let answers = if operation == "rem" { 2 } else { 1 };
            let told = different(denormal, &|fields| fields[denormal] == "0", "1");
            assert_eq!(told, answers, "{name}, a denormal");
            let told = different(denormal, &|fields| fields[denormal] == "1", "0");
            assert_eq!(told, answers, "{name}, none");
        }
    }
}

/// A text with one field changed, in the first line that is such a one.
fn with_field(text: &str, at: usize, is_one: &dyn Fn(&[&str]) -> bool, other: &str) -> String {
    let mut lines: Vec<Vec<&str>> = text.lines().map(|line| line.split(' ').collect()).collect();
    let line = lines.iter_mut().find(|fields| is_one(fields));
    line.expect("such a line")[at] = other;
    let lines: Vec<String> = lines.iter().map(|fields| fields.join(" ")).collect();
    lines.join("\n")
}
