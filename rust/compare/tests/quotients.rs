//! What the comparisons are worth where quotients are told: a library with other quotients, signs or
//! blocks has to be noticed, and so has a file with another quotient. The differences that this
//! prints are wanted.

mod altered;

use altered::{Answerer, Answering, Change};
use compare::*;
use zukemoriha::{Block, Stepped};
use Format::{Binary16, Binary32, Binary64, X87};

/// The differences in a file of vectors, by its name.
fn in_file(pair: Pair, name: &str) -> u64 {
    in_text(pair, name, &read(&format!("computed/{name}")))
}

fn in_text(pair: Pair, name: &str, text: &str) -> u64 {
    match name {
        "list-x87.txt" => lists::compare(pair, QUOTIENT_MODULUS, text).0.different,
        _ => vectors::compare(pair, name, Shown::by(name), text).different,
    }
}

fn in_sequence(pair: Pair) -> u64 {
    sequence::compare(pair, 4_000).0.different
}

/// In the largest numbers by every divisor, the smallest ones among them.
fn in_half(pair: Pair) -> u64 {
    half::compare(pair, &[0x7BFF, 0xFBFF], &|_| ()).different
}

const REMAINDERS: [&str; 4] = [
    "rem-binary16.txt",
    "rem-binary32.txt",
    "rem-binary64.txt",
    "rem-x87.txt",
];
const SIGNED: [&str; 4] = [
    "remquo-binary16.txt",
    "remquo-binary32.txt",
    "remquo-binary64.txt",
    "remquo-x87.txt",
];
const PARTS: [&str; 3] = ["step-x87.txt", "run-x87.txt", "list-x87.txt"];

/// The library's answer, with the quotient of some calls changed.
fn changed(call: &Call, is_one: fn(&Call) -> bool, quotient: fn(u32) -> u32) -> Answer {
    let mut answer = Library.answer(call);
    if is_one(call) && matches!(answer.number, 0 | 1 | 7) {
        answer.quotient = quotient(answer.quotient);
    }
    answer
}

/// The library's truncated remainder with one bit more of the quotient, which is that by twice the
/// divisor, and its last bit.
fn wider(call: &Call) -> Answer {
    let mut answer = Library.answer(call);
    if let (Call::Remainder(format, Kind::Truncated, x, y), 0) = (*call, answer.number) {
        let twice = Library.answer(&Call::Scale(format, y, 1));
        let by_twice = Call::Remainder(format, Kind::Truncated, x, twice.value);
        if twice.says == 0 {
            answer.quotient = 2 * Library.answer(&by_twice).quotient + answer.quotient % 2;
        }
    }
    answer
}

/// Libraries with other quotients, and the files that show it.
#[test]
fn another_quotient_is_noticed() {
    fn of_any(_: &Call) -> bool {
        true
    }
    fn of_steps(call: &Call) -> bool {
        matches!(call, Call::Step(..))
    }
    fn of_runs(call: &Call) -> bool {
        matches!(call, Call::Run(..))
    }
    let every = [&REMAINDERS[..], &PARTS].concat();
    let (steps, runs) = ([PARTS[0], PARTS[2]], [PARTS[1], PARTS[2]]);
    let ways: [(&str, Answerer, &[&str]); 7] = [
        ("modulo 8", |call| changed(call, of_any, |q| q % 8), &every),
        (
            "modulo 2^30",
            |call| changed(call, of_any, |q| q % (1 << 30)),
            &every,
        ),
        ("modulo 2^32", wider, &REMAINDERS),
        (
            "another bit 3",
            |call| changed(call, of_any, |q| q ^ 8),
            &every,
        ),
        (
            "steps, modulo 8",
            |call| changed(call, of_steps, |q| q % 8),
            &steps,
        ),
        (
            "runs, modulo 8",
            |call| changed(call, of_runs, |q| q % 8),
            &runs,
        ),
        (
            "runs, modulo 2^30",
            |call| changed(call, of_runs, |q| q % (1 << 30)),
            &runs,
        ),
    ];
    for (what, answer, files) in ways {
        let otherwise = Answering(answer);
        let pair: Pair = [&otherwise, &Second];
        for name in files {
            assert!(in_file(pair, name) > 0, "{what}, {name}");
        }
        assert!(in_sequence(pair) > 0, "{what}, sequence");
        if files.contains(&REMAINDERS[0]) {
            assert!(in_half(pair) > 0, "{what}, half");
        }
    }
}

/// The library, with the signed quotient made in another way.
struct Signing(Signer);

type Signer = fn(&Signs) -> i32;

/// Which of dividend, divisor and remainder are negative, and the quotient's magnitude.
struct Signs {
    x: bool,
    y: bool,
    left: bool,
    magnitude: i32,
}

impl Signs {
    fn with(&self, negative: bool) -> i32 {
        if negative {
            -self.magnitude
        } else {
            self.magnitude
        }
    }

    fn differ(&self) -> bool {
        self.x != self.y
    }
}

fn is_negative(format: Format, x: u128) -> bool {
    let sign = match format {
        Binary16 => 15,
        Binary32 => 31,
        Binary64 => 63,
        X87 => 79,
    };
    x >> sign & 1 == 1
}

impl Implementation for Signing {
    fn name(&self) -> &'static str {
        "signing"
    }

    fn answer(&self, call: &Call) -> Answer {
        let mut answer = Library.answer(call);
        if let (Call::Remquo(format, _, x, y), 0) = (*call, answer.number) {
            let [x, y, left] = [x, y, answer.value].map(|x| is_negative(format, x));
            let magnitude = answer.signed.abs();
            answer.signed = (self.0)(&Signs {
                x,
                y,
                left,
                magnitude,
            });
        }
        answer
    }
}

/// Also where both are wrong alike: by the remainder of the same operands.
#[test]
fn another_sign_is_noticed() {
    let ways: [(&str, Signer); 13] = [
        ("the dividend's", |signs| signs.with(signs.x)),
        ("the divisor's", |signs| signs.with(signs.y)),
        ("the remainder's", |signs| signs.with(signs.left)),
        ("none", |signs| signs.magnitude),
        ("always minus", |signs| -signs.magnitude),
        ("the other one", |signs| signs.with(!signs.differ())),
        ("minus of either", |signs| signs.with(signs.x || signs.y)),
        ("minus of both", |signs| signs.with(signs.x && signs.y)),
        ("a bit", |signs| match signs.differ() {
            true => signs.magnitude | i32::MIN,
            false => signs.magnitude,
        }),
        ("in 31 bits", |signs| signs.with(signs.differ()) & i32::MAX),
        ("all bits turned", |signs| match signs.differ() {
            true => !signs.magnitude,
            false => signs.magnitude,
        }),
        ("modulo 8", |signs| signs.with(signs.differ()) % 8),
        ("modulo 2^30", |signs| {
            signs.with(signs.differ()) % (1 << 30)
        }),
    ];
    let published = read("published/published-gcc.txt");
    let right = Signing(|signs| signs.with(signs.differ()));
    assert_eq!(in_sequence([&right, &right]), 0);
    for (what, sign) in ways {
        let otherwise = Signing(sign);
        for name in SIGNED {
            assert!(in_file([&otherwise, &Second], name) > 0, "{what}, {name}");
        }
        assert!(in_half([&otherwise, &Second]) > 0, "{what}, half");
        let (comparison, _) = published::compare([&otherwise, &Second], &published, "");
        assert!(comparison.different > 0, "{what}, published");
        for beside in [&Second as &dyn Implementation, &otherwise] {
            let different = in_sequence([&otherwise, beside]);
            assert!(different > 0, "{what}, {}", beside.name());
        }
    }
}

/// The library, with blocks whose bytes are changed.
struct Blocks(Change<Vec<u8>>);

impl Implementation for Blocks {
    fn name(&self) -> &'static str {
        "blocks"
    }

    fn answer(&self, call: &Call) -> Answer {
        let answer = Library.answer(call);
        let is_step = matches!(call, Call::Step(..) | Call::Run(..));
        if !is_step || !matches!(answer.number, 0 | 1 | 7) {
            return answer;
        }
        let mut bytes = second::block(&answer);
        (self.0)(&mut bytes);
        lent(LENGTH, |room, block| {
            room[block].copy_from_slice(&bytes);
            let bytes = bytes.try_into().unwrap();
            let block = Block::from_bytes(&bytes).unwrap();
            let denormal = answer.denormal;
            Ok(Stepped { block, denormal })
        })
    }
}

#[test]
fn another_block_is_noticed() {
    let changes: [(&str, Change<Vec<u8>>); 12] = [
        ("octant modulo 256", |block| block[11] = block[16]),
        ("octant modulo 16", |block| block[11] = block[16] & 15),
        ("octant modulo 4", |block| block[11] &= 3),
        ("octant not written", |block| block[11] = 0xA5),
        ("quotient, the last byte first", |block| {
            block[16..].reverse()
        }),
        ("quotient modulo 8", |block| {
            let octant = block[11];
            block[16..].copy_from_slice(&[octant, 0, 0, 0])
        }),
        ("quotient modulo 2^24", |block| block[19] = 0),
        ("quotient not written", |block| block[16..].fill(0xA5)),
        ("a bit too many", |block| block[19] |= 0x80),
        ("steps and quotient exchanged", |block| {
            block[12..].rotate_left(4)
        }),
        ("steps, the last byte first", |block| {
            block[12..16].reverse()
        }),
        ("quotient before the octant", |block| {
            block[11..].rotate_right(4)
        }),
    ];
    let right = Blocks(|_| ());
    assert_eq!(in_sequence([&right, &Second]), 0);
    for (what, change) in changes {
        let otherwise = Blocks(change);
        let pair: Pair = [&otherwise, &Second];
        for name in PARTS {
            assert!(in_file(pair, name) > 0, "{what}, {name}");
        }
        assert!(in_sequence(pair) > 0, "{what}, sequence");
    }
}

/// A call with a block of another length.
fn with_length(call: &Call, other: Length) -> Call {
    match *call {
        Call::Step(kind, size, x, y, length) => Call::Step(kind, size, x, y, other(length)),
        Call::Run(kind, size, budget, x, y, length) => {
            Call::Run(kind, size, budget, x, y, other(length))
        }
        call => call,
    }
}

/// Libraries that take a block of another length as well as one of 20 bytes, and one that takes 16
/// bytes alone.
#[test]
fn another_length_of_a_block_is_noticed() {
    let taken: [(&str, Length); 5] = [
        ("none", |length| if length == 0 { 20 } else { length }),
        ("16", |length| if length == 16 { 20 } else { length }),
        ("19", |length| if length == 19 { 20 } else { length }),
        ("more", |length| if length > 20 { 20 } else { length }),
        ("256 more", |length| length % 256),
    ];
    for (what, length) in taken {
        let otherwise = Lengths(length);
        let (comparison, _) = sequence::compare([&otherwise, &Second], 10_000);
        assert!(comparison.different > 0, "{what}");
    }
    let lax = Lengths(|length| length.min(20));
    assert!(in_file([&lax, &Second], "list-x87.txt") > 0);
    let short = Lengths(|length| if length == 16 { 20 } else { 0 });
    for name in PARTS {
        assert!(in_file([&short, &Second], name) > 0, "{name}");
    }
}

/// The library, asked with another length.
struct Lengths(Length);

type Length = fn(usize) -> usize;

impl Implementation for Lengths {
    fn name(&self) -> &'static str {
        "lengths"
    }

    fn answer(&self, call: &Call) -> Answer {
        Library.answer(&with_length(call, self.0))
    }
}

/// A text with one field changed, in the first line where it is such a one.
fn with_field(text: &str, at: usize, is_one: fn(i64) -> bool, other: fn(i64) -> i64) -> String {
    let mut lines: Vec<Vec<String>> = text
        .lines()
        .map(|line| line.split(' ').map(String::from).collect())
        .collect();
    let number = |line: &Vec<String>| line.get(at)?.parse().ok();
    let found = lines
        .iter_mut()
        .find(|line| number(line).map_or(false, is_one));
    let line = found.expect("a line with such a field");
    line[at] = other(line[at].parse().unwrap()).to_string();
    let lines: Vec<String> = lines.iter().map(|line| line.join(" ")).collect();
    lines.join("\n")
}

/// A sign that is missing or too many, and bits above the octant.
#[test]
fn another_quotient_in_a_file_is_noticed() {
    type Field = (&'static str, fn(i64) -> bool, fn(i64) -> i64);
    let fields: [Field; 4] = [
        ("no sign", |q| q < 0, |q| -q),
        ("a sign", |q| q > 0, |q| -q),
        ("bit 3", |q| q >= 8, |q| q ^ 8),
        ("bit 30", |q| q >= 8, |q| q ^ 1 << 30),
    ];
    for name in SIGNED {
        let text = read(&format!("computed/{name}"));
        for (what, is_one, other) in fields {
            for at in [3, 5] {
                let text = with_field(&text, at, is_one, other);
                assert_eq!(in_text(PAIR, name, &text), 1, "{what}, {name}, field {at}");
            }
        }
    }
    let magnitudes = REMAINDERS.map(|name| [(name, 3), (name, 5)]).concat();
    let magnitudes = magnitudes
        .into_iter()
        .chain([("step-x87.txt", 6), ("run-x87.txt", 7)]);
    for (name, at) in magnitudes.chain([("list-x87.txt", 7)]) {
        let text = read(&format!("computed/{name}"));
        for (what, is_one, other) in &fields[2..] {
            let text = with_field(&text, at, *is_one, *other);
            let different = in_text(PAIR, name, &text);
            assert!(different > 0, "{what}, {name}, field {at}");
        }
    }
}

/// Of gcc's cases: 8 more in a remainder's quotient and in remquo's, and there also another sign.
#[test]
fn another_published_quotient_is_noticed() {
    let text = read("published/published-gcc.txt");
    let of = |op: &str| {
        let lines = text.lines().filter(|line| line.starts_with(op));
        lines.collect::<Vec<_>>().join("\n")
    };
    let compared = |text: &str| published::compare(PAIR, text, "").0.different;
    let (remainders, remquos) = (of("N "), of("Q "));
    assert_eq!([&remainders, &remquos].map(|text| compared(text)), [0, 0]);
    for altered in [
        with_field(&remainders, 5, |q| q >= 0, |q| q + 8),
        with_field(&remquos, 5, |q| q >= 0, |q| q + 8),
        with_field(&remquos, 5, |q| q < 0, |q| -q),
        with_field(&remquos, 5, |q| q > 0, |q| -q),
    ] {
        assert_eq!(compared(&altered), 1);
    }
}

/// The library, with other bytes in its folded lists.
struct Folding(Byte);

type Byte = fn(u32) -> u8;

impl Implementation for Folding {
    fn name(&self) -> &'static str {
        "folding"
    }

    fn fold(&self, kind: Kind, dividends: &[u64], divisor: u64) -> Result<Folded, u8> {
        let mut folded = Library.fold(kind, dividends, divisor)?;
        for (byte, &x) in folded.quotients.iter_mut().zip(dividends) {
            let call = Call::Remainder(Binary64, kind, x.into(), divisor.into());
            let told = Library.answer(&call);
            if told.number == 0 {
                *byte = (self.0)(told.quotient);
            }
        }
        Ok(folded)
    }
}

/// Bytes of a folded list that show more or less of a quotient than its octant.
#[test]
fn other_bytes_of_a_list_are_noticed() {
    let text = read("computed/fold-binary64.txt");
    let ways: [(&str, Byte); 4] = [
        ("modulo 256", |q| q as u8),
        ("modulo 16", |q| q as u8 % 16),
        ("modulo 4", |q| q as u8 % 4),
        ("at most 254", |q| q.min(254) as u8),
    ];
    let right = Folding(|q| (q % 8) as u8);
    assert_eq!(folds::generated([&right, &Second], 100).0.different, 0);
    for (what, byte) in ways {
        let otherwise = Folding(byte);
        let pair: Pair = [&otherwise, &Second];
        assert!(folds::compare(pair, &text).different > 0, "{what}");
        let different = folds::generated(pair, 100).0.different;
        assert!(different > 0, "{what}, generated");
        assert!(folds::long(pair, 2_000).1 > 0, "{what}, long list");
    }
}

/// A line program that shows more of the quotient of 1e22 by 360 than its octant.
#[test]
fn a_whole_quotient_in_a_line_is_noticed() {
    let input = b"4480F0CF064DD592 4076800000000000\n";
    let different = |written: &[u8]| lines::compare(input, written).different;
    assert_eq!(different(b"4071800000000000 1 0\n"), 0);
    assert_eq!(different(b"4071800000000000 1177492593 0\n"), 1);
    assert_eq!(different(b"4071800000000000 9 0\n"), 1);
}
