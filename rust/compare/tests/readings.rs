//! The readings: the users' twelve worked examples, which show quotients modulo 8, and answers beside
//! them, further ones with whole quotients, and such of denormals and NaNs, through both
//! implementations. They are in the layout of the vectors.

mod altered;

use altered::{altered_text, shortened, Altered, CHANGES};
use compare::{
    vectors, Answer, Call, Implementation, Library, Pair, Second, Shown, PAIR, QUOTIENT_MODULUS,
    SHOWN_MODULUS,
};
use std::ops::Range;

/// 1 to 6: 5.5, 5 and 7 by 2, -6 by 3, 2^75 by 2^-75, two by three of the smallest denormal.
const REMAINDERS: &str = "\
40B00000 40000000 3FC00000 2 BF000000 3 0
40A00000 40000000 3F800000 2 3F800000 2 0
40E00000 40000000 3F800000 3 BF800000 4 0
C0C00000 40400000 80000000 2 80000000 2 0
65000000 1A000000 00000000 0 00000000 0 0
00000002 00000003 00000002 0 80000001 1 0
";

/// 7: 2^65 by 3 with size 63 is 2 with part 2 in both kinds; then 2 with 0, or -1 with 1. 8: with
/// size 32 it is 2^33 with part 0; then 2 with 2. Last a partial value that falls further: 2^127
/// by 2^64 - 1 with size 63 is 2^63.
const STEPS: &str = "\
40408000000000000000 4000C000000000000000 63 0 40008000000000000000 1 2 1
40408000000000000000 4000C000000000000000 63 1 40008000000000000000 1 2 1
40008000000000000000 4000C000000000000000 63 0 40008000000000000000 0 0 1
40008000000000000000 4000C000000000000000 63 1 BFFF8000000000000000 0 1 1
40408000000000000000 4000C000000000000000 32 0 40208000000000000000 1 0 1
40208000000000000000 4000C000000000000000 32 0 40008000000000000000 0 2 1
407E8000000000000000 403EFFFFFFFFFFFFFFFF 63 0 403E8000000000000000 1 0 1
";

/// 7 and 8 as runs. 11: 2^63 by 1 takes one step, 2^64 by 1 two. 12: the largest finite value by
/// the smallest denormal takes three. The last two with a small budget, and with the largest.
const RUNS: &str = "\
40408000000000000000 4000C000000000000000 63 0 2 40008000000000000000 0 2 2
40408000000000000000 4000C000000000000000 63 1 2 BFFF8000000000000000 0 3 2
40408000000000000000 4000C000000000000000 32 0 2 40008000000000000000 0 2 2
403E8000000000000000 3FFF8000000000000000 63 0 9 00000000000000000000 0 0 1
403F8000000000000000 3FFF8000000000000000 63 0 9 00000000000000000000 0 0 2
7FFEFFFFFFFFFFFFFFFF 00000000000000000001 32 0 9 00000000000000000000 0 0 3
403E8000000000000000 3FFF8000000000000000 63 0 4294967295 00000000000000000000 0 0 1
403F8000000000000000 3FFF8000000000000000 63 0 4294967295 00000000000000000000 0 0 2
7FFEFFFFFFFFFFFFFFFF 00000000000000000001 32 0 4294967295 00000000000000000000 0 0 3
";

/// 9 and 10: one and three of the smallest denormal halved; 1 by 2^127 and by 2^128.
const SCALINGS: &str = "\
00000001 -1 00000000 0 2
00000003 -1 00000002 0 1
3F800000 127 7F000000 0 0
3F800000 128 7F800000 0 1
";

/// Whole quotients: 2^65 by 3 and by -3, -(2^31 - 1) by 1, 2^31 by -1, -(2^31 + 5) by -1; a pair
/// whose cut quotient ends in 31 ones and whose nearest one is above it, with signs that differ; -11
/// by 4. First the magnitudes, then the same with signs.
const WHOLE_REMAINDERS: &str = "\
40408000000000000000 4000C000000000000000 40008000000000000000 715827882 BFFF8000000000000000 715827883 0 0
40408000000000000000 C000C000000000000000 40008000000000000000 715827882 BFFF8000000000000000 715827883 0 0
C01DFFFFFFFE00000000 3FFF8000000000000000 80000000000000000000 2147483647 80000000000000000000 2147483647 0 0
401E8000000000000000 BFFF8000000000000000 00000000000000000000 0 00000000000000000000 0 0 0
C01E8000000500000000 BFFF8000000000000000 80000000000000000000 5 80000000000000000000 5 0 0
4067812345BF6F41FDB9 C0268123456789000000 402680A3456789000000 2147483647 C01E8000000000000000 0 0 0
C067812345BF6F41FDB9 40268123456789000000 C02680A3456789000000 2147483647 401E8000000000000000 0 0 0
C002B000000000000000 40018000000000000000 C000C000000000000000 2 3FFF8000000000000000 3 0 0
";

const SIGNED_REMAINDERS: &str = "\
40408000000000000000 4000C000000000000000 40008000000000000000 715827882 BFFF8000000000000000 715827883 0
40408000000000000000 C000C000000000000000 40008000000000000000 -715827882 BFFF8000000000000000 -715827883 0
C01DFFFFFFFE00000000 3FFF8000000000000000 80000000000000000000 -2147483647 80000000000000000000 -2147483647 0
401E8000000000000000 BFFF8000000000000000 00000000000000000000 0 00000000000000000000 0 0
C01E8000000500000000 BFFF8000000000000000 80000000000000000000 5 80000000000000000000 5 0
4067812345BF6F41FDB9 C0268123456789000000 402680A3456789000000 -2147483647 C01E8000000000000000 0 0
C067812345BF6F41FDB9 40268123456789000000 C02680A3456789000000 -2147483647 401E8000000000000000 0 0
C002B000000000000000 40018000000000000000 C000C000000000000000 -2 3FFF8000000000000000 -3 0
";

/// 2^65 by 3 with sizes 63, 62 and 61, and what is left with size 32; the pair above, whose nearest
/// parts are 2^31 - 4 and 4.
const WHOLE_STEPS: &str = "\
40408000000000000000 4000C000000000000000 63 0 40008000000000000000 1 715827882 1 0
40408000000000000000 4000C000000000000000 62 1 40028000000000000000 1 715827880 1 0
40408000000000000000 4000C000000000000000 61 0 40028000000000000000 1 715827880 1 0
40208000000000000000 4000C000000000000000 32 0 40008000000000000000 0 715827882 1 0
4067812345BF6F41FDB9 40268123456789000000 63 1 40288103456789000000 1 2147483644 1 0
40288103456789000000 40268123456789000000 63 1 C01E8000000000000000 0 4 1 0
";

/// The same as runs: the parts of the pair add up to 2^31, which is told as 0.
const WHOLE_RUNS: &str = "\
40408000000000000000 4000C000000000000000 63 0 9 40008000000000000000 0 715827882 2 0
40408000000000000000 4000C000000000000000 63 1 9 BFFF8000000000000000 0 715827883 2 0
4067812345BF6F41FDB9 40268123456789000000 63 0 9 402680A3456789000000 0 2147483647 2 0
4067812345BF6F41FDB9 40268123456789000000 63 1 9 C01E8000000000000000 0 0 2 0
4067812345BF6F41FDB9 40268123456789000000 63 1 1 40288103456789000000 7 2147483644 1 0
4067812345BF6F41FDB9 40268123456789000000 62 1 9 C01E8000000000000000 0 0 2 0
";

/// A NaN by a number and the other way round, infinity by a NaN; two NaNs, by the larger significand,
/// the dividend's where they are equal, and as given, where a quiet one is larger than any signalling
/// one; the same with a denormal. Then denormals by 1, by infinity and by zero, 1 and infinity by one,
/// and the smallest normal number.
const TOLD_REMAINDERS: &str = "\
7F800001 3F800000 7FC00001 0 7FC00001 0 3 0
3F800000 FF812345 FFC12345 0 FFC12345 0 3 0
7F800000 FFC00007 FFC00007 0 FFC00007 0 3 0
7F800001 FF800002 FFC00002 0 FFC00002 0 3 0
FF800002 7F800001 FFC00002 0 FFC00002 0 3 0
FF800001 7F800001 FFC00001 0 FFC00001 0 3 0
7F800001 FF800001 7FC00001 0 7FC00001 0 3 0
7FBFFFFF FFC00000 FFC00000 0 FFC00000 0 3 0
7FC00001 7FBFFFFF 7FC00001 0 7FC00001 0 3 0
80000001 FFBFFFFF FFFFFFFF 0 FFFFFFFF 0 3 1
7F800001 007FFFFF 7FC00001 0 7FC00001 0 3 1
00000001 3F800000 00000001 0 00000001 0 0 1
807FFFFF 7F800000 807FFFFF 0 807FFFFF 0 0 1
00000001 80000000 7FC00000 0 7FC00000 0 5 1
3F800000 80000001 00000000 0 00000000 0 0 1
FF800000 00000001 7FC00000 0 7FC00000 0 4 1
80800000 3F800000 80800000 0 80800000 0 0 0
00000000 3F800000 00000000 0 00000000 0 0 0
";

/// In x87: NaNs as above, with a pseudo-denormal, and beside an unsupported operand, which is refused
/// first. Then a pseudo-denormal by 1, and its ordinary pattern.
const TOLD_X87: &str = "\
7FFF8000000000000001 FFFFBFFFFFFFFFFFFFFF FFFFFFFFFFFFFFFFFFFF 0 FFFFFFFFFFFFFFFFFFFF 0 3 0
FFFF8000000000000001 7FFF8000000000000001 FFFFC000000000000001 0 FFFFC000000000000001 0 3 0
7FFFBFFFFFFFFFFFFFFF FFFFC000000000000000 FFFFC000000000000000 0 FFFFC000000000000000 0 3 0
00008000000000000000 FFFF8000000000000007 FFFFC000000000000007 0 FFFFC000000000000007 0 3 1
7FFF8000000000000001 00010000000000000001 7FFFC000000000000000 0 7FFFC000000000000000 0 2 0
3FFF0000000000000001 00000000000000000001 7FFFC000000000000000 0 7FFFC000000000000000 0 2 1
80008000000000000007 3FFF8000000000000000 80018000000000000007 0 80018000000000000007 0 0 1
80018000000000000007 3FFF8000000000000000 80018000000000000007 0 80018000000000000007 0 0 0
";

/// Steps: a partial one by a denormal, one of a pseudo-denormal, which finishes, and of it by a NaN;
/// sizes that are refused whatever the operands are. Runs: a pseudo-denormal with budget 0, and what is left of it; a NaN.
const TOLD_STEPS: &str = "\
40408000000000000000 00000000000000000001 63 0 00000000000000000000 1 0 1 1
80008000000000000000 3FFF8000000000000000 63 1 80018000000000000000 0 0 1 1
00008000000000000000 FFFFFFFFFFFFFFFFFFFF 63 1 FFFFFFFFFFFFFFFFFFFF 3 0 0 1
00008000000000000000 00000000000000000001 31 0 7FFFC000000000000000 6 0 0 0
7FFF8000000000000001 00000000000000000001 64 1 7FFFC000000000000000 6 0 0 0
";

const TOLD_RUNS: &str = "\
80008000000000000007 4000C000000000000000 63 0 0 80018000000000000007 7 0 0 1
80018000000000000007 4000C000000000000000 63 0 1 80018000000000000007 0 0 1 0
80008000000000000007 4000C000000000000000 63 0 1 80018000000000000007 0 0 1 1
7FFF8000000000000001 4000C000000000000000 63 0 0 7FFFC000000000000001 3 0 0 0
00008000000000000007 4000C000000000000000 64 0 0 7FFFC000000000000000 6 0 0 0
";

/// Halves of denormals and of NaNs, and the same split.
const TOLD_SCALINGS: &str = "\
00000002 -1 00000001 0 0 1
00800000 -1 00400000 0 0 0
FF800001 -1 FFC00001 3 0 0
";

const TOLD_SPLITS: &str = "\
00000001 3F800000 0 -149 1
00800000 3F800000 0 -126 0
7FBFFFFF 7FFFFFFF 3 0 0
80000000 7FC00000 8 0 0
";

/// Zero, both ends of the denormals, the smallest normal number in both patterns, and an unsupported
/// one.
const DENORMALS: &str = "\
80000000000000000000 0
00000000000000000001 1
80007FFFFFFFFFFFFFFF 1
00008000000000000000 1
00018000000000000000 0
00010000000000000001 0
";

/// Neither is a NaN; one is, beside an unsupported one; both are.
const NANS: &str = "\
3FFF8000000000000000 7FFF8000000000000000 7FFFC000000000000000
FFFF8000000000000001 00010000000000000001 FFFFC000000000000001
3FFF0000000000000000 7FFFC000000000000007 7FFFC000000000000007
7FFFA000000000000000 FFFFA000000000000001 FFFFE000000000000001
";

/// A table: its name as a file of vectors, its rows, and which fields of a row are expected.
type Table = (&'static str, &'static str, Range<usize>);

const READINGS: [Table; 4] = [
    ("rem-binary32.txt", REMAINDERS, 2..7),
    ("step-x87.txt", STEPS, 4..8),
    ("run-x87.txt", RUNS, 5..9),
    ("scale-binary32.txt", SCALINGS, 2..5),
];

const WHOLE: [Table; 4] = [
    ("rem-x87.txt", WHOLE_REMAINDERS, 2..8),
    ("remquo-x87.txt", SIGNED_REMAINDERS, 2..7),
    ("step-x87.txt", WHOLE_STEPS, 4..9),
    ("run-x87.txt", WHOLE_RUNS, 5..10),
];

const TOLD: [Table; 8] = [
    ("rem-binary32.txt", TOLD_REMAINDERS, 2..8),
    ("rem-x87.txt", TOLD_X87, 2..8),
    ("step-x87.txt", TOLD_STEPS, 4..9),
    ("run-x87.txt", TOLD_RUNS, 5..10),
    ("scale-binary32.txt", TOLD_SCALINGS, 2..6),
    ("split-binary32.txt", TOLD_SPLITS, 1..5),
    ("denormal-x87.txt", DENORMALS, 1..2),
    ("nan-x87.txt", NANS, 2..3),
];

/// The tables, with what they show.
fn tables() -> impl Iterator<Item = (Shown, Table)> {
    let readings = READINGS.into_iter().map(|table| (Shown::OCTANTS, table));
    let others = WHOLE.into_iter().chain(TOLD);
    readings.chain(others.map(|table| (Shown::by(table.0), table)))
}

/// How many answers a table has, and how many of them are different.
fn compare_table(pair: Pair, name: &str, shown: Shown, rows: &str) -> (u64, u64) {
    let comparison = vectors::compare(pair, name, shown, rows);
    (comparison.answers, comparison.different)
}

/// The answers of some of the tables, and the different ones.
fn compare_tables(some: Range<usize>) -> (u64, u64) {
    let (mut answers, mut different) = (0, 0);
    for (shown, (name, rows, _)) in tables().skip(some.start).take(some.len()) {
        let compared = compare_table(PAIR, name, shown, rows);
        answers += compared.0;
        different += compared.1;
    }
    (answers, different)
}

#[test]
fn readings_are_as_printed() {
    let (answers, different) = compare_tables(0..4);
    println!("readings 1 to 12: {answers} answers, {different} different");
    assert_eq!((answers, different), (32, 0));
}

#[test]
fn readings_with_whole_quotients() {
    let (answers, different) = compare_tables(4..8);
    println!("with whole quotients: {answers} answers, {different} different");
    assert_eq!((answers, different), (44, 0));
}

#[test]
fn readings_of_denormals_and_nans() {
    let (answers, different) = compare_tables(8..16);
    println!("denormals and NaNs: {answers} answers, {different} different");
    assert_eq!((answers, different), (79, 0));
}

/// The differences that this prints are wanted.
#[test]
fn a_wrong_or_missing_row_is_noticed() {
    for (shown, (name, rows, fields)) in tables() {
        let compare_rows = |rows: &str| compare_table(PAIR, name, shown, rows);
        for row in 0..rows.lines().count() {
            for field in fields.clone() {
                let (_, different) = compare_rows(&altered_text(rows, row, field));
                assert!(different > 0, "{name}, row {row}, field {field}");
            }
        }
        let [all, less] = [0, 1].map(|lines| compare_rows(&shortened(rows, lines)).0);
        assert!(less < all, "{name}, a row less");
    }
}

/// A table with few finished answers has no sixth, but six times the table has.
#[test]
fn a_wrong_answer_is_noticed() {
    for (shown, (name, rows, _)) in tables() {
        for (what, change) in CHANGES {
            let altered = Altered::answer(change);
            let (_, different) = compare_table([&altered, &Second], name, shown, &rows.repeat(6));
            assert_eq!(different, 1, "{name}, {what}");
        }
    }
}

/// Parts that are added modulo 8 or 2^32. The table of runs shows both.
#[test]
fn another_sum_of_parts_is_noticed() {
    let sums: [(&str, Sum); 3] = [
        ("modulo 2^31", |a, b| (a + b) % QUOTIENT_MODULUS),
        ("modulo 8", |a, b| (a + b) % SHOWN_MODULUS),
        ("modulo 2^32", |a, b| a + b),
    ];
    let different = sums.map(|(_, sum)| {
        let pair: Pair = [&Adding(sum), &Second];
        compare_table(pair, "run-x87.txt", Shown::ALL, WHOLE_RUNS).1
    });
    assert_eq!(different, [0, 3, 2]);
}

/// The library, with runs of its steps whose parts are added by a sum of their own.
struct Adding(Sum);

type Sum = fn(u32, u32) -> u32;

impl Implementation for Adding {
    fn name(&self) -> &'static str {
        "adding"
    }

    fn answer(&self, call: &Call) -> Answer {
        let (kind, size, budget, x, y, length) = match *call {
            Call::Run(kind, size, budget @ 1.., x, y, length) => (kind, size, budget, x, y, length),
            _ => return Library.answer(call),
        };
        let mut run = Library.answer(&Call::Step(kind, size, x, y, length));
        while run.number == 1 && run.steps < budget {
            let step = Library.answer(&Call::Step(kind, size, run.value, y, length));
            let (quotient, steps) = ((self.0)(run.quotient, step.quotient), run.steps + 1);
            run = Answer {
                quotient,
                steps,
                ..step
            };
        }
        if run.number == 1 {
            run.number = 7;
        }
        run
    }
}
