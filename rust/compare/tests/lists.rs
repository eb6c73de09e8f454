//! Lists of step and run calls, through both implementations.

mod altered;

use altered::{altered_text, Answering};
use compare::{lists, read, Call, Implementation, Library, PAIR, QUOTIENT_MODULUS, SHOWN_MODULUS};

/// Lists from pseudo-denormals, in the layout of the file. First those without an accepted call,
/// which end in the dividend as given: no call, bad sizes and blocks, divisors that are a NaN,
/// unsupported or zero. Then those whose first accepted call is a run with budget 0, which returns
/// the ordinary pattern: it ends there, is spent again, and finishes by infinity, by 5 and by
/// another pseudo-denormal.
const PSEUDO_DENORMALS: &str = "\
00008000000000000007 3FFF8000000000000000 0 - 00008000000000000007 - 0 0 0
80008000000000000007 3FFF8000000000000000 1 s31,s64,r0:5,r64:0 80008000000000000007 - 0 0 0
0000FFFFFFFFFFFFFFFF 00008000000000000000 0 s63b,r32:0b,r63:9b 0000FFFFFFFFFFFFFFFF - 0 0 0
80008000000000000007 7FFF8000000000000001 1 s63,r63:0,r63:1 80008000000000000007 - 0 0 0
00008000000000000007 00010000000000000001 0 s32,r63:0,r63:1 00008000000000000007 - 0 0 0
8000C000000000000000 80000000000000000000 0 r32:0,s32,r32:1 8000C000000000000000 - 0 0 0
00008000000000000007 3FFF8000000000000000 0 r63:0 00018000000000000007 7 0 0 0
80008000000000000007 00000000000000000005 1 s31,r63:0,r32:0,s63b 80018000000000000007 7 0 0 0
80008000000000000007 FFFF8000000000000000 0 r63:0,r63:9 80018000000000000007 0 1 0 1
00008000000000000009 00000000000000000005 0 r32:0,s63 00000000000000000002 0 1 429496731 1
80008000000000000007 0000C000000000000000 1 r63:0,r63:1 00003FFFFFFFFFFFFFF9 0 1 1 1
";

/// A file with whole quotients, and one with octants.
#[test]
fn lists_of_calls() {
    for (name, shown, expected) in [
        ("list-x87.txt", QUOTIENT_MODULUS, (400, 264, 0)),
        ("octants/list-x87.txt", SHOWN_MODULUS, (840, 563, 0)),
    ] {
        let text = read(&format!("computed/{name}"));
        let (comparison, finished) = lists::compare(PAIR, shown, &text);
        comparison.sum_up(name);
        println!("{} answers; {finished} lists finish", comparison.answers);
        let found = (comparison.lines, finished, comparison.different);
        assert_eq!(found, expected, "{name}");
    }
}

#[test]
fn lists_from_pseudo_denormals() {
    let (comparison, finished) = lists::compare(PAIR, QUOTIENT_MODULUS, PSEUDO_DENORMALS);
    assert_eq!(
        (comparison.lines, finished, comparison.different),
        (11, 3, 0)
    );
}

/// The differences that this prints are wanted.
#[test]
fn a_wrong_row_is_noticed() {
    for row in 0..PSEUDO_DENORMALS.lines().count() {
        for field in 4..9 {
            let text = altered_text(PSEUDO_DENORMALS, row, field);
            let different = lists::compare(PAIR, QUOTIENT_MODULUS, &text).0.different;
            assert!(different > 0, "row {row}, field {field}");
        }
    }
}

/// A library that is told of denormals in ordinary patterns by steps and runs. Where a list finishes it
/// is held to the remainder in one call, which is told of the dividend as given: so it is noticed also
/// where both are wrong alike.
#[test]
fn another_fact_of_a_list_is_noticed() {
    let otherwise = Answering(|call| {
        let mut answer = Library.answer(call);
        if let Call::Step(.., x, y, _) | Call::Run(.., x, y, _) = *call {
            answer.denormal = [x, y].iter().any(|x| x >> 63 & 0xFFFF == 0 && x << 65 != 0);
        }
        answer
    });
    let pairs: [[&dyn Implementation; 2]; 2] = [[&otherwise, &Library], [&otherwise, &otherwise]];
    for pair in pairs {
        let (comparison, _) = lists::compare(pair, QUOTIENT_MODULUS, PSEUDO_DENORMALS);
        assert!(comparison.different > 0);
    }
}
