//! Cases from the test suites of six projects, through both implementations.

use compare::{published, read, PAIR};

/// Lines, and how many of them are wrong where they were published and held to IEEE 754 instead.
const FILES: [(&str, u64, u64); 7] = [
    ("known-bad.txt", 2, 2),
    ("published-gcc.txt", 160, 0),
    ("published-gnulib.txt", 114, 0),
    ("published-golang.txt", 139, 0),
    ("published-newlib.txt", 568, 2),
    ("published-python.txt", 120, 0),
    ("published-ruby.txt", 9, 0),
];

#[test]
fn published_cases() {
    let bad = read("published/known-bad.txt");
    let found = FILES.map(|(name, ..)| {
        let text = read(&format!("published/{name}"));
        let (comparison, met) = published::compare(PAIR, &text, &bad);
        comparison.sum_up(name);
        (name, comparison.lines, met, comparison.different)
    });
    assert_eq!(found, FILES.map(|(name, lines, bad)| (name, lines, bad, 0)));
}
