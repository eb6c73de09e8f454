//! Folded lists, through both implementations, and lists of unequal length.

use compare::{folds, lent_lists, read, PAIR};
use zukemoriha::{binary64, Kind};

#[test]
fn folded_lists() {
    let comparison = folds::compare(PAIR, &read("computed/fold-binary64.txt"));
    comparison.sum_up("fold-binary64.txt");
    assert_eq!((comparison.lines, comparison.different), (182, 0));
}

#[test]
fn generated_lists() {
    let (comparison, most_marked) = folds::generated(PAIR, 300);
    let (answers, different) = (comparison.answers, comparison.different);
    println!("300 lists of both kinds: {answers} heads and places, {different} different");
    assert_eq!((answers, different), (146_688, 0));
    assert!(most_marked > 255, "a count of more than a byte");
}

/// More places than two bytes count, all of them marked, and as many of any kind.
#[test]
fn a_long_list() {
    let (answers, different, marked) = folds::long(PAIR, 70_000);
    println!("two long lists: {answers} heads and places, {different} different");
    assert_eq!((answers, different), (140_002, 0));
    assert_eq!(marked, 70_000, "a count of more than two bytes");
}

/// Whatever the divisor: the length is judged first. Nothing is written, or the number would be
/// another one.
#[test]
fn unequal_lengths_are_refused() {
    let small = (0..64).map(|n| [n % 4, n / 4 % 4, n / 16]);
    // lengths that are equal in some of their bits
    let far = [256, 4096, 65_536, 65_792].into_iter().flat_map(|more| {
        (0..3).flat_map(move |n| [[n, n, n + more], [n, n + more, n], [n + more, n, n]])
    });
    let near = (0..42 * 42).flat_map(|n| [[n % 42, n % 42, n / 42], [n % 42, n / 42, n % 42]]);
    let (one, zero, nan) = (0x3FF0_0000_0000_0000, 0, 0x7FF8_0000_0000_0000);
    let dividends = vec![one; 70_000];
    for [n, r, q] in small.chain(far).chain(near) {
        for divisor in [one, zero, nan] {
            let told = lent_lists(r.max(q), |results, quotients| {
                let (results, quotients) = (&mut results[..r], &mut quotients[..q]);
                binary64::fold(&dividends[..n], results, quotients, divisor, Kind::Nearest)
            });
            assert_eq!(told == Err(9), n != r || r != q, "{n}, {r} and {q} places");
        }
    }
}
