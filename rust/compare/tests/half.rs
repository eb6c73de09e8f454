//! A slice of the pairs of binary16. The program `half` runs all of them.

use compare::{half, PAIR};

#[test]
fn some_dividends_by_every_divisor() {
    // The ends of the denormals and of the finite values, those of the signalling NaNs and of the
    // quiet ones, and others from everywhere.
    let ends = (0x0000..8).chain(0x03FC..0x0404).chain(0x7BFC..0x7C04);
    let nans = (0x7DFF..0x7E02).chain(0xFC01..0xFC03).chain(0xFDFF..0xFE01);
    let any = (0..=u16::MAX).step_by(1021);
    let dividends: Vec<u16> = ends.chain(nans).chain(any).collect();
    let comparison = half::compare(PAIR, &dividends, &|_| ());
    let pairs = comparison.answers / 4;
    println!(
        "binary16: {pairs} pairs, both kinds and remquo, {} different",
        comparison.different
    );
    assert_eq!((pairs, comparison.different), (6_291_456, 0));
}
