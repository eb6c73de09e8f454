//! All pairs of binary16, both kinds, with the quotient's magnitude and with its sign, the library
//! against the second implementation.
//!
//!     half [FIRST [LAST]]    dividends from FIRST to LAST (0 to 65535), every divisor for each

use compare::{half, PAIR};
use std::env;
use std::process::ExitCode;

fn main() -> ExitCode {
    let arguments: Result<Vec<u16>, _> = env::args().skip(1).map(|word| word.parse()).collect();
    let (first, last) = match arguments.as_deref() {
        Ok([]) => (0, u16::MAX),
        Ok(&[first]) => (first, u16::MAX),
        Ok(&[first, last]) if first <= last => (first, last),
        _ => {
            eprintln!(
                "half [FIRST [LAST]]: dividends from 0 to 65535, the first not above the last"
            );
            return ExitCode::from(2);
        }
    };
    let dividends: Vec<u16> = (first..=last).collect();
    let all = dividends.len() as u64;
    let comparison = half::compare(PAIR, &dividends, &|done| {
        if done * 64 / all > (done - 1) * 64 / all {
            eprintln!("{done} of {all} dividends");
        }
    });
    println!(
        "binary16, dividends {first} to {last}: {} pairs, both kinds and remquo, {} different",
        comparison.answers / 4,
        comparison.different
    );
    ExitCode::from(u8::from(comparison.different > 0))
}
