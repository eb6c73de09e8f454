//! Dividends of binary16 by every divisor, both kinds, with the quotient's magnitude and with its
//! sign, on all cores.

use crate::call::{Call, Pair};
use crate::Comparison;
use second::{Format, Kind};
use std::sync::atomic::{AtomicUsize, Ordering};
use std::sync::Mutex;
use std::thread;

/// Some dividends. `done` is told how many of them are done, each time that one more is.
pub fn compare<'a>(
    pair: Pair<'a>,
    dividends: &[u16],
    done: &(dyn Fn(u64) + Sync),
) -> Comparison<'a> {
    let shared = Mutex::new(Comparison::new(pair));
    let next = AtomicUsize::new(0);
    let work = || {
        while let Some(&x) = dividends.get(next.fetch_add(1, Ordering::Relaxed)) {
            let alike = by_every_divisor(pair, x, &shared);
            let mut comparison = shared.lock().unwrap();
            comparison.answers += alike;
            comparison.lines += 1;
            done(comparison.lines);
        }
    };
    thread::scope(|scope| {
        for _ in 0..thread::available_parallelism().map_or(1, usize::from) {
            scope.spawn(work);
        }
    });
    shared.into_inner().unwrap()
}

/// How many answers are alike. The comparison is locked only for those that are not.
fn by_every_divisor(pair: Pair, x: u16, shared: &Mutex<Comparison>) -> u64 {
    let mut alike = 0;
    for y in 0..=u16::MAX {
        for call in calls(x.into(), y.into()) {
            let answers = pair.map(|who| who.answer(&call));
            if answers[0] == answers[1] {
                alike += 1;
            } else {
                shared.lock().unwrap().hold(&call, &answers, None);
            }
        }
    }
    alike
}

/// Four of a pair.
fn calls(x: u128, y: u128) -> [Call; 4] {
    let format = Format::Binary16;
    [
        Call::Remainder(format, Kind::Truncated, x, y),
        Call::Remquo(format, Kind::Truncated, x, y),
        Call::Remainder(format, Kind::Nearest, x, y),
        Call::Remquo(format, Kind::Nearest, x, y),
    ]
}
