//! The archive's own functions: a writer of stem files, which takes kinds and origins that the safe
//! functions do not have, and is lent a place for the length, and lists that have to stay as they
//! were; and remainders, which take other kinds and are lent places for values and quotients. What
//! those do not tell, whether an operand is denormal and which NaN there is, is asked of it.

// each test needs a part
#![allow(dead_code)]

use compare::{
    is_denormal, lent_length, lent_places, lent_room, refused, remained, signed, Answer, Call,
    Format, Gauge, Implementation, Kind, Library, MISWROTE,
};

#[path = "../../../zukemoriha/src/raw.rs"]
mod raw;

/// What lies before and behind a list.
const BESIDE: u64 = 0xA5A5_A5A5_A5A5_A5A5;

/// The library, with the archive's own remainders and its own writer.
pub struct Archive;

impl Implementation for Archive {
    fn name(&self) -> &'static str {
        "archive"
    }

    fn answer(&self, call: &Call) -> Answer {
        match *call {
            Call::Remainder(format, kind, x, y) => remainder(format, kind, x, y),
            Call::Remquo(format, kind, x, y) => remquo(format, kind, x, y),
            Call::Denormal(format, x) => is_denormal(denormal(format, x)),
            Call::Nan(format, x, y) => {
                nan(format, x, y).map_or_else(miswrote, |value| remained(value, 0, 0))
            }
            _ => Library.answer(call),
        }
    }

    fn write(
        &self,
        gauge: Gauge,
        readings: &[u64],
        radii: &[u64],
        room: usize,
    ) -> Result<Vec<u8>, u8> {
        let before = [readings, radii].map(|list| [&[BESIDE], list, &[BESIDE]].concat());
        let mut lists = before.clone();
        let [lent_readings, lent_radii] = &mut lists;
        let written = lent_room(room, |bytes, room| {
            let room = &mut bytes[room];
            // SAFETY: the room is lent with its own length, the lists with theirs from their second
            // place on, and the length has the place in the middle.
            lent_length(|places| unsafe {
                raw::zk_stem_write(
                    gauge.kind,
                    gauge.period,
                    gauge.origin,
                    lent_readings.as_mut_ptr().add(1),
                    readings.len(),
                    lent_radii.as_mut_ptr().add(1),
                    radii.len(),
                    room.as_mut_ptr(),
                    room.len(),
                    places.as_mut_ptr().add(1),
                )
            })
        });
        match lists == before {
            true => written,
            false => Err(MISWROTE),
        }
    }
}

/// Every number but 0 is the nearest kind.
fn number_of(kind: Kind, x: u128) -> u32 {
    match kind {
        Kind::Truncated => 0,
        Kind::Nearest => x as u32 | 1,
    }
}

/// Calls the archive's function for a format with the lent places.
macro_rules! in_places {
    ($format:ident, $kind:ident, $x:ident, $y:ident,
     $zk16:ident, $zk32:ident, $zk64:ident, $zk80:ident) => {
        lent_places($format, |places| {
            let kind = number_of($kind, $x);
            let [_, value, _, word, _, quotient, _] = places;
            let (value, word, quotient): (*mut u64, *mut u64, *mut u64) = (value, word, quotient);
            let (xw, yw) = (($x >> 64) as u16, ($y >> 64) as u16);
            let (x, y) = ($x as u64, $y as u64);
            // SAFETY: each pointer is to a place of its own, of eight bytes, at least as long as what
            // is written there and aligned as well.
            unsafe {
                match $format {
                    Format::Binary16 => {
                        raw::$zk16(x as u16, y as u16, kind, value.cast(), quotient.cast())
                    }
                    Format::Binary32 => {
                        raw::$zk32(x as u32, y as u32, kind, value.cast(), quotient.cast())
                    }
                    Format::Binary64 => raw::$zk64(x, y, kind, value, quotient.cast()),
                    Format::X87 => {
                        raw::$zk80(x, xw, y, yw, kind, value, word.cast(), quotient.cast())
                    }
                }
            }
        })
    };
}

fn remainder(format: Format, kind: Kind, x: u128, y: u128) -> Answer {
    let told = in_places!(format, kind, x, y, zk_rem16, zk_rem32, zk_rem64, zk_rem80);
    let told = told.map(|(value, quotient)| remained(value, 0, quotient));
    asked(format, x, y, told)
}

fn remquo(format: Format, kind: Kind, x: u128, y: u128) -> Answer {
    let told = in_places!(
        format,
        kind,
        x,
        y,
        zk_remquo16,
        zk_remquo32,
        zk_remquo64,
        zk_remquo80
    );
    let told = told.map(|(value, quotient)| signed(value, 0, quotient as i32));
    asked(format, x, y, told)
}

/// What a host in C makes of an answer or of a number that refuses: it asks for the two facts, for
/// the NaN only under number 3. The house NaN is what it is told of two zeros.
fn asked(format: Format, x: u128, y: u128, told: Result<Answer, u8>) -> Answer {
    let denormal = denormal(format, x) || denormal(format, y);
    let number = match told {
        Ok(answer) => return Answer { denormal, ..answer },
        Err(number) => number,
    };
    let value = match number {
        3 => nan(format, x, y),
        _ => nan(format, 0, 0),
    };
    value.map_or_else(miswrote, |value| refused(value, number, denormal))
}

fn miswrote(number: u8) -> Answer {
    refused(0, number, false)
}

fn denormal(format: Format, x: u128) -> bool {
    // SAFETY: no pointer is handed over.
    let told = unsafe {
        match format {
            Format::Binary16 => raw::zk_denormal16(x as u16),
            Format::Binary32 => raw::zk_denormal32(x as u32),
            Format::Binary64 => raw::zk_denormal64(x as u64),
            Format::X87 => raw::zk_denormal80(x as u64, (x >> 64) as u16),
        }
    };
    assert!(told < 2, "neither yes nor no: {told}");
    told == 1
}

/// Of x87 it is written to lent places, whatever the operands, and nothing beside them.
fn nan(format: Format, x: u128, y: u128) -> Result<u128, u8> {
    let (xw, yw) = ((x >> 64) as u16, (y >> 64) as u16);
    // SAFETY: no pointer is handed over but in x87; there each is to a place of its own, of eight
    // bytes, at least as long as what is written there and aligned as well.
    Ok(unsafe {
        match format {
            Format::Binary16 => raw::zk_nan16(x as u16, y as u16).into(),
            Format::Binary32 => raw::zk_nan32(x as u32, y as u32).into(),
            Format::Binary64 => raw::zk_nan64(x as u64, y as u64).into(),
            Format::X87 => {
                let written = lent_places(format, |[_, value, _, word, ..]| {
                    let word: *mut u64 = word;
                    raw::zk_nan80(x as u64, xw, y as u64, yw, value, word.cast());
                    0
                });
                let (value, beside) = written?;
                if beside != BESIDE as u32 {
                    return Err(MISWROTE);
                }
                value
            }
        }
    })
}
