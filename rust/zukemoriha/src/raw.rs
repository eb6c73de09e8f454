//! The functions of the archive, as the header zukemoriha.h declares them.
//!
//! What all of them ask of a caller: each pointer is not null, is aligned, and points to memory
//! for what it is lent for, as many elements as its length says; no place that is lent to be
//! written overlaps another one.

extern "C" {
    pub fn zk_rem16(x: u16, y: u16, kind: u32, value: *mut u16, quotient: *mut u32) -> u8;
    pub fn zk_rem32(x: u32, y: u32, kind: u32, value: *mut u32, quotient: *mut u32) -> u8;
    pub fn zk_rem64(x: u64, y: u64, kind: u32, value: *mut u64, quotient: *mut u32) -> u8;
    pub fn zk_rem80(
        x: u64,
        xw: u16,
        y: u64,
        yw: u16,
        kind: u32,
        value: *mut u64,
        valuew: *mut u16,
        quotient: *mut u32,
    ) -> u8;

    pub fn zk_remquo16(x: u16, y: u16, kind: u32, value: *mut u16, quotient: *mut i32) -> u8;
    pub fn zk_remquo32(x: u32, y: u32, kind: u32, value: *mut u32, quotient: *mut i32) -> u8;
    pub fn zk_remquo64(x: u64, y: u64, kind: u32, value: *mut u64, quotient: *mut i32) -> u8;
    pub fn zk_remquo80(
        x: u64,
        xw: u16,
        y: u64,
        yw: u16,
        kind: u32,
        value: *mut u64,
        valuew: *mut u16,
        quotient: *mut i32,
    ) -> u8;

    pub fn zk_step80(
        x: u64,
        xw: u16,
        y: u64,
        yw: u16,
        size: u32,
        kind: u32,
        block: *mut u8,
        length: usize,
    ) -> u8;
    pub fn zk_run80(
        x: u64,
        xw: u16,
        y: u64,
        yw: u16,
        size: u32,
        kind: u32,
        budget: u32,
        block: *mut u8,
        length: usize,
    ) -> u8;

    pub fn zk_scale16(x: u16, power: i32, value: *mut u16, says: *mut u8) -> u8;
    pub fn zk_scale32(x: u32, power: i32, value: *mut u32, says: *mut u8) -> u8;
    pub fn zk_scale64(x: u64, power: i32, value: *mut u64, says: *mut u8) -> u8;
    pub fn zk_scale80(
        x: u64,
        xw: u16,
        power: i32,
        value: *mut u64,
        valuew: *mut u16,
        says: *mut u8,
    ) -> u8;

    pub fn zk_split16(x: u16, significand: *mut u16, exponent: *mut i32) -> u8;
    pub fn zk_split32(x: u32, significand: *mut u32, exponent: *mut i32) -> u8;
    pub fn zk_split64(x: u64, significand: *mut u64, exponent: *mut i32) -> u8;
    pub fn zk_split80(
        x: u64,
        xw: u16,
        significand: *mut u64,
        significandw: *mut u16,
        exponent: *mut i32,
    ) -> u8;

    pub fn zk_denormal16(x: u16) -> u8;
    pub fn zk_denormal32(x: u32) -> u8;
    pub fn zk_denormal64(x: u64) -> u8;
    pub fn zk_denormal80(x: u64, xw: u16) -> u8;

    pub fn zk_nan16(x: u16, y: u16) -> u16;
    pub fn zk_nan32(x: u32, y: u32) -> u32;
    pub fn zk_nan64(x: u64, y: u64) -> u64;
    pub fn zk_nan80(x: u64, xw: u16, y: u64, yw: u16, value: *mut u64, valuew: *mut u16);

    pub fn zk_fold64(
        x: *const u64,
        nx: usize,
        results: *mut u64,
        nr: usize,
        quotients: *mut u8,
        nq: usize,
        y: u64,
        kind: u32,
        marked: *mut usize,
    ) -> u8;

    pub fn zk_stem_open(
        file: *const u8,
        length: usize,
        kind: *mut u32,
        period: *mut u64,
        origin: *mut u64,
        start: *mut usize,
        count: *mut usize,
    ) -> u8;
    pub fn zk_stem_fold(kind: u32, period: u64, origin: u64, reading: *mut u64) -> u8;
    pub fn zk_stem_write(
        kind: u32,
        period: u64,
        origin: u64,
        readings: *const u64,
        nreadings: usize,
        radii: *const u64,
        nradii: usize,
        room: *mut u8,
        length: usize,
        written: *mut usize,
    ) -> u8;
}
