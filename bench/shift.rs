// The straightforward peers: truncated binary64 remainders by shifting and subtracting, one bit at
// a time, with the library's refusals and quotients. A list's bad readings are all marked by the
// house NaN. Two of them, since what the compiler makes of the inner `if` decides the speed: one
// that branches on every quotient bit, as a reader would write it, and one without a branch on the
// bits.
// Built by `rustc -O --crate-type staticlib`, no crates.
#![no_std]

use core::panic::PanicInfo;

#[panic_handler]
fn panic(_: &PanicInfo) -> ! {
    loop {}
}

const SIGN: u64 = 1 << 63;
const INFINITY: u64 = 0x7FF << 52;
const HOUSE_NAN: u64 = 0x7FF8 << 48;
const QUOTIENT_MODULUS: u32 = 1 << 31;

// a * 2^gap by b: the remainder and the low bits of the quotient.
type Divide = fn(u64, u64, u32) -> (u64, u32);

#[inline(always)]
fn branching(mut a: u64, b: u64, gap: u32) -> (u64, u32) {
    let mut quotient: u32 = 0;
    let mut left = gap;
    loop {
        quotient <<= 1;
        if a >= b {
            a -= b;
            quotient |= 1;
            // nothing is left to divide: the other quotient bits are zeros
            if a == 0 {
                return (0, quotient.checked_shl(left).unwrap_or(0));
            }
        }
        if left == 0 {
            return (a, quotient);
        }
        a <<= 1;
        left -= 1;
    }
}

// The subtraction is always made and given back where it went below zero. Written with a sign mask and not with `if`: the compiler makes
// a branch of a conditional move in a loop, and then this would be the other one.
#[inline(always)]
fn branch_free(mut a: u64, b: u64, gap: u32) -> (u64, u32) {
    let mut quotient = (a >= b) as u32;
    a -= b & (quotient as u64).wrapping_neg();
    for _ in 0..gap {
        let less = (a << 1).wrapping_sub(b);
        let below = (less as i64 >> 63) as u64;
        a = less.wrapping_add(b & below);
        quotient = (quotient << 1).wrapping_add(1).wrapping_add(below as u32);
    }
    (a, quotient)
}

// The significand with its leading one at bit 52, and the exponent that goes with it.
#[inline(always)]
fn unpack(magnitude: u64) -> (u64, i32) {
    let field = (magnitude >> 52) as i32;
    if field == 0 {
        let shift = magnitude.leading_zeros() as i32 - 11;
        (magnitude << shift, 1 - shift)
    } else {
        (magnitude & ((1 << 52) - 1) | 1 << 52, field)
    }
}

#[inline(always)]
fn pack(significand: u64, exponent: i32) -> u64 {
    if significand == 0 {
        return 0;
    }
    let shift = significand.leading_zeros() as i32 - 11;
    if exponent > shift {
        (significand << shift) + ((exponent - shift - 1) as u64) * (1 << 52)
    } else if exponent >= 1 {
        significand << (exponent - 1)
    } else {
        significand >> (1 - exponent)
    }
}

#[inline(always)]
fn remainder(x: u64, y: u64, divide: Divide) -> Result<(u64, u32), u8> {
    let (sign, x, y) = (x & SIGN, x & !SIGN, y & !SIGN);
    if x > INFINITY || y > INFINITY {
        return Err(3);
    }
    if x == INFINITY {
        return Err(4);
    }
    if y == 0 {
        return Err(5);
    }
    if x < y {
        return Ok((sign | x, 0));
    }
    let ((a, ex), (b, ey)) = (unpack(x), unpack(y));
    let (left, quotient) = divide(a, b, (ex - ey) as u32);
    Ok((sign | pack(left, ey), quotient % QUOTIENT_MODULUS))
}

#[inline(always)]
fn write(answer: Result<(u64, u32), u8>, value: &mut u64, quotient: &mut u32) -> u8 {
    match answer {
        Ok((v, q)) => {
            *value = v;
            *quotient = q;
            0
        }
        Err(number) => number,
    }
}

#[inline(always)]
fn fold(x: &[u64], results: &mut [u64], quotients: &mut [u8], y: u64, divide: Divide) -> usize {
    let mut marked = 0;
    for ((&x, result), byte) in x.iter().zip(results).zip(quotients) {
        match remainder(x, y, divide) {
            Ok((v, q)) => {
                *result = v;
                *byte = (q % 8) as u8;
            }
            Err(_) => {
                *result = HOUSE_NAN;
                *byte = 255;
                marked += 1;
            }
        }
    }
    marked
}

#[no_mangle]
pub extern "C" fn shift_rem64_branching(x: u64, y: u64, value: &mut u64, quotient: &mut u32) -> u8 {
    write(remainder(x, y, branching), value, quotient)
}

#[no_mangle]
pub extern "C" fn shift_rem64_branch_free(x: u64, y: u64, value: &mut u64, quotient: &mut u32) -> u8 {
    write(remainder(x, y, branch_free), value, quotient)
}

/// # Safety
/// The three lists hold n elements each and do not overlap.
#[no_mangle]
pub unsafe extern "C" fn shift_fold64_branching(x: *const u64, n: usize, results: *mut u64, quotients: *mut u8, y: u64) -> usize {
    use core::slice::{from_raw_parts, from_raw_parts_mut};
    fold(from_raw_parts(x, n), from_raw_parts_mut(results, n), from_raw_parts_mut(quotients, n), y, branching)
}

/// # Safety
/// The three lists hold n elements each and do not overlap.
#[no_mangle]
pub unsafe extern "C" fn shift_fold64_branch_free(x: *const u64, n: usize, results: *mut u64, quotients: *mut u8, y: u64) -> usize {
    use core::slice::{from_raw_parts, from_raw_parts_mut};
    fold(from_raw_parts(x, n), from_raw_parts_mut(results, n), from_raw_parts_mut(quotients, n), y, branch_free)
}
