// Rust's own remainder of doubles, for bench.c. `%` calls a function named fmod; in a Rust archive
// that is the one of Rust's compiler_builtins. The Makefile joins the two and hides that name, so
// that it does not take the C library's place.
// Built by `rustc -O --crate-type staticlib`, no crates.
#![no_std]

use core::panic::PanicInfo;

#[panic_handler]
fn panic(_: &PanicInfo) -> ! {
    loop {}
}

// The archive's functions name it for unwinding, and nothing here unwinds.
#[no_mangle]
pub extern "C" fn rust_eh_personality() {}

#[no_mangle]
pub extern "C" fn rust_percent(x: f64, y: f64) -> f64 {
    x % y
}
