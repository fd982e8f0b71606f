//! Where the measurement starts under the emulator. What Rust does ahead of its
//! own `main` asks for the memory map, and the emulator fails on that.

#![no_main]

#[no_mangle]
pub extern "C" fn main() -> i32 {
    bench::print_table();
    0
}
