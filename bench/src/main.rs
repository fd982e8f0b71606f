//! Prints the table of times, where there is something to time.

#![forbid(unsafe_code)]

#[cfg(target_arch = "x86_64")]
fn main() {
    bench::print_table();
}

#[cfg(not(target_arch = "x86_64"))]
fn main() {
    println!(
        "Times can be measured on x86-64 only, which the proved library is compiled for; \
         bench/emulated shows their ratio under an emulator."
    );
}
