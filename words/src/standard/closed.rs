//! Which standard descriptors were closed when the program was started. Rust's
//! runtime opens /dev/null in their place before `main`, so that afterwards it
//! can't be told; this looks before the runtime does.

use std::os::raw::c_int;
use std::sync::atomic::{AtomicBool, Ordering};

const INPUT: c_int = 0;
const OUTPUT: c_int = 1;

/// Linux's request for a descriptor's flags, which changes nothing.
const GET_FLAGS: c_int = 1;

static INPUT_CLOSED: AtomicBool = AtomicBool::new(false);
static OUTPUT_CLOSED: AtomicBool = AtomicBool::new(false);

extern "C" {
    fn fcntl(descriptor: c_int, request: c_int, ...) -> c_int;
}

extern "C" fn look() {
    INPUT_CLOSED.store(is_closed(INPUT), Ordering::Relaxed);
    OUTPUT_CLOSED.store(is_closed(OUTPUT), Ordering::Relaxed);
}

/// The loader calls what stands in this section before `main`.
#[used]
#[link_section = ".init_array"]
static LOOK: extern "C" fn() = look;

fn is_closed(descriptor: c_int) -> bool {
    // SAFETY: the request takes no third argument and touches no memory. It
    // fails only where the descriptor is not open.
    unsafe { fcntl(descriptor, GET_FLAGS) == -1 }
}

pub fn input() -> bool {
    INPUT_CLOSED.load(Ordering::Relaxed)
}

pub fn output() -> bool {
    OUTPUT_CLOSED.load(Ordering::Relaxed)
}
