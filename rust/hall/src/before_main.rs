//! Whether standard output was open when the program began.
//!
//! Rust puts /dev/null in the place of a closed one before `main`, where all that is written is lost without a word. So
//! it is looked at before that.

use std::sync::atomic::{AtomicBool, Ordering};

static WAS_OPEN: AtomicBool = AtomicBool::new(true);

/// Whether standard output was open when the program began.
pub fn was_standard_output_open() -> bool {
    WAS_OPEN.load(Ordering::Relaxed)
}

unsafe extern "C" {
    fn fcntl(descriptor: i32, command: i32, ...) -> i32;
}

const STANDARD_OUTPUT: i32 = 1;
const GET_DESCRIPTOR_FLAGS: i32 = 1;

extern "C" fn look() {
    // SAFETY: the call reads the flags of a descriptor, which may be any number, and touches no memory.
    let flags = unsafe { fcntl(STANDARD_OUTPUT, GET_DESCRIPTOR_FLAGS) };
    WAS_OPEN.store(flags != -1, Ordering::Relaxed);
}

// SAFETY: the section is a list of functions that are called before `main`, and this is one that needs nothing.
#[used]
#[unsafe(link_section = ".init_array")]
static LOOK_BEFORE_MAIN: extern "C" fn() = look;
