//! Whether standard input or output was closed when the program was started. Rust's runtime opens `/dev/null` in place of a closed one before `main`: read there,
//! a closed input is an empty list, and what is written to a closed output is lost in silence. So it is asked before the runtime starts.

use std::ffi::c_int;
use std::sync::atomic::{AtomicBool, Ordering};

/// The question whether a descriptor is open: `F_GETFD` of Linux. Nothing is changed by it.
const GET_FLAGS: c_int = 1;

static INPUT: AtomicBool = AtomicBool::new(false);
static OUTPUT: AtomicBool = AtomicBool::new(false);

unsafe extern "C" {
    fn fcntl(fd: c_int, command: c_int, ...) -> c_int;
}

/// What the loader calls before `main`. On a system that has no such list of functions nothing is asked, and none is taken for closed.
#[used]
#[cfg_attr(target_os = "linux", unsafe(link_section = ".init_array"))]
static BEFORE_MAIN: extern "C" fn() = ask;

extern "C" fn ask() {
    for (fd, closed) in [(0, &INPUT), (1, &OUTPUT)] {
        // SAFETY: the declaration is C's own, and this command takes no third argument and no pointer: a descriptor that is not open is answered by -1.
        closed.store(unsafe { fcntl(fd, GET_FLAGS) } < 0, Ordering::Relaxed);
    }
}

/// Whether standard input was closed.
pub fn input() -> bool {
    INPUT.load(Ordering::Relaxed)
}

/// Whether standard output was closed.
pub fn output() -> bool {
    OUTPUT.load(Ordering::Relaxed)
}
