//! The thread's own processor time: what another program takes of the processor is not counted.

use std::ffi::{c_int, c_long};

#[repr(C)]
struct Timespec {
    seconds: c_long,
    nanoseconds: c_long,
}

extern "C" {
    fn clock_gettime(clock: c_int, time: *mut Timespec) -> c_int;
}

/// Linux's number of this clock, on every processor.
const CLOCK_THREAD_CPUTIME_ID: c_int = 3;

/// Seconds of processor time that this thread has used.
pub fn thread_seconds() -> f64 {
    let mut time = Timespec {
        seconds: 0,
        nanoseconds: 0,
    };
    // SAFETY: the time is a variable of its own, of the type that 64-bit Linux gives it.
    let failed = unsafe { clock_gettime(CLOCK_THREAD_CPUTIME_ID, &mut time) };
    assert_eq!(failed, 0, "the thread's clock cannot be read");
    time.seconds as f64 + 1e-9 * time.nanoseconds as f64
}
