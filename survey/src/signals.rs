//! INT and TERM: what is to be done before the command ends by them. A thread of its own waits for them, so that it may do whatever
//! any thread may; a handler might not.

use std::thread;

const INT: i32 = 2;
const TERM: i32 = 15;
/// How signals are blocked and let through, and how they are dealt with, as Linux numbers it.
const BLOCK: i32 = 0;
const UNBLOCK: i32 = 1;
const DEFAULT: usize = 0;
const IGNORED: usize = 1;

/// The C library's sigset_t: 1,024 bits.
#[repr(C)]
struct Set([u64; 16]);

extern "C" {
    fn sigemptyset(set: *mut Set) -> i32;
    fn sigaddset(set: *mut Set, signal: i32) -> i32;
    fn pthread_sigmask(how: i32, set: *const Set, old: *mut Set) -> i32;
    fn sigwait(set: *const Set, signal: *mut i32) -> i32;
    fn signal(signal: i32, handler: usize) -> usize;
    fn raise(signal: i32) -> i32;
}

/// From now on `clean_up` runs before INT or TERM ends the command, and what it gives is held until then. It is called before any
/// other thread is there. A signal that the caller set to be ignored still is.
pub fn before_the_end<Held>(clean_up: impl FnOnce() -> Held + Send + 'static) {
    let mut set = Set([0; 16]);
    // SAFETY: the set is a variable of its own, of the C library's size; the signals and handlers are the C library's own.
    let waits = unsafe {
        sigemptyset(&mut set);
        for number in [INT, TERM] {
            if signal(number, DEFAULT) == IGNORED {
                signal(number, IGNORED);
            } else {
                sigaddset(&mut set, number);
            }
        }
        set.0.iter().any(|&bits| bits != 0)
            && pthread_sigmask(BLOCK, &set, std::ptr::null_mut()) == 0
    };
    if waits {
        thread::spawn(move || {
            let mut number = 0;
            // SAFETY: as above.
            let came = unsafe { sigwait(&set, &mut number) } == 0;
            let _held = came.then(clean_up);
            // SAFETY: as above. The signal ends the process here.
            unsafe {
                pthread_sigmask(UNBLOCK, &set, std::ptr::null_mut());
                raise(number);
            }
        });
    }
}
