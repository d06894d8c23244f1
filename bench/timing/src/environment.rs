//! What a call of the Rust crate pays for setting and restoring the floating-point environment.

use crate::{clock, median};
use bed::{is_enclosed, raw};
use std::hint::black_box;

const ROUNDS: usize = 31;
const CALLS: usize = 100_000;

/// Times a call that is refused at once, through the crate and of the library's own function.
pub fn print() {
    let (mut guarded, mut bare) = (Vec::new(), Vec::new());
    for _ in 0..ROUNDS {
        guarded.push(nanoseconds(|| {
            is_enclosed::<f32>(black_box(&[]), [0; 3], [0; 3], [0; 3]).is_err()
        }));
        bare.push(nanoseconds(refused_without_guard));
    }
    let (guarded, bare) = (median(&guarded), median(&bare));
    println!(
        "\nThe Rust crate's guard of the floating-point environment: a call that is refused at once takes {guarded:.1} ns\n\
         through the crate and {bare:.1} ns without the guard; the difference is {:.1} ns a call.",
        guarded - bare
    );
}

fn nanoseconds(mut refused: impl FnMut() -> bool) -> f64 {
    let start = clock::thread_seconds();
    for _ in 0..CALLS {
        assert!(refused());
    }
    1e9 * (clock::thread_seconds() - start) / CALLS as f64
}

fn refused_without_guard() -> bool {
    let mut enclosed = false;
    let (sdf, block): (&[f32], _) = (black_box(&[]), raw::BedBox::default());
    // SAFETY: pointer and length of a slice, and a variable of its own.
    let answer = unsafe { raw::bed_is_enclosed(sdf.as_ptr(), sdf.len(), &block, &mut enclosed) };
    answer != 0
}
