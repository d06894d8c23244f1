//! The floating-point environment that the library's claims are about: round to nearest, subnormal numbers
//! kept, no traps. The library neither tests nor sets it, so every call of this crate does.
//!
//! Rust takes for granted that the environment is this one, but a program's other parts may have set
//! another: start-up code of a C compiler's -ffast-math, audio or graphics code. Only the default one is ever
//! set here, and after the call what stood before it.

/// While it lives, the thread's environment is the default one; then what stood before stands again.
pub(crate) struct DefaultEnvironment {
    kept: control::Word,
}

impl DefaultEnvironment {
    #[inline]
    pub(crate) fn enter() -> Self {
        let kept = control::read();
        control::write(control::DEFAULT);
        Self { kept }
    }
}

impl Drop for DefaultEnvironment {
    #[inline]
    fn drop(&mut self) {
        control::write(self.kept);
    }
}

/// MXCSR: the library's code is SSE alone. Its exception flags are kept with the rest.
#[cfg(target_arch = "x86_64")]
mod control {
    use std::arch::asm;

    pub type Word = u32;
    pub const DEFAULT: Word = 0x1F80;

    #[inline]
    pub fn read() -> Word {
        let mut word = 0;
        // SAFETY: the register is written to a variable of its own.
        unsafe { asm!("stmxcsr [{}]", in(reg) &mut word, options(nostack, preserves_flags)) };
        word
    }

    #[inline]
    pub fn write(word: Word) {
        // SAFETY: the register takes the default, or what was read from it.
        unsafe { asm!("ldmxcsr [{}]", in(reg) &word, options(nostack)) };
    }
}

/// FPCR.
#[cfg(target_arch = "aarch64")]
mod control {
    use std::arch::asm;

    pub type Word = u64;
    pub const DEFAULT: Word = 0;

    #[inline]
    pub fn read() -> Word {
        let word;
        // SAFETY: a register is read.
        unsafe { asm!("mrs {}, fpcr", out(reg) word, options(nostack, preserves_flags)) };
        word
    }

    #[inline]
    pub fn write(word: Word) {
        // SAFETY: the register takes the default, or what was read from it.
        unsafe { asm!("msr fpcr, {}", in(reg) word, options(nostack)) };
    }
}

/// On another processor the environment is the caller's affair.
#[cfg(not(any(target_arch = "x86_64", target_arch = "aarch64")))]
mod control {
    pub type Word = ();
    pub const DEFAULT: Word = ();

    pub fn read() -> Word {}
    pub fn write(_: Word) {}
}
