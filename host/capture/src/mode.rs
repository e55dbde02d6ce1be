//! The floating-point mode that calls with doubles are made in.

use std::arch::asm;

#[cfg(not(target_arch = "x86_64"))]
compile_error!("the library's archive links into x86-64 programs alone");

/// MXCSR as a program starts: rounding to nearest, subnormal numbers kept, no exception traps.
const DEFAULT: u32 = 0x1f80;

/// Its bits that say what has happened, and not how to compute.
const FLAGS: u32 = 0x3f;

fn mxcsr() -> u32 {
    let mut mode = 0u32;
    // SAFETY: it stores one number there.
    unsafe { asm!("stmxcsr [{}]", in(reg) &mut mode, options(nostack, preserves_flags)) };
    mode
}

/// Sets the mode.
///
/// # Safety
/// Until it is the default again, or as it was, nothing is computed that another mode changes.
unsafe fn set_mxcsr(mode: u32) {
    asm!("ldmxcsr [{}]", in(reg) &mode, options(nostack));
}

/// The default mode, as long as this lives; then the thread's own again.
pub struct DefaultMode {
    /// The thread's own, where that is another.
    own: Option<u32>,
}

impl DefaultMode {
    pub fn set() -> DefaultMode {
        let mode = mxcsr();
        let own = (mode & !FLAGS != DEFAULT).then_some(mode);
        if own.is_some() {
            // SAFETY: it is the mode that Rust computes in.
            unsafe { set_mxcsr(DEFAULT) };
        }
        DefaultMode { own }
    }
}

impl Drop for DefaultMode {
    fn drop(&mut self) {
        if let Some(mode) = self.own {
            // SAFETY: it is the mode that the caller was in.
            unsafe { set_mxcsr(mode) };
        }
    }
}
