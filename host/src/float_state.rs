//! The floating-point state of the thread. Every value here is specified under the default one.
use std::arch::asm;
use std::error::Error;
use std::fmt;

/// A floating-point state that is not the default one, so that results would not be those specified. A
/// program linked by `gcc -ffast-math` starts in such a state.
#[derive(Clone, Copy, Debug, PartialEq, Eq)]
pub struct FloatState {
    mxcsr: u32,
}

const DENORMALS_ARE_ZERO: u32 = 1 << 6;
const MASKS: u32 = 0x3f << 7;
const ROUNDING: u32 = 3 << 13;
const FLUSH_TO_ZERO: u32 = 1 << 15;

impl FloatState {
    /// Looks at this thread's state: rounding to nearest, subnormals kept, exceptions masked.
    ///
    /// ```
    /// assert_eq!(cauchy::FloatState::check(), Ok(()));
    /// ```
    pub fn check() -> Result<(), FloatState> {
        let mut mxcsr = 0_u32;
        // SAFETY: stores the 32 bits of a register into a variable of 32 bits.
        unsafe { asm!("stmxcsr [{}]", in(reg) &mut mxcsr, options(nostack, preserves_flags)) };
        FloatState { mxcsr }.judge()
    }

    fn judge(self) -> Result<(), FloatState> {
        let control = DENORMALS_ARE_ZERO | MASKS | ROUNDING | FLUSH_TO_ZERO;
        if self.mxcsr & control == MASKS { Ok(()) } else { Err(self) }
    }
}

impl fmt::Display for FloatState {
    fn fmt(&self, f: &mut fmt::Formatter<'_>) -> fmt::Result {
        let fault = if self.mxcsr & (FLUSH_TO_ZERO | DENORMALS_ARE_ZERO) != 0 {
            "subnormals are flushed to zero (a program linked with -ffast-math does so)"
        } else if self.mxcsr & ROUNDING != 0 {
            "results are not rounded to nearest"
        } else {
            "exceptions are not masked"
        };
        write!(f, "floating-point state is not the default: {fault}")
    }
}

impl Error for FloatState {}

#[cfg(test)]
mod tests {
    use super::FloatState;

    #[test]
    fn every_bit_of_control_is_judged_and_no_status_bit() {
        for bit in 0..16 {
            let state = FloatState { mxcsr: 0x1f80 ^ (1 << bit) };
            assert_eq!(state.judge().is_ok(), bit < 6, "bit {bit}");
        }
        let said = |mxcsr| FloatState { mxcsr }.to_string();
        assert!(said(0x9fc0).contains("subnormals"));
        assert!(said(0x3f80).contains("rounded"));
        assert!(said(0x1f00).contains("exceptions"));
    }
}
