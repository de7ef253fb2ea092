//! How a kernel's fit ended.
use crate::sys;

/// How the fit of a kernel ended, as a put and a decomposition tell it.
///
/// ```
/// use cauchy::{Fit, Kernel};
///
/// let kernel = Kernel { c: [0.0; 3], sigma: 0.01, w: 2.0, alpha: 1.0 };
/// assert_eq!(kernel.pieces(500.0)?.fit, Fit::Kept);
/// let steep = Kernel { alpha: 2.0, ..kernel };
/// assert!(matches!(steep.pieces(500.0)?.fit, Fit::Fitted { pivot } if pivot > 1e-18));
/// let none = Kernel { alpha: f64::NAN, ..kernel };
/// assert_eq!(none.pieces(500.0)?.fit, Fit::NoExponent);
/// # Ok::<(), cauchy::Refusal>(())
/// ```
#[derive(Clone, Copy, Debug, PartialEq)]
pub enum Fit {
    /// The exponent is within 1e-9 of 1: the kernel stays, and nothing is fitted.
    Kept,
    /// The solver fitted it.
    Fitted {
        /// The smallest pivot that it accepted, in absolute value: above 1e-18, or a NaN. A small one tells of a
        /// fit that hangs on rounding.
        pivot: f64,
    },
    /// The solver met a flat pivot, and one piece stands for the fit.
    Fallback {
        /// The column of the pivot, from 0.
        column: u32,
    },
    /// The exponent is a NaN: there is no piece.
    NoExponent,
}

impl From<sys::Fit> for Fit {
    fn from(told: sys::Fit) -> Fit {
        match told.kind {
            0 => Fit::Kept,
            1 => Fit::Fitted { pivot: told.pivot },
            2 => Fit::Fallback { column: told.column },
            _ => Fit::NoExponent,
        }
    }
}
