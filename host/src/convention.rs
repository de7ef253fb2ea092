//! How one reading rescales the weights.
use crate::sys;

/// How one reading rescales the weights. The kept weights never change.
///
/// A bulk density that is not above 0, or NaN, counts as 1190 kg/m³; a target that is not above 0, or NaN,
/// as none.
///
/// ```
/// use cauchy::Convention;
///
/// assert_eq!(Convention::Mass { target: 4.5e11, bulk: 1190.0 }.name(), "mass");
/// ```
#[derive(Clone, Copy, Debug, PartialEq)]
pub enum Convention {
    /// Weights as entered.
    Raw,
    /// The density at the origin becomes the bulk density.
    Rho0 {
        /// The bulk density, kg/m³.
        bulk: f64,
    },
    /// The mass becomes the target; by [`Convention::Rho0`] where there is no target, or where the mass of
    /// the weights as entered is not finite or tiny.
    Mass {
        /// The target, kg.
        target: f64,
        /// The bulk density, kg/m³.
        bulk: f64,
    },
}

impl Convention {
    /// The specification's word for it.
    ///
    /// ```
    /// assert_eq!(cauchy::Convention::Raw.name(), "raw");
    /// ```
    pub fn name(self) -> &'static str {
        match self {
            Convention::Raw => "raw",
            Convention::Rho0 { .. } => "rho0",
            Convention::Mass { .. } => "mass",
        }
    }

    pub(crate) fn crossing(self) -> sys::Convention {
        let (kind, target, bulk) = match self {
            Convention::Raw => (0, 0.0, 0.0),
            Convention::Rho0 { bulk } => (1, 0.0, bulk),
            Convention::Mass { target, bulk } => (2, target, bulk),
        };
        sys::Convention { kind, target, bulk }
    }
}
