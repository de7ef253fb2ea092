//! The specification's roots and powers, in place of the platform's, and its radial factor.
use crate::sys;

/// The IEEE 754 square root.
///
/// ```
/// assert_eq!(cauchy::numbers::root(4.0), 2.0);
/// ```
pub fn root(x: f64) -> f64 {
    sys::cauchy_root(x)
}

/// The arc tangent.
///
/// ```
/// assert!((cauchy::numbers::arc(1.0) - std::f64::consts::FRAC_PI_4).abs() < 1e-15);
/// ```
pub fn arc(t: f64) -> f64 {
    sys::cauchy_arc(t)
}

/// The logarithm to base 2.
///
/// ```
/// assert_eq!(cauchy::numbers::log(8.0), 3.0);
/// ```
pub fn log(b: f64) -> f64 {
    sys::cauchy_log(b)
}

/// 2 to the power y.
///
/// ```
/// assert_eq!(cauchy::numbers::exp(-2.0), 0.25);
/// ```
pub fn exp(y: f64) -> f64 {
    sys::cauchy_exp(y)
}

/// b to the power y; NaN for b below 0 unless y is 0.
///
/// ```
/// assert_eq!(cauchy::numbers::power(2.0, 10.0), 1024.0);
/// assert_eq!(cauchy::numbers::power(1.0, f64::NAN), 1.0);
/// ```
pub fn power(b: f64, y: f64) -> f64 {
    sys::cauchy_power(b, y)
}

/// 10 to the power y: of a whole y exact from 0 to 22, and rounded once from -22 to -1.
///
/// ```
/// assert_eq!((cauchy::numbers::ten(1.0), cauchy::numbers::ten(-1.0)), (10.0, 0.1));
/// ```
pub fn ten(y: f64) -> f64 {
    sys::cauchy_ten(y)
}

/// The logarithm to base 10.
///
/// ```
/// assert!((cauchy::numbers::log10(1000.0) - 3.0).abs() < 1e-15);
/// ```
pub fn log10(b: f64) -> f64 {
    sys::cauchy_log10(b)
}

/// (t − arc t) / t³, which is 1/3 at 0: the radial factor that a kernel's volume is summed with.
///
/// ```
/// assert_eq!(cauchy::numbers::radial_g(0.0), 1.0 / 3.0);
/// ```
pub fn radial_g(t: f64) -> f64 {
    sys::cauchy_radial_g(t)
}
