//! The proved functions of 01's "Roots and powers" and `radial_g`, as libcauchy.a exports them, and what a comparison needs: one NaN,
//! distances in ulp, inputs that can be repeated. [`steps`] works 01's steps a second time, sharing nothing with the proved code.
pub mod bill;
pub mod cases;
pub mod closed;
#[cfg(original)]
pub mod conventions;
#[cfg(original)]
pub mod convert;
#[cfg(original)]
pub mod held;
#[cfg(original)]
pub mod histories;
pub mod inputs;
#[cfg(original)]
pub mod lines;
#[cfg(original)]
pub mod machine;
pub mod meshes;
#[cfg(original)]
pub mod original;
pub mod page;
pub mod pieces;
#[cfg(original)]
pub mod program;
#[cfg(original)]
pub mod recorder;
pub mod solids;
pub mod steps;
#[cfg(original)]
pub mod store;
pub mod tally;
#[cfg(original)]
pub mod text;
pub mod volumes;

/// What a comparison with the original's text says where its files are not there.
pub const SKIPPED: &str =
    concat!("comparison with the original's text skipped: ", env!("CAUCHY_RUST_SRC_USED"), " is not there (CAUCHY_RUST_SRC names it)");

/// Does what needs the original's text; where its files are not there, says that it is skipped.
#[macro_export]
macro_rules! by_original {
    ($work:expr) => {
        #[cfg(original)]
        $work;
        #[cfg(not(original))]
        println!("{}", $crate::SKIPPED);
    };
}

// What the archive exports. Plain numbers in, plain numbers out, any bits allowed: safe to call.
unsafe extern "C" {
    pub safe fn cauchy_root(x: f64) -> f64;
    pub safe fn cauchy_arc(t: f64) -> f64;
    pub safe fn cauchy_log(b: f64) -> f64;
    pub safe fn cauchy_exp(y: f64) -> f64;
    pub safe fn cauchy_power(b: f64, y: f64) -> f64;
    pub safe fn cauchy_ten(y: f64) -> f64;
    pub safe fn cauchy_log10(b: f64) -> f64;
    pub safe fn cauchy_radial_g(t: f64) -> f64;
}

/// 01's "T(y) = E(y·3.321928094887362)" for every y, as it was before 02's L2.
pub fn ten_before(y: f64) -> f64 {
    cauchy_exp(y * 3.321928094887362)
}

/// The bits by which results are compared: every NaN counts as one (01), signs of zero and infinity do not.
/// To the compiler all NaNs are alike, so where it sees the float's making it drops a step that only folds them: this one stays behind a
/// call and looks at the bits.
#[inline(never)]
pub fn pattern(x: f64) -> u64 {
    let bits = x.to_bits();
    if bits & 0x7fff_ffff_ffff_ffff > 0x7ff0_0000_0000_0000 { 0x7ff8_0000_0000_0000 } else { bits }
}

/// A float's place among all floats in order; the two zeros share one.
fn place(x: f64) -> i64 {
    let size = (x.to_bits() & 0x7fff_ffff_ffff_ffff) as i64;
    if x.is_sign_negative() { -size } else { size }
}

/// How many floats apart two answers lie, an infinity next to the largest finite one; none if one alone is a NaN.
pub fn ulps(x: f64, y: f64) -> Option<u64> {
    match (x.is_nan(), y.is_nan()) {
        (true, true) => Some(0),
        (false, false) => Some(place(x).abs_diff(place(y))),
        _ => None,
    }
}

/// The float `by` places above x (below, if negative), for an x that stays finite or infinite; a NaN stays.
pub fn step(x: f64, by: i64) -> f64 {
    if x.is_nan() {
        return x;
    }
    let at = (place(x) + by).clamp(place(f64::NEG_INFINITY), place(f64::INFINITY));
    let size = f64::from_bits(at.unsigned_abs());
    if at < 0 { -size } else { size }
}

/// The machine's and the compiler's names: the platform's functions depend on both.
pub fn platform() -> String {
    format!("{}, {}, {}{}", env!("RUSTC_VERSION"), libc_version(), std::env::consts::ARCH, fused())
}

#[cfg(target_env = "gnu")]
fn libc_version() -> String {
    unsafe extern "C" {
        safe fn gnu_get_libc_version() -> *const std::ffi::c_char;
    }
    // SAFETY: glibc answers a text that ends in 0 and stays.
    let text = unsafe { std::ffi::CStr::from_ptr(gnu_get_libc_version()) };
    format!("glibc {}", text.to_string_lossy())
}

#[cfg(not(target_env = "gnu"))]
fn libc_version() -> String {
    "no glibc".into()
}

// glibc chooses its functions' code by whether the processor multiplies and adds in one rounding.
#[cfg(target_arch = "x86_64")]
fn fused() -> &'static str {
    if std::arch::is_x86_feature_detected!("fma") { " with fma" } else { " without fma" }
}

#[cfg(not(target_arch = "x86_64"))]
fn fused() -> &'static str {
    ""
}
