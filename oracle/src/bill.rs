//! 02's L3, the bill before the work: the archive's answer, and 02's words.
use crate::pieces::Kernel;

/// What a bill answers: a number, the most steps that puts of the kernels charge, the most floats that a list of them needs.
#[repr(C)]
#[derive(Clone, Copy, Debug, PartialEq, Eq)]
pub struct Bill {
    pub no: u32,
    pub steps: u64,
    pub floats: u64,
}

unsafe extern "C" {
    fn cauchy_bill(kernels: *const f64, n: usize, verts: u32, faces: u32) -> Bill;
}

/// The archive's: 0, 2, 9 or 15.
pub fn bill(kernels: &[f64], verts: u32, faces: u32) -> Bill {
    // SAFETY: a run of this length, which is only read.
    unsafe { cauchy_bill(kernels.as_ptr(), kernels.len(), verts, faces) }
}

/// "V or F above the limit is 2 as before; 15 when there are more than 32 kernels, after 9".
pub fn number(kernels: &[f64], verts: u32, faces: u32) -> u32 {
    if verts > 1_048_576 || faces > 2_097_152 {
        2
    } else if !kernels.len().is_multiple_of(6) {
        9
    } else if kernels.len() > 6 * 32 {
        15
    } else {
        0
    }
}

/// "For a kernel that stays or has a NaN exponent both are exact": the pieces of such a kernel.
pub fn exact(alpha: f64) -> Option<u64> {
    if alpha.is_nan() {
        Some(0)
    } else if (alpha - 1.0).abs() <= 1e-9 {
        Some(1)
    } else {
        None
    }
}

/// "for others 13 or 16 pieces are assumed", as 01 has terms.
pub fn pieces(alpha: f64) -> u64 {
    exact(alpha).unwrap_or(if (alpha - 1.0).abs() <= 1.0 { 13 } else { 16 })
}

/// A kernel's six floats in a list.
pub fn six(k: &Kernel) -> [f64; 6] {
    [k.c[0], k.c[1], k.c[2], k.sigma, k.w, k.alpha]
}
