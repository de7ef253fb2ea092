//! The archive's solve, file kernel and pieces.
use crate::pattern;

/// A kernel: centre, sigma, w, alpha, in metres.
#[repr(C)]
#[derive(Clone, Copy, Debug)]
pub struct Kernel {
    pub c: [f64; 3],
    pub sigma: f64,
    pub w: f64,
    pub alpha: f64,
}

/// A kernel of a file, in kilometres; with `given` 0 its exponent is missing.
#[repr(C)]
#[derive(Clone, Copy, Debug)]
pub struct FileKernel {
    pub c: [f64; 3],
    pub sigma: f64,
    pub w: f64,
    pub alpha: f64,
    pub given: u32,
}

/// What the solver answers: 01's number of a refusal or 0, the column of the flat pivot beside 11, the smallest accepted pivot beside 0.
#[repr(C)]
#[derive(Clone, Copy, Debug)]
pub struct Solved {
    pub no: u32,
    pub column: u32,
    pub pivot: f64,
}

/// How a fit ended: 0 kept, 1 fitted with this pivot, 2 fallback with this column, 3 no exponent.
#[repr(C)]
#[derive(Clone, Copy, Debug)]
pub struct Fit {
    pub kind: u32,
    pub column: u32,
    pub pivot: f64,
}

impl Fit {
    /// All its values, every NaN as one.
    pub fn told(self) -> (u32, u32, u64) {
        (self.kind, self.column, pattern(self.pivot))
    }
}

/// What a decomposition answers: 01's number of a refusal or 0, the pieces written, the peak error, how the fit ended.
#[repr(C)]
#[derive(Clone, Copy, Debug)]
pub struct Pieces {
    pub no: u32,
    pub pieces: u64,
    pub error: f64,
    pub fit: Fit,
}

/// What the decomposition of a list answers: the kernels of the list too, and the greatest of the peak errors.
#[repr(C)]
#[derive(Clone, Copy, Debug)]
pub struct ListPieces {
    pub no: u32,
    pub kernels: u64,
    pub pieces: u64,
    pub error: f64,
}

unsafe extern "C" {
    fn cauchy_solve(n: usize, cells: *const f64, cells_len: usize, answer: *mut f64, answer_len: usize) -> Solved;
    fn cauchy_decompose(k: Kernel, radius: f64, out: *mut f64, out_len: usize) -> Pieces;
    fn cauchy_decompose_list(kernels: *const f64, kernels_len: usize, radius: f64, out: *mut f64, out_len: usize) -> ListPieces;
    /// One file kernel in metres.
    pub safe fn cauchy_kernel_from_file(k: FileKernel, default_alpha: f64) -> Kernel;
}

/// Solves n rows of n + 1 floats: 0, 10 or 11.
#[inline]
pub fn solve(n: usize, cells: &[f64], answer: &mut [f64]) -> Solved {
    // SAFETY: two runs of these lengths, and no other holds the second.
    unsafe { cauchy_solve(n, cells.as_ptr(), cells.len(), answer.as_mut_ptr(), answer.len()) }
}

/// The pieces of a kernel, six floats each.
#[inline]
pub fn decompose(k: Kernel, radius: f64, out: &mut [f64]) -> Pieces {
    // SAFETY: a run of this length, which no other holds.
    unsafe { cauchy_decompose(k, radius, out.as_mut_ptr(), out.len()) }
}

/// The pieces of a list of kernels, six floats each.
#[inline]
pub fn decompose_list(kernels: &[f64], radius: f64, out: &mut [f64]) -> ListPieces {
    // SAFETY: two runs of these lengths, and no other holds the second.
    unsafe { cauchy_decompose_list(kernels.as_ptr(), kernels.len(), radius, out.as_mut_ptr(), out.len()) }
}
