//! Kernels, as a store keeps them and as a file has them.
use crate::{Fit, Refusal, sys};

/// The most pieces that one kernel can have.
pub const MAX_PIECES: usize = 16;

/// A density kernel, w · (1 + sigma² · |x − c|²)^−alpha, in metres.
///
/// ```
/// use cauchy::{Kernel, density};
///
/// let kernel = Kernel { c: [0.0; 3], sigma: 1.0, w: 2.0, alpha: 1.0 };
/// assert_eq!(density(&[kernel], [1.0, 0.0, 0.0]), Ok(1.0));
/// ```
#[repr(C)]
#[derive(Clone, Copy, Debug, PartialEq)]
pub struct Kernel {
    /// The centre, m.
    pub c: [f64; 3],
    /// The inverse width, 1/m.
    pub sigma: f64,
    /// The weight, kg/m³.
    pub w: f64,
    /// The exponent.
    pub alpha: f64,
}

/// A kernel as its file has it, in kilometres.
#[derive(Clone, Copy, Debug, PartialEq)]
pub struct FileKernel {
    /// The centre, km.
    pub c: [f64; 3],
    /// The inverse width, 1/km.
    pub sigma: f64,
    /// The weight, kg/m³.
    pub w: f64,
    /// The exponent, where the file gives one.
    pub alpha: Option<f64>,
}

/// The pieces of a kernel, each of exponent 1 unless the kernel is its own only piece.
#[derive(Clone, Debug, PartialEq)]
pub struct KernelPieces {
    /// The pieces, at most [`MAX_PIECES`].
    pub kernels: Vec<Kernel>,
    /// The greatest error of the fit, as a fraction of the kernel's peak.
    pub error: f64,
    /// How the fit ended.
    pub fit: Fit,
}

/// The pieces of a list of kernels, each of exponent 1 unless a kernel is its own only piece.
#[derive(Clone, Debug, PartialEq)]
pub struct Pieces {
    /// The pieces, at most [`MAX_PIECES`] of each kernel.
    pub kernels: Vec<Kernel>,
    /// The greatest error of a fit, as a fraction of its kernel's peak.
    pub error: f64,
}

impl FileKernel {
    /// The kernel in metres. A missing exponent, or one not above 0, becomes the file's default.
    ///
    /// ```
    /// use cauchy::{FileKernel, Kernel};
    ///
    /// let km = FileKernel { c: [1.0, 2.0, 3.0], sigma: 4.0, w: 500.0, alpha: None };
    /// let m = Kernel { c: [1000.0, 2000.0, 3000.0], sigma: 0.004, w: 500.0, alpha: 1.5 };
    /// assert_eq!(km.to_metres(1.5), m);
    /// ```
    pub fn to_metres(self, default_alpha: f64) -> Kernel {
        let kernel = sys::FileKernel {
            c: self.c,
            sigma: self.sigma,
            w: self.w,
            alpha: self.alpha.unwrap_or(0.0),
            given: self.alpha.is_some().into(),
        };
        sys::cauchy_kernel_from_file(kernel, default_alpha)
    }
}

impl Kernel {
    /// The pieces of exponent 1 that stand for this kernel on a body of this radius.
    ///
    /// ```
    /// use cauchy::Kernel;
    ///
    /// let kernel = Kernel { c: [0.0; 3], sigma: 0.01, w: 2.0, alpha: 2.0 };
    /// let pieces = kernel.pieces(500.0)?;
    /// assert_eq!(pieces.kernels.len(), 13);
    /// assert!(pieces.error < 0.01);
    /// # Ok::<(), cauchy::Refusal>(())
    /// ```
    pub fn pieces(self, radius: f64) -> Result<KernelPieces, Refusal> {
        let mut out = [0.0; 6 * MAX_PIECES];
        // SAFETY: one slice, borrowed for the call.
        let told = unsafe { sys::cauchy_decompose(self, radius, out.as_mut_ptr(), out.len()) };
        Refusal::check(told.no)?;
        let kernels = Kernel::listed(&out, told.pieces as usize);
        Ok(KernelPieces { kernels, error: told.error, fit: told.fit.into() })
    }

    /// A kernel list as the archive takes it, six floats each.
    pub(crate) fn flat(kernels: &[Kernel]) -> Vec<f64> {
        let floats = |k: &Kernel| [k.c[0], k.c[1], k.c[2], k.sigma, k.w, k.alpha];
        kernels.iter().flat_map(floats).collect()
    }

    /// The first kernels of a list as the archive writes it.
    pub(crate) fn listed(floats: &[f64], count: usize) -> Vec<Kernel> {
        let kernel = |k: &[f64; 6]| Kernel { c: [k[0], k[1], k[2]], sigma: k[3], w: k[4], alpha: k[5] };
        floats.as_chunks::<6>().0.iter().take(count).map(kernel).collect()
    }
}

/// The pieces of all kernels of a list, in its order, on a body of this radius.
///
/// ```
/// use cauchy::{Kernel, pieces};
///
/// let flat = Kernel { c: [0.0; 3], sigma: 0.01, w: 2.0, alpha: 1.0 };
/// let steep = Kernel { alpha: 2.0, ..flat };
/// let both = pieces(&[flat, steep], 500.0)?;
/// assert_eq!((both.kernels.len(), both.kernels[0]), (14, flat));
/// assert_eq!(both.error, steep.pieces(500.0)?.error);
/// # Ok::<(), cauchy::Refusal>(())
/// ```
pub fn pieces(kernels: &[Kernel], radius: f64) -> Result<Pieces, Refusal> {
    let list = Kernel::flat(kernels);
    let mut out = vec![0.0; MAX_PIECES * list.len()];
    // SAFETY: two slices, borrowed for the call; the one that is written is new.
    let told =
        unsafe { sys::cauchy_decompose_list(list.as_ptr(), list.len(), radius, out.as_mut_ptr(), out.len()) };
    Refusal::check(told.no)?;
    let kernels = Kernel::listed(&out, told.pieces as usize);
    Ok(Pieces { kernels, error: told.error })
}

/// The density of a list of kernels at a point.
///
/// ```
/// use cauchy::{Kernel, density};
///
/// let kernel = Kernel { c: [0.0; 3], sigma: 2.0, w: 10.0, alpha: 1.0 };
/// assert_eq!(density(&[kernel, kernel], [0.0, 0.0, 0.5]), Ok(10.0));
/// ```
pub fn density(kernels: &[Kernel], point: [f64; 3]) -> Result<f64, Refusal> {
    let list = Kernel::flat(kernels);
    // SAFETY: one slice, borrowed for the call.
    let told = unsafe { sys::cauchy_densitize(list.as_ptr(), list.len(), point.into()) };
    Refusal::check(told.no).map(|()| told.value)
}
