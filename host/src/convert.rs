//! The kernels of a file's lines.
use crate::{Kernel, Refusal, sys};

/// Which of the original's two loaders makes the kernels of a file. They differ in the exponent alone.
///
/// ```
/// assert_eq!(cauchy::Loader::Strict.name(), "strict");
/// ```
#[derive(Clone, Copy, Debug, PartialEq, Eq, Hash)]
pub enum Loader {
    /// An exponent that is missing or not above 0, a NaN too, becomes the default.
    Native,
    /// An exponent that is missing becomes the default; one that is given is kept, whatever it is.
    Source,
    /// Either, where both give equal kernels, bit for bit with every NaN alike. Any other file is refused.
    Strict,
}

impl Loader {
    /// The specification's word for it.
    ///
    /// ```
    /// assert_eq!(cauchy::Loader::Native.name(), "native");
    /// ```
    pub fn name(self) -> &'static str {
        match self {
            Loader::Native => "native",
            Loader::Source => "source",
            Loader::Strict => "strict",
        }
    }

    fn crossing(self) -> u32 {
        match self {
            Loader::Native => 0,
            Loader::Source => 1,
            Loader::Strict => 2,
        }
    }
}

/// The bytes of the shortest kernel line, one without an exponent, and its newline.
const SHORTEST_LINE: usize = 123;

/// The kernels of a file, in metres and in the order of its lines, as a loader makes them with the default exponent.
///
/// A kernel is a line `(kernel (c H H H) (sigma H) (w H) (alpha H))`, with `(alpha none)` where the file gives no
/// exponent, and a newline, the last one too, with single spaces and nothing else. H is a number by the 16 upper-case
/// hexadecimal digits of its bits, the centre in km and sigma in 1/km. No line gives no kernel.
///
/// ```
/// use cauchy::{Kernel, Loader, Refusal, convert};
///
/// let h = |x: f64| format!("{:016X}", x.to_bits());
/// let (zero, sigma, w) = (h(0.0), h(4.0), h(500.0));
/// let line = |alpha: &str| format!("(kernel (c {zero} {zero} {zero}) (sigma {sigma}) (w {w}) (alpha {alpha}))\n");
/// let kernel = |alpha| Kernel { c: [0.0; 3], sigma: 0.004, w: 500.0, alpha };
///
/// let good = line("none") + &line(&h(2.5));
/// assert_eq!(convert(good.as_bytes(), 1.5, Loader::Strict)?, [kernel(1.5), kernel(2.5)]);
///
/// let below = line(&h(-1.0));
/// assert_eq!(convert(below.as_bytes(), 1.5, Loader::Native)?, [kernel(1.5)]);
/// assert_eq!(convert(below.as_bytes(), 1.5, Loader::Source)?, [kernel(-1.0)]);
/// assert_eq!(convert(below.as_bytes(), 1.5, Loader::Strict), Err(Refusal::LoadersDiffer));
///
/// assert_eq!(convert(b"0 0 0 4 500 1\n", 1.5, Loader::Native), Err(Refusal::BadKernelLine));
/// assert_eq!(convert(b"", 1.5, Loader::Native)?, []);
/// # Ok::<(), Refusal>(())
/// ```
pub fn convert(lines: &[u8], default_alpha: f64, loader: Loader) -> Result<Vec<Kernel>, Refusal> {
    let mut out = vec![0.0; 6 * (lines.len() / SHORTEST_LINE)];
    // SAFETY: two slices, borrowed for the call; the one that is written is new.
    let told = unsafe {
        sys::cauchy_convert(
            lines.as_ptr(),
            lines.len(),
            default_alpha,
            loader.crossing(),
            out.as_mut_ptr(),
            out.len(),
        )
    };
    Refusal::check(told.no).map(|()| Kernel::listed(&out, told.kernels as usize))
}
