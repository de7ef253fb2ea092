//! 02's L11, kernels from bracket lines as a loader makes them: the archive's answer, and 02's words over the original's own text of both
//! loaders.
use crate::original::native::CauchyKernel;
use crate::original::{native, source};
use crate::pattern;
use crate::program::Rest;
use crate::volumes::Kernels;

/// To C any loader past the first two is strict.
pub const NATIVE: u32 = 0;
pub const SOURCE: u32 = 1;
pub const STRICT: u32 = 2;

unsafe extern "C" {
    fn cauchy_convert(lines: *const u8, n: usize, default_alpha: f64, loader: u32, out: *mut f64, room: usize) -> Kernels;
}

/// The archive's: 0, 20, 9 or 21, and the kernels written.
#[inline]
pub fn convert(lines: &[u8], default_alpha: f64, loader: u32, out: &mut [f64]) -> (u32, u64) {
    // SAFETY: two runs of these lengths, and no other holds the second.
    let told = unsafe { cauchy_convert(lines.as_ptr(), lines.len(), default_alpha, loader, out.as_mut_ptr(), out.len()) };
    (told.no, told.kernels)
}

/// A kernel's line, its floats by their own bits.
pub fn line(k: &CauchyKernel) -> String {
    let h = |x: f64| format!("{:016X}", x.to_bits());
    let alpha = k.alpha.map_or("none".into(), h);
    format!("(kernel (c {}) (sigma {}) (w {}) (alpha {alpha}))\n", k.c.map(h).join(" "), h(k.sigma), h(k.w))
}

/// "one bracket line per kernel, (kernel (c h h h) (sigma h) (w h) (alpha h)), with (alpha none) for a missing exponent".
pub fn read_line(line: &[u8]) -> Option<CauchyKernel> {
    let mut rest = Rest(line);
    rest.text("(kernel (c ")?;
    let c = rest.three(Rest::h)?;
    rest.text(") (sigma ")?;
    let sigma = rest.h()?;
    rest.text(") (w ")?;
    let w = rest.h()?;
    rest.text(") (alpha ")?;
    let alpha = if rest.text("none").is_some() { None } else { Some(rest.h()?) };
    rest.text("))\n")?;
    rest.0.is_empty().then_some(CauchyKernel { c, sigma, w, alpha })
}

/// The kernels of bytes that are such lines and nothing else, "each ending in a newline".
pub fn read(lines: &[u8]) -> Option<Vec<CauchyKernel>> {
    lines.split_inclusive(|b| *b == b'\n').map(read_line).collect()
}

/// "equal kernels, bit for bit with NaN as one".
pub fn equal(a: &[f64], b: &[f64]) -> bool {
    a.len() == b.len() && a.iter().zip(b).all(|(x, y)| pattern(*x) == pattern(*y))
}

/// What is written into a run of so many floats, or the refusal: "20 when a line isn't of this form, ahead of 9; 21 when the strict form
/// finds differing kernels, after 9".
pub fn asked(lines: &[u8], default_alpha: f64, loader: u32, room: usize) -> Result<Vec<f64>, u32> {
    let kernels = read(lines).ok_or(20u32)?;
    if room < 6 * kernels.len() {
        return Err(9);
    }
    let (by_native, by_source) = (native::load(&kernels, default_alpha), source::load(&kernels, default_alpha));
    match loader {
        NATIVE => Ok(by_native),
        SOURCE => Ok(by_source),
        _ if equal(&by_native, &by_source) => Ok(by_native),
        _ => Err(21),
    }
}
