//! The bill before the work.
use crate::{Kernel, Refusal, sys};

/// What a list of kernels takes at most, on a mesh of some size.
#[derive(Clone, Copy, Debug, PartialEq, Eq)]
pub struct Bill {
    /// The most steps that puts of the kernels charge together.
    pub steps: u64,
    /// The most floats that a list of them needs, six for each piece.
    pub floats: u64,
}

/// The bill of up to 32 kernels on a mesh of so many vertices and faces, whatever its radius. Nothing is fitted:
/// 1 piece is counted for a kernel that stays (an exponent within 1e-9 of 1), none for a NaN exponent, and 13 or 16
/// for any other, which may turn out to have fewer. So the bill is exact where every kernel stays or has a NaN
/// exponent, and never too low.
///
/// ```
/// use cauchy::{Bill, Kernel, Mesh, Refusal, Store, bill};
///
/// let flat = Kernel { c: [0.0; 3], sigma: 0.01, w: 300.0, alpha: 1.0 };
/// let steep = Kernel { alpha: 2.0, ..flat };
/// assert_eq!(bill(&[flat, steep], 362, 720), Ok(Bill { steps: 14 * 720, floats: 14 * 6 }));
/// assert_eq!(bill(&[flat; 33], 362, 720), Err(Refusal::ManyKernels));
/// assert_eq!(bill(&[flat], 1 << 40, 720), Err(Refusal::Oversize));
///
/// // No put of these kernels charges more.
/// let mut store = Store::open(500.0, Mesh { vertices: &[[0.0; 3]; 3], faces: &[[0, 1, 2]] })?;
/// let charged = store.put(0, flat)?.need + store.put(1, steep)?.need;
/// assert!(u64::from(charged) <= bill(&[flat, steep], 3, 1)?.steps);
/// # Ok::<(), Box<dyn std::error::Error>>(())
/// ```
pub fn bill(kernels: &[Kernel], vertices: usize, faces: usize) -> Result<Bill, Refusal> {
    // A count of more bits becomes the greatest of 32, which the archive refuses too.
    let word = |count: usize| u32::try_from(count).unwrap_or(u32::MAX);
    let list = Kernel::flat(kernels);
    // SAFETY: one slice, borrowed for the call.
    let told = unsafe { sys::cauchy_bill(list.as_ptr(), list.len(), word(vertices), word(faces)) };
    Refusal::check(told.no)?;
    Ok(Bill { steps: told.steps, floats: told.floats })
}
