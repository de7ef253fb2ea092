//! The original's second implementation, its folder "source", each function with its own order of operations.
use crate::{Kernel, Mesh, Refusal, sys};

/// The density of a list of kernels at a point.
///
/// ```
/// let kernel = cauchy::Kernel { c: [0.0; 3], sigma: 1.0, w: 2.0, alpha: 1.0 };
/// assert_eq!(cauchy::source::density_at(&[kernel], [1.0, 0.0, 0.0]), Ok(1.0));
/// ```
pub fn density_at(kernels: &[Kernel], point: [f64; 3]) -> Result<f64, Refusal> {
    let list = Kernel::flat(kernels);
    // SAFETY: one slice, borrowed for the call.
    let told = unsafe { sys::cauchy_source_density_at(list.as_ptr(), list.len(), point.into()) };
    Refusal::check(told.no).map(|()| told.value)
}

/// The integral of (1 + sigma² · |x − c|²)^−1 inside the mesh, m³.
///
/// ```
/// # let vertices = [[0.0, 0.0, 0.0], [6.0, 0.0, 0.0], [0.0, 6.0, 0.0], [0.0, 0.0, 6.0]];
/// # let faces = [[0, 2, 1], [0, 1, 3], [0, 3, 2], [1, 2, 3]];
/// let mesh = cauchy::Mesh { vertices: &vertices, faces: &faces };
/// assert!((cauchy::source::kernel_volume(mesh, [1.0; 3], 0.0)? - 36.0).abs() < 1e-9);
/// # Ok::<(), cauchy::Refusal>(())
/// ```
pub fn kernel_volume(mesh: Mesh<'_>, c: [f64; 3], sigma: f64) -> Result<f64, Refusal> {
    let (xyz, faces) = mesh.runs();
    // SAFETY: slices, borrowed for the call and only read.
    let told = unsafe {
        sys::cauchy_source_kernel_volume(
            xyz.as_ptr(),
            xyz.len(),
            faces.as_ptr(),
            faces.len(),
            c.into(),
            sigma,
        )
    };
    Refusal::check(told.no).map(|()| told.value)
}

/// The volume that the mesh encloses, without its sign, m³.
///
/// ```
/// # let vertices = [[0.0, 0.0, 0.0], [6.0, 0.0, 0.0], [0.0, 6.0, 0.0], [0.0, 0.0, 6.0]];
/// let inside_out = [[0, 1, 2], [0, 3, 1], [0, 2, 3], [1, 3, 2]];
/// let mesh = cauchy::Mesh { vertices: &vertices, faces: &inside_out };
/// assert!((cauchy::source::enclosed_volume(mesh)? - 36.0).abs() < 1e-9);
/// # Ok::<(), cauchy::Refusal>(())
/// ```
pub fn enclosed_volume(mesh: Mesh<'_>) -> Result<f64, Refusal> {
    let (xyz, faces) = mesh.runs();
    // SAFETY: slices, borrowed for the call and only read.
    let told =
        unsafe { sys::cauchy_source_enclosed_volume(xyz.as_ptr(), xyz.len(), faces.as_ptr(), faces.len()) };
    Refusal::check(told.no).map(|()| told.value)
}

/// The kernels rescaled to a target mass, kg, inside the mesh. All exponents are 1, or it is refused.
///
/// ```
/// # let vertices = [[0.0, 0.0, 0.0], [6.0, 0.0, 0.0], [0.0, 6.0, 0.0], [0.0, 0.0, 6.0]];
/// # let faces = [[0, 2, 1], [0, 1, 3], [0, 3, 2], [1, 2, 3]];
/// use cauchy::{Kernel, Mesh, Refusal, source};
///
/// let mesh = Mesh { vertices: &vertices, faces: &faces };
/// let kernel = Kernel { c: [1.0; 3], sigma: 0.0, w: 10.0, alpha: 1.0 };
/// let rescaled = source::normalize(mesh, &[kernel], 72000.0)?;
/// assert!((rescaled[0].w - 2000.0).abs() < 1e-9);
/// let steep = Kernel { alpha: 2.0, ..kernel };
/// assert_eq!(source::normalize(mesh, &[steep], 72000.0), Err(Refusal::Exponent));
/// # Ok::<(), cauchy::Refusal>(())
/// ```
pub fn normalize(mesh: Mesh<'_>, kernels: &[Kernel], target: f64) -> Result<Vec<Kernel>, Refusal> {
    written(mesh, kernels, |xyz, faces, list, out| unsafe {
        sys::cauchy_source_normalize(
            xyz.as_ptr(),
            xyz.len(),
            faces.as_ptr(),
            faces.len(),
            list.as_ptr(),
            list.len(),
            target,
            out.as_mut_ptr(),
            out.len(),
        )
    })
}

/// The kernels stretched with their mesh (by its farthest vertex over 528.5 m, where that is above 10 m) and
/// brought to its mass: the mean density, kg/m³, times its volume, or the total, kg, without a mean.
///
/// ```
/// # let vertices = [[0.0, 0.0, 0.0], [6.0, 0.0, 0.0], [0.0, 6.0, 0.0], [0.0, 0.0, 6.0]];
/// # let faces = [[0, 2, 1], [0, 1, 3], [0, 3, 2], [1, 2, 3]];
/// use cauchy::{Kernel, Mesh, source};
///
/// let mesh = Mesh { vertices: &vertices, faces: &faces };
/// let kernel = Kernel { c: [1.0; 3], sigma: 0.0, w: 10.0, alpha: 1.0 };
/// let by_mean = source::calibrate(mesh, &[kernel], 0.0, Some(1500.0))?;
/// assert!((by_mean[0].w - 1500.0).abs() < 1e-9);
/// let by_total = source::calibrate(mesh, &[kernel], 72000.0, None)?;
/// assert!((by_total[0].w - 2000.0).abs() < 1e-9);
/// # Ok::<(), cauchy::Refusal>(())
/// ```
pub fn calibrate(
    mesh: Mesh<'_>,
    kernels: &[Kernel],
    total: f64,
    mean: Option<f64>,
) -> Result<Vec<Kernel>, Refusal> {
    written(mesh, kernels, |xyz, faces, list, out| unsafe {
        sys::cauchy_source_calibrate(
            xyz.as_ptr(),
            xyz.len(),
            faces.as_ptr(),
            faces.len(),
            list.as_ptr(),
            list.len(),
            total,
            mean.unwrap_or(0.0),
            mean.is_some().into(),
            out.as_mut_ptr(),
            out.len(),
        )
    })
}

/// The kernels that a call writes. SAFETY of its callers: slices, borrowed for the call; the one that is written is new.
fn written(
    mesh: Mesh<'_>,
    kernels: &[Kernel],
    call: impl FnOnce(&[f64], &[u32], &[f64], &mut [f64]) -> sys::Kernels,
) -> Result<Vec<Kernel>, Refusal> {
    let (xyz, faces) = mesh.runs();
    let list = Kernel::flat(kernels);
    let mut out = vec![0.0; list.len()];
    let told = call(xyz, faces, &list, &mut out);
    Refusal::check(told.no).map(|()| Kernel::listed(&out, told.kernels as usize))
}
