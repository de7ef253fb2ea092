//! The archive's volumes, centroid, masses, densities and reports, and the source functions beside them. A mesh is a run of coordinates
//! and a run of corners, a list of kernels a run of six floats each; every call gives 01's number of a refusal or 0, then its values.

/// A point or a vector.
#[repr(C)]
#[derive(Clone, Copy, Debug)]
pub struct V3 {
    pub x: f64,
    pub y: f64,
    pub z: f64,
}

impl From<[f64; 3]> for V3 {
    #[inline]
    fn from([x, y, z]: [f64; 3]) -> V3 {
        V3 { x, y, z }
    }
}

#[repr(C)]
#[derive(Clone, Copy, Debug)]
pub struct Value {
    pub no: u32,
    pub value: f64,
}

#[repr(C)]
#[derive(Clone, Copy, Debug)]
pub struct Point {
    pub no: u32,
    pub at: V3,
}

/// The masses before and after a scale, and the volume, in the original's order.
#[repr(C)]
#[derive(Clone, Copy, Debug)]
pub struct MassReport {
    pub raw_mass: f64,
    pub rho0_scale: f64,
    pub rho0_mass: f64,
    pub applied_scale: f64,
    pub applied_mass: f64,
    pub target_mass: f64,
    pub volume: f64,
}

#[repr(C)]
#[derive(Clone, Copy, Debug)]
pub struct Report {
    pub no: u32,
    pub report: MassReport,
}

/// 01's number and how many kernels are written.
#[repr(C)]
#[derive(Clone, Copy, Debug)]
pub struct Kernels {
    pub no: u32,
    pub kernels: u64,
}

unsafe extern "C" {
    fn cauchy_kernel_volume(xyz: *const f64, n: usize, faces: *const u32, m: usize, c: V3, sigma: f64) -> Value;
    fn cauchy_body_volume(xyz: *const f64, n: usize, faces: *const u32, m: usize) -> Value;
    fn cauchy_volume_centroid(xyz: *const f64, n: usize, faces: *const u32, m: usize) -> Point;
    fn cauchy_field_mass(xyz: *const f64, n: usize, faces: *const u32, m: usize, kernels: *const f64, k: usize) -> Value;
    fn cauchy_densitize(kernels: *const f64, k: usize, point: V3) -> Value;
    fn cauchy_homogeneous(bulk: f64, xyz: *const f64, n: usize, faces: *const u32, m: usize) -> Report;
    fn cauchy_source_density_at(kernels: *const f64, k: usize, point: V3) -> Value;
    fn cauchy_source_kernel_volume(xyz: *const f64, n: usize, faces: *const u32, m: usize, c: V3, sigma: f64) -> Value;
    fn cauchy_source_enclosed_volume(xyz: *const f64, n: usize, faces: *const u32, m: usize) -> Value;
    fn cauchy_source_normalize(
        xyz: *const f64,
        n: usize,
        faces: *const u32,
        m: usize,
        kernels: *const f64,
        k: usize,
        target: f64,
        out: *mut f64,
        room: usize,
    ) -> Kernels;
    fn cauchy_source_calibrate(
        xyz: *const f64,
        n: usize,
        faces: *const u32,
        m: usize,
        kernels: *const f64,
        k: usize,
        total: f64,
        mean: f64,
        given: u32,
        out: *mut f64,
        room: usize,
    ) -> Kernels;
}

// SAFETY of all below: runs of these lengths, and no other holds the one that is written.

/// The volume of a kernel inside the mesh.
#[inline]
pub fn kernel_volume(xyz: &[f64], faces: &[u32], c: [f64; 3], sigma: f64) -> Value {
    unsafe { cauchy_kernel_volume(xyz.as_ptr(), xyz.len(), faces.as_ptr(), faces.len(), c.into(), sigma) }
}

/// The enclosed volume, signed.
#[inline]
pub fn body_volume(xyz: &[f64], faces: &[u32]) -> Value {
    unsafe { cauchy_body_volume(xyz.as_ptr(), xyz.len(), faces.as_ptr(), faces.len()) }
}

/// The centroid of the enclosed volume.
#[inline]
pub fn volume_centroid(xyz: &[f64], faces: &[u32]) -> Point {
    unsafe { cauchy_volume_centroid(xyz.as_ptr(), xyz.len(), faces.as_ptr(), faces.len()) }
}

/// The mass of a list of kernels inside the mesh.
#[inline]
pub fn field_mass(xyz: &[f64], faces: &[u32], kernels: &[f64]) -> Value {
    unsafe { cauchy_field_mass(xyz.as_ptr(), xyz.len(), faces.as_ptr(), faces.len(), kernels.as_ptr(), kernels.len()) }
}

/// The density of a list of kernels at a point.
#[inline]
pub fn densitize(kernels: &[f64], point: [f64; 3]) -> Value {
    unsafe { cauchy_densitize(kernels.as_ptr(), kernels.len(), point.into()) }
}

/// The report of a body of one density.
#[inline]
pub fn homogeneous(bulk: f64, xyz: &[f64], faces: &[u32]) -> Report {
    unsafe { cauchy_homogeneous(bulk, xyz.as_ptr(), xyz.len(), faces.as_ptr(), faces.len()) }
}

/// Source's density of a list of kernels at a point.
#[inline]
pub fn source_density_at(kernels: &[f64], point: [f64; 3]) -> Value {
    unsafe { cauchy_source_density_at(kernels.as_ptr(), kernels.len(), point.into()) }
}

/// Source's volume of a kernel inside the mesh.
#[inline]
pub fn source_kernel_volume(xyz: &[f64], faces: &[u32], c: [f64; 3], sigma: f64) -> Value {
    unsafe { cauchy_source_kernel_volume(xyz.as_ptr(), xyz.len(), faces.as_ptr(), faces.len(), c.into(), sigma) }
}

/// Source's enclosed volume, without its sign.
#[inline]
pub fn source_enclosed_volume(xyz: &[f64], faces: &[u32]) -> Value {
    unsafe { cauchy_source_enclosed_volume(xyz.as_ptr(), xyz.len(), faces.as_ptr(), faces.len()) }
}

/// Source's kernels of a target mass.
#[inline]
pub fn source_normalize(xyz: &[f64], faces: &[u32], kernels: &[f64], target: f64, out: &mut [f64]) -> Kernels {
    let (n, m, k, room) = (xyz.len(), faces.len(), kernels.len(), out.len());
    unsafe { cauchy_source_normalize(xyz.as_ptr(), n, faces.as_ptr(), m, kernels.as_ptr(), k, target, out.as_mut_ptr(), room) }
}

/// Source's kernels stretched with their mesh; with `given` 0 there is no mean density.
#[inline]
pub fn source_calibrate(xyz: &[f64], faces: &[u32], kernels: &[f64], total: f64, mean: f64, given: u32, out: &mut [f64]) -> Kernels {
    let (n, m, k, room) = (xyz.len(), faces.len(), kernels.len(), out.len());
    unsafe { cauchy_source_calibrate(xyz.as_ptr(), n, faces.as_ptr(), m, kernels.as_ptr(), k, total, mean, given, out.as_mut_ptr(), room) }
}
