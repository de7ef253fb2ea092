//! The functions of `include/cauchy.h`. The types that the crate shows to its users are laid out as in C, so
//! they cross as they are; what only an answer needs is here.
use crate::{Kernel, MassReport};

#[repr(C)]
#[derive(Clone, Copy)]
pub struct Vector {
    pub x: f64,
    pub y: f64,
    pub z: f64,
}

impl From<[f64; 3]> for Vector {
    fn from([x, y, z]: [f64; 3]) -> Vector {
        Vector { x, y, z }
    }
}

#[repr(C)]
pub struct FileKernel {
    pub c: [f64; 3],
    pub sigma: f64,
    pub w: f64,
    pub alpha: f64,
    pub given: u32,
}

#[repr(C)]
pub struct Convention {
    pub kind: u32,
    pub target: f64,
    pub bulk: f64,
}

#[repr(C)]
pub struct Opened {
    pub no: u32,
    pub verts: u32,
    pub faces: u32,
}

#[repr(C)]
pub struct Fit {
    pub kind: u32,
    pub column: u32,
    pub pivot: f64,
}

#[repr(C)]
pub struct Placed {
    pub no: u32,
    pub pieces: u32,
    pub need: u32,
    pub fit: Fit,
}

#[repr(C)]
pub struct Squeezed {
    pub no: u32,
    pub freed: u32,
}

#[repr(C)]
pub struct Steps {
    pub no: u32,
    pub done: u64,
    pub left: u64,
}

#[repr(C)]
pub struct Adopted {
    pub no: u32,
    pub same_body: u32,
    pub pieces: u32,
    pub left: u64,
}

#[repr(C)]
pub struct Value {
    pub no: u32,
    pub value: f64,
}

#[repr(C)]
pub struct Point {
    pub no: u32,
    pub at: Vector,
}

#[repr(C)]
pub struct Report {
    pub no: u32,
    pub report: MassReport,
}

#[repr(C)]
pub struct StoreReport {
    pub no: u32,
    pub report: MassReport,
    pub kernels: u32,
    pub pieces: u32,
    pub error: f64,
}

#[repr(C)]
pub struct Finished {
    pub no: u32,
    pub report: MassReport,
    pub kernels: u32,
    pub pieces: u32,
    pub error: f64,
    pub passed_over: u32,
}

#[repr(C)]
pub struct Listed {
    pub no: u32,
    pub pieces: u32,
}

#[repr(C)]
pub struct Track {
    pub no: u32,
    pub points: u32,
}

#[repr(C)]
pub struct Bytes {
    pub no: u32,
    pub bytes: u64,
}

#[repr(C)]
pub struct Loaded {
    pub no: u32,
    pub verts: u32,
    pub faces: u32,
    pub puts: u64,
}

#[repr(C)]
pub struct Kernels {
    pub no: u32,
    pub kernels: u64,
}

#[repr(C)]
pub struct Pieces {
    pub no: u32,
    pub pieces: u64,
    pub error: f64,
    pub fit: Fit,
}

#[repr(C)]
pub struct ListPieces {
    pub no: u32,
    pub kernels: u64,
    pub pieces: u64,
    pub error: f64,
}

#[repr(C)]
pub struct Solved {
    pub no: u32,
    pub column: u32,
    pub pivot: f64,
}

#[repr(C)]
pub struct Bill {
    pub no: u32,
    pub steps: u64,
    pub floats: u64,
}

// Each run is a pointer and a count of elements. The functions end and stay within their runs for all
// lengths and contents, so a call is sound where its slices are: Rust's references are aligned,
// initialised and, where they are written, unshared.
unsafe extern "C" {
    pub fn cauchy_store_open(
        floats: *mut f64,
        n_floats: usize,
        words: *mut u32,
        n_words: usize,
        radius: f64,
        xyz: *const f64,
        n_xyz: usize,
        faces: *const u32,
        n_faces: usize,
    ) -> Opened;
    pub fn cauchy_store_carry(
        old_floats: *const f64,
        n_old_floats: usize,
        old_words: *const u32,
        n_old_words: usize,
        floats: *mut f64,
        n_floats: usize,
        words: *mut u32,
        n_words: usize,
    ) -> Opened;
    pub fn cauchy_store_put(
        floats: *mut f64,
        n_floats: usize,
        words: *mut u32,
        n_words: usize,
        place: u32,
        kernel: Kernel,
        layer: u32,
    ) -> Placed;
    pub fn cauchy_store_clear(
        floats: *mut f64,
        n_floats: usize,
        words: *mut u32,
        n_words: usize,
        place: u32,
    ) -> u32;
    pub fn cauchy_store_reweigh(
        floats: *mut f64,
        n_floats: usize,
        words: *mut u32,
        n_words: usize,
        place: u32,
        w: f64,
    ) -> u32;
    pub fn cauchy_store_squeeze(
        floats: *mut f64,
        n_floats: usize,
        words: *mut u32,
        n_words: usize,
    ) -> Squeezed;
    pub fn cauchy_store_advance(
        floats: *mut f64,
        n_floats: usize,
        words: *mut u32,
        n_words: usize,
        budget: u64,
    ) -> Steps;
    pub fn cauchy_store_adopt(
        floats: *mut f64,
        n_floats: usize,
        words: *mut u32,
        n_words: usize,
        place: u32,
        other_floats: *const f64,
        n_other_floats: usize,
        other_words: *const u32,
        n_other_words: usize,
        other_place: u32,
    ) -> Adopted;
    pub fn cauchy_store_density(
        floats: *const f64,
        n_floats: usize,
        words: *const u32,
        n_words: usize,
        convention: Convention,
        layers: u32,
        point: Vector,
    ) -> Value;
    pub fn cauchy_store_report(
        floats: *const f64,
        n_floats: usize,
        words: *const u32,
        n_words: usize,
        convention: Convention,
        layers: u32,
    ) -> StoreReport;
    pub fn cauchy_store_finished(
        floats: *const f64,
        n_floats: usize,
        words: *const u32,
        n_words: usize,
        convention: Convention,
        layers: u32,
    ) -> Finished;
    pub fn cauchy_store_list(
        floats: *const f64,
        n_floats: usize,
        words: *const u32,
        n_words: usize,
        convention: Convention,
        layers: u32,
        out: *mut f64,
        n_out: usize,
    ) -> Listed;
    pub fn cauchy_store_track(
        floats: *const f64,
        n_floats: usize,
        words: *const u32,
        n_words: usize,
        convention: Convention,
        layers: u32,
        points: *const f64,
        n_points: usize,
        out: *mut f64,
        n_out: usize,
    ) -> Track;
    pub fn cauchy_store_page(
        floats: *const f64,
        n_floats: usize,
        words: *const u32,
        n_words: usize,
        page: *mut u8,
        n_page: usize,
    ) -> Bytes;
    pub fn cauchy_store_write(
        floats: *const f64,
        n_floats: usize,
        words: *const u32,
        n_words: usize,
        bytes: *mut u8,
        n_bytes: usize,
    ) -> Bytes;
    pub fn cauchy_store_read(
        floats: *mut f64,
        n_floats: usize,
        words: *mut u32,
        n_words: usize,
        bytes: *const u8,
        n_bytes: usize,
    ) -> Loaded;

    pub safe fn cauchy_kernel_from_file(kernel: FileKernel, default_alpha: f64) -> Kernel;
    pub fn cauchy_convert(
        lines: *const u8,
        n_lines: usize,
        default_alpha: f64,
        loader: u32,
        out: *mut f64,
        n_out: usize,
    ) -> Kernels;
    pub fn cauchy_decompose(kernel: Kernel, radius: f64, out: *mut f64, n_out: usize) -> Pieces;
    pub fn cauchy_decompose_list(
        kernels: *const f64,
        n_kernels: usize,
        radius: f64,
        out: *mut f64,
        n_out: usize,
    ) -> ListPieces;
    pub fn cauchy_bill(kernels: *const f64, n_kernels: usize, verts: u32, faces: u32) -> Bill;
    pub fn cauchy_densitize(kernels: *const f64, n_kernels: usize, point: Vector) -> Value;
    pub fn cauchy_solve(
        n: usize,
        cells: *const f64,
        n_cells: usize,
        answer: *mut f64,
        n_answer: usize,
    ) -> Solved;

    pub fn cauchy_closed(xyz: *const f64, n_xyz: usize, faces: *const u32, n_faces: usize) -> u32;
    pub fn cauchy_kernel_volume(
        xyz: *const f64,
        n_xyz: usize,
        faces: *const u32,
        n_faces: usize,
        c: Vector,
        sigma: f64,
    ) -> Value;
    pub fn cauchy_body_volume(xyz: *const f64, n_xyz: usize, faces: *const u32, n_faces: usize) -> Value;
    pub fn cauchy_volume_centroid(xyz: *const f64, n_xyz: usize, faces: *const u32, n_faces: usize) -> Point;
    pub fn cauchy_field_mass(
        xyz: *const f64,
        n_xyz: usize,
        faces: *const u32,
        n_faces: usize,
        kernels: *const f64,
        n_kernels: usize,
    ) -> Value;
    pub fn cauchy_homogeneous(
        bulk: f64,
        xyz: *const f64,
        n_xyz: usize,
        faces: *const u32,
        n_faces: usize,
    ) -> Report;

    pub fn cauchy_source_density_at(kernels: *const f64, n_kernels: usize, point: Vector) -> Value;
    pub fn cauchy_source_kernel_volume(
        xyz: *const f64,
        n_xyz: usize,
        faces: *const u32,
        n_faces: usize,
        c: Vector,
        sigma: f64,
    ) -> Value;
    pub fn cauchy_source_enclosed_volume(
        xyz: *const f64,
        n_xyz: usize,
        faces: *const u32,
        n_faces: usize,
    ) -> Value;
    pub fn cauchy_source_normalize(
        xyz: *const f64,
        n_xyz: usize,
        faces: *const u32,
        n_faces: usize,
        kernels: *const f64,
        n_kernels: usize,
        target: f64,
        out: *mut f64,
        n_out: usize,
    ) -> Kernels;
    pub fn cauchy_source_calibrate(
        xyz: *const f64,
        n_xyz: usize,
        faces: *const u32,
        n_faces: usize,
        kernels: *const f64,
        n_kernels: usize,
        total: f64,
        mean: f64,
        given: u32,
        out: *mut f64,
        n_out: usize,
    ) -> Kernels;

    pub safe fn cauchy_root(x: f64) -> f64;
    pub safe fn cauchy_arc(t: f64) -> f64;
    pub safe fn cauchy_log(b: f64) -> f64;
    pub safe fn cauchy_exp(y: f64) -> f64;
    pub safe fn cauchy_power(b: f64, y: f64) -> f64;
    pub safe fn cauchy_ten(y: f64) -> f64;
    pub safe fn cauchy_log10(b: f64) -> f64;
    pub safe fn cauchy_radial_g(t: f64) -> f64;
}
