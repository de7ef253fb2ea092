//! The archive's calls on a store. A store is two lent runs, floats and words.
use crate::pieces::{Fit, Kernel};

/// What an opening and a carry answer: 01's number of a refusal or 0, vertices, faces.
#[repr(C)]
#[derive(Clone, Copy, Debug, PartialEq, Eq)]
pub struct Opened {
    pub no: u32,
    pub verts: u32,
    pub faces: u32,
}

/// What a put answers: a number, pieces, the steps that they need, how their fit ended.
#[repr(C)]
#[derive(Clone, Copy, Debug)]
pub struct Placed {
    pub no: u32,
    pub pieces: u32,
    pub need: u32,
    pub fit: Fit,
}

/// What an advance answers: a number, steps done, steps left.
#[repr(C)]
#[derive(Clone, Copy, Debug, PartialEq, Eq)]
pub struct Steps {
    pub no: u32,
    pub done: u64,
    pub left: u64,
}

/// What a squeeze answers: a number, coordinates freed.
#[repr(C)]
#[derive(Clone, Copy, Debug, PartialEq, Eq)]
pub struct Squeezed {
    pub no: u32,
    pub freed: u32,
}

/// What an adoption answers: a number, whether the bodies are the same, the pieces of the place that came across, the steps that it has left.
#[repr(C)]
#[derive(Clone, Copy, Debug, PartialEq, Eq)]
pub struct Adopted {
    pub no: u32,
    pub same_body: u32,
    pub pieces: u32,
    pub left: u64,
}

unsafe extern "C" {
    fn cauchy_store_open(
        floats: *mut f64,
        floats_len: usize,
        words: *mut u32,
        words_len: usize,
        radius: f64,
        xyz: *const f64,
        xyz_len: usize,
        faces: *const u32,
        faces_len: usize,
    ) -> Opened;
    fn cauchy_store_carry(
        old_floats: *const f64,
        old_floats_len: usize,
        old_words: *const u32,
        old_words_len: usize,
        floats: *mut f64,
        floats_len: usize,
        words: *mut u32,
        words_len: usize,
    ) -> Opened;
    fn cauchy_store_put(
        floats: *mut f64,
        floats_len: usize,
        words: *mut u32,
        words_len: usize,
        place: u32,
        k: Kernel,
        layer: u32,
    ) -> Placed;
    fn cauchy_store_clear(floats: *mut f64, floats_len: usize, words: *mut u32, words_len: usize, place: u32) -> u32;
    fn cauchy_store_reweigh(floats: *mut f64, floats_len: usize, words: *mut u32, words_len: usize, place: u32, w: f64) -> u32;
    fn cauchy_store_advance(floats: *mut f64, floats_len: usize, words: *mut u32, words_len: usize, budget: u64) -> Steps;
    fn cauchy_store_adopt(
        floats: *mut f64,
        floats_len: usize,
        words: *mut u32,
        words_len: usize,
        place: u32,
        other_floats: *const f64,
        other_floats_len: usize,
        other_words: *const u32,
        other_words_len: usize,
        other_place: u32,
    ) -> Adopted;
    fn cauchy_store_squeeze(floats: *mut f64, floats_len: usize, words: *mut u32, words_len: usize) -> Squeezed;
}

// SAFETY, of every call below: runs of these lengths, and no other holds one that is written.

pub fn open(floats: &mut [f64], words: &mut [u32], radius: f64, xyz: &[f64], faces: &[u32]) -> Opened {
    let (f, w) = (floats.as_mut_ptr(), words.as_mut_ptr());
    unsafe { cauchy_store_open(f, floats.len(), w, words.len(), radius, xyz.as_ptr(), xyz.len(), faces.as_ptr(), faces.len()) }
}

pub fn carry(old_floats: &[f64], old_words: &[u32], floats: &mut [f64], words: &mut [u32]) -> Opened {
    let (old_f, old_w) = (old_floats.as_ptr(), old_words.as_ptr());
    let (f, w) = (floats.as_mut_ptr(), words.as_mut_ptr());
    unsafe { cauchy_store_carry(old_f, old_floats.len(), old_w, old_words.len(), f, floats.len(), w, words.len()) }
}

pub fn put(floats: &mut [f64], words: &mut [u32], place: u32, k: Kernel, layer: u32) -> Placed {
    unsafe { cauchy_store_put(floats.as_mut_ptr(), floats.len(), words.as_mut_ptr(), words.len(), place, k, layer) }
}

pub fn clear(floats: &mut [f64], words: &mut [u32], place: u32) -> u32 {
    unsafe { cauchy_store_clear(floats.as_mut_ptr(), floats.len(), words.as_mut_ptr(), words.len(), place) }
}

pub fn reweigh(floats: &mut [f64], words: &mut [u32], place: u32, w: f64) -> u32 {
    unsafe { cauchy_store_reweigh(floats.as_mut_ptr(), floats.len(), words.as_mut_ptr(), words.len(), place, w) }
}

pub fn advance(floats: &mut [f64], words: &mut [u32], budget: u64) -> Steps {
    unsafe { cauchy_store_advance(floats.as_mut_ptr(), floats.len(), words.as_mut_ptr(), words.len(), budget) }
}

/// A store is its floats and its words.
pub fn adopt(floats: &mut [f64], words: &mut [u32], place: u32, other: (&[f64], &[u32]), other_place: u32) -> Adopted {
    let ((f, w), (g, u)) = ((floats.as_mut_ptr(), words.as_mut_ptr()), (other.0.as_ptr(), other.1.as_ptr()));
    unsafe { cauchy_store_adopt(f, floats.len(), w, words.len(), place, g, other.0.len(), u, other.1.len(), other_place) }
}

pub fn squeeze(floats: &mut [f64], words: &mut [u32]) -> Squeezed {
    unsafe { cauchy_store_squeeze(floats.as_mut_ptr(), floats.len(), words.as_mut_ptr(), words.len()) }
}

pub use reading::{density, finished, list, page, report, track};

/// The readings.
mod reading {
    use crate::conventions::{Convention, Report};

    #[repr(C)]
    #[derive(Clone, Copy)]
    struct Point {
        x: f64,
        y: f64,
        z: f64,
    }

    #[repr(C)]
    struct Value {
        no: u32,
        value: f64,
    }

    #[repr(C)]
    struct StoreReport {
        no: u32,
        report: [f64; 7],
        kernels: u32,
        pieces: u32,
        error: f64,
    }

    #[repr(C)]
    struct Finished {
        no: u32,
        report: [f64; 7],
        kernels: u32,
        pieces: u32,
        error: f64,
        passed_over: u32,
    }

    #[repr(C)]
    struct Listed {
        no: u32,
        pieces: u32,
    }

    #[repr(C)]
    struct Tracked {
        no: u32,
        points: u32,
    }

    #[repr(C)]
    struct Bytes {
        no: u32,
        bytes: u64,
    }

    unsafe extern "C" {
        fn cauchy_store_density(f: *const f64, f_len: usize, w: *const u32, w_len: usize, by: Convention, layers: u32, at: Point) -> Value;
        fn cauchy_store_report(f: *const f64, f_len: usize, w: *const u32, w_len: usize, by: Convention, layers: u32) -> StoreReport;
        fn cauchy_store_finished(f: *const f64, f_len: usize, w: *const u32, w_len: usize, by: Convention, layers: u32) -> Finished;
        fn cauchy_store_list(
            f: *const f64,
            f_len: usize,
            w: *const u32,
            w_len: usize,
            by: Convention,
            layers: u32,
            out: *mut f64,
            out_len: usize,
        ) -> Listed;
        fn cauchy_store_track(
            f: *const f64,
            f_len: usize,
            w: *const u32,
            w_len: usize,
            by: Convention,
            layers: u32,
            points: *const f64,
            points_len: usize,
            out: *mut f64,
            out_len: usize,
        ) -> Tracked;
        fn cauchy_store_page(f: *const f64, f_len: usize, w: *const u32, w_len: usize, page: *mut u8, page_len: usize) -> Bytes;
    }

    /// A number, and the density where it is 0.
    pub fn density(floats: &[f64], words: &[u32], by: Convention, layers: u32, [x, y, z]: [f64; 3]) -> (u32, f64) {
        let told =
            unsafe { cauchy_store_density(floats.as_ptr(), floats.len(), words.as_ptr(), words.len(), by, layers, Point { x, y, z }) };
        (told.no, told.value)
    }

    pub fn report(floats: &[f64], words: &[u32], by: Convention, layers: u32) -> (u32, Report) {
        let told = unsafe { cauchy_store_report(floats.as_ptr(), floats.len(), words.as_ptr(), words.len(), by, layers) };
        (told.no, Report { mass: told.report, kernels: told.kernels, pieces: told.pieces, error: told.error })
    }

    /// A number, the report, and the places passed over.
    pub fn finished(floats: &[f64], words: &[u32], by: Convention, layers: u32) -> (u32, Report, u32) {
        let told = unsafe { cauchy_store_finished(floats.as_ptr(), floats.len(), words.as_ptr(), words.len(), by, layers) };
        let report = Report { mass: told.report, kernels: told.kernels, pieces: told.pieces, error: told.error };
        (told.no, report, told.passed_over)
    }

    /// A number, and the count of pieces.
    pub fn list(floats: &[f64], words: &[u32], by: Convention, layers: u32, out: &mut [f64]) -> (u32, u32) {
        let (f, w) = (floats.as_ptr(), words.as_ptr());
        let told = unsafe { cauchy_store_list(f, floats.len(), w, words.len(), by, layers, out.as_mut_ptr(), out.len()) };
        (told.no, told.pieces)
    }

    /// A number, and the count of points.
    pub fn track(floats: &[f64], words: &[u32], by: Convention, layers: u32, points: &[f64], out: &mut [f64]) -> (u32, u32) {
        let (f, w, at, to) = (floats.as_ptr(), words.as_ptr(), points.as_ptr(), out.as_mut_ptr());
        let told = unsafe { cauchy_store_track(f, floats.len(), w, words.len(), by, layers, at, points.len(), to, out.len()) };
        (told.no, told.points)
    }

    /// A number, and the count of bytes.
    pub fn page(floats: &[f64], words: &[u32], page: &mut [u8]) -> (u32, u64) {
        let (f, w) = (floats.as_ptr(), words.as_ptr());
        let told = unsafe { cauchy_store_page(f, floats.len(), w, words.len(), page.as_mut_ptr(), page.len()) };
        (told.no, told.bytes)
    }
}
