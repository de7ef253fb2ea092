//! An adoption on the largest body: both stores are checked and their meshes compared in full, beside a memcmp of the two meshes.
use crate::lent::Lent;
use crate::table::{Row, Timings, Way};
use oracle::machine::{CORNERS, FACES, VERTS};
use oracle::pieces::Kernel;
use oracle::store;
use std::cell::RefCell;
use std::ffi::c_void;
use std::rc::Rc;

pub fn rows(timings: &mut Timings) {
    let xyz: Vec<f64> = (0..3 * VERTS).map(|i| i as f64).collect();
    let corners: Vec<u32> = (0..3 * FACES).map(|i| (i * 7 % VERTS) as u32).collect();
    let [own, other] = [(); 2].map(|()| Rc::new(RefCell::new(Lent::open(&xyz, &corners))));
    let kernel = Kernel { c: [1.0, 2.0, 3.0], sigma: 0.004, w: 1190.0, alpha: 2.0 };
    other.borrow_mut().put(31, kernel);
    let (of_own, of_other) = (own.clone(), other.clone());
    let ours = timings.way(Way::new(1, move || {
        let (Lent { floats, words }, other) = (&mut *of_own.borrow_mut(), of_other.borrow());
        let told = store::adopt(floats, words, 3, (&other.floats, &other.words), 31);
        assert_eq!((told.no, told.same_body, told.pieces), (0, 1, 13));
    }));
    let plain = timings.way(Way::new(1, move || assert!(alike(&own.borrow(), &other.borrow()))));
    timings.row(Row::new("adopt, largest mesh, against a memcmp of the two meshes", ours).platform(plain).within(2.5));
}

/// Whether two stores have the same coordinates and corners, by the C library.
#[inline(never)]
fn alike(a: &Lent, b: &Lent) -> bool {
    unsafe extern "C" {
        fn memcmp(a: *const c_void, b: *const c_void, bytes: usize) -> i32;
    }
    let (xyz, other_xyz) = (&a.floats[1_761..], &b.floats[1_761..]);
    let (corners, other_corners) = (&a.words[CORNERS..], &b.words[CORNERS..]);
    assert_eq!((xyz.len(), corners.len()), (other_xyz.len(), other_corners.len()));
    // SAFETY: slices of so many bytes, each pair of one length.
    unsafe {
        memcmp(xyz.as_ptr().cast(), other_xyz.as_ptr().cast(), size_of_val(xyz)) == 0
            && memcmp(corners.as_ptr().cast(), other_corners.as_ptr().cast(), size_of_val(corners)) == 0
    }
}
