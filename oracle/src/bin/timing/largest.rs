//! The largest store: the soundness check that every call makes reads each corner once, an opening copies and reads the mesh, and so does
//! a carry from the form before layers.
use crate::lent::{Lent, RADIUS};
use crate::table::{Row, Timings, Way};
use oracle::machine::{CORNERS, FACES, OLD_RECORD, VERTS, corners as corners_from};
use oracle::store;
use std::cell::RefCell;
use std::rc::Rc;

pub fn rows(timings: &mut Timings) {
    let xyz = Rc::new(vec![0.5; 3 * VERTS]);
    let corners: Rc<Vec<u32>> = Rc::new((0..3 * FACES).map(|i| (i * 7 % VERTS) as u32).collect());
    let lent = Rc::new(RefCell::new(Lent::open(&xyz, &corners)));
    let [of_advance, of_clear, of_open, of_carry] = [(); 4].map(|()| lent.clone());
    let [of_max, of_wide] = [(); 2].map(|()| lent.clone());
    let most = timings.way(Way::new(1, move || greatest(&of_max.borrow().words[CORNERS..])));
    let wide = timings.way(Way::new(1, move || greatest_wide(&of_wide.borrow().words[CORNERS..])));
    let advance = timings.way(Way::new(1, move || of_advance.borrow_mut().advance(0)));
    let clear = timings.way(Way::new(1, move || {
        let Lent { floats, words } = &mut *of_clear.borrow_mut();
        assert_eq!(store::clear(floats, words, 5), 7);
    }));
    let copy = timings.way(copy(&lent, &xyz, &corners));
    let open = timings.way(Way::new(1, move || {
        let Lent { floats, words } = &mut *of_open.borrow_mut();
        assert_eq!(store::open(floats, words, RADIUS, &xyz, &corners).no, 0);
    }));
    let old = before_layers(&lent.borrow());
    let carry = timings.way(Way::new(1, move || {
        let Lent { floats, words } = &mut *of_carry.borrow_mut();
        assert_eq!(store::carry(&old.floats, &old.words, floats, words).no, 0);
    }));
    timings.row(Row::new("the check: an advance of 0, largest mesh, against a plain max", advance).platform(most).within(1.2));
    timings.row(Row::new("the check: a refused clear, largest mesh, against a plain max", clear).platform(most).within(1.2));
    timings.row(Row::new("the check: an advance of 0, largest mesh, against a max by AVX2", advance).platform(wide));
    timings.row(Row::new("open, largest mesh, against a plain max and copy", open).platform(copy));
    timings.row(Row::new("carry, largest mesh, against a plain max and copy", carry).platform(copy));
}

/// An empty store in the form before layers.
fn before_layers(lent: &Lent) -> Lent {
    let places = vec![0; corners_from(OLD_RECORD) - 2];
    Lent { floats: lent.floats.clone(), words: [&lent.words[..2], &places, &lent.words[CORNERS..]].concat() }
}

/// Built as the archive is: for SSE2, which has no instruction for it.
#[inline(never)]
fn greatest(words: &[u32]) -> Option<u32> {
    words.iter().copied().max()
}

/// The same where the processor may use wider instructions: then the memory alone decides.
fn greatest_wide(words: &[u32]) -> Option<u32> {
    #[target_feature(enable = "avx2")]
    fn wide(words: &[u32]) -> Option<u32> {
        words.iter().copied().max()
    }
    if std::arch::is_x86_feature_detected!("avx2") {
        // SAFETY: the processor has them.
        unsafe { wide(words) }
    } else {
        greatest(words)
    }
}

/// What an opening cannot do without.
fn copy(lent: &Rc<RefCell<Lent>>, xyz: &Rc<Vec<f64>>, corners: &Rc<Vec<u32>>) -> Way {
    let (lent, xyz, corners) = (lent.clone(), xyz.clone(), corners.clone());
    Way::new(1, move || {
        let Lent { floats, words } = &mut *lent.borrow_mut();
        assert!(greatest(&corners).is_some_and(|most| (most as usize) < VERTS));
        floats[1_761..].copy_from_slice(&xyz);
        words[CORNERS..].copy_from_slice(&corners);
    })
}
