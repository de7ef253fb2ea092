//! A squeeze of the largest store, a third of whose vertices no face uses, beside the same on plain vectors. The store is filled anew
//! before each time.
use crate::lent::Lent;
use crate::table::{Row, Timings, Way};
use oracle::machine::{CORNERS, FACES, VERTS};
use oracle::{pattern, store};
use std::cell::RefCell;
use std::rc::Rc;

/// The vertices that faces use: of each three the first two.
const USED: usize = VERTS.div_ceil(3) + VERTS / 3;

pub fn rows(timings: &mut Timings) {
    let xyz: Rc<Vec<f64>> = Rc::new((0..3 * VERTS).map(|i| i as f64).collect());
    let corners: Rc<Vec<u32>> = Rc::new((0..FACES).flat_map(face).collect());
    let lent = Rc::new(RefCell::new(Lent::open(&xyz, &corners)));
    let of_plain = Rc::new(RefCell::new((xyz.to_vec(), corners.to_vec())));
    let (of_ours, again) = (lent.clone(), of_plain.clone());
    let ours = move || {
        let Lent { floats, words } = &mut *of_ours.borrow_mut();
        assert_eq!(store::squeeze(floats, words), store::Squeezed { no: 0, freed: 3 * (VERTS - USED) as u32 });
    };
    let plain = move || {
        let (xyz, corners) = &mut *of_plain.borrow_mut();
        assert_eq!(squeeze(xyz, corners), USED);
    };
    ours();
    plain();
    assert!(alike(&lent.borrow(), &again.borrow()), "squeeze");
    let ours = Way::new(1, ours).after(refilled(&lent, &xyz, &corners)).seldom(true);
    let refill = move || {
        let (to_xyz, to_corners) = &mut *again.borrow_mut();
        to_xyz.copy_from_slice(&xyz);
        to_corners.copy_from_slice(&corners);
    };
    let plain = Way::new(1, plain).after(refill).seldom(true);
    let [ours, plain] = [ours, plain].map(|way| timings.way(way));
    timings.row(Row::new("squeeze, largest mesh, a third unused, against a heap of bits", ours).platform(plain).within(3.0));
}

/// A face's corners, in an order that a mesh has: two near each other, and one in the next row of a thousand.
fn face(i: usize) -> [u32; 3] {
    let at = i * USED / FACES;
    [at, (at + 1) % USED, (at + 1_000) % USED].map(|k| (3 * (k / 2) + k % 2) as u32)
}

/// As the archive does it, with as many bits as there are vertices from the heap and no check of a store.
#[inline(never)]
fn squeeze(xyz: &mut [f64], corners: &mut [u32]) -> usize {
    let verts = xyz.len() / 3;
    let mut used = vec![0u64; verts.div_ceil(64)];
    corners.iter().for_each(|i| used[*i as usize / 64] |= 1 << (i % 64));
    let mut before = Vec::with_capacity(used.len());
    let mut kept = 0;
    for word in &used {
        before.push(kept as u32);
        kept += word.count_ones() as usize;
    }
    for i in corners.iter_mut() {
        let (word, bit) = (*i as usize / 64, *i % 64);
        *i = before[word] + (used[word] & ((1 << bit) - 1)).count_ones();
    }
    for (to, i) in (0..verts).filter(|i| used[i / 64] >> (i % 64) & 1 == 1).enumerate() {
        xyz.copy_within(3 * i..3 * i + 3, 3 * to);
    }
    xyz[3 * kept..].fill(0.0);
    kept
}

/// The store's mesh and the vectors, word for word.
fn alike(lent: &Lent, (xyz, corners): &(Vec<f64>, Vec<u32>)) -> bool {
    lent.words[CORNERS..] == corners[..] && lent.floats[1_761..].iter().zip(xyz).all(|(x, y)| pattern(*x) == pattern(*y))
}

/// The mesh as it was, in a store without kernels.
fn refilled(lent: &Rc<RefCell<Lent>>, xyz: &Rc<Vec<f64>>, corners: &Rc<Vec<u32>>) -> impl FnMut() + 'static {
    let (lent, xyz, corners) = (lent.clone(), xyz.clone(), corners.clone());
    move || {
        let Lent { floats, words } = &mut *lent.borrow_mut();
        floats[1_761..].copy_from_slice(&xyz);
        words[CORNERS..].copy_from_slice(&corners);
        words[0] = VERTS as u32;
    }
}
