//! A file of kernels, per line, beside a plain way: one pass that reads a line at a time and puts its kernel at the end of a vector on the
//! heap. Both loaders agree on the file, so that the strict form takes it too.
use crate::table::{Row, Timings, Way};
use oracle::convert::{NATIVE, SOURCE, STRICT, convert, equal, line, read_line};
use oracle::inputs::Rng;
use oracle::original::native::CauchyKernel;
use std::hint::black_box;
use std::rc::Rc;

const LINES: usize = 100_000;
const DEFAULT: f64 = 1.5;

pub fn rows(timings: &mut Timings) {
    let lines = Rc::new(lines());
    for (name, loader) in [("native", NATIVE), ("source", SOURCE), ("strict", STRICT)] {
        let (of_ours, of_plain) = (lines.clone(), lines.clone());
        let mut out = vec![0.0; 6 * LINES];
        let ours = move |out: &mut [f64]| assert_eq!(convert(black_box(&of_ours), DEFAULT, loader, out), (0, LINES as u64));
        ours(&mut out);
        assert!(equal(&out, &plain(&lines, DEFAULT, loader).expect("lines")), "convert");
        let ours = timings.way(Way::new(LINES, move || ours(black_box(&mut out))).seldom(true));
        let plain = timings.way(Way::new(LINES, move || plain(black_box(&of_plain), DEFAULT, loader)).seldom(true));
        let row = Row::new(format!("convert, {name}, a line of 100,000, against one pass into a heap vector"), ours);
        timings.row(row.platform(plain).within(1.0));
    }
}

/// Some 13 MB, an exponent in four missing.
fn lines() -> Vec<u8> {
    let mut r = Rng(1);
    let kernel = |r: &mut Rng| CauchyKernel {
        c: [(); 3].map(|()| r.within(-0.5, 0.5)),
        sigma: r.within(1.0, 9.0),
        w: r.within(-500.0, 2000.0),
        alpha: if r.below(4) == 0 { None } else { Some(r.within(0.5, 4.0)) },
    };
    (0..LINES).flat_map(|_| line(&kernel(&mut r)).into_bytes()).collect()
}

/// Six floats a line; none where a line is not of the form, or the strict form finds kernels that differ.
#[inline(never)]
fn plain(lines: &[u8], default: f64, loader: u32) -> Option<Vec<f64>> {
    let mut kernels = Vec::new();
    for line in lines.split_inclusive(|b| *b == b'\n') {
        let CauchyKernel { c: [x, y, z], sigma, w, alpha } = read_line(line)?;
        let (by_native, by_source) = (alpha.filter(|a| *a > 0.0).unwrap_or(default), alpha.unwrap_or(default));
        if loader == STRICT && !equal(&[by_native], &[by_source]) {
            return None;
        }
        let alpha = if loader == SOURCE { by_source } else { by_native };
        kernels.extend([x * 1000.0, y * 1000.0, z * 1000.0, sigma / 1000.0, w, alpha]);
    }
    Some(kernels)
}
