//! Lines written out, with what 02 asks of each loader.
use crate::judge::Case;
use oracle::convert::{NATIVE, SOURCE, STRICT, equal};
use oracle::inputs::Rng;
use oracle::tally::Tally;

/// An exponent as a line has it, the default, and the exponents that native, source and the strict form give; the last is none at 21.
type Exponent = (&'static str, f64, f64, f64, Option<f64>);

const NAN: f64 = f64::NAN;

#[rustfmt::skip]
const EXPONENTS: [Exponent; 17] = [
    // above 0: kept by both, whatever the default
    ("4000000000000000", 1.5, 2.0, 2.0, Some(2.0)),
    ("4000000000000000", NAN, 2.0, 2.0, Some(2.0)),
    ("0000000000000001", -1.0, f64::from_bits(1), f64::from_bits(1), Some(f64::from_bits(1))),
    ("7FF0000000000000", 1.5, f64::INFINITY, f64::INFINITY, Some(f64::INFINITY)),
    // missing: the default, whatever it is
    ("none", 1.5, 1.5, 1.5, Some(1.5)),
    ("none", -0.0, -0.0, -0.0, Some(-0.0)),
    ("none", NAN, NAN, NAN, Some(NAN)),
    // not above 0: native takes the default, source keeps it
    ("BFF0000000000000", 1.5, 1.5, -1.0, None),
    ("0000000000000000", 1.5, 1.5, 0.0, None),
    ("8000000000000001", 1.5, 1.5, -f64::from_bits(1), None),
    ("FFF0000000000000", 1.5, 1.5, f64::NEG_INFINITY, None),
    ("7FF8000000000000", 1.5, 1.5, NAN, None),
    // which differ by the sign of a zero, and not where the default is the same
    ("8000000000000000", 0.0, 0.0, -0.0, None),
    ("0000000000000000", -0.0, -0.0, 0.0, None),
    ("8000000000000000", -0.0, -0.0, -0.0, Some(-0.0)),
    ("BFF0000000000000", -1.0, -1.0, -1.0, Some(-1.0)),
    // NaN is one
    ("FFF0000000000001", NAN, NAN, NAN, Some(NAN)),
];

const GOOD: &str = "(kernel (c 3FF0000000000000 C000000000000000 3FE0000000000000) (sigma 4000000000000000) (w C010000000000000) (alpha ";
const FIVE: [f64; 5] = [1000.0, -2000.0, 500.0, 0.002, -4.0];

/// Bytes that are no such lines.
const BAD: [&str; 12] = [
    "\n",
    " ",
    "(kernel)\n",
    "(kernel (c 3FF0000000000000 C000000000000000 3FE0000000000000) (sigma 4000000000000000) (w C010000000000000))\n",
    "(kernel (c 3FF0000000000000 C000000000000000) (sigma 4000000000000000) (w C010000000000000) (alpha none))\n",
    "(kernel (c 3ff0000000000000 C000000000000000 3FE0000000000000) (sigma 4000000000000000) (w C010000000000000) (alpha none))\n",
    "(kernel (c 3FF000000000000 C000000000000000 3FE0000000000000) (sigma 4000000000000000) (w C010000000000000) (alpha none))\n",
    "(kernel (c 3FF0000000000000 C000000000000000 3FE0000000000000) (sigma none) (w C010000000000000) (alpha none))\n",
    "(kernel (c 3FF0000000000000  C000000000000000 3FE0000000000000) (sigma 4000000000000000) (w C010000000000000) (alpha none))\n",
    "(kernel (c 3FF0000000000000 C000000000000000 3FE0000000000000) (sigma 4000000000000000) (w C010000000000000) (alpha none))",
    "(kernel (c 3FF0000000000000 C000000000000000 3FE0000000000000) (sigma 4000000000000000) (w C010000000000000) (alpha none))\r\n",
    "(kernel (c 3FF0000000000000 C000000000000000 3FE0000000000000) (sigma 4000000000000000) (w C010000000000000) (alpha None))\n",
];

/// The archive, and the words over the original's text, held to what stands here.
struct Held {
    r: Rng,
    tally: Tally,
}

impl Held {
    fn to(&mut self, lines: &str, default: f64, loader: u32, room: usize, want: Result<Vec<f64>, u32>) {
        let case = Case { lines: lines.as_bytes(), default, loader, room };
        let by_text = case.asked();
        let same = match (&by_text, &want) {
            (Ok(x), Ok(y)) => equal(x, y),
            (x, y) => x == y,
        };
        self.tally.count(!same, || format!("loader {loader}, {lines}: the text gives {by_text:?}, not {want:?}"));
        let difference = case.differs(&mut self.r, &want);
        self.tally.count(difference.is_some(), || difference.unwrap());
    }
}

pub fn cases(r: Rng) -> Tally {
    let mut held = Held { r, tally: Tally::new() };
    for (alpha, default, by_native, by_source, strict) in EXPONENTS {
        let kernel = |alpha: f64| [&FIVE[..], &[alpha]].concat();
        let text = format!("{GOOD}{alpha}))\n");
        let strict = strict.map(kernel).ok_or(21);
        for (loader, want) in [(NATIVE, Ok(kernel(by_native))), (SOURCE, Ok(kernel(by_source))), (STRICT, strict)] {
            held.to(&text, default, loader, 7, want.clone());
            // a run of five floats is 9, ahead of 21; a line more that is none is 20, ahead of both
            held.to(&text, default, loader, 5, Err(9));
            held.to(&format!("{text}{GOOD}"), default, loader, 5, Err(20));
            // a kernel that both keep stands before it
            let before = format!("{GOOD}3FF0000000000000))\n{text}");
            held.to(&before, default, loader, 12, want.map(|k| [kernel(1.0), k].concat()));
        }
    }
    for loader in [NATIVE, SOURCE, STRICT, u32::MAX] {
        held.to("", 1.5, loader, 0, Ok(Vec::new()));
        held.to("", 1.5, loader, 3, Ok(Vec::new()));
        BAD.iter().for_each(|text| held.to(text, 1.5, loader, 6, Err(20)));
    }
    held.tally.line("convert", "cases written by hand", "");
    held.tally
}
