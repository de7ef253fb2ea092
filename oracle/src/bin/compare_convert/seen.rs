//! Which kinds of answers were met.
use crate::judge::Case;
use oracle::convert::{NATIVE, SOURCE, STRICT, equal, read};
use oracle::original::native::CauchyKernel;
use oracle::original::{native, source};
use oracle::tally::{Kinds, Tally};

/// How often each kind was met.
#[derive(Default)]
pub struct Seen(Kinds);

const ANSWERS: [&str; 4] = ["as 0", "as 9", "as 20", "as 21"];

/// What must be met, each in one of 500 lists at least.
const OFTEN: [&str; 31] = [
    "as 0, native",
    "as 0, source",
    "as 0, strict",
    "as 0, strict by another number",
    "as 0, no line",
    "as 0, native, kernels differ",
    "as 0, source, kernels differ",
    "as 0, strict, given exponents above 0",
    "as 0, strict, a missing exponent",
    "as 0, strict, an exponent of 0 like the default",
    "as 0, strict, an exponent below 0 like the default",
    "as 0, strict, a NaN of other bits than the default's",
    "as 9, native",
    "as 9, source",
    "as 9, strict",
    "as 9, strict by another number",
    "as 9, strict, kernels differ",
    "as 20, native",
    "as 20, source",
    "as 20, strict",
    "as 20, a byte changed",
    "as 20, a byte put in",
    "as 20, a byte taken out",
    "as 20, the end cut off",
    "as 20, the run too short besides",
    "as 21, strict",
    "as 21, strict by another number",
    "as 21, by the sign of zeros alone",
    "as 21, by a NaN",
    "still lines, a byte changed",
    "still lines, the end cut off",
];

impl Seen {
    fn add(&mut self, name: impl Into<String>) {
        self.0.many(name, 1);
    }

    /// How many lists had each answer.
    pub fn text(&self) -> String {
        self.0.text(&ANSWERS)
    }

    pub fn all_met(&self, lists: u64) -> Tally {
        self.0.all_met("convert", "answers", &OFTEN, lists / 500)
    }

    /// Every kind that a case is, whose lines were damaged in a way that has a name.
    pub fn case(&mut self, case: &Case, damage: &str, asked: &Result<Vec<f64>, u32>) {
        let no = asked.as_ref().map_or_else(|no| *no, |_| 0);
        let loader = match case.loader {
            NATIVE => "native",
            SOURCE => "source",
            STRICT => "strict",
            _ => "strict by another number",
        };
        self.add(format!("as {no}"));
        self.add(format!("as {no}, {loader}"));
        match read(case.lines) {
            Some(kernels) => {
                self.add(format!("still lines, {damage}"));
                if kernels.is_empty() {
                    self.add(format!("as {no}, no line"));
                }
                self.loaders(case, no, &kernels);
            }
            None => {
                self.add(format!("as 20, {damage}"));
                if case.room < 6 * case.lines.iter().filter(|b| **b == b'\n').count() {
                    self.add("as 20, the run too short besides");
                }
            }
        }
    }

    /// What the two loaders make of the kernels.
    fn loaders(&mut self, case: &Case, no: u32, kernels: &[CauchyKernel]) {
        let (by_native, by_source) = (native::load(kernels, case.default), source::load(kernels, case.default));
        let loader = match case.loader {
            NATIVE => "native",
            SOURCE => "source",
            _ => "strict",
        };
        if equal(&by_native, &by_source) {
            if no == 0 && loader == "strict" {
                self.agreed(case.default, kernels);
            }
            return;
        }
        self.add(format!("as {no}, {loader}, kernels differ"));
        let apart = || by_native.iter().zip(&by_source).filter(|(x, y)| !equal(&[**x], &[**y]));
        if no == 21 && apart().all(|(x, y)| x == y) {
            self.add("as 21, by the sign of zeros alone");
        }
        if no == 21 && apart().any(|(x, y)| x.is_nan() || y.is_nan()) {
            self.add("as 21, by a NaN");
        }
    }

    /// Why the strict form takes a list.
    fn agreed(&mut self, default: f64, kernels: &[CauchyKernel]) {
        let given = || kernels.iter().filter_map(|k| k.alpha);
        let all_given = !kernels.is_empty() && given().count() == kernels.len();
        let kinds = [
            ("given exponents above 0", all_given && given().all(|a| a > 0.0)),
            ("a missing exponent", given().count() < kernels.len()),
            ("an exponent of 0 like the default", given().any(|a| a == 0.0)),
            ("an exponent below 0 like the default", given().any(|a| a < 0.0)),
            ("a NaN of other bits than the default's", given().any(|a| a.is_nan() && a.to_bits() != default.to_bits())),
        ];
        kinds.into_iter().filter(|kind| kind.1).for_each(|kind| self.add(format!("as 0, strict, {}", kind.0)));
    }
}
