//! What the original's elimination met. A line in its loop (build/text.rs) hands over each column's pivot, before the text tests it; 02's
//! L4 is then read off the pivots by its words.
use crate::pattern;
use std::cell::RefCell;

thread_local! {
    static PIVOTS: RefCell<Vec<f64>> = const { RefCell::new(Vec::new()) };
}

/// Called by the text: the pivot that it chose in a column, in absolute value. Column 0 begins an elimination.
pub fn met(column: usize, pivot: f64) {
    PIVOTS.with_borrow_mut(|pivots| {
        if column == 0 {
            pivots.clear();
        }
        pivots.push(pivot);
    });
}

/// What the work gives, and the pivots of the last elimination in it: none where there was none, or where it had no column.
pub fn watched<R>(work: impl FnOnce() -> R) -> (R, Vec<f64>) {
    PIVOTS.with_borrow_mut(Vec::clear);
    let result = work();
    (result, PIVOTS.take())
}

/// "its smallest accepted pivot": "For n = 0 the smallest pivot is +inf. A NaN pivot makes the reported one NaN."
pub fn smallest(pivots: &[f64]) -> f64 {
    if pivots.iter().any(|p| p.is_nan()) { f64::NAN } else { pivots.iter().copied().fold(f64::INFINITY, f64::min) }
}

/// "one of kept, fitted with that pivot, fallback with that column, or no exponent".
#[derive(Clone, Copy, Debug)]
pub enum Fit {
    Kept,
    Fitted(f64),
    Fallback(u32),
    NoExponent,
}

impl Fit {
    /// How the fit of a kernel of this exponent ended, by the pivots met in it. A kernel that stays has none: nothing is solved for it.
    pub fn of(alpha: f64, pivots: &[f64]) -> Fit {
        match pivots.last() {
            _ if alpha.is_nan() => Fit::NoExponent,
            None => Fit::Kept,
            Some(last) if *last <= 1e-18 => Fit::Fallback(pivots.len() as u32 - 1),
            Some(_) => Fit::Fitted(smallest(pivots)),
        }
    }

    /// Kind, column and the bits of the pivot, as an answer carries them; every NaN as one.
    pub fn told(self) -> (u32, u32, u64) {
        match self {
            Fit::Kept => (0, 0, 0),
            Fit::Fitted(pivot) => (1, 0, pattern(pivot)),
            Fit::Fallback(column) => (2, column, 0),
            Fit::NoExponent => (3, 0, 0),
        }
    }

    /// As the stored lines have it.
    pub fn text(self) -> String {
        match self {
            Fit::Kept => " kept".into(),
            Fit::Fitted(pivot) => format!(" fitted {:016x}", pattern(pivot)),
            Fit::Fallback(column) => format!(" fallback {column}"),
            Fit::NoExponent => " no-exponent".into(),
        }
    }
}
