//! Linear equations.
use crate::{Refusal, sys};
use std::error::Error;
use std::fmt;

/// Why equations were not solved.
#[derive(Clone, Copy, Debug, PartialEq, Eq)]
pub enum SolveError {
    /// More than 16 equations, or lengths that do not fit.
    BadMatrix,
    /// The pivot chosen in this column, from 0, is at most 1e-18 in absolute value.
    FlatPivot {
        /// The column.
        column: u32,
    },
}

/// Solves n equations, at most 16, given as n rows of n + 1 cells with the right-hand side last, into the
/// first n floats of the answer. Tells the smallest pivot that was accepted, in absolute value: infinite where
/// there is no equation, and a NaN where one of them was.
///
/// ```
/// use cauchy::{SolveError, solve};
///
/// let mut answer = [0.0; 2];
/// assert_eq!(solve(2, &[1.0, 1.0, 3.0, 1.0, 4.0, 9.0], &mut answer), Ok(1.0));
/// assert_eq!(answer, [1.0, 2.0]);
/// let flat = solve(2, &[1.0, 1.0, 2.0, 1.0, 1.0, 2.0], &mut answer);
/// assert_eq!(flat, Err(SolveError::FlatPivot { column: 1 }));
/// ```
pub fn solve(n: usize, cells: &[f64], answer: &mut [f64]) -> Result<f64, SolveError> {
    // SAFETY: two slices, borrowed for the call; the one that is written is unshared.
    let told =
        unsafe { sys::cauchy_solve(n, cells.as_ptr(), cells.len(), answer.as_mut_ptr(), answer.len()) };
    match Refusal::check(told.no) {
        Ok(()) => Ok(told.pivot),
        Err(Refusal::FlatPivot) => Err(SolveError::FlatPivot { column: told.column }),
        Err(_) => Err(SolveError::BadMatrix),
    }
}

impl From<SolveError> for Refusal {
    fn from(error: SolveError) -> Refusal {
        match error {
            SolveError::BadMatrix => Refusal::BadMatrix,
            SolveError::FlatPivot { .. } => Refusal::FlatPivot,
        }
    }
}

impl fmt::Display for SolveError {
    fn fmt(&self, f: &mut fmt::Formatter<'_>) -> fmt::Result {
        Refusal::from(*self).fmt(f)
    }
}

impl Error for SolveError {}
