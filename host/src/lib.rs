//! A density store for small-body surveys, over the proved archive `libcauchy.a`.
//!
//! A [`Store`] keeps up to 32 density [`Kernel`]s inside a triangle [`Mesh`]. Its work, the integral of each
//! kernel over the mesh, is done in portions ([`Store::advance`]); then it gives density, masses and rescaled
//! weights. A [`Convention`] belongs to one reading; no reading alters a kept weight. A kernel is in one of sixteen
//! layers, and [`Store::layers`] reads some of them alone.
//!
//! Lengths are metres, densities kg/m³, masses kg; only a [`FileKernel`] and the lines that [`convert`] takes are in
//! kilometres.
//!
//! ```
//! use cauchy::{Convention, Kernel, Mesh, Store};
//!
//! // A tetrahedron of 1 km, and one kernel.
//! let vertices = [[0.0, 0.0, 0.0], [1000.0, 0.0, 0.0], [0.0, 1000.0, 0.0], [0.0, 0.0, 1000.0]];
//! let faces = [[0, 2, 1], [0, 1, 3], [0, 3, 2], [1, 2, 3]];
//! let mut store = Store::open(1000.0, Mesh { vertices: &vertices, faces: &faces })?;
//! let kernel = Kernel { c: [200.0, 200.0, 200.0], sigma: 0.002, w: 1500.0, alpha: 1.0 };
//! let placed = store.put(0, kernel)?;
//! assert_eq!((placed.pieces, placed.need), (1, 4));
//!
//! // Portions of two steps, until none is left.
//! while store.advance(2)?.left > 0 {}
//!
//! // The navigators' reading: the mass from tracking.
//! let by_mass = Convention::Mass { target: 2.0e11, bulk: 1190.0 };
//! let report = store.report(by_mass)?;
//! assert!((report.mass.applied_mass / 2.0e11 - 1.0).abs() < 1e-15);
//! // The geologists': the weights as entered.
//! assert_eq!(store.density(Convention::Raw, kernel.c)?, 1500.0);
//! # Ok::<(), Box<dyn std::error::Error>>(())
//! ```
//!
//! Each function of the archive is proved to end, to stay within its memory and to meet its contract for every
//! argument. This crate is not proved; it lends the archive private vectors, and turns its numbers into types.
#![warn(missing_docs)]

/// The program in Rust of the README, as a test.
#[cfg(doctest)]
#[doc = include_str!("../README.md")]
struct Readme;

mod bill;
mod convention;
mod convert;
mod fit;
mod float_state;
mod hands;
mod kernel;
mod layers;
mod lines;
mod mesh;
pub mod numbers;
mod refusal;
mod report;
mod runs;
mod snapshot;
mod solve;
pub mod source;
mod store;
mod sys;

pub use bill::{Bill, bill};
pub use convention::Convention;
pub use convert::{Loader, convert};
pub use fit::Fit;
pub use float_state::FloatState;
pub use kernel::{FileKernel, Kernel, KernelPieces, MAX_PIECES, Pieces, density, pieces};
pub use layers::{LAYERS, Layers, Seen};
pub use mesh::Mesh;
pub use refusal::Refusal;
pub use report::{Finished, MassReport, StoreReport};
pub use runs::{FLOATS_BEFORE_MESH, WORDS_BEFORE_MESH};
pub use snapshot::SnapshotError;
pub use solve::{SolveError, solve};
pub use store::{Adoption, Held, MAX_PAGE, MAX_TRACK, OpenError, PLACES, Placed, Steps, Store};
