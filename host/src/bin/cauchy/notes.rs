//! What must be said of a store beside its figures: of its mesh, and of the fits of its kernels.
use crate::figures::{counted, rounded};
use crate::json::{Value, object};
use crate::page::{CARRIED, NOT_CLOSED};
use cauchy::{Fit, Held, Kernel, Mesh, PLACES, Store};
use std::fmt::{self, Display, Formatter};

/// The error of a fit, as a part of its peak, above which there is a note.
pub const GREATEST_ERROR: f64 = 0.01;

/// What is beside every mass on a mesh that is not closed, on its own line.
pub const BESIDE_MASS: &str = "mesh NOT closed";

#[derive(Clone, Copy, Debug, PartialEq)]
pub enum Note {
    /// The store was carried over from the form before layers.
    Carried,
    NotClosed,
    /// So many vertices are in no face.
    Unused(u64),
    /// A fit of which the error is above 1 % of the peak, or not known.
    Error {
        place: u32,
        error: f64,
    },
    /// The solver met a flat pivot in a column, and one piece stands for the fit.
    Fallback {
        place: u32,
        column: u32,
        error: f64,
    },
    /// The exponent is a NaN, and there is no piece.
    NoExponent {
        place: u32,
    },
}

impl Note {
    /// A word for each kind, for programs that read JSON.
    fn kind(&self) -> &'static str {
        match self {
            Note::Carried => "carried",
            Note::NotClosed => "mesh_not_closed",
            Note::Unused(_) => "unused_vertices",
            Note::Error { .. } => "fit_error",
            Note::Fallback { .. } => "fit_fallback",
            Note::NoExponent { .. } => "no_exponent",
        }
    }

    /// The place that it is about.
    pub fn place(&self) -> Option<u32> {
        match self {
            Note::Error { place, .. } | Note::Fallback { place, .. } | Note::NoExponent { place } => {
                Some(*place)
            }
            Note::Carried | Note::NotClosed | Note::Unused(_) => None,
        }
    }

    /// Whether a mass means something else by it.
    pub fn is_of_mass(&self) -> bool {
        *self == Note::NotClosed || self.place().is_some()
    }

    pub fn json(&self) -> Value {
        let error = match self {
            Note::Error { error, .. } | Note::Fallback { error, .. } => Some(*error),
            _ => None,
        };
        let note = object([("kind", self.kind().into()), ("text", self.to_string().into())]);
        let place = self.place().map(|place| ("place", place.into()));
        let error = error.map(|error| ("error_of_peak", error.into()));
        note.and(place.into_iter().chain(error))
    }
}

impl Display for Note {
    fn fmt(&self, f: &mut Formatter<'_>) -> fmt::Result {
        let percent = |error: f64| format!("{} %", rounded(100.0 * error, 2));
        match self {
            Note::Carried => f.write_str(CARRIED),
            Note::NotClosed => f.write_str(NOT_CLOSED),
            Note::Unused(1) => f.write_str("1 vertex is in no face"),
            Note::Unused(found) => write!(f, "{} are in no face", counted(*found, "vertex")),
            Note::Error { place, error } => {
                write!(f, "place {place}: its fit is off by {} of its peak, more than 1 %", percent(*error))
            }
            Note::Fallback { place, column, error } => {
                let off = percent(*error);
                write!(
                    f,
                    "place {place}: fitted by the fallback, off by {off} of its peak: flat pivot in column {column}"
                )
            }
            Note::NoExponent { place } => {
                write!(f, "place {place}: no exponent, so no piece: it adds nothing")
            }
        }
    }
}

/// The notes of a store, each to be said with every reading of it.
pub fn of_store(store: &Store) -> Vec<Note> {
    let carried = store.carried().then_some(Note::Carried);
    carried.into_iter().chain(of_mesh(store.mesh())).chain(of_fits(store)).collect()
}

/// The notes of the fits of a store's kernels.
pub fn of_fits(store: &Store) -> impl Iterator<Item = Note> {
    (0..PLACES).filter_map(|place| of_fit(place, &store.held(place)?, store.radius()))
}

/// The notes of a mesh that a store takes.
pub fn of_mesh(mesh: Mesh<'_>) -> Vec<Note> {
    let open = mesh.closed().is_err().then_some(Note::NotClosed);
    let unused = Some(unused(mesh)).filter(|found| *found > 0).map(Note::Unused);
    open.into_iter().chain(unused).collect()
}

/// How many vertices no face names.
pub fn unused(mesh: Mesh<'_>) -> u64 {
    let mut is_used = vec![false; mesh.vertices.len()];
    for corner in mesh.faces.as_flattened() {
        is_used[*corner as usize] = true;
    }
    is_used.into_iter().filter(|used| !used).count() as u64
}

/// The note on the fit of what a place holds, in a store of this radius.
pub fn of_fit(place: u32, held: &Held, radius: f64) -> Option<Note> {
    of_end(place, how_it_ended(held, radius), held.error)
}

/// The note on a fit that ended so, as far as that is known, with this error.
fn of_end(place: u32, fit: Option<Fit>, error: f64) -> Option<Note> {
    match fit {
        Some(Fit::NoExponent) => Some(Note::NoExponent { place }),
        Some(Fit::Fallback { column }) => Some(Note::Fallback { place, column, error }),
        // a NaN is not known to be small
        _ if error <= GREATEST_ERROR => None,
        _ => Some(Note::Error { place, error }),
    }
}

/// How a place's fit ended. A store does not keep that, nor does a snapshot: the kernel is fitted once more, which
/// gives the same, whatever its weight has become. Only pieces that a version with other powers fitted differ from
/// it: of those nothing but the error is known.
pub fn how_it_ended(held: &Held, radius: f64) -> Option<Fit> {
    let again = Kernel { w: 1.0, ..held.kernel }.pieces(radius).ok()?;
    let is_same = again.error.to_bits() == held.error.to_bits();
    (is_same || matches!(again.fit, Fit::Kept | Fit::NoExponent)).then_some(again.fit)
}

/// Notes as lines under a reading.
pub fn lines(notes: &[Note]) -> String {
    notes.iter().map(|note| format!("  Note: {note}\n")).collect()
}

#[cfg(test)]
mod tests {
    use super::*;

    const TETRAHEDRON: [[f64; 3]; 4] = [[0.0; 3], [900.0, 0.0, 0.0], [0.0, 800.0, 0.0], [0.0, 0.0, 700.0]];
    const FACES: [[u32; 3]; 4] = [[0, 2, 1], [0, 1, 3], [0, 3, 2], [1, 2, 3]];

    fn store(vertices: &[[f64; 3]], faces: &[[u32; 3]]) -> Store {
        Store::open(900.0, Mesh { vertices, faces }).unwrap()
    }

    #[test]
    fn meshes_are_looked_at() {
        assert_eq!(of_store(&store(&TETRAHEDRON, &FACES)), []);
        assert_eq!(of_store(&store(&TETRAHEDRON, &FACES[..3])), [Note::NotClosed]);
        assert_eq!(of_store(&store(&TETRAHEDRON, &FACES[..1])), [Note::NotClosed, Note::Unused(1)]);
        let more = [&TETRAHEDRON[..], &[[5.0; 3]; 2]].concat();
        assert_eq!(of_store(&store(&more, &FACES)), [Note::Unused(2)]);
        let said = [Note::Unused(1), Note::Unused(1234)].map(|note| note.to_string());
        assert_eq!(said, ["1 vertex is in no face", "1,234 vertices are in no face"]);
    }

    #[test]
    fn fits_are_looked_at() {
        let mut store = store(&TETRAHEDRON, &FACES);
        let kernel = |alpha| Kernel { c: [0.0; 3], sigma: 0.01, w: 300.0, alpha };
        store.put(0, kernel(1.0)).unwrap();
        store.put(1, kernel(2.0)).unwrap();
        assert_eq!(of_store(&store), []);
        store.put(2, kernel(f64::NAN)).unwrap();
        store.put(31, kernel(1e6)).unwrap();
        let error = store.held(31).unwrap().error;
        let want = [Note::NoExponent { place: 2 }, Note::Error { place: 31, error }];
        assert_eq!(of_store(&store), want);
        // no weight changes how a fit ended
        store.reweigh(2, -0.0).unwrap();
        assert_eq!(of_store(&store), want);
        assert!(want.iter().all(Note::is_of_mass) && want[1].json().to_string().contains("\"place\": 31"));
    }

    /// No kernel is known that is fitted by the fallback.
    #[test]
    fn the_fallback_is_a_note_whatever_its_error() {
        let note = of_end(3, Some(Fit::Fallback { column: 5 }), 0.0).unwrap();
        assert_eq!(note, Note::Fallback { place: 3, column: 5, error: 0.0 });
        let said = "place 3: fitted by the fallback, off by 0 % of its peak: flat pivot in column 5";
        assert_eq!(note.to_string(), said);
        assert_eq!(of_end(3, Some(Fit::Fitted { pivot: 1e-5 }), 0.0), None);
    }

    #[test]
    fn an_error_that_is_not_known_is_a_note() {
        let kernel = Kernel { c: [0.0; 3], sigma: 0.01, w: 1.0, alpha: 2.0 };
        let held = |error| Held { kernel, layer: 0, pieces: 13, error };
        let notes = [0.01, 0.010_000_1, f64::NAN].map(|error| of_fit(7, &held(error), 500.0).is_some());
        assert_eq!(notes, [false, true, true]);
        let said = of_fit(7, &held(0.0523), 500.0).unwrap().to_string();
        assert_eq!(said, "place 7: its fit is off by 5.2 % of its peak, more than 1 %");
    }
}
