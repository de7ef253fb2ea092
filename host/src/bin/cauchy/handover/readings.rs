//! Everything that the page tells of a store, read once.
use super::Page;
use crate::notes::{self, Note};
use crate::readings::origin_of_finished;
use cauchy::{Convention, Finished, Held, Kernel, Layers, PLACES, Refusal, Store, StoreReport};

/// What a reading answers.
pub type Told<T> = Result<T, Refusal>;

/// The readings by one convention.
pub struct Reading {
    pub by: Convention,
    pub report: Told<StoreReport>,
    /// The report of what is finished, where the other one is refused.
    pub finished: Option<Finished>,
    pub list: Told<Vec<Kernel>>,
}

pub struct Readings {
    /// The filled places.
    pub held: Vec<(u32, Held)>,
    /// By each convention.
    pub by: Vec<Reading>,
    /// The density at the origin with weights as entered, kg/m³, of all places and of the finished ones.
    pub origin: Told<f64>,
    pub finished_origin: Told<f64>,
    pub wall: Told<String>,
    /// The steps that are needed for all filled places, and those that are left.
    pub need: u64,
    pub left: u64,
    /// What must be said of the mesh and of the fits.
    pub notes: Vec<Note>,
    /// Whether the mesh is closed.
    pub closed: bool,
}

impl Readings {
    pub fn of(page: &Page<'_>) -> Readings {
        let store = page.store;
        let notes = notes::of_store(store);
        let held: Vec<(u32, Held)> =
            (0..PLACES).filter_map(|place| Some((place, store.held(place)?))).collect();
        Readings {
            need: held.iter().map(|(_, held)| need(store, held)).sum(),
            left: held.iter().map(|(place, _)| store.left_at(*place)).sum(),
            by: page.conventions.iter().map(|by| Reading::of(store, *by)).collect(),
            origin: store.density(Convention::Raw, [0.0; 3]),
            finished_origin: origin_of_finished(store, Layers::ALL),
            wall: store.page(),
            closed: !notes.contains(&Note::NotClosed),
            notes,
            held,
        }
    }
}

impl Reading {
    fn of(store: &Store, by: Convention) -> Reading {
        let report = store.report(by);
        let finished = if report.is_err() { store.finished(by).ok() } else { None };
        Reading { by, report, finished, list: store.list(by) }
    }
}

/// The steps that a filled place needs: one for each of its pieces and each face.
pub fn need(store: &Store, held: &Held) -> u64 {
    u64::from(held.pieces) * u64::from(store.faces())
}
