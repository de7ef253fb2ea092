//! How a store stands: its mesh, its kernels with their fits, the work that is left.
use super::{Told, is_closed};
use crate::figures::counted;
use crate::json::{Value, object};
use crate::notes::{self, Note};
use crate::page;
use cauchy::{Fit, Held, PLACES, Store};

pub struct Status {
    /// Where the store is, in words.
    of: String,
    vertices: u32,
    faces: u32,
    /// m, along x, y and z; nothing where there is no vertex.
    extent: Option<[f64; 3]>,
    /// m.
    radius: f64,
    places: Vec<Place>,
    /// The mesh and the places in words.
    said: [Vec<String>; 2],
    /// What else is told of where it is kept: by a name, in words and as JSON.
    more: Vec<(&'static str, String, Value)>,
    notes: Vec<Note>,
}

struct Place {
    place: u32,
    held: Held,
    /// How its fit ended, where that is known.
    fit: Option<Fit>,
    steps: u64,
    steps_left: u64,
}

/// How a store stands, which is told of in these words.
pub fn status(store: &Store, of: String) -> Status {
    let place = |place: u32| {
        let held = store.held(place)?;
        let steps = u64::from(held.pieces) * u64::from(store.faces());
        let fit = notes::how_it_ended(&held, store.radius());
        Some(Place { place, held, fit, steps, steps_left: store.left_at(place) })
    };
    Status {
        of,
        vertices: store.vertices(),
        faces: store.faces(),
        extent: page::extent(store.mesh()),
        radius: store.radius(),
        places: (0..PLACES).filter_map(place).collect(),
        said: [page::mesh(store), page::places(store)],
        more: Vec::new(),
        notes: notes::of_store(store),
    }
}

impl Status {
    /// With something more on where the store is kept.
    pub fn with(mut self, name: &'static str, said: String, json: Value) -> Status {
        self.more.push((name, said, json));
        self
    }

    fn steps_left(&self) -> u64 {
        self.places.iter().map(|place| place.steps_left).sum()
    }
}

impl Place {
    fn json(&self) -> Value {
        let (name, pivot, column) = match self.fit {
            Some(Fit::Kept) => ("kept", None, None),
            Some(Fit::Fitted { pivot }) => ("fitted", Some(pivot), None),
            Some(Fit::Fallback { column }) => ("fallback", None, Some(column)),
            Some(Fit::NoExponent) => ("no exponent", None, None),
            None => ("by an earlier version", None, None),
        };
        object([("place", self.place.into()), ("layer", self.held.layer.into())])
            .and(page::members_of(&self.held.kernel))
            .and([
                ("pieces", self.held.pieces.into()),
                ("fit", name.into()),
                ("smallest_pivot", pivot.into()),
                ("flat_column", column.into()),
                ("error_of_peak", self.held.error.into()),
                ("steps", self.steps.into()),
                ("steps_left", self.steps_left.into()),
            ])
    }
}

impl Told for Status {
    fn text(&self) -> String {
        let [mesh, places] = &self.said;
        let mut mesh = [vec![self.of.clone()], mesh.clone()].concat();
        mesh.extend(is_closed(&self.notes).then(|| "closed: every edge occurs once each way".to_string()));
        let empty = vec!["no place is filled".to_string()];
        let places = if places.is_empty() { &empty } else { places };
        let work = vec![format!("{} left", counted(self.steps_left(), "step"))];
        let more: String =
            self.more.iter().map(|(name, said, _)| page::entry(name, std::slice::from_ref(said))).collect();
        let entries = [("mesh", &mesh), ("kernels", places), ("work", &work)];
        entries.map(|(label, lines)| page::entry(label, lines)).concat() + &more
    }

    fn members(&self) -> Vec<(&'static str, Value)> {
        let mut members = vec![
            ("reading", "status".into()),
            ("vertices", self.vertices.into()),
            ("faces", self.faces.into()),
            ("extent_m", self.extent.map(|extent| extent.to_vec()).into()),
            ("radius_m", self.radius.into()),
            ("mesh_closed", is_closed(&self.notes).into()),
            ("places", self.places.iter().map(Place::json).collect()),
            ("steps_left", self.steps_left().into()),
        ];
        members.extend(self.more.iter().map(|(name, _, json)| (*name, json.clone())));
        members
    }

    fn notes(&self) -> &[Note] {
        &self.notes
    }
}
