//! The density at a point.
use super::{Told, layers_as_json, members_of, notes_of, of_layers};
use crate::figures::{short, whole};
use crate::json::Value;
use crate::notes::Note;
use crate::{inside, page};
use cauchy::{Convention, Layers, Refusal, Store};

pub struct Density {
    /// The point, m.
    point: [f64; 3],
    layers: Layers,
    inside: bool,
    /// The density by each convention, kg/m³.
    by: Vec<(Convention, f64)>,
    notes: Vec<Note>,
}

/// The density at a point, in metres, by each convention.
pub fn density(
    store: &Store,
    conventions: &[Convention],
    layers: Layers,
    point: [f64; 3],
) -> Result<Density, Refusal> {
    let by = |by: &Convention| Ok((*by, store.layers(layers).density(*by, point)?));
    let by = conventions.iter().map(by).collect::<Result<_, Refusal>>()?;
    let inside = inside::contains(store.mesh(), point);
    Ok(Density { point, layers, inside, by, notes: notes_of(store, layers) })
}

impl Told for Density {
    fn text(&self) -> String {
        let [x, y, z] = self.point.map(|x| short(x / 1000.0));
        let place = if self.inside { "inside the body" } else { "outside the body" };
        let title = format!("\nDensity{} at ({x}, {y}, {z}) km, {place}\n", of_layers(self.layers));
        let line = |(by, density): &(Convention, f64)| {
            let density = format!("{} kg/m³", whole(*density));
            format!("  {density:<27}by the convention {}: {}\n", by.name(), page::convention(*by))
        };
        title + &self.by.iter().map(line).collect::<String>()
    }

    fn members(&self) -> Vec<(&'static str, Value)> {
        let by = |(by, density): &(Convention, f64)| {
            Value::Object(members_of(*by)).and([("density_kg_m3", (*density).into())])
        };
        let [x, y, z] = self.point;
        vec![
            ("reading", "density".into()),
            ("layers", layers_as_json(self.layers)),
            ("x_m", x.into()),
            ("y_m", y.into()),
            ("z_m", z.into()),
            ("inside", self.inside.into()),
            ("by", self.by.iter().map(by).collect()),
        ]
    }

    fn notes(&self) -> &[Note] {
        &self.notes
    }
}
