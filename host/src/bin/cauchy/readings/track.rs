//! The density along a track.
use super::{Told, layers_as_json, members_of, notes_of};
use crate::failure::name;
use crate::figures::{counted, rounded, short, whole};
use crate::inside::Faces;
use crate::json::{Value, object};
use crate::notes::Note;
use cauchy::{Convention, Layers, PLACES, Refusal, Store};
use std::path::{Path, PathBuf};

pub struct Track {
    pub by: Convention,
    pub layers: Layers,
    /// The file of its points.
    pub file: PathBuf,
    /// How many places are read.
    pub kernels: u64,
    /// The points, m.
    pub points: Vec<[f64; 3]>,
    /// The way from the first point to each, m.
    pub along: Vec<f64>,
    /// The density at each, kg/m³.
    pub density: Vec<f64>,
    /// Whether each is inside the mesh.
    pub inside: Vec<bool>,
    pub notes: Vec<Note>,
}

/// The density of these layers along points in metres. By conventions other than mass it needs no work done.
pub fn track(
    store: &Store,
    by: Convention,
    layers: Layers,
    file: &Path,
    points: Vec<[f64; 3]>,
) -> Result<Track, Refusal> {
    let density = store.layers(layers).densities(by, &points)?;
    let faces = Faces::new(store.mesh());
    let is_read = |place: &u32| store.held(*place).is_some_and(|held| layers.has(held.layer));
    Ok(Track {
        by,
        layers,
        file: file.to_path_buf(),
        kernels: (0..PLACES).filter(is_read).count() as u64,
        along: along(&points),
        inside: points.iter().map(|point| faces.contains(*point)).collect(),
        points,
        density,
        notes: notes_of(store, layers),
    })
}

impl Track {
    pub fn length(&self) -> f64 {
        self.along.last().copied().unwrap_or(0.0)
    }

    /// A table: the way, the point, the density, and whether the point is inside the mesh.
    pub fn csv(&self) -> String {
        let mut text = String::from("distance_m,x_m,y_m,z_m,density_kg_m3,inside\n");
        for i in 0..self.points.len() {
            let [x, y, z] = self.points[i];
            text += &[self.along[i], x, y, z, self.density[i]].map(whole).join(",");
            text += if self.inside[i] { ",true\n" } else { ",false\n" };
        }
        text
    }

    /// The points that are told of: those with a finite density, inside the mesh where some are.
    fn told(&self) -> impl Iterator<Item = usize> {
        let some_inside = self.inside.contains(&true);
        let is_told = move |i: &usize| self.density[*i].is_finite() && (self.inside[*i] || !some_inside);
        (0..self.points.len()).filter(is_told)
    }

    /// The point of the greatest density among those told of.
    pub fn greatest(&self) -> Option<usize> {
        self.told().max_by(|i, j| self.density[*i].total_cmp(&self.density[*j]))
    }

    fn least(&self) -> Option<usize> {
        self.told().min_by(|i, j| self.density[*i].total_cmp(&self.density[*j]))
    }

    /// The least and the greatest density, and where they are.
    fn summary(&self) -> String {
        let at = |i: usize| {
            let (density, way) = (short(self.density[i]), rounded(self.along[i] / 1000.0, 4));
            format!("{density} kg/m³ at {way} km")
        };
        let Some((least, greatest)) = self.least().zip(self.greatest()) else {
            return "no density on it is a finite number".to_string();
        };
        let place = if self.inside.contains(&true) { "inside" } else { "outside" };
        format!("density {place} the body: least {}, greatest {}", at(least), at(greatest))
    }

    fn point_as_json(&self, i: usize) -> Value {
        let [x, y, z] = self.points[i];
        object([
            ("distance_m", self.along[i].into()),
            ("x_m", x.into()),
            ("y_m", y.into()),
            ("z_m", z.into()),
            ("density_kg_m3", self.density[i].into()),
            ("inside", self.inside[i].into()),
        ])
    }
}

impl Told for Track {
    fn text(&self) -> String {
        let (by, file) = (self.by.name(), name(&self.file));
        let points = counted(self.points.len() as u64, "point");
        let length = rounded(self.length() / 1000.0, 4);
        format!("\nTrack by the convention {by}: {file}, {points} over {length} km\n  {}\n", self.summary())
    }

    fn members(&self) -> Vec<(&'static str, Value)> {
        let point = |i: Option<usize>| Value::from(i.map(|i| self.point_as_json(i)));
        let mut members = vec![("reading", "track".into()), ("layers", layers_as_json(self.layers))];
        members.extend(members_of(self.by));
        members.extend([
            ("points_from", name(&self.file).into()),
            ("length_m", self.length().into()),
            ("least", point(self.least())),
            ("greatest", point(self.greatest())),
            ("points", (0..self.points.len()).map(|i| self.point_as_json(i)).collect()),
        ]);
        members
    }

    fn notes(&self) -> &[Note] {
        &self.notes
    }
}

fn along(points: &[[f64; 3]]) -> Vec<f64> {
    let mut way = 0.0;
    let mut last = points.first().copied().unwrap_or_default();
    let step = |point: &[f64; 3]| {
        let [x, y, z] = [0, 1, 2].map(|axis| point[axis] - last[axis]);
        way += (x * x + y * y + z * z).sqrt();
        last = *point;
        way
    };
    points.iter().map(step).collect()
}

#[cfg(test)]
mod tests {
    use super::*;

    #[test]
    fn the_way_adds_up() {
        assert_eq!(along(&[[0.0; 3], [3.0, 4.0, 0.0], [3.0, 4.0, 2.0]]), [0.0, 5.0, 7.0]);
        assert_eq!(along(&[[1.0; 3]]), [0.0]);
        assert_eq!(along(&[]), [0.0; 0]);
    }
}
