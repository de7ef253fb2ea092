//! The report of what is finished, and what it passed over, place by place.
use super::table::{Row, table};
use super::{Told, conventions_said, is_closed, layers_as_json, members_of, notes_of, of_layers};
use crate::figures::{count, counted, whole};
use crate::json::{Value, object};
use crate::notes::{BESIDE_MASS, Note};
use crate::page;
use cauchy::{Convention, Finished, Kernel, Layers, PLACES, Refusal, Store};
use std::fmt::Write;

pub struct SoFar {
    layers: Layers,
    /// By each convention, and there is one at least.
    by: Vec<(Convention, Finished)>,
    /// The density of the places with no work left at the origin, with weights as entered, kg/m³.
    origin: f64,
    passed_over: Vec<PassedOver>,
    notes: Vec<Note>,
}

/// A place with work left.
struct PassedOver {
    place: u32,
    layer: u32,
    steps_left: u64,
}

/// The masses of the places of these layers that have no work left, by each convention.
pub fn finished(store: &Store, conventions: &[Convention], layers: Layers) -> Result<SoFar, Refusal> {
    let by = |by: &Convention| Ok((*by, store.layers(layers).finished(*by)?));
    let passed_over = |place: u32| {
        let held = store.held(place).filter(|held| layers.has(held.layer))?;
        let steps_left = store.left_at(place);
        (steps_left > 0).then_some(PassedOver { place, layer: held.layer, steps_left })
    };
    Ok(SoFar {
        origin: origin_of_finished(store, layers)?,
        layers,
        by: conventions.iter().map(by).collect::<Result<_, Refusal>>()?,
        passed_over: (0..PLACES).filter_map(passed_over).collect(),
        notes: notes_of(store, layers),
    })
}

/// The density at the origin, with weights as entered, of the places of these layers that have no work left, kg/m³.
pub fn origin_of_finished(store: &Store, layers: Layers) -> Result<f64, Refusal> {
    let pieces = store.layers(layers).list(Convention::Raw)?;
    let places = page::places_of(store, layers);
    let is_done = |(piece, place): (&Kernel, &u32)| (store.left_at(*place) == 0).then_some(*piece);
    let done: Vec<Kernel> = pieces.iter().zip(&places).filter_map(is_done).collect();
    cauchy::density(&done, [0.0; 3])
}

impl SoFar {
    fn beside(&self) -> &'static str {
        if is_closed(&self.notes) { "" } else { BESIDE_MASS }
    }

    fn by_one(&self, by: Convention, told: &Finished) -> String {
        let (of, name) = (of_layers(self.layers), by.name());
        let mut text =
            format!("\nMass of what is finished{of}, by the convention {name}: {}\n", page::convention(by));
        let (mass, beside) = (&told.report.mass, self.beside());
        let rows = [
            ("field mass, weights as entered", whole(mass.raw_mass) + " kg", beside),
            ("field mass by this convention", whole(mass.applied_mass) + " kg", beside),
            ("weights times", whole(mass.applied_scale), ""),
        ];
        for (label, figure, beside) in rows {
            let _ = writeln!(text, "{}", format!("  {label:<43}{figure:<27}{beside}").trim_end());
        }
        text + &format!("  {:<43}{}\n", "of", covered(told))
    }

    fn side_by_side(&self) -> String {
        let row = |label: &str, behind, figure: &dyn Fn(&Finished) -> f64| {
            let figures = self.by.iter().map(|(_, told)| whole(figure(told)));
            Row { cells: std::iter::once(label.to_string()).chain(figures).collect(), behind }
        };
        let names = self.by.iter().map(|(by, _)| by.name().to_string());
        let heads = std::iter::once("by the convention".to_string()).chain(names).collect();
        let rows = [
            Row { cells: heads, behind: "" },
            row("weights times", "", &|told| told.report.mass.applied_scale),
            row("field mass [kg]", self.beside(), &|told| told.report.mass.applied_mass),
        ];
        let of = of_layers(self.layers);
        let said = conventions_said(self.by.iter().map(|(by, _)| *by));
        let covered =
            self.by.first().map(|(_, told)| format!("  of {}\n", covered(told))).unwrap_or_default();
        format!("\nMass of what is finished{of}, by several conventions\n{said}\n{}{covered}", table(&rows))
    }

    /// What a planner must not overlook of each convention.
    fn cautions_said(&self) -> String {
        let name =
            |by: &Convention| if self.by.len() > 1 { format!("{}: ", by.name()) } else { String::new() };
        let of = |(by, told): &(Convention, Finished)| {
            let line = |caution| format!("  Note: {}{caution}\n", name(by));
            self.cautions(*by, told).into_iter().map(line).collect::<String>()
        };
        self.by.iter().map(of).collect()
    }

    fn cautions(&self, by: Convention, told: &Finished) -> Vec<&'static str> {
        page::cautions(by, &told.report.mass, self.origin, true)
    }

    fn passed_over_said(&self) -> String {
        let passed = counted(self.passed_over.len() as u64, "kernel");
        let line = |passed: &PassedOver| {
            let PassedOver { place, layer, steps_left } = passed;
            let layer = if *layer > 0 { format!(", in layer {layer}") } else { String::new() };
            format!("  not in it: place {place}{layer}, {} steps left\n", count(*steps_left))
        };
        let places: String = self.passed_over.iter().map(line).collect();
        format!("  Note: this is NOT the mass of the store: it is without {passed} with work left\n{places}")
    }
}

/// What a report is of, in words.
fn covered(told: &Finished) -> String {
    let [kernels, pieces] = [(told.report.kernels, "kernel"), (told.report.pieces, "piece")]
        .map(|(n, noun)| counted(u64::from(n), noun));
    format!("{kernels}, {pieces}")
}

impl Told for SoFar {
    fn text(&self) -> String {
        let figures = match &self.by[..] {
            [(by, told)] => self.by_one(*by, told),
            _ => self.side_by_side(),
        };
        let of_mass: Vec<Note> = self.notes.iter().copied().filter(Note::is_of_mass).collect();
        let passed_over = if self.passed_over.is_empty() { String::new() } else { self.passed_over_said() };
        figures + &crate::notes::lines(&of_mass) + &self.cautions_said() + &passed_over
    }

    fn members(&self) -> Vec<(&'static str, Value)> {
        let first = self.by.first().map(|(_, told)| told.report);
        let by = |(by, told): &(Convention, Finished)| {
            let mass = &told.report.mass;
            let figures = [
                ("factor", mass.applied_scale.into()),
                ("mass_kg", mass.applied_mass.into()),
                ("cautions", self.cautions(*by, told).into()),
            ];
            Value::Object(members_of(*by)).and(figures)
        };
        let passed_over = |passed: &PassedOver| {
            object([
                ("place", passed.place.into()),
                ("layer", passed.layer.into()),
                ("steps_left", passed.steps_left.into()),
            ])
        };
        vec![
            ("reading", "finished".into()),
            ("layers", layers_as_json(self.layers)),
            ("mesh_closed", is_closed(&self.notes).into()),
            ("kernels", first.map(|report| report.kernels).into()),
            ("pieces", first.map(|report| report.pieces).into()),
            ("mass_as_entered_kg", first.map(|report| report.mass.raw_mass).into()),
            ("by", self.by.iter().map(by).collect()),
            ("passed_over", self.passed_over.iter().map(passed_over).collect()),
        ]
    }

    fn notes(&self) -> &[Note] {
        &self.notes
    }

    fn says(&self, note: &Note) -> bool {
        note.is_of_mass()
    }
}
