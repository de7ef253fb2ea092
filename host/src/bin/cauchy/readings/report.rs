//! The mass report, by one convention or by several side by side.
use super::table::{Row, table};
use super::{Told, conventions_said, is_closed, layers_as_json, members_of, notes_of, of_layers};
use crate::figures::{short, whole};
use crate::json::{Value, object};
use crate::notes::{BESIDE_MASS, Note};
use crate::page;
use cauchy::{Convention, LAYERS, Layers, PLACES, Refusal, Store, StoreReport};
use std::fmt::Write;

pub struct Report {
    layers: Layers,
    /// The density at the origin with weights as entered, kg/m³.
    origin: f64,
    /// By each convention, and there is one at least.
    by: Vec<By>,
    /// The report of each layer alone, with weights as entered, where that is asked.
    by_layer: Vec<(u32, StoreReport)>,
    notes: Vec<Note>,
}

struct By {
    convention: Convention,
    report: StoreReport,
    /// The density at the origin by it, kg/m³.
    origin: f64,
}

impl By {
    /// The bulk density of the mass with that density at the origin, kg/m³; raw, which has none, goes by 1190.
    fn bulk(&self) -> f64 {
        match self.convention {
            Convention::Raw => 1190.0,
            Convention::Rho0 { bulk } | Convention::Mass { bulk, .. } => bulk,
        }
    }

    /// The mass of a part of the store by it, kg: that as entered times the factor of the whole.
    fn mass_of(&self, part: &StoreReport) -> f64 {
        part.mass.raw_mass * self.report.mass.applied_scale
    }

    fn mean(&self) -> f64 {
        self.report.mass.applied_mass / self.report.mass.volume
    }
}

/// The masses of these layers by each convention, and of each layer alone where that is asked.
pub fn report(
    store: &Store,
    conventions: &[Convention],
    layers: Layers,
    by_layer: bool,
) -> Result<Report, Refusal> {
    let seen = store.layers(layers);
    let by = |by: &Convention| {
        Ok(By { convention: *by, report: seen.report(*by)?, origin: seen.density(*by, [0.0; 3])? })
    };
    let alone = |layer: u32| Ok((layer, store.layers(Layers::of(&[layer])?).report(Convention::Raw)?));
    let each = if by_layer { layers_of(store, layers) } else { vec![] };
    Ok(Report {
        layers,
        origin: seen.density(Convention::Raw, [0.0; 3])?,
        by: conventions.iter().map(by).collect::<Result<_, Refusal>>()?,
        by_layer: each.into_iter().map(alone).collect::<Result<_, Refusal>>()?,
        notes: notes_of(store, layers),
    })
}

/// The layers of the places that are read, by rising number.
fn layers_of(store: &Store, layers: Layers) -> Vec<u32> {
    let held =
        |layer: &u32| (0..PLACES).any(|place| store.held(place).is_some_and(|held| held.layer == *layer));
    (0..LAYERS).filter(|layer| layers.has(*layer)).filter(held).collect()
}

impl Report {
    /// What stands behind a mass.
    fn beside(&self) -> &'static str {
        if is_closed(&self.notes) { "" } else { BESIDE_MASS }
    }

    fn by_one(&self, by: &By) -> String {
        let (mass, named) = (&by.report.mass, by.convention);
        let (of, name) = (of_layers(self.layers), named.name());
        let mut text = format!("\nMass report{of} by the convention {name}: {}\n", page::convention(named));
        let mut row = |label: &str, figure: f64, unit: &str, scale: Option<f64>, beside: &str| {
            let figure = format!("{} {unit}", whole(figure));
            let scale = scale.map(|scale| format!("weights times {}", whole(scale)));
            let behind: Vec<&str> =
                scale.as_deref().into_iter().chain(Some(beside)).filter(|text| !text.is_empty()).collect();
            let line = format!("  {label:<43}{figure:<27}{}", behind.join(", "));
            let _ = writeln!(text, "{}", line.trim_end());
        };
        let beside = self.beside();
        row("density at the origin, weights as entered", self.origin, "kg/m³", None, "");
        row("field mass, weights as entered", mass.raw_mass, "kg", None, beside);
        let at_bulk = format!("field mass with {} kg/m³ at the origin", short(by.bulk()));
        row(&at_bulk, mass.rho0_mass, "kg", Some(mass.rho0_scale), beside);
        row("field mass by this convention", mass.applied_mass, "kg", Some(mass.applied_scale), beside);
        row("volume of the mesh", mass.volume, "m³", None, beside);
        row("mean density by this convention", by.mean(), "kg/m³", None, beside);
        row("greatest error of a fit, of its peak", by.report.error, "", None, "");
        text + &self.notes_said()
    }

    /// A column for each convention.
    fn side_by_side(&self) -> String {
        let beside = self.beside();
        let row = |label: &str, behind: &'static str, figure: &dyn Fn(&By) -> f64| {
            let figures = self.by.iter().map(|by| whole(figure(by)));
            Row { cells: std::iter::once(label.to_string()).chain(figures).collect(), behind }
        };
        let names = self.by.iter().map(|by| by.convention.name().to_string());
        let heads = std::iter::once("by the convention".to_string()).chain(names).collect();
        let rows = [
            Row { cells: heads, behind: "" },
            row("weights times", "", &|by| by.report.mass.applied_scale),
            row("field mass [kg]", beside, &|by| by.report.mass.applied_mass),
            row("mean density [kg/m³]", beside, &By::mean),
            row("density at the origin [kg/m³]", "", &|by| by.origin),
            row("volume of the mesh [m³]", beside, &|by| by.report.mass.volume),
            row("greatest error of a fit, of its peak", "", &|by| by.report.error),
        ];
        let of = of_layers(self.layers);
        let said = conventions_said(self.by.iter().map(|by| by.convention));
        format!("\nMass report{of} by several conventions\n{said}\n{}{}", table(&rows), self.notes_said())
    }

    /// Each layer's own mass, with weights as entered, beside that of all that are read. A convention is the whole's:
    /// a layer alone is not brought to a target. Raw has no column of its own: its masses are those as entered.
    fn each_layer(&self) -> String {
        let rescaled = || self.by.iter().filter(|by| !matches!(by.convention, Convention::Raw));
        let of = |name: String, report: &StoreReport| {
            let by = rescaled().map(|by| whole(by.mass_of(report))).collect();
            let [kernels, pieces] = [report.kernels, report.pieces].map(|n| n.to_string());
            layer_row(
                [name, kernels, pieces, whole(report.mass.raw_mass)],
                by,
                whole(report.error),
                self.beside(),
            )
        };
        let by = |by: &By| match self.by.len() {
            1 => "mass by this convention [kg]".to_string(),
            _ => format!("mass by {} [kg]", by.convention.name()),
        };
        let heads = ["layer", "kernels", "pieces", "mass as entered [kg]"].map(String::from);
        let error = "greatest error [of peak]".to_string();
        let rows: String =
            self.by_layer.iter().map(|(layer, report)| of(layer.to_string(), report)).collect();
        let all = self.by.first().map(|by| of("all".to_string(), &by.report)).unwrap_or_default();
        layer_row(heads, rescaled().map(by).collect(), error, "") + &rows + &all
    }

    /// The title of the layers' table.
    fn layers_title(&self) -> String {
        match &self.by[..] {
            [by] => format!(
                "\nBy layer, by the convention {}: {}\n",
                by.convention.name(),
                page::convention(by.convention)
            ),
            _ => "\nBy layer\n".to_string(),
        }
    }

    /// What a planner must not overlook: of the store, then of each convention.
    fn notes_said(&self) -> String {
        let of_store = self.notes.iter().filter(|note| note.is_of_mass()).map(|note| note.to_string());
        let by = |by: &By| match self.by.len() {
            1 => String::new(),
            _ => format!("{}: ", by.convention.name()),
        };
        let of_by = self.by.iter().flat_map(|one| {
            self.cautions(one).into_iter().map(move |caution| format!("{}{caution}", by(one)))
        });
        of_store.chain(of_by).map(|note| format!("  Note: {note}\n")).collect()
    }

    /// What a planner must not overlook of a convention; that the mesh is not closed is one of the store's notes.
    fn cautions(&self, by: &By) -> Vec<&'static str> {
        page::cautions(by.convention, &by.report.mass, self.origin, true)
    }

    fn by_as_json(&self, by: &By) -> Value {
        let mass = &by.report.mass;
        let at_bulk = object([
            ("bulk_density_kg_m3", by.bulk().into()),
            ("factor", mass.rho0_scale.into()),
            ("mass_kg", mass.rho0_mass.into()),
        ]);
        Value::Object(members_of(by.convention)).and([
            ("factor", mass.applied_scale.into()),
            ("mass_kg", mass.applied_mass.into()),
            ("mean_density_kg_m3", by.mean().into()),
            ("density_at_origin_kg_m3", by.origin.into()),
            ("at_bulk_density", at_bulk),
            ("cautions", self.cautions(by).into()),
        ])
    }

    fn layer_as_json(&self, layer: u32, report: &StoreReport) -> Value {
        let by = |by: &By| {
            let name = match by.convention {
                Convention::Raw => "mass_by_raw_kg",
                Convention::Rho0 { .. } => "mass_by_rho0_kg",
                Convention::Mass { .. } => "mass_by_mass_kg",
            };
            (name, Value::from(by.mass_of(report)))
        };
        let own = object([
            ("layer", layer.into()),
            ("kernels", report.kernels.into()),
            ("pieces", report.pieces.into()),
            ("mass_as_entered_kg", report.mass.raw_mass.into()),
            ("greatest_error_of_peak", report.error.into()),
        ]);
        own.and(self.by.iter().map(by))
    }
}

fn layer_row(
    [layer, kernels, pieces, entered]: [String; 4],
    by: Vec<String>,
    error: String,
    beside: &str,
) -> String {
    let by: String = by.iter().map(|mass| format!("{mass:>30}")).collect();
    let row = format!("  {layer:<7}{kernels:>8}{pieces:>8}{entered:>26}{by}{error:>26}  {beside}");
    format!("{}\n", row.trim_end())
}

impl Told for Report {
    fn text(&self) -> String {
        let whole = match &self.by[..] {
            [by] => self.by_one(by),
            _ => self.side_by_side(),
        };
        if self.by_layer.is_empty() { whole } else { whole + &self.layers_title() + &self.each_layer() }
    }

    fn members(&self) -> Vec<(&'static str, Value)> {
        let all = self.by.first().map(|by| by.report);
        let layer = |(layer, report): &(u32, StoreReport)| self.layer_as_json(*layer, report);
        vec![
            ("reading", "report".into()),
            ("layers", layers_as_json(self.layers)),
            ("mesh_closed", is_closed(&self.notes).into()),
            ("volume_m3", all.map(|all| all.mass.volume).into()),
            ("kernels", all.map(|all| all.kernels).into()),
            ("pieces", all.map(|all| all.pieces).into()),
            ("greatest_error_of_peak", all.map(|all| all.error).into()),
            ("density_at_origin_as_entered_kg_m3", self.origin.into()),
            ("mass_as_entered_kg", all.map(|all| all.mass.raw_mass).into()),
            ("by", self.by.iter().map(|by| self.by_as_json(by)).collect()),
            ("by_layer", self.by_layer.iter().map(layer).collect()),
        ]
    }

    fn notes(&self) -> &[Note] {
        &self.notes
    }

    fn says(&self, note: &Note) -> bool {
        note.is_of_mass()
    }
}
