//! The wall page: the bytes of the archive's page, and the figures in them.
use super::{Told, is_closed};
use crate::json::{Value, object};
use crate::notes::{self, BESIDE_MASS, Note};
use cauchy::{Refusal, Store};

pub struct Page {
    /// As the archive writes it.
    text: String,
    notes: Vec<Note>,
}

/// The page of every place.
pub fn page(store: &Store) -> Result<Page, Refusal> {
    Ok(Page { text: store.page()?, notes: notes::of_store(store) })
}

impl Page {
    /// As a run prints it: behind every mass on a mesh that is not closed it says so.
    pub fn shown(&self) -> String {
        let beside = if is_closed(&self.notes) { String::new() } else { format!("  {BESIDE_MASS}") };
        let lines: String = self.text.lines().map(|line| format!("  {line}{beside}\n")).collect();
        format!(
            "\nWall page: place, pieces, and field mass in whole kilograms with weights as entered\n{lines}"
        )
    }
}

/// A number in columns of a line, counted from 1.
fn number(line: &str, from: usize, to: usize) -> Option<i128> {
    line.get(from - 1..to)?.trim().parse().ok()
}

impl Told for Page {
    fn text(&self) -> String {
        self.text.clone()
    }

    fn members(&self) -> Vec<(&'static str, Value)> {
        let mass = |line: &str| ("mass_kg", Value::from(number(line, 45, 64)));
        let place = |line: &str| {
            let place = number(line, 1, 2)?;
            Some(object([("place", place.into()), ("pieces", number(line, 4, 5).into()), mass(line)]))
        };
        let total = self.text.lines().last().and_then(|line| number(line, 45, 64));
        vec![
            ("reading", "page".into()),
            ("mesh_closed", is_closed(&self.notes).into()),
            ("places", self.text.lines().filter_map(place).collect()),
            ("total_mass_kg", total.into()),
            ("lines", self.text.lines().collect()),
        ]
    }

    fn notes(&self) -> &[Note] {
        &self.notes
    }
}
