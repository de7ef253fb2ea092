//! The rescaled list: the pieces of all places, with their weights by a convention.
use super::{Told, layers_as_json, members_of, notes_of, of_layers};
use crate::figures::{counted, short};
use crate::json::{Value, object};
use crate::notes::Note;
use crate::page;
use cauchy::{Convention, Kernel, Layers, Refusal, Store};

/// The rows that a run prints of it.
const ROWS: usize = 12;

pub struct List {
    by: Convention,
    layers: Layers,
    /// The place of each piece.
    places: Vec<u32>,
    pieces: Vec<Kernel>,
    notes: Vec<Note>,
}

/// The pieces of these layers with weights by a convention.
pub fn list(store: &Store, by: Convention, layers: Layers) -> Result<List, Refusal> {
    let pieces = store.layers(layers).list(by)?;
    Ok(List { by, layers, places: page::places_of(store, layers), pieces, notes: notes_of(store, layers) })
}

impl List {
    /// The first rows, as a run prints them.
    pub fn first_rows(&self) -> String {
        let more = match self.pieces.len() > ROWS {
            true => format!(", the first {ROWS} here; --list FILE writes all"),
            false => String::new(),
        };
        self.rows("", &more, ROWS)
    }

    pub fn csv(&self) -> String {
        page::list_csv(&self.places, &self.pieces)
    }

    fn rows(&self, of: &str, more: &str, most: usize) -> String {
        let (name, pieces) = (self.by.name(), counted(self.pieces.len() as u64, "piece"));
        let title = format!("\nRescaled list{of} by the convention {name}: {pieces}{more}\n");
        let heads = ["place", "x [m]", "y [m]", "z [m]", "sigma [1/m]", "weight [kg/m³]", "exponent"];
        let one = |(place, piece): (&u32, &Kernel)| {
            let [x, y, z] = piece.c;
            let [x, y, z, sigma, w, alpha] = [x, y, z, piece.sigma, piece.w, piece.alpha].map(short);
            row([place.to_string(), x, y, z, sigma, w, alpha])
        };
        let rows: String = self.places.iter().zip(&self.pieces).take(most).map(one).collect();
        title + &row(heads.map(String::from)) + &rows
    }
}

fn row([place, x, y, z, sigma, w, alpha]: [String; 7]) -> String {
    format!("  {place:>5}  {x:>9}  {y:>9}  {z:>9}  {sigma:>12}  {w:>14}  {alpha:>8}\n")
}

impl Told for List {
    fn text(&self) -> String {
        self.rows(&of_layers(self.layers), "", usize::MAX)
    }

    fn members(&self) -> Vec<(&'static str, Value)> {
        let piece = |(place, piece): (&u32, &Kernel)| {
            object([("place", (*place).into())]).and(page::members_of(piece))
        };
        let mut members = vec![("reading", "list".into()), ("layers", layers_as_json(self.layers))];
        members.extend(members_of(self.by));
        members.push(("pieces", self.places.iter().zip(&self.pieces).map(piece).collect()));
        members
    }

    fn notes(&self) -> &[Note] {
        &self.notes
    }
}
