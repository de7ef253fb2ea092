//! The readings of a store, wherever it comes from. Each makes a struct of figures, and that is told in words and as
//! JSON, so that the two cannot differ.
mod bill;
mod density;
mod finished;
mod list;
mod page;
mod print;
mod report;
mod status;
mod table;
mod track;

pub use bill::{Due, bill, bill_of_files};
pub use density::density;
pub use finished::{finished, origin_of_finished};
pub use list::list;
pub use page::{Page, page};
pub use print::{print, print_bill, print_file, tell};
pub use report::report;
pub use status::status;
pub use track::{Track, track};

use crate::json::Value;
use crate::notes::{self, Note};
use cauchy::{Convention, LAYERS, Layers, Store};

/// What a reading tells.
pub trait Told {
    /// In words.
    fn text(&self) -> String;

    /// As members of a JSON object: the reading's name first. A name ends in its unit.
    fn members(&self) -> Vec<(&'static str, Value)>;

    /// What must be said of the store that was read.
    fn notes(&self) -> &[Note];

    /// Whether its words say a note by themselves.
    fn says(&self, _note: &Note) -> bool {
        false
    }
}

/// The notes of a store that bear on its places of these layers.
fn notes_of(store: &Store, layers: Layers) -> Vec<Note> {
    let is_read = |place: u32| store.held(place).is_some_and(|held| layers.has(held.layer));
    let mut notes = notes::of_store(store);
    notes.retain(|note| note.place().is_none_or(is_read));
    notes
}

fn is_closed(notes: &[Note]) -> bool {
    !notes.contains(&Note::NotClosed)
}

/// A convention as members of an object.
fn members_of(by: Convention) -> Vec<(&'static str, Value)> {
    let (target, bulk) = match by {
        Convention::Raw => (None, None),
        Convention::Rho0 { bulk } => (None, Some(bulk)),
        Convention::Mass { target, bulk } => (Some(target), Some(bulk)),
    };
    vec![
        ("convention", by.name().into()),
        ("target_mass_kg", target.into()),
        ("bulk_density_kg_m3", bulk.into()),
    ]
}

fn layers_as_json(layers: Layers) -> Value {
    (0..LAYERS).filter(|layer| layers.has(*layer)).collect()
}

/// A set of layers in words behind a heading; nothing where it is all of them.
fn of_layers(layers: Layers) -> String {
    let numbers: Vec<String> =
        (0..LAYERS).filter(|layer| layers.has(*layer)).map(|n| n.to_string()).collect();
    match numbers.len() {
        _ if layers == Layers::ALL => String::new(),
        1 => format!(" of layer {}", numbers[0]),
        _ => format!(" of layers {}", numbers.join(", ")),
    }
}

/// Conventions in words, each with its name.
fn conventions_said(all: impl Iterator<Item = Convention>) -> String {
    all.map(|by| format!("  {:<6}{}\n", by.name(), crate::page::convention(by))).collect()
}
