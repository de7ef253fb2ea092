//! Which answers were met.
use oracle::closed::{Fault, closed, number};
use oracle::meshes::Mesh;
use oracle::tally::Tally;
use std::collections::BTreeMap;

/// What an answer is called: the number, and the fault where it is 22.
#[derive(Default)]
pub struct Seen(BTreeMap<&'static str, u64>);

/// All that must be met.
const ALL: [&str; 8] = ["0", "0 without faces", "1", "2", "3", "22 a corner twice", "22 an edge twice", "22 an edge without its reverse"];

impl Seen {
    /// The archive's answer held to the count.
    pub fn judge(&mut self, mesh: &Mesh, tally: &mut Tally, case: impl FnOnce(&Mesh) -> String) {
        let (told, (no, fault)) = (closed(mesh), number(mesh));
        tally.count(told != no, || format!("{}: {told}, not {no}", case(mesh)));
        match fault {
            Some(Fault::CornerTwice) => self.more("22 a corner twice", 1),
            Some(Fault::EdgeTwice) => self.more("22 an edge twice", 1),
            Some(Fault::NoReverse) => self.more("22 an edge without its reverse", 1),
            None if no == 0 && mesh.faces.is_empty() => self.more("0 without faces", 1),
            None => self.number(no),
        }
    }

    pub fn number(&mut self, no: u32) {
        let name = match no {
            0 => "0",
            1 => "1",
            2 => "2",
            3 => "3",
            _ => "22",
        };
        self.more(name, 1);
    }

    fn more(&mut self, name: &'static str, by: u64) {
        *self.0.entry(name).or_default() += by;
    }

    pub fn add(&mut self, other: &Seen) {
        other.0.iter().for_each(|(name, n)| self.more(name, *n));
    }

    pub fn text(&self) -> String {
        self.0.iter().map(|(name, n)| format!("{n} as {name}")).collect::<Vec<_>>().join(", ")
    }

    /// A comparison that does not meet an answer says nothing of it.
    pub fn all_met(&self) -> Tally {
        let mut tally = Tally::new();
        for name in ALL {
            tally.count(!self.0.contains_key(name), || format!("no mesh is answered {name}"));
        }
        tally.line("closed", "answers that must be met", &self.text());
        tally
    }
}
