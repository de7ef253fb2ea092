//! Readings as commands of their own.
use super::{Page, Told, bill, bill_of_files, density, finished, list, page, report, status, track};
use crate::failure::{Failure, Result, name};
use crate::json::Value;
use crate::notes::{self, Note};
use crate::options::{Files, Reading};
use crate::output::{self, Output, say};
use crate::page::entry;
use crate::{input, lines, opening, plot};
use cauchy::{Convention, Layers, Refusal, Store};
use std::path::Path;

/// Prints a reading of a store that came from a folder, as it is or as it was after a line of its log, or from a file.
pub fn print(store: &Store, from: &Path, at: Option<u64>, reading: &Reading, json: bool) -> Result<()> {
    let asked = Asked { store, from, at, json };
    let refused = |refusal| asked.refused(refusal);
    match reading {
        Reading::Density { point, convention, layers } => {
            asked.tell(&density(store, &[*convention], *layers, *point).map_err(refused)?, &[])
        }
        Reading::Report { conventions, layers, by_layer } => {
            asked.tell(&report(store, conventions, *layers, *by_layer).map_err(refused)?, &[])
        }
        Reading::Finished { conventions, layers } => {
            asked.tell(&finished(store, conventions, *layers).map_err(refused)?, &[])
        }
        Reading::List { convention, layers, csv, overwrite } => {
            asked.list(*convention, *layers, csv.as_deref(), *overwrite)
        }
        Reading::Track { points, convention, layers, csv, svg, overwrite } => {
            asked.track(points, *convention, *layers, [csv.as_deref(), svg.as_deref()], *overwrite)
        }
        Reading::Page => asked.page(&page(store).map_err(refused)?),
        Reading::Bill => asked.bill(format!("of the store {}", name(from)), true),
        Reading::Status => asked.tell(&status(store, format!("of the store {}", name(from))), &[]),
    }
}

/// Prints what a reading of a store tells.
pub fn tell(told: &impl Told, from: &Path, json: bool) -> Result<()> {
    say(&if json { as_json(told, from, vec![]) } else { as_text(told) })
}

/// Prints a reading of a store in a file: a snapshot, or a store's lines.
pub fn print_file(from: &Path, reading: &Reading, json: bool) -> Result<()> {
    let bytes = input::bytes(from)?;
    let is_snapshot = bytes.starts_with(b"CAUCHY");
    match reading {
        Reading::Bill if !is_snapshot => {
            let store = &lines::store_of(from, &bytes)?;
            Asked { store, from, at: None, json }.bill(format!("of the lines {}", name(from)), false)
        }
        _ if bytes.starts_with(b"(open ") => {
            print(&lines::store_of(from, &bytes)?, from, None, reading, json)
        }
        _ => print(&opening::snapshot_of(from, &bytes)?, from, None, reading, json),
    }
}

/// Prints the bill of a mesh and a kernel list.
pub fn print_bill(files: &Files, json: bool) -> Result<()> {
    tell(&bill_of_files(files)?, &files.mesh, json)
}

/// A store, where it came from, and how it is to be told of.
struct Asked<'a> {
    store: &'a Store,
    from: &'a Path,
    /// The line of the log after which the store stood so, where that is asked.
    at: Option<u64>,
    json: bool,
}

impl Asked<'_> {
    /// Why a reading was refused, and where work is left what does it.
    fn refused(&self, refusal: Refusal) -> Failure {
        let path = self.from.display();
        let how = match (refusal, self.at) {
            (Refusal::Unfinished, Some(line)) => {
                format!("; cauchy at {path} {line} finished tells what was done by then")
            }
            (Refusal::Unfinished, None) if self.from.is_dir() => {
                format!("; cauchy advance {path} does it, cauchy finished {path} tells what is done")
            }
            (Refusal::Unfinished, None) => "; cauchy resume does it".to_string(),
            _ => String::new(),
        };
        Failure::of_file(self.from, format!("{refusal}{how}"))
    }

    /// Prints what a reading tells, and the files that it wrote.
    fn tell(&self, told: &impl Told, written: &[Output]) -> Result<()> {
        let written: Vec<String> = written.iter().map(Output::name).collect();
        match self.json {
            true => say(&as_json(told, self.from, written)),
            false => say(&(as_text(told) + &entry("written", &written))),
        }
    }

    fn list(&self, by: Convention, layers: Layers, csv: Option<&Path>, overwrite: bool) -> Result<()> {
        let [csv, _] = prepared([csv, None], &[self.from], overwrite)?;
        let told = list(self.store, by, layers).map_err(|refusal| self.refused(refusal))?;
        csv.as_ref().map_or(Ok(()), |output| output.write(told.csv().as_bytes()))?;
        self.tell(&told, &csv.into_iter().collect::<Vec<_>>())
    }

    fn track(
        &self,
        file: &Path,
        by: Convention,
        layers: Layers,
        outputs: [Option<&Path>; 2],
        overwrite: bool,
    ) -> Result<()> {
        let [csv, svg] = prepared(outputs, &[self.from, file], overwrite)?;
        let told = track(self.store, by, layers, file, input::track(file)?);
        let told = told.map_err(|refusal| self.refused(refusal))?;
        csv.as_ref().map_or(Ok(()), |output| output.write(told.csv().as_bytes()))?;
        svg.as_ref().map_or(Ok(()), |output| output.write(plot::picture(&told).as_bytes()))?;
        self.tell(&told, &csv.into_iter().chain(svg).collect::<Vec<_>>())
    }

    /// Prints the page as it is pinned up, its bytes and nothing else. What must be known beside it goes to standard
    /// error.
    fn page(&self, told: &Page) -> Result<()> {
        if self.json {
            return self.tell(told, &[]);
        }
        told.notes().iter().for_each(|note| eprintln!("cauchy: {}: note: {note}", name(self.from)));
        say(&told.text())
    }

    fn bill(&self, mesh: String, keeps_work: bool) -> Result<()> {
        let told = bill(self.store, mesh, keeps_work);
        self.tell(&told.map_err(|fault| Failure::of_file(self.from, fault))?, &[])
    }
}

fn as_text(told: &impl Told) -> String {
    let unsaid: Vec<Note> = told.notes().iter().copied().filter(|note| !told.says(note)).collect();
    told.text().trim_start_matches('\n').to_string() + &notes::lines(&unsaid)
}

fn as_json(told: &impl Told, from: &Path, written: Vec<String>) -> String {
    let mut members = told.members();
    members.insert(1.min(members.len()), ("from", from.into()));
    members.push(("notes", told.notes().iter().map(Note::json).collect()));
    if !written.is_empty() {
        members.push(("written", written.into()));
    }
    format!("{:#}\n", Value::Object(members))
}

/// Finds the files of a reading possible, and none of them one that is read.
fn prepared(paths: [Option<&Path>; 2], inputs: &[&Path], overwrite: bool) -> Result<[Option<Output>; 2]> {
    let outputs: Vec<&Path> = paths.into_iter().flatten().collect();
    output::check_apart(&outputs, inputs)?;
    let one = |path: Option<&Path>| path.map(|path| Output::prepare(path, overwrite)).transpose();
    Ok([one(paths[0])?, one(paths[1])?])
}
