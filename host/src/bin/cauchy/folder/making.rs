//! Folders that are made: of a mesh, or of a store's lines.
use super::call::{Answer, Call};
use super::commits::Line;
use super::new::{Making, check_new};
use crate::failure::{Failure, Result, name};
use crate::output::say;
use crate::{lines, notes, opening, page};
use cauchy::{FloatState, Mesh, OpenError, PLACES, Store};
use std::borrow::Borrow;
use std::path::Path;
use std::thread;

/// Makes a store of a mesh; its unit and the radius are given in metres.
pub fn init(dir: &Path, mesh: &Path, unit: f64, radius: Option<f64>) -> Result<()> {
    // what is in the way is said before a large mesh is read
    check_new(dir)?;
    let fault = |fault: OpenError| Failure::of_file(mesh, fault);
    FloatState::check().map_err(|state| fault(state.into()))?;
    let (file, said) = opening::mesh(mesh, unit)?;
    // what an opening refuses is found before anything is written: a loose corner with the mesh, its size by a bill
    let (n_vertices, n_faces) = (file.vertices.len(), file.faces.len());
    cauchy::bill(&[], n_vertices, n_faces).map_err(|refusal| fault(refusal.into()))?;
    let radius = radius.unwrap_or_else(|| opening::farthest(&file.vertices));
    let view = Mesh { vertices: &file.vertices, faces: &file.faces };
    make(dir, "init", view, || Store::open(radius, view).map_err(fault), &[], said)
}

/// Makes a store of a store's lines: their opening, and their puts.
pub fn import(lines: &Path, dir: &Path) -> Result<()> {
    check_new(dir)?;
    let mut store = lines::read(lines)?;
    let puts = puts(&mut store).map_err(|refusal| Failure::of_file(lines, refusal))?;
    let said = vec![format!("of the lines {}", name(lines))];
    make(dir, "import", store.mesh(), || Ok(&store), &puts, said)
}

/// Makes a folder and prints what is in it. The store is opened, and its mesh looked at, while the mesh is written.
fn make<S: Borrow<Store>>(
    dir: &Path,
    command: &str,
    mesh: Mesh<'_>,
    open: impl FnOnce() -> Result<S>,
    puts: &[Line],
    mut said: Vec<String>,
) -> Result<()> {
    let mut making = Making::begin(dir, command)?;
    let (kept, store) = thread::scope(|scope| {
        let kept = scope.spawn(|| making.keep_mesh(mesh));
        let store = open().inspect(|store| said.extend(mesh_said(store.borrow())));
        (kept.join().unwrap_or_else(|_| Failure::work("the mesh could not be written")), store)
    });
    kept?;
    let store = store?;
    let store = store.borrow();
    making.commit(store, puts)?;
    let made = format!("made in {}; line 1 of its log is the opening", dir.display());
    let mut kernels = page::places(store);
    kernels.extend(notes::of_fits(store).map(|note| format!("Note: {note}")));
    let entries = [("mesh", said), ("kernels", kernels), ("store", vec![made])];
    say(&entries.map(|(label, lines)| page::entry(label, &lines)).concat())
}

/// The puts of a store whose work is all to do, with their answers: each place is filled once more with what it holds.
fn puts(store: &mut Store) -> std::result::Result<Vec<Line>, cauchy::Refusal> {
    let mut lines = Vec::new();
    for place in 0..PLACES {
        let Some(held) = store.held(place) else { continue };
        let call = Call::Put { place, kernel: held.kernel, layer: held.layer };
        let answer = call.apply(store);
        if let Answer::Refused(refusal) = answer {
            return Err(refusal);
        }
        lines.push((call.to_string(), answer.to_string()));
    }
    Ok(lines)
}

/// What is said of the mesh of a new store.
fn mesh_said(store: &Store) -> Vec<String> {
    let mut said = page::mesh(store);
    said.extend(opening::unused_said(store.mesh(), "cauchy squeeze"));
    said.extend(opening::closed_by_edges(store.mesh()));
    said
}
