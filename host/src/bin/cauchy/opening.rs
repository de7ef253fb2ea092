//! The store, from a mesh and a kernel list, from its lines or from a snapshot.
use crate::failure::{Failure, Result, name};
use crate::figures::counted;
use crate::folder::Folder;
use crate::holes::Holes;
use crate::input::MeshFile;
use crate::notes;
use crate::options::{Files, Origin};
use crate::readings::Due;
use crate::{input, kernels, lines, page};
use cauchy::{Mesh, Refusal, Store};
use std::path::Path;

/// A store to be worked on.
pub struct Opening {
    pub store: Store,
    /// What is printed of it.
    pub head: String,
}

/// A store as its origin has it, and lines on its mesh, its kernels and their bill.
struct Opened {
    store: Store,
    mesh: Vec<String>,
    kernels: Vec<String>,
    bill: Vec<String>,
}

/// The store, without unused vertices where that is asked. Its mesh need not be closed.
pub fn open(origin: &Origin, squeeze: bool) -> Result<Opening> {
    let mut opened = match origin {
        Origin::Files(files, radius) => open_files(files, *radius)?,
        Origin::Lines(path) => open_lines(path)?,
        Origin::Snapshot(path) => open_snapshot(path)?,
    };
    opened.mesh.extend(spare(&mut opened.store, squeeze)?);
    opened.mesh.extend(page::mesh(&opened.store));
    opened.mesh.extend(closed(opened.store.mesh())?.1);
    opened.kernels.extend(page::places(&opened.store));
    opened.kernels.extend(notes::of_fits(&opened.store).map(|note| format!("Note: {note}")));
    let entries = [("mesh", &opened.mesh), ("kernels", &opened.kernels), ("bill", &opened.bill)];
    let head = entries.map(|(label, lines)| page::entry(label, lines)).concat();
    Ok(Opening { store: opened.store, head })
}

/// The store of a folder or of a snapshot.
pub fn kept(path: &Path) -> Result<Store> {
    if path.is_dir() { Folder::read(path).map(Folder::into_store) } else { snapshot(path) }
}

/// The store of a snapshot.
pub fn snapshot(path: &Path) -> Result<Store> {
    snapshot_of(path, &input::bytes(path)?)
}

/// The store of a snapshot's bytes.
pub fn snapshot_of(path: &Path, bytes: &[u8]) -> Result<Store> {
    Store::from_bytes(bytes).map_err(|fault| Failure::of_file(path, fault))
}

/// A snapshot has no bill: the steps that are left are known.
fn open_snapshot(path: &Path) -> Result<Opened> {
    let store = snapshot(path)?;
    let mut mesh = vec![format!("of the snapshot {}", name(path))];
    if store.carried() {
        mesh.push(page::CARRIED.to_string());
    }
    Ok(Opened { store, mesh, kernels: vec!["of the snapshot".to_string()], bill: vec![] })
}

/// The store of a file of lines, as it is: metres, its own radius, its faces not turned.
fn open_lines(path: &Path) -> Result<Opened> {
    let store = lines::read(path)?;
    let due = Due::of_store(&store).map_err(|refusal| Failure::of_file(path, refusal))?;
    let mesh = vec![format!("of the lines {}", name(path))];
    Ok(Opened { store, mesh, kernels: vec!["of the lines".to_string()], bill: due.lines() })
}

/// Whether a mesh is closed, as the archive tells it, and what is said of it: where it is not, the first places to
/// look at.
pub fn closed(mesh: Mesh<'_>) -> Result<(bool, Vec<String>)> {
    match mesh.closed() {
        Ok(()) => Ok((true, vec![CLOSED.to_string()])),
        Err(Refusal::NotClosed) => Ok((false, not_closed(mesh, &Holes::find(mesh)))),
        Err(refusal) => Failure::work(format!("closed: {refusal}")),
    }
}

/// What is said of a mesh that is closed or not, as a count of its edges tells it.
pub fn closed_by_edges(mesh: Mesh<'_>) -> Vec<String> {
    let holes = Holes::find(mesh);
    if holes.are_none() { vec![CLOSED.to_string()] } else { not_closed(mesh, &holes) }
}

const CLOSED: &str = "closed: every edge occurs once each way";

fn not_closed(mesh: Mesh<'_>, holes: &Holes) -> Vec<String> {
    let mut lines = vec!["NOT closed: field mass means nothing on a shell with a hole".to_string()];
    lines.extend(holes.lines(mesh));
    lines
}

/// Takes the vertices that no face uses out where that is asked, and says how many there are.
fn spare(store: &mut Store, squeeze: bool) -> Result<Option<String>> {
    if !squeeze {
        return Ok(unused_said(store.mesh(), "--squeeze"));
    }
    let freed = store.squeeze().map_err(|refusal| Failure::Work(format!("squeeze: {refusal}")))?;
    Ok(Some(match freed / 3 {
        0 => "every vertex is in a face: none taken out".to_string(),
        found => format!("{} in no face, taken out", counted(found.into(), "vertex")),
    }))
}

/// What is said of vertices that no face uses, and of what takes them out.
pub fn unused_said(mesh: Mesh<'_>, how: &str) -> Option<String> {
    let found = notes::unused(mesh);
    (found > 0).then(|| format!("{} in no face: see {how}", counted(found, "vertex")))
}

/// The store of a mesh and a kernel list. The bill is made before any kernel is put.
fn open_files(files: &Files, radius: Option<f64>) -> Result<Opened> {
    let (mesh, mesh_lines) = mesh(&files.mesh, files.unit)?;
    let list = kernels::read(&files.kernels, files.loading)?;
    let of_mesh = |fault| Failure::of_file(&files.mesh, fault);
    let view = Mesh { vertices: &mesh.vertices, faces: &mesh.faces };
    let due = Due::of(&list.kernels, view).map_err(|refusal| of_mesh(refusal.into()))?;
    let radius = radius.unwrap_or_else(|| farthest(&mesh.vertices));
    let mut store = Store::open(radius, view).map_err(of_mesh)?;
    for (place, (kernel, layer)) in (0..).zip(list.kernels.into_iter().zip(list.layers)) {
        let put = store.put_in(place, kernel, layer);
        put.map_err(|refusal| Failure::of_file(&files.kernels, format!("kernel {place}: {refusal}")))?;
    }
    Ok(Opened { store, mesh: mesh_lines, kernels: list.said, bill: due.lines() })
}

/// The mesh of a file, whose unit is given in metres, and what is said of it. Faces that are inside out are turned.
pub fn mesh(path: &Path, unit: f64) -> Result<(MeshFile, Vec<String>)> {
    let mut mesh = input::mesh(path, unit)?;
    let unit_name = if unit == 1.0 { "metres" } else { "kilometres" };
    let mut lines = vec![format!("{}, in {unit_name}", path.display())];
    let view = Mesh { vertices: &mesh.vertices, faces: &mesh.faces };
    if is_inside_out(view).map_err(|refusal| Failure::of_file(path, refusal))? {
        mesh.faces.iter_mut().for_each(|face| face.swap(1, 2));
        lines.push("its faces were inside out and have been turned".to_string());
    }
    Ok((mesh, lines))
}

/// Whether a mesh's volume is below zero, as the archive's call has it. That works seven points of each face, and its
/// sign alone is asked here. So a plain sum is taken where it is far from zero beside the sizes of all products in it:
/// the roundings of either sum, of at most 2,097,152 faces in any order, stay below 1e-8 of these.
fn is_inside_out(mesh: Mesh<'_>) -> std::result::Result<bool, Refusal> {
    let corner = |corner: u32| mesh.vertices.get(corner as usize).ok_or(Refusal::LooseCorner);
    let (mut sum, mut size) = (0.0, 0.0);
    for [a, b, c] in mesh.faces {
        let (a, [bx, by, bz], [cx, cy, cz]) = (corner(*a)?, corner(*b)?, corner(*c)?);
        let pairs = [(by * cz, bz * cy), (bz * cx, bx * cz), (bx * cy, by * cx)];
        sum += a.iter().zip(pairs).map(|(x, (plus, minus))| x * (plus - minus)).sum::<f64>();
        size +=
            a.iter().zip(pairs).map(|(x, (plus, minus))| x.abs() * (plus.abs() + minus.abs())).sum::<f64>();
    }
    if sum.abs() > 1e-8 * size { Ok(sum < 0.0) } else { Ok(mesh.volume()? < 0.0) }
}

/// The distance of the farthest vertex from the origin.
pub fn farthest(vertices: &[[f64; 3]]) -> f64 {
    let distance = |[x, y, z]: &[f64; 3]| (x * x + y * y + z * z).sqrt();
    vertices.iter().map(distance).fold(0.0, f64::max)
}
