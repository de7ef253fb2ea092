//! Damaged files of every kind: each is read as what its kind may be, or refused with a message.
use crate::damage::{Body, Damaged, KINDS, Kind, Random, Whole, damaged};
use crate::failure::{Failure, Result};
use crate::input::{self, MeshFile};
use crate::kernels::{self, Loading};
use crate::lines;
use cauchy::{LAYERS, Loader, PLACES};
use std::panic::{AssertUnwindSafe, catch_unwind};
use std::path::Path;

/// A globe of so few faces that many files of it are read in a second.
fn globe() -> Body {
    Body::globe(4, 6)
}

#[test]
fn whole_files_are_read() {
    for kind in KINDS {
        read(kind, kind.name(), &kind.bytes(&globe())).unwrap();
    }
}

#[test]
fn whole_meshes_are_the_globe() {
    let body = globe();
    for kind in KINDS.into_iter().filter(|kind| kind.is_mesh()) {
        let mesh = input::tests::mesh_read(kind.name(), kind.bytes(&body)).unwrap();
        assert_eq!(mesh.vertices.len(), body.vertices.len(), "{kind:?}");
        // vertices of an STL file come in another order
        let read = mesh.faces.iter().map(|face| face.map(|corner| mesh.vertices[corner as usize]));
        let wanted = body.faces.iter().map(|face| face.map(|corner| body.vertices[corner]));
        let [read, wanted]: [Vec<_>; 2] = [read.collect(), wanted.collect()];
        let pairs = read.as_flattened().as_flattened().iter().zip(wanted.as_flattened().as_flattened());
        assert!(
            read.len() == wanted.len() && pairs.into_iter().all(|(x, y)| (x - 1000.0 * y).abs() < 1e-4),
            "{kind:?}"
        );
    }
}

#[test]
fn damaged_files_are_refused_or_whole() {
    for kind in KINDS {
        read_many(kind, 300);
    }
}

#[test]
#[ignore = "a minute: host/test --long"]
fn ten_thousand_damaged_files_of_each_kind() {
    for kind in KINDS {
        read_many(kind, 10_000);
    }
}

fn read_many(kind: Kind, files: u64) {
    let whole = kind.whole(&globe());
    let taken = (1..=files).filter(|seed| read_one(kind, &whole, *seed)).count() as u64;
    println!("{kind:?}: {taken} taken, {} refused", files - taken);
    // the damage is such that both occur
    assert!(taken > 0 && taken < files / 2, "{kind:?}: {taken} of {files}");
}

/// Whether a damaged file is taken.
fn read_one(kind: Kind, whole: &Whole, seed: u64) -> bool {
    let mut random = Random::new(seed);
    let damaged = damaged(kind, whole, &mut random);
    // a name tells less, or tells nothing
    let name = if random.below(3) == 0 { "damaged" } else { kind.name() };
    let told = catch_unwind(AssertUnwindSafe(|| read(kind, name, &damaged.bytes)));
    let Damaged { how, must_be_refused, .. } = &damaged;
    match told {
        Ok(Ok(())) => {
            assert!(!must_be_refused, "{kind:?}, seed {seed}, {how}: taken");
            true
        }
        Ok(Err(failure)) => {
            assert!(is_message(&failure, name), "{kind:?}, seed {seed}, {how}: {failure:?}");
            false
        }
        Err(_) => panic!("{kind:?}, seed {seed}, {how}: see above"),
    }
}

/// Whether a message names the file, and shows nothing that a terminal would follow.
fn is_message(failure: &Failure, name: &str) -> bool {
    let Failure::Work(text) = failure else { return false };
    let rest = text.strip_prefix(name).unwrap_or_default();
    let is_named =
        [": ", ", line ", ", byte "].iter().any(|start| rest.starts_with(start) && rest.len() > start.len());
    is_named
        && text.lines().count() <= 3
        && text.lines().all(|row| row.chars().count() < 300 && !row.contains(char::is_control))
}

/// Reads a file, and looks that what it is read as keeps to its rules.
fn read(kind: Kind, name: &str, bytes: &[u8]) -> Result<()> {
    let path = Path::new(name);
    match kind {
        Kind::List | Kind::Lines | Kind::Toml => read_kernels(kind, path, bytes),
        Kind::StoreLines => lines::store_of(path, bytes).map(|store| {
            let mesh = store.mesh();
            check(&MeshFile { vertices: vec![[0.0; 3]; mesh.vertices.len()], faces: mesh.faces.to_vec() });
        }),
        Kind::Track => input::tests::track_read(name, bytes).map(|points| {
            assert!(!points.is_empty() && points.as_flattened().iter().all(|x| x.abs() <= 1e103));
        }),
        _ => input::tests::mesh_read(name, bytes).map(|mesh| {
            assert!(!mesh.faces.is_empty());
            check(&mesh);
        }),
    }
}

fn check(mesh: &MeshFile) {
    let vertices = mesh.vertices.len() as u32;
    assert!(vertices <= 1_048_576 && mesh.faces.len() <= 2_097_152);
    assert!(mesh.faces.as_flattened().iter().all(|corner| *corner < vertices));
    assert!(mesh.vertices.as_flattened().iter().all(|x| x.abs() <= 1e103));
}

fn read_kernels(kind: Kind, path: &Path, bytes: &[u8]) -> Result<()> {
    let loader = (kind != Kind::List).then_some(Loader::Native);
    let list = kernels::kernels_of(path, bytes, Loading { loader, alpha: None })?;
    assert!((1..=PLACES as usize).contains(&list.kernels.len()) && list.layers.len() == list.kernels.len());
    assert!(list.layers.iter().all(|layer| *layer < LAYERS));
    if kind == Kind::List {
        let numbers =
            list.kernels.iter().flat_map(|kernel| [kernel.sigma, kernel.w, kernel.alpha, kernel.c[0]]);
        assert!(numbers.into_iter().all(|x| x.abs() <= 1e103));
    }
    Ok(())
}
