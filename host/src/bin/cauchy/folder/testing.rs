//! What the tests of a folder share: a folder of their own, a small body, and calls at random.
use super::call::Call;
use super::new::Making;
use crate::failure::{Failure, Result};
use cauchy::{Kernel, Mesh, Store};
use std::fs;
use std::path::{Path, PathBuf};
use std::sync::atomic::{AtomicU64, Ordering};

/// A folder that is removed with all that is in it.
pub struct Scratch(PathBuf);

static COUNT: AtomicU64 = AtomicU64::new(0);

impl Scratch {
    pub fn new() -> Scratch {
        let count = COUNT.fetch_add(1, Ordering::Relaxed);
        let path = std::env::temp_dir().join(format!("cauchy-folder-{}-{count}", std::process::id()));
        fs::create_dir_all(&path).unwrap();
        Scratch(path)
    }

    /// The path of a store in it.
    pub fn store(&self) -> PathBuf {
        self.0.join("store")
    }
}

impl Drop for Scratch {
    fn drop(&mut self) {
        let _ = fs::remove_dir_all(&self.0);
    }
}

/// A store of a small body that has a vertex in no face.
pub fn opened() -> Store {
    let vertices = [[0.0; 3], [900.0, 0.0, 0.0], [7.0; 3], [0.0, 800.0, 0.0], [0.0, 0.0, 700.0]];
    let faces = [[0, 3, 1], [0, 1, 4], [0, 4, 3], [1, 3, 4]];
    Store::open(900.0, Mesh { vertices: &vertices, faces: &faces }).unwrap()
}

/// A folder with such a store.
pub fn made() -> (Scratch, PathBuf) {
    let scratch = Scratch::new();
    let path = scratch.store();
    make(&path).unwrap();
    (scratch, path)
}

/// Makes a folder of such a store.
pub fn make(path: &Path) -> Result<()> {
    let store = opened();
    let mut making = Making::begin(path, "init")?;
    making.keep_mesh(store.mesh())?;
    making.commit(&store, &[])
}

/// Numbers at random.
pub struct Rng(pub u64);

impl Rng {
    pub fn below(&mut self, n: u64) -> u64 {
        self.0 = self.0.wrapping_mul(0x5851_f42d_4c95_7f2d).wrapping_add(0x1405_7b7e_f767_814f);
        (self.0 >> 33) % n
    }

    fn float(&mut self) -> f64 {
        self.below(2001) as f64 - 1000.0
    }

    /// A call, now and then one that is refused.
    pub fn call(&mut self) -> Call {
        let place = self.below(6) as u32 + 27;
        match self.below(12) {
            0..=3 => {
                let c = [self.float(), self.float(), self.float()];
                let (sigma, alpha) = (self.float() / 1e5, [1.0, 1.5, 2.5, f64::NAN][self.below(4) as usize]);
                let kernel = Kernel { c, sigma, w: self.float(), alpha };
                Call::Put { place, kernel, layer: self.below(17) as u32 }
            }
            4 | 5 => Call::Clear(place),
            6 | 7 => Call::Reweigh(place, self.float()),
            8 if self.below(4) == 0 => Call::Squeeze,
            9 => Call::Adopt { place, steps: self.below(60) },
            _ => Call::Advance(self.below(60)),
        }
    }
}

/// What was said where something failed.
pub fn said<T>(told: Result<T>) -> String {
    match told {
        Err(Failure::Work(what)) => what,
        Err(other) => panic!("{other:?}"),
        Ok(_) => panic!("nothing failed"),
    }
}

/// The two runs of a store, by their bits and without what a squeeze freed.
pub fn bits(store: &Store) -> (Vec<u64>, Vec<u32>) {
    let (floats, words) = store.runs();
    let count = cauchy::FLOATS_BEFORE_MESH + 3 * store.vertices() as usize;
    (floats[..count].iter().map(|x| x.to_bits()).collect(), words.to_vec())
}

/// The files of a folder and what is in them.
pub fn files(folder: &Path) -> Vec<(PathBuf, Vec<u8>)> {
    let entries = fs::read_dir(folder).unwrap().map(|entry| entry.unwrap().path());
    let mut files: Vec<_> = entries.map(|path| (path.clone(), fs::read(path).unwrap())).collect();
    files.sort();
    files
}
