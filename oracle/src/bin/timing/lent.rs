//! A globe of some hundred metres, as each text takes it, and a store on it.
use oracle::inputs::Rng;
use oracle::machine::room;
use oracle::meshes::{Mesh, globe};
use oracle::original::{native_platform, native_steps};
use oracle::pieces::Kernel;
use oracle::store;
use std::cell::RefCell;
use std::rc::Rc;

pub const RADIUS: f64 = 500.0;

/// The same mesh three times; the archive's calls take the platform's runs.
pub struct Body {
    pub faces: usize,
    pub plain: native_platform::Mesh,
    pub steps: native_steps::Mesh,
}

impl Body {
    /// 2·around·(rings - 1) faces.
    pub fn globe(rings: usize, around: usize) -> Rc<Body> {
        Body::of(globe(RADIUS, rings, around))
    }

    fn of(Mesh { xyz, faces }: Mesh) -> Rc<Body> {
        let steps = native_steps::Mesh { xyz: xyz.clone(), faces: faces.clone() };
        Rc::new(Body { faces: faces.len() / 3, plain: native_platform::Mesh { xyz, faces }, steps })
    }

    pub fn thousand() -> Rc<Body> {
        Body::globe(21, 25)
    }

    pub fn twenty_thousand() -> Rc<Body> {
        Body::globe(101, 100)
    }

    /// The same, its faces in an order that has nothing to do with where they lie.
    pub fn shuffled() -> Rc<Body> {
        let mut mesh = globe(RADIUS, 101, 100);
        let mut r = Rng(1);
        for face in (1..mesh.faces.len() / 3).rev() {
            let other = r.below(face as u64 + 1) as usize;
            (0..3).for_each(|corner| mesh.faces.swap(3 * face + corner, 3 * other + corner));
        }
        Body::of(mesh)
    }

    pub fn two_million() -> Rc<Body> {
        Body::globe(1_001, 1_000)
    }

    pub fn store(&self) -> Shared {
        Rc::new(RefCell::new(Lent::open(&self.plain.xyz, &self.plain.faces)))
    }
}

/// The two runs of a store.
pub struct Lent {
    pub floats: Vec<f64>,
    pub words: Vec<u32>,
}

/// A store that several ways use in turn.
pub type Shared = Rc<RefCell<Lent>>;

impl Lent {
    pub fn open(xyz: &[f64], faces: &[u32]) -> Lent {
        let (floats, words) = room(xyz.len() / 3, faces.len() / 3);
        let mut lent = Lent { floats: vec![0.0; floats], words: vec![0; words] };
        assert_eq!(store::open(&mut lent.floats, &mut lent.words, RADIUS, xyz, faces).no, 0);
        lent
    }

    /// How many pieces the kernel has.
    pub fn put(&mut self, place: u32, k: Kernel) -> u32 {
        let told = store::put(&mut self.floats, &mut self.words, place, k, 0);
        assert_eq!(told.no, 0);
        told.pieces
    }

    /// Steps done and steps left.
    pub fn advance(&mut self, budget: u64) -> (u64, u64) {
        let told = store::advance(&mut self.floats, &mut self.words, budget);
        assert_eq!(told.no, 0);
        (told.done, told.left)
    }
}
