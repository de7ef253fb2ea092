//! The store, over two vectors of its own.
use crate::runs::{FLOATS_BEFORE_MESH, WORDS_BEFORE_MESH};
use crate::{Convention, Finished, Fit, FloatState, Kernel, Layers, Mesh, Refusal, StoreReport, sys};
use std::error::Error;
use std::fmt;

/// The places of a store, numbered from 0.
pub const PLACES: u32 = 32;

/// The most points that one [`Store::track`] takes.
pub const MAX_TRACK: usize = 4096;

/// The bytes of the longest page: 65 for each of the [`PLACES`] and for the total.
pub const MAX_PAGE: usize = 65 * (PLACES as usize + 1);

// The layout of 01: the fields of a place.
const KERNELS_AT: usize = 1;
const KERNEL_FLOATS: usize = 7;
const STATES_AT: usize = 2;
const STATE_WORDS: usize = 4;
const LAYER_IN_STATE: usize = 3;
/// What stands before the corners in the words of the form before layers: three words to a place.
pub(crate) const OLD_WORDS_BEFORE_MESH: usize = 98;

/// Up to 32 kernels inside a mesh, with the work on them as far as it is done.
///
/// Both runs that the archive works on are the store's own, so no call can overlap another's memory, and they
/// hold a sound store from the opening on. Stores are independent: they may be used in different threads, and so
/// may the readings of one store, the methods by `&self`.
#[derive(Clone)]
pub struct Store {
    pub(crate) floats: Vec<f64>,
    pub(crate) words: Vec<u32>,
    pub(crate) carried: bool,
}

/// What a put answers.
#[derive(Clone, Copy, Debug, PartialEq)]
pub struct Placed {
    /// The kernel's pieces.
    pub pieces: u32,
    /// The steps that they need: one for each piece and face.
    pub need: u32,
    /// How their fit ended; the store does not keep it.
    pub fit: Fit,
}

/// What an advance answers.
#[derive(Clone, Copy, Debug, PartialEq, Eq)]
pub struct Steps {
    /// The steps that this call did.
    pub done: u64,
    /// The steps that are left.
    pub left: u64,
}

/// What an adoption answers.
#[derive(Clone, Copy, Debug, PartialEq, Eq)]
pub enum Adoption {
    /// The place of the other store came across.
    Taken {
        /// Its pieces.
        pieces: u32,
        /// The steps that it has left.
        left: u64,
    },
    /// The other store is one of another body, and nothing is changed.
    AnotherBody,
}

/// What a filled place holds.
#[derive(Clone, Copy, Debug, PartialEq)]
pub struct Held {
    /// The kernel, its weight as it was last entered.
    pub kernel: Kernel,
    /// Its layer.
    pub layer: u32,
    /// Its pieces.
    pub pieces: u32,
    /// The greatest error of its fit, as a fraction of its peak.
    pub error: f64,
}

/// Why a store was not opened.
#[derive(Clone, Copy, Debug, PartialEq, Eq)]
pub enum OpenError {
    /// The mesh was refused.
    Refused(Refusal),
    /// The thread's floating-point state is not the default one.
    FloatState(FloatState),
}

impl Store {
    /// Opens a store of this mesh, every place empty. The body's radius, in metres, bounds the fits of
    /// exponents other than 1.
    ///
    /// ```
    /// use cauchy::{Mesh, OpenError, Refusal, Store};
    ///
    /// let vertices = [[0.0, 0.0, 0.0], [1.0, 0.0, 0.0], [0.0, 1.0, 0.0]];
    /// let store = Store::open(1.0, Mesh { vertices: &vertices, faces: &[[0, 1, 2]] })?;
    /// assert_eq!((store.vertices(), store.faces()), (3, 1));
    /// let loose = Store::open(1.0, Mesh { vertices: &vertices, faces: &[[0, 1, 3]] });
    /// assert_eq!(loose.unwrap_err(), OpenError::Refused(Refusal::LooseCorner));
    /// # Ok::<(), OpenError>(())
    /// ```
    pub fn open(radius: f64, mesh: Mesh<'_>) -> Result<Store, OpenError> {
        FloatState::check()?;
        let (xyz, faces) = mesh.runs();
        let mut floats = vec![0.0; FLOATS_BEFORE_MESH + xyz.len()];
        let mut words = vec![0; WORDS_BEFORE_MESH + faces.len()];
        // SAFETY: slices, borrowed for the call; those that are written are new.
        let told = unsafe {
            sys::cauchy_store_open(
                floats.as_mut_ptr(),
                floats.len(),
                words.as_mut_ptr(),
                words.len(),
                radius,
                xyz.as_ptr(),
                xyz.len(),
                faces.as_ptr(),
                faces.len(),
            )
        };
        Refusal::check(told.no)?;
        Ok(Store { floats, words, carried: false })
    }

    /// Carries a store of the form before layers over, which had three words to a place: a store like it, with every
    /// kernel in layer 0 and all work as far as it was done. Nothing is fitted anew: pieces go across as they are held,
    /// also those of a version whose powers were others. The two runs are only read; what they have past the old
    /// store's own is left behind. [`Store::from_bytes`] does the same with a snapshot of that form.
    ///
    /// ```
    /// use cauchy::{Convention, Kernel, OpenError, Refusal, Store};
    ///
    /// // a body of 3 vertices and 4 faces, and in place 7 a kernel of one piece, 3 faces of which are done
    /// let (mut floats, mut words) = (vec![0.0; 1761 + 3 * 3], vec![0; 98 + 3 * 4]);
    /// floats[1 + 7 * 7..][..6].copy_from_slice(&[0.0, 0.0, 0.0, 0.01, 300.0, 1.0]);
    /// floats[225 + 48 * 7..][..3].copy_from_slice(&[0.01, 1.0, 0.0]);
    /// (words[0], words[1]) = (3, 4);
    /// words[2 + 3 * 7..][..3].copy_from_slice(&[2, 0, 3]);
    /// let mut store = Store::carry_from_old(&floats, &words)?;
    /// assert!(store.carried());
    /// let kernel = Kernel { c: [0.0; 3], sigma: 0.01, w: 300.0, alpha: 1.0 };
    /// assert_eq!(store.held(7).map(|held| (held.kernel, held.layer)), Some((kernel, 0)));
    /// assert_eq!((store.left()?, store.density(Convention::Raw, [0.0; 3])?), (1, 300.0));
    ///
    /// let short = Store::carry_from_old(&floats, &words[..97]);
    /// assert_eq!(short.unwrap_err(), OpenError::Refused(Refusal::ShortStore));
    /// # Ok::<(), Box<dyn std::error::Error>>(())
    /// ```
    pub fn carry_from_old(floats: &[f64], words: &[u32]) -> Result<Store, OpenError> {
        FloatState::check()?;
        let count = |at: usize| words.get(at).map_or(0, |count| *count as usize);
        // old runs that are too short for these counts are refused: so no more is needed than they have
        let n_floats = floats.len().min(FLOATS_BEFORE_MESH + 3 * count(0));
        let n_words =
            (words.len() + WORDS_BEFORE_MESH - OLD_WORDS_BEFORE_MESH).min(WORDS_BEFORE_MESH + 3 * count(1));
        let (mut new_floats, mut new_words) = (vec![0.0; n_floats], vec![0; n_words]);
        // SAFETY: slices, borrowed for the call; those that are written are new.
        let told = unsafe {
            sys::cauchy_store_carry(
                floats.as_ptr(),
                floats.len(),
                words.as_ptr(),
                words.len(),
                new_floats.as_mut_ptr(),
                n_floats,
                new_words.as_mut_ptr(),
                n_words,
            )
        };
        Refusal::check(told.no)?;
        Ok(Store { floats: new_floats, words: new_words, carried: true })
    }

    /// Whether the store was carried over from the form before layers, by [`Store::carry_from_old`] or, from a snapshot
    /// of that form, by [`Store::from_bytes`]. Clones know it too, and snapshots of this store do not: they are of the
    /// form with layers.
    ///
    /// ```
    /// # use cauchy::{Mesh, Store};
    /// # let mesh = Mesh { vertices: &[[0.0; 3]; 3], faces: &[[0, 1, 2]] };
    /// assert!(!Store::open(500.0, mesh)?.carried());
    /// # Ok::<(), cauchy::OpenError>(())
    /// ```
    pub fn carried(&self) -> bool {
        self.carried
    }

    /// Puts a kernel into a place, whatever that held, with all its work to do, in layer 0.
    ///
    /// ```
    /// # use cauchy::{Kernel, Mesh, Refusal, Store};
    /// # let mesh = Mesh { vertices: &[[0.0; 3]; 3], faces: &[[0, 1, 2]] };
    /// let mut store = Store::open(500.0, mesh)?;
    /// let kernel = Kernel { c: [0.0; 3], sigma: 0.01, w: 300.0, alpha: 2.0 };
    /// assert_eq!(store.put(31, kernel)?.pieces, 13);
    /// assert_eq!(store.put(32, kernel), Err(Refusal::NoPlace));
    /// # Ok::<(), Box<dyn std::error::Error>>(())
    /// ```
    pub fn put(&mut self, place: u32, kernel: Kernel) -> Result<Placed, Refusal> {
        self.put_in(place, kernel, 0)
    }

    /// Puts a kernel into a place, as [`Store::put`], in a layer from 0 to 15.
    ///
    /// ```
    /// # use cauchy::{Kernel, Mesh, Refusal, Store};
    /// # let mesh = Mesh { vertices: &[[0.0; 3]; 3], faces: &[[0, 1, 2]] };
    /// let mut store = Store::open(500.0, mesh)?;
    /// let kernel = Kernel { c: [0.0; 3], sigma: 0.01, w: 300.0, alpha: 1.0 };
    /// store.put_in(4, kernel, 15)?;
    /// assert_eq!(store.held(4).map(|held| held.layer), Some(15));
    /// assert_eq!(store.put_in(4, kernel, 16), Err(Refusal::NoLayer));
    /// # Ok::<(), Box<dyn std::error::Error>>(())
    /// ```
    pub fn put_in(&mut self, place: u32, kernel: Kernel, layer: u32) -> Result<Placed, Refusal> {
        let (floats, words) = (&mut self.floats, &mut self.words);
        let (n_floats, n_words) = (floats.len(), words.len());
        // SAFETY: two vectors of the store's own, borrowed for the call.
        let told = unsafe {
            sys::cauchy_store_put(
                floats.as_mut_ptr(),
                n_floats,
                words.as_mut_ptr(),
                n_words,
                place,
                kernel,
                layer,
            )
        };
        Refusal::check(told.no)?;
        Ok(Placed { pieces: told.pieces, need: told.need, fit: told.fit.into() })
    }

    /// Empties a place.
    ///
    /// ```
    /// # use cauchy::{Kernel, Mesh, Refusal, Store};
    /// # let mesh = Mesh { vertices: &[[0.0; 3]; 3], faces: &[[0, 1, 2]] };
    /// # let kernel = Kernel { c: [0.0; 3], sigma: 0.01, w: 300.0, alpha: 1.0 };
    /// let mut store = Store::open(500.0, mesh)?;
    /// store.put(4, kernel)?;
    /// assert_eq!(store.clear(4), Ok(()));
    /// assert_eq!(store.clear(4), Err(Refusal::Vacant));
    /// # Ok::<(), Box<dyn std::error::Error>>(())
    /// ```
    pub fn clear(&mut self, place: u32) -> Result<(), Refusal> {
        let (floats, words) = (&mut self.floats, &mut self.words);
        let (n_floats, n_words) = (floats.len(), words.len());
        // SAFETY: two vectors of the store's own, borrowed for the call.
        Refusal::check(unsafe {
            sys::cauchy_store_clear(floats.as_mut_ptr(), n_floats, words.as_mut_ptr(), n_words, place)
        })
    }

    /// Gives the kernel of a place another weight, kg/m³; the work on it and its layer are kept.
    ///
    /// ```
    /// # use cauchy::{Convention, Kernel, Mesh, Refusal, Store};
    /// # let mesh = Mesh { vertices: &[[0.0; 3]; 3], faces: &[[0, 1, 2]] };
    /// # let kernel = Kernel { c: [0.0; 3], sigma: 0.01, w: 300.0, alpha: 1.0 };
    /// let mut store = Store::open(500.0, mesh)?;
    /// store.put(4, kernel)?;
    /// store.reweigh(4, -20.0)?;
    /// assert_eq!(store.density(Convention::Raw, [0.0; 3])?, -20.0);
    /// # Ok::<(), Box<dyn std::error::Error>>(())
    /// ```
    pub fn reweigh(&mut self, place: u32, w: f64) -> Result<(), Refusal> {
        let (floats, words) = (&mut self.floats, &mut self.words);
        let (n_floats, n_words) = (floats.len(), words.len());
        // SAFETY: two vectors of the store's own, borrowed for the call.
        Refusal::check(unsafe {
            sys::cauchy_store_reweigh(floats.as_mut_ptr(), n_floats, words.as_mut_ptr(), n_words, place, w)
        })
    }

    /// Takes the vertices that no face uses out of the mesh, and answers how many coordinates that frees, three
    /// a vertex. The others keep their order, and corners are renumbered to match. It may come at any time: no
    /// place, no step and no later reading changes by it. The freed floats stay in the store's run, as zeros.
    ///
    /// ```
    /// # use cauchy::{Mesh, Store};
    /// let vertices = [[0.0; 3], [1.0, 0.0, 0.0], [5.0; 3], [0.0, 1.0, 0.0]];
    /// let mut store = Store::open(500.0, Mesh { vertices: &vertices, faces: &[[0, 1, 3]] })?;
    /// assert_eq!(store.squeeze()?, 3);
    /// let kept = [[0.0; 3], [1.0, 0.0, 0.0], [0.0, 1.0, 0.0]];
    /// assert_eq!(store.mesh(), Mesh { vertices: &kept, faces: &[[0, 1, 2]] });
    /// # Ok::<(), Box<dyn std::error::Error>>(())
    /// ```
    pub fn squeeze(&mut self) -> Result<u32, Refusal> {
        let (floats, words) = (&mut self.floats, &mut self.words);
        let (n_floats, n_words) = (floats.len(), words.len());
        // SAFETY: two vectors of the store's own, borrowed for the call.
        let told =
            unsafe { sys::cauchy_store_squeeze(floats.as_mut_ptr(), n_floats, words.as_mut_ptr(), n_words) };
        Refusal::check(told.no).map(|()| told.freed)
    }

    /// Does up to `budget` steps of the work left, one face of one piece each. Every call looks the whole
    /// store over first, so budgets of many faces are cheapest.
    ///
    /// ```
    /// # use cauchy::{Kernel, Mesh, Steps, Store};
    /// # let mesh = Mesh { vertices: &[[0.0; 3]; 3], faces: &[[0, 1, 2]; 10] };
    /// # let kernel = Kernel { c: [0.0; 3], sigma: 0.01, w: 300.0, alpha: 1.0 };
    /// let mut store = Store::open(500.0, mesh)?;
    /// store.put(0, kernel)?;
    /// assert_eq!(store.advance(7)?, Steps { done: 7, left: 3 });
    /// assert_eq!(store.advance(7)?, Steps { done: 3, left: 0 });
    /// # Ok::<(), Box<dyn std::error::Error>>(())
    /// ```
    pub fn advance(&mut self, budget: u64) -> Result<Steps, Refusal> {
        let (floats, words) = (&mut self.floats, &mut self.words);
        let (n_floats, n_words) = (floats.len(), words.len());
        // SAFETY: two vectors of the store's own, borrowed for the call.
        let told = unsafe {
            sys::cauchy_store_advance(floats.as_mut_ptr(), n_floats, words.as_mut_ptr(), n_words, budget)
        };
        Refusal::check(told.no)?;
        Ok(Steps { done: told.done, left: told.left })
    }

    /// Takes what a filled place of another store of the same body holds into a place of this one, whatever that held:
    /// the kernel, its layer, its pieces, their error, the volumes so far and the steps done. So the work on a place
    /// may be done in another store, in another thread or on another machine, and goes on here where it was. The bodies
    /// are the same where radius, counts, coordinates and corners are, bit for bit and every NaN as one.
    ///
    /// ```
    /// # use cauchy::{Adoption, Kernel, Mesh, Refusal, Store};
    /// # let mesh = Mesh { vertices: &[[0.0; 3]; 3], faces: &[[0, 1, 2]; 10] };
    /// # let kernel = Kernel { c: [0.0; 3], sigma: 0.01, w: 300.0, alpha: 1.0 };
    /// let mut store = Store::open(500.0, mesh)?;
    /// store.put(4, kernel)?;
    /// let mut worker = store.clone();
    /// worker.advance(7)?;
    /// assert_eq!(store.adopt(4, &worker, 4)?, Adoption::Taken { pieces: 1, left: 3 });
    /// assert_eq!(store.left_at(4), 3);
    /// assert_eq!(store.adopt(4, &worker, 5), Err(Refusal::Vacant));
    ///
    /// let mut another = Store::open(501.0, mesh)?;
    /// another.put(4, kernel)?;
    /// assert_eq!(store.adopt(4, &another, 4)?, Adoption::AnotherBody);
    /// # Ok::<(), Box<dyn std::error::Error>>(())
    /// ```
    pub fn adopt(&mut self, place: u32, other: &Store, other_place: u32) -> Result<Adoption, Refusal> {
        let (floats, words) = (&mut self.floats, &mut self.words);
        let (n_floats, n_words) = (floats.len(), words.len());
        // SAFETY: two vectors of the store's own, borrowed for the call, and two of another store, only read.
        let told = unsafe {
            sys::cauchy_store_adopt(
                floats.as_mut_ptr(),
                n_floats,
                words.as_mut_ptr(),
                n_words,
                place,
                other.floats.as_ptr(),
                other.floats.len(),
                other.words.as_ptr(),
                other.words.len(),
                other_place,
            )
        };
        Refusal::check(told.no)?;
        let taken = Adoption::Taken { pieces: told.pieces, left: told.left };
        Ok(if told.same_body == 0 { Adoption::AnotherBody } else { taken })
    }

    /// The steps that are left: what an advance of no steps answers.
    ///
    /// ```
    /// # use cauchy::{Kernel, Mesh, Store};
    /// # let mesh = Mesh { vertices: &[[0.0; 3]; 3], faces: &[[0, 1, 2]; 10] };
    /// # let kernel = Kernel { c: [0.0; 3], sigma: 0.01, w: 300.0, alpha: 1.0 };
    /// let mut store = Store::open(500.0, mesh)?;
    /// store.put(0, kernel)?;
    /// assert_eq!(store.left(), Ok(10));
    /// # Ok::<(), Box<dyn std::error::Error>>(())
    /// ```
    pub fn left(&mut self) -> Result<u64, Refusal> {
        Ok(self.advance(0)?.left)
    }

    /// The density at a point, kg/m³. By mass with a target above 0 it needs all work done.
    ///
    /// ```
    /// # use cauchy::{Convention, Kernel, Mesh, Refusal, Store};
    /// # let mesh = Mesh { vertices: &[[0.0; 3]; 3], faces: &[[0, 1, 2]] };
    /// let mut store = Store::open(500.0, mesh)?;
    /// store.put(0, Kernel { c: [0.0; 3], sigma: 1.0, w: 2.0, alpha: 1.0 })?;
    /// assert_eq!(store.density(Convention::Raw, [1.0, 0.0, 0.0])?, 1.0);
    /// let by_mass = Convention::Mass { target: 1e9, bulk: 1190.0 };
    /// assert_eq!(store.density(by_mass, [1.0, 0.0, 0.0]), Err(Refusal::Unfinished));
    /// # Ok::<(), Box<dyn std::error::Error>>(())
    /// ```
    pub fn density(&self, convention: Convention, point: [f64; 3]) -> Result<f64, Refusal> {
        self.layers(Layers::ALL).density(convention, point)
    }

    /// The masses, counts and greatest error. It needs all work done.
    ///
    /// ```
    /// # use cauchy::{Convention, Kernel, Mesh, Refusal, Store};
    /// # let vertices = [[0.0, 0.0, 0.0], [6.0, 0.0, 0.0], [0.0, 6.0, 0.0], [0.0, 0.0, 6.0]];
    /// # let faces = [[0, 2, 1], [0, 1, 3], [0, 3, 2], [1, 2, 3]];
    /// let mut store = Store::open(6.0, Mesh { vertices: &vertices, faces: &faces })?;
    /// store.put(0, Kernel { c: [1.0; 3], sigma: 0.0, w: 1000.0, alpha: 1.0 })?;
    /// assert_eq!(store.report(Convention::Raw), Err(Refusal::Unfinished));
    /// store.advance(4)?;
    /// let report = store.report(Convention::Rho0 { bulk: 1500.0 })?;
    /// assert!((report.mass.raw_mass - 36_000.0).abs() < 1e-6);
    /// assert!((report.mass.applied_mass - 54_000.0).abs() < 1e-6);
    /// assert_eq!((report.kernels, report.pieces), (1, 1));
    /// # Ok::<(), Box<dyn std::error::Error>>(())
    /// ```
    pub fn report(&self, convention: Convention) -> Result<StoreReport, Refusal> {
        self.layers(Layers::ALL).report(convention)
    }

    /// The report of what is finished: of the places whose work is done, while others may have some left, and how many
    /// filled places it passed over. It is what [`Store::report`] gives of a store that holds just those places.
    ///
    /// ```
    /// # use cauchy::{Convention, Kernel, Mesh, Refusal, Store};
    /// # let mesh = Mesh { vertices: &[[0.0; 3]; 3], faces: &[[0, 1, 2]] };
    /// let mut store = Store::open(500.0, mesh)?;
    /// let kernel = Kernel { c: [0.0; 3], sigma: 0.01, w: 300.0, alpha: 1.0 };
    /// store.put(0, kernel)?;
    /// store.put(1, kernel)?;
    /// store.advance(1)?;
    /// assert_eq!(store.report(Convention::Raw), Err(Refusal::Unfinished));
    /// let so_far = store.finished(Convention::Raw)?;
    /// assert_eq!((so_far.report.kernels, so_far.passed_over), (1, 1));
    /// # Ok::<(), Box<dyn std::error::Error>>(())
    /// ```
    pub fn finished(&self, convention: Convention) -> Result<Finished, Refusal> {
        self.layers(Layers::ALL).finished(convention)
    }

    /// The steps that place has left; 0 where it is empty or 32 or above.
    ///
    /// ```
    /// # use cauchy::{Kernel, Mesh, Store};
    /// # let mesh = Mesh { vertices: &[[0.0; 3]; 3], faces: &[[0, 1, 2]; 10] };
    /// # let kernel = Kernel { c: [0.0; 3], sigma: 0.01, w: 300.0, alpha: 1.0 };
    /// let mut store = Store::open(500.0, mesh)?;
    /// store.put(4, kernel)?;
    /// store.advance(3)?;
    /// assert_eq!((store.left_at(4), store.left_at(5)), (7, 0));
    /// # Ok::<(), Box<dyn std::error::Error>>(())
    /// ```
    pub fn left_at(&self, place: u32) -> u64 {
        if place >= PLACES {
            return 0;
        }
        let state = &self.words[STATES_AT + STATE_WORDS * place as usize..][..STATE_WORDS];
        let [status, finished, done] = [state[0], state[1], state[2]].map(u64::from);
        let faces = u64::from(self.faces());
        status.saturating_sub(1) * faces - (finished * faces + done)
    }

    /// The pieces of all places, in order, with weights rescaled by the convention. By mass with a target
    /// above 0 it needs all work done.
    ///
    /// ```
    /// # use cauchy::{Convention, Kernel, Mesh, Store};
    /// # let mesh = Mesh { vertices: &[[0.0; 3]; 3], faces: &[[0, 1, 2]] };
    /// let mut store = Store::open(500.0, mesh)?;
    /// let kernel = Kernel { c: [0.0; 3], sigma: 0.01, w: 300.0, alpha: 1.0 };
    /// store.put(7, kernel)?;
    /// assert_eq!(store.list(Convention::Raw)?, [kernel]);
    /// assert_eq!(store.list(Convention::Rho0 { bulk: 1200.0 })?, [Kernel { w: 1200.0, ..kernel }]);
    /// # Ok::<(), Box<dyn std::error::Error>>(())
    /// ```
    pub fn list(&self, convention: Convention) -> Result<Vec<Kernel>, Refusal> {
        self.layers(Layers::ALL).list(convention)
    }

    /// Writes the density at each point of a track of up to [`MAX_TRACK`] points, kg/m³, in order, and answers how
    /// many that are; floats past them stay. Each is what [`Store::density`] gives, but the store is looked over,
    /// and the scale and the rescaled weights are worked, once for the whole track. By mass with a target above 0 it
    /// needs all work done.
    ///
    /// ```
    /// # use cauchy::{Convention, Kernel, Mesh, Refusal, Store};
    /// # let mesh = Mesh { vertices: &[[0.0; 3]; 3], faces: &[[0, 1, 2]] };
    /// let mut store = Store::open(500.0, mesh)?;
    /// store.put(0, Kernel { c: [0.0; 3], sigma: 1.0, w: 2.0, alpha: 1.0 })?;
    /// let mut out = [-1.0; 3];
    /// assert_eq!(store.track(Convention::Raw, &[[0.0; 3], [1.0, 0.0, 0.0]], &mut out)?, 2);
    /// assert_eq!(out, [2.0, 1.0, -1.0]);
    /// assert_eq!(store.track(Convention::Raw, &[[0.0; 3]; 4], &mut out), Err(Refusal::BadTrack));
    /// # Ok::<(), Box<dyn std::error::Error>>(())
    /// ```
    pub fn track(
        &self,
        convention: Convention,
        points: &[[f64; 3]],
        out: &mut [f64],
    ) -> Result<usize, Refusal> {
        self.layers(Layers::ALL).track(convention, points, out)
    }

    /// The density at each point, kg/m³, in order: tracks of [`MAX_TRACK`] points, as many as that takes.
    ///
    /// ```
    /// # use cauchy::{Convention, Kernel, Mesh, Store};
    /// # let mesh = Mesh { vertices: &[[0.0; 3]; 3], faces: &[[0, 1, 2]] };
    /// let mut store = Store::open(500.0, mesh)?;
    /// store.put(0, Kernel { c: [0.0; 3], sigma: 1.0, w: 2.0, alpha: 1.0 })?;
    /// assert_eq!(store.densities(Convention::Raw, &[[0.0; 3], [1.0, 0.0, 0.0]])?, [2.0, 1.0]);
    /// assert_eq!(store.densities(Convention::Raw, &[[1.0, 0.0, 0.0]; 10_000])?, [1.0; 10_000]);
    /// # Ok::<(), Box<dyn std::error::Error>>(())
    /// ```
    pub fn densities(&self, convention: Convention, points: &[[f64; 3]]) -> Result<Vec<f64>, Refusal> {
        self.layers(Layers::ALL).densities(convention, points)
    }

    /// The wall page, of every layer: a line of 64 characters and a newline for each filled place, in order, with its
    /// number in columns 1-2, its pieces in 4-5 and its own field mass in 45-64, by the weight as entered and in whole
    /// kilograms, to the nearest and ties to even; then a line with TOTAL in columns 1-5 and the sum of the printed
    /// masses in 45-64. All numbers are right-aligned; a mass below 0 has a minus sign, and zero is 0. It needs all
    /// work done, and no mass that is NaN or exceeds 10^15 kg.
    ///
    /// ```
    /// # use cauchy::{Kernel, Mesh, Refusal, Store};
    /// # let vertices = [[0.0, 0.0, 0.0], [6.0, 0.0, 0.0], [0.0, 6.0, 0.0], [0.0, 0.0, 6.0]];
    /// # let faces = [[0, 2, 1], [0, 1, 3], [0, 3, 2], [1, 2, 3]];
    /// let mut store = Store::open(6.0, Mesh { vertices: &vertices, faces: &faces })?;
    /// store.put(7, Kernel { c: [1.0; 3], sigma: 0.0, w: 1000.0, alpha: 1.0 })?;
    /// store.put(12, Kernel { c: [1.0; 3], sigma: 0.0, w: -1.0, alpha: 1.0 })?;
    /// assert_eq!(store.page(), Err(Refusal::Unfinished));
    /// store.advance(8)?;
    /// let page = store.page()?;
    /// let lines: Vec<_> = page.lines().collect();
    /// assert_eq!(lines[0], format!(" 7  1{:>59}", 36000));
    /// assert_eq!(lines[1], format!("12  1{:>59}", -36));
    /// assert_eq!(lines[2], format!("TOTAL{:>59}", 35964));
    /// store.reweigh(7, f64::NAN)?;
    /// assert_eq!(store.page(), Err(Refusal::NoFigure));
    /// # Ok::<(), Box<dyn std::error::Error>>(())
    /// ```
    pub fn page(&self) -> Result<String, Refusal> {
        let mut page = [0; MAX_PAGE];
        let count = self.page_into(&mut page)?;
        Ok(page[..count].iter().copied().map(char::from).collect())
    }

    /// Writes the page that [`Store::page`] gives, and answers how many bytes that are; bytes past them stay. They are
    /// 65 for each filled place and 65 for the total, and [`MAX_PAGE`] at most.
    ///
    /// ```
    /// # use cauchy::{Kernel, MAX_PAGE, Mesh, Refusal, Store};
    /// # let mesh = Mesh { vertices: &[[0.0; 3]; 3], faces: &[[0, 1, 2]] };
    /// let store = Store::open(500.0, mesh)?;
    /// let mut page = [b'#'; MAX_PAGE];
    /// assert_eq!(store.page_into(&mut page)?, 65);
    /// assert!(page.starts_with(b"TOTAL   ") && page[62..].starts_with(b" 0\n#"));
    /// assert_eq!(store.page_into(&mut page[..64]), Err(Refusal::ShortPage));
    /// # Ok::<(), Box<dyn std::error::Error>>(())
    /// ```
    pub fn page_into(&self, page: &mut [u8]) -> Result<usize, Refusal> {
        let (floats, words) = (&self.floats, &self.words);
        // SAFETY: vectors of the store's own, only read, and a slice that is unshared.
        let told = unsafe {
            sys::cauchy_store_page(
                floats.as_ptr(),
                floats.len(),
                words.as_ptr(),
                words.len(),
                page.as_mut_ptr(),
                page.len(),
            )
        };
        Refusal::check(told.no).map(|()| told.bytes as usize)
    }

    /// What a place holds; `None` where it is empty or 32 or above.
    ///
    /// ```
    /// # use cauchy::{Kernel, Mesh, Store};
    /// # let mesh = Mesh { vertices: &[[0.0; 3]; 3], faces: &[[0, 1, 2]] };
    /// let mut store = Store::open(500.0, mesh)?;
    /// let kernel = Kernel { c: [1.0, 2.0, 3.0], sigma: 0.01, w: 300.0, alpha: 1.0 };
    /// store.put(7, kernel)?;
    /// assert_eq!(store.held(7).map(|held| held.kernel), Some(kernel));
    /// assert_eq!(store.held(8), None);
    /// # Ok::<(), Box<dyn std::error::Error>>(())
    /// ```
    pub fn held(&self, place: u32) -> Option<Held> {
        if place >= PLACES {
            return None;
        }
        let place = place as usize;
        let state = &self.words[STATES_AT + STATE_WORDS * place..][..STATE_WORDS];
        let pieces = state[0].checked_sub(1)?;
        let fields = &self.floats[KERNELS_AT + KERNEL_FLOATS * place..][..KERNEL_FLOATS];
        let kernel =
            Kernel { c: [fields[0], fields[1], fields[2]], sigma: fields[3], w: fields[4], alpha: fields[5] };
        Some(Held { kernel, layer: state[LAYER_IN_STATE], pieces, error: fields[6] })
    }

    /// The count of the mesh's vertices.
    ///
    /// ```
    /// # use cauchy::{Mesh, Store};
    /// # let mesh = Mesh { vertices: &[[0.0; 3]; 4], faces: &[[0, 1, 2]] };
    /// assert_eq!(Store::open(500.0, mesh)?.vertices(), 4);
    /// # Ok::<(), cauchy::OpenError>(())
    /// ```
    pub fn vertices(&self) -> u32 {
        self.words[0]
    }

    /// The count of the mesh's faces.
    ///
    /// ```
    /// # use cauchy::{Mesh, Store};
    /// # let mesh = Mesh { vertices: &[[0.0; 3]; 4], faces: &[[0, 1, 2]] };
    /// assert_eq!(Store::open(500.0, mesh)?.faces(), 1);
    /// # Ok::<(), cauchy::OpenError>(())
    /// ```
    pub fn faces(&self) -> u32 {
        self.words[1]
    }

    /// The body's radius, m, as the store was opened with.
    ///
    /// ```
    /// # use cauchy::{Mesh, Store};
    /// # let mesh = Mesh { vertices: &[[0.0; 3]; 4], faces: &[[0, 1, 2]] };
    /// assert_eq!(Store::open(500.0, mesh)?.radius(), 500.0);
    /// # Ok::<(), cauchy::OpenError>(())
    /// ```
    pub fn radius(&self) -> f64 {
        self.floats[0]
    }

    /// The mesh as the store keeps it.
    ///
    /// ```
    /// # use cauchy::{Mesh, Store};
    /// let mesh = Mesh { vertices: &[[1.0, 2.0, 3.0]; 3], faces: &[[0, 1, 2]] };
    /// assert_eq!(Store::open(500.0, mesh)?.mesh(), mesh);
    /// # Ok::<(), cauchy::OpenError>(())
    /// ```
    pub fn mesh(&self) -> Mesh<'_> {
        let (coordinates, _) = self.coordinates();
        Mesh { vertices: coordinates.as_chunks().0, faces: self.words[WORDS_BEFORE_MESH..].as_chunks().0 }
    }

    /// The mesh's coordinates, and the floats past them, which squeezes have freed.
    fn coordinates(&self) -> (&[f64], &[f64]) {
        self.floats[FLOATS_BEFORE_MESH..].split_at(3 * self.vertices() as usize)
    }

    /// Whether the runs are a sound store as an opening and squeezes leave it.
    pub(crate) fn check(&mut self) -> Result<(), Refusal> {
        self.left()?;
        check_excess(&self.floats, &self.words, WORDS_BEFORE_MESH)
    }
}

/// Whether the runs of a sound store, of either form, have past the mesh no word, and no float but the zeros of whole
/// vertices that squeezes have freed.
pub(crate) fn check_excess(floats: &[f64], words: &[u32], before_mesh: usize) -> Result<(), Refusal> {
    let freed = &floats[FLOATS_BEFORE_MESH + 3 * words[0] as usize..];
    let zeros = freed.len().is_multiple_of(3) && freed.iter().all(|x| x.to_bits() == 0);
    let exact = words.len() == before_mesh + 3 * words[1] as usize;
    if zeros && exact { Ok(()) } else { Err(Refusal::Unsound) }
}

impl fmt::Debug for Store {
    fn fmt(&self, f: &mut fmt::Formatter<'_>) -> fmt::Result {
        let filled = (0..PLACES).filter(|place| self.held(*place).is_some()).count();
        f.debug_struct("Store")
            .field("vertices", &self.vertices())
            .field("faces", &self.faces())
            .field("radius", &self.radius())
            .field("filled", &filled)
            .finish_non_exhaustive()
    }
}

impl From<Refusal> for OpenError {
    fn from(refusal: Refusal) -> OpenError {
        OpenError::Refused(refusal)
    }
}

impl From<FloatState> for OpenError {
    fn from(state: FloatState) -> OpenError {
        OpenError::FloatState(state)
    }
}

impl fmt::Display for OpenError {
    fn fmt(&self, f: &mut fmt::Formatter<'_>) -> fmt::Result {
        match self {
            OpenError::Refused(refusal) => refusal.fmt(f),
            OpenError::FloatState(state) => state.fmt(f),
        }
    }
}

impl Error for OpenError {}
