//! Layers, and the readings of a store by layer.
use crate::store::{MAX_TRACK, PLACES};
use crate::{Convention, Finished, Kernel, MAX_PIECES, Refusal, Store, StoreReport, sys};

/// The layers of a store, numbered from 0.
pub const LAYERS: u32 = 16;

/// A set of layers. All of them, where nothing else is said.
#[derive(Clone, Copy, Debug, PartialEq, Eq, Hash)]
pub struct Layers(u32);

impl Layers {
    /// All sixteen.
    pub const ALL: Layers = Layers(0xFFFF);
    /// None: a reading then sees no place.
    pub const NONE: Layers = Layers(0);

    /// The set of these layers; [`Refusal::NoLayer`] where one is above 15.
    ///
    /// ```
    /// use cauchy::{Layers, Refusal};
    ///
    /// let crust_and_interior = Layers::of(&[0, 3])?;
    /// assert!(crust_and_interior.has(3) && !crust_and_interior.has(1));
    /// assert_eq!(Layers::of(&[16]), Err(Refusal::NoLayer));
    /// assert_eq!(Layers::of(&[]), Ok(Layers::NONE));
    /// # Ok::<(), Refusal>(())
    /// ```
    pub fn of(layers: &[u32]) -> Result<Layers, Refusal> {
        if layers.iter().any(|layer| *layer >= LAYERS) {
            return Err(Refusal::NoLayer);
        }
        Ok(Layers(layers.iter().fold(0, |set, layer| set | 1 << layer)))
    }

    /// Whether a layer is in the set.
    pub fn has(self, layer: u32) -> bool {
        layer < LAYERS && self.0 >> layer & 1 == 1
    }

    /// The set as the archive takes it: bit l for layer l.
    pub fn bits(self) -> u32 {
        self.0
    }
}

impl Default for Layers {
    fn default() -> Layers {
        Layers::ALL
    }
}

/// The places of a store whose layer is in a set, for readings that see no other place: [`Store::layers`] gives it. The
/// volume in a report is that of the whole mesh.
#[derive(Clone, Copy, Debug)]
pub struct Seen<'a> {
    store: &'a Store,
    layers: Layers,
}

impl Store {
    /// Its places in these layers. A reading of them is what the store would give if its other places were empty.
    ///
    /// ```
    /// # use cauchy::{Convention, Kernel, Layers, Mesh, Store};
    /// # let mesh = Mesh { vertices: &[[0.0; 3]; 3], faces: &[[0, 1, 2]] };
    /// let mut store = Store::open(500.0, mesh)?;
    /// store.put_in(0, Kernel { c: [0.0; 3], sigma: 0.01, w: 300.0, alpha: 1.0 }, 2)?;
    /// store.put_in(1, Kernel { c: [0.0; 3], sigma: 0.01, w: -40.0, alpha: 1.0 }, 5)?;
    /// assert_eq!(store.density(Convention::Raw, [0.0; 3])?, 260.0);
    /// assert_eq!(store.layers(Layers::of(&[5])?).density(Convention::Raw, [0.0; 3])?, -40.0);
    /// # Ok::<(), Box<dyn std::error::Error>>(())
    /// ```
    pub fn layers(&self, layers: Layers) -> Seen<'_> {
        Seen { store: self, layers }
    }
}

impl Seen<'_> {
    /// As [`Store::density`], of these places. By mass with a target above 0 it needs their work done.
    pub fn density(&self, convention: Convention, point: [f64; 3]) -> Result<f64, Refusal> {
        let (floats, words) = (&self.store.floats, &self.store.words);
        // SAFETY: two vectors of the store's own, borrowed for the call and only read.
        let told = unsafe {
            sys::cauchy_store_density(
                floats.as_ptr(),
                floats.len(),
                words.as_ptr(),
                words.len(),
                convention.crossing(),
                self.layers.bits(),
                point.into(),
            )
        };
        Refusal::check(told.no).map(|()| told.value)
    }

    /// As [`Store::report`], of these places. It needs their work done, and no other.
    ///
    /// ```
    /// # use cauchy::{Convention, Kernel, Layers, Mesh, Refusal, Store};
    /// # let mesh = Mesh { vertices: &[[0.0; 3]; 3], faces: &[[0, 1, 2]] };
    /// let mut store = Store::open(500.0, mesh)?;
    /// let kernel = Kernel { c: [0.0; 3], sigma: 0.01, w: 300.0, alpha: 1.0 };
    /// store.put_in(0, kernel, 2)?;
    /// store.advance(1)?;
    /// store.put_in(1, kernel, 5)?;
    /// assert_eq!(store.report(Convention::Raw), Err(Refusal::Unfinished));
    /// assert_eq!(store.layers(Layers::of(&[2])?).report(Convention::Raw)?.kernels, 1);
    /// assert_eq!(store.layers(Layers::NONE).report(Convention::Raw)?.kernels, 0);
    /// # Ok::<(), Box<dyn std::error::Error>>(())
    /// ```
    pub fn report(&self, convention: Convention) -> Result<StoreReport, Refusal> {
        let (floats, words) = (&self.store.floats, &self.store.words);
        // SAFETY: two vectors of the store's own, borrowed for the call and only read.
        let told = unsafe {
            sys::cauchy_store_report(
                floats.as_ptr(),
                floats.len(),
                words.as_ptr(),
                words.len(),
                convention.crossing(),
                self.layers.bits(),
            )
        };
        Refusal::check(told.no)?;
        Ok(StoreReport { mass: told.report, kernels: told.kernels, pieces: told.pieces, error: told.error })
    }

    /// As [`Store::finished`], of these places.
    pub fn finished(&self, convention: Convention) -> Result<Finished, Refusal> {
        let (floats, words) = (&self.store.floats, &self.store.words);
        // SAFETY: two vectors of the store's own, borrowed for the call and only read.
        let told = unsafe {
            sys::cauchy_store_finished(
                floats.as_ptr(),
                floats.len(),
                words.as_ptr(),
                words.len(),
                convention.crossing(),
                self.layers.bits(),
            )
        };
        Refusal::check(told.no)?;
        let report =
            StoreReport { mass: told.report, kernels: told.kernels, pieces: told.pieces, error: told.error };
        Ok(Finished { report, passed_over: told.passed_over })
    }

    /// As [`Store::list`], of these places. By mass with a target above 0 it needs their work done.
    pub fn list(&self, convention: Convention) -> Result<Vec<Kernel>, Refusal> {
        let mut out = vec![0.0; PLACES as usize * MAX_PIECES * 6];
        let (floats, words) = (&self.store.floats, &self.store.words);
        // SAFETY: vectors of the store's own, only read, and a new one.
        let told = unsafe {
            sys::cauchy_store_list(
                floats.as_ptr(),
                floats.len(),
                words.as_ptr(),
                words.len(),
                convention.crossing(),
                self.layers.bits(),
                out.as_mut_ptr(),
                out.len(),
            )
        };
        Refusal::check(told.no).map(|()| Kernel::listed(&out, told.pieces as usize))
    }

    /// As [`Store::track`], of these places. By mass with a target above 0 it needs their work done.
    pub fn track(
        &self,
        convention: Convention,
        points: &[[f64; 3]],
        out: &mut [f64],
    ) -> Result<usize, Refusal> {
        let (floats, words) = (&self.store.floats, &self.store.words);
        let points = points.as_flattened();
        // SAFETY: vectors of the store's own and a slice, only read, and a slice that is unshared.
        let told = unsafe {
            sys::cauchy_store_track(
                floats.as_ptr(),
                floats.len(),
                words.as_ptr(),
                words.len(),
                convention.crossing(),
                self.layers.bits(),
                points.as_ptr(),
                points.len(),
                out.as_mut_ptr(),
                out.len(),
            )
        };
        Refusal::check(told.no).map(|()| told.points as usize)
    }

    /// As [`Store::densities`], of these places. By mass with a target above 0 it needs their work done.
    pub fn densities(&self, convention: Convention, points: &[[f64; 3]]) -> Result<Vec<f64>, Refusal> {
        let mut out = vec![0.0; points.len()];
        let mut done = 0;
        // no points are a track too, which may be refused
        loop {
            let portion = &points[done..points.len().min(done + MAX_TRACK)];
            done += self.track(convention, portion, &mut out[done..])?;
            if done == points.len() {
                return Ok(out);
            }
        }
    }
}
