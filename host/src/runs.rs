//! A store as its two runs, for hosts that keep them in a form of their own, and back.
use crate::{FloatState, OpenError, Store};

/// The floats of a store before its mesh: the radius, and the kernel and the pieces of each place.
pub const FLOATS_BEFORE_MESH: usize = 1761;

/// The words of a store before its mesh: the counts of vertices and faces, and the state of each place.
pub const WORDS_BEFORE_MESH: usize = 130;

impl Store {
    /// The two runs, floats and words. From [`FLOATS_BEFORE_MESH`] on stand the coordinates, three a vertex, and past
    /// them the zeros that squeezes have freed; from [`WORDS_BEFORE_MESH`] on the corners, three a face.
    ///
    /// ```
    /// # use cauchy::{FLOATS_BEFORE_MESH, Mesh, Store, WORDS_BEFORE_MESH};
    /// let mesh = Mesh { vertices: &[[1.0, 2.0, 3.0]; 3], faces: &[[0, 1, 2]] };
    /// let store = Store::open(500.0, mesh)?;
    /// let (floats, words) = store.runs();
    /// assert_eq!((floats[0], &words[..2]), (500.0, &[3, 1][..]));
    /// assert_eq!(floats[FLOATS_BEFORE_MESH..], [1.0, 2.0, 3.0].repeat(3));
    /// assert_eq!(words[WORDS_BEFORE_MESH..], [0, 1, 2]);
    /// # Ok::<(), cauchy::OpenError>(())
    /// ```
    pub fn runs(&self) -> (&[f64], &[u32]) {
        (&self.floats, &self.words)
    }

    /// The store of two runs, as [`Store::runs`] gives them. They are looked over as those of a snapshot are: runs that
    /// are too short, hold no sound store or have anything past the mesh but the zeros of whole vertices are refused.
    ///
    /// ```
    /// # use cauchy::{Mesh, OpenError, Refusal, Store};
    /// # let mesh = Mesh { vertices: &[[1.0, 2.0, 3.0]; 3], faces: &[[0, 1, 2]] };
    /// let store = Store::open(500.0, mesh)?;
    /// let (floats, words) = store.runs();
    /// assert_eq!(Store::from_runs(floats.to_vec(), words.to_vec())?.to_bytes(), store.to_bytes());
    ///
    /// let mut loose = words.to_vec();
    /// loose[131] = 3;
    /// let told = Store::from_runs(floats.to_vec(), loose);
    /// assert_eq!(told.unwrap_err(), OpenError::Refused(Refusal::Unsound));
    /// # Ok::<(), OpenError>(())
    /// ```
    pub fn from_runs(floats: Vec<f64>, words: Vec<u32>) -> Result<Store, OpenError> {
        FloatState::check()?;
        let mut store = Store { floats, words, carried: false };
        store.check()?;
        Ok(store)
    }
}
