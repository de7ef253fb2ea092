//! 01's machine ("The store"), written from its sentences. It is fed the calls' arguments alone, never a store's runs; what a kernel's
//! pieces and volumes are the original's own text says. [`Machine::fields`] writes out the two runs that 01 then asks for.
use crate::conventions::{Convention, Reading, Report, write_list, write_track};
use crate::lines::{self, Telling};
use crate::page::{self, Row};
use crate::pattern;
use crate::pieces::Kernel;
use crate::recorder::{Fit, watched};
use crate::text::Text;
use std::cell::RefCell;
use std::collections::HashMap;
use std::marker::PhantomData;
use std::rc::Rc;

pub const PLACES: usize = 32;
/// 02's L5: "place records grow from three words to four, with the layer last [..] Corners then start at word 130".
pub const RECORD: usize = 4;
pub const CORNERS: usize = corners(RECORD);
/// The words of a place in the form before that, which 02's L6 carries over.
pub const OLD_RECORD: usize = 3;

/// The word at which corners start, by the words of a place.
pub const fn corners(record: usize) -> usize {
    2 + PLACES * record
}

/// The set of all sixteen layers; bit l is layer l.
pub const ALL_LAYERS: u32 = 0xFFFF;
pub const VERTS: usize = 1_048_576;
pub const FACES: usize = 2_097_152;

/// The floats and words that a store of so many vertices and faces takes.
pub fn room(verts: usize, faces: usize) -> (usize, usize) {
    (1_761 + 3 * verts, CORNERS + 3 * faces)
}

/// Rows 1 to 4, of an opening into runs of so many floats and words; 0 where it is not refused.
pub fn open_number(xyz: &[f64], faces: &[u32], floats: usize, words: usize) -> u32 {
    let (v, f) = (xyz.len() / 3, faces.len() / 3);
    let (need_floats, need_words) = room(v, f);
    let rows = [
        (1, !xyz.len().is_multiple_of(3) || !faces.len().is_multiple_of(3)),
        (2, v > VERTS || f > FACES),
        (3, faces.iter().any(|i| *i as usize >= v)),
        (4, floats < need_floats || words < need_words),
    ];
    rows.into_iter().find(|row| row.1).map_or(0, |row| row.0)
}

/// 02's L12 of a mesh: the coordinates of the vertices that some face names, in their order, and the corners by their new numbers. A
/// vertex's new number is its place among the named ones.
pub fn squeezed(xyz: &[f64], faces: &[u32]) -> (Vec<f64>, Vec<u32>) {
    let mut named = faces.to_vec();
    named.sort_unstable();
    named.dedup();
    let kept = named.iter().flat_map(|i| xyz[3 * *i as usize..][..3].iter().copied()).collect();
    let corners = faces.iter().map(|i| named.binary_search(i).unwrap() as u32).collect();
    (kept, corners)
}

/// A filled place: its kernel, its layer and the steps done on it. 02's L6, of a kernel that was carried over: "demand 3's machine and
/// fresh working start from those pieces and the error held with them".
#[derive(Clone)]
struct Filled {
    kernel: Kernel,
    layer: u32,
    p: u64,
    carried: Option<Rc<Known>>,
}

/// Whether a layer is in a set.
pub fn in_set(layers: u32, layer: u32) -> bool {
    (0..16).any(|l| l == layer && layers & 1 << l != 0)
}

/// "16 when a layer is above 15": a bit from 16 on names such a layer.
pub fn set_number(layers: u32) -> Result<(), u32> {
    if layers > ALL_LAYERS { Err(16) } else { Ok(()) }
}

/// What a kernel's decomposition is, whatever its w: the pieces with their coefficients as w, the error, and how the fit ended. The volumes
/// are those over a piece's first faces, where they have been asked for.
struct Known {
    pieces: Vec<Kernel>,
    error: f64,
    fit: Fit,
    volumes: RefCell<HashMap<(usize, usize), f64>>,
}

pub struct Machine<T> {
    xyz: Vec<f64>,
    faces: Vec<u32>,
    radius: f64,
    places: [Option<Filled>; PLACES],
    pub charged: u64,
    pub dropped: u64,
    /// Decompositions already worked: they depend on the kernel and the radius alone.
    known: RefCell<HashMap<[u64; 5], Rc<Known>>>,
    text: PhantomData<T>,
}

impl<T: Text> Machine<T> {
    /// "Open copies a mesh and radius; all empty, charged = dropped = 0."
    pub fn open(xyz: &[f64], faces: &[u32], radius: f64) -> Machine<T> {
        Machine {
            xyz: xyz.to_vec(),
            faces: faces.to_vec(),
            radius,
            places: [const { None }; PLACES],
            charged: 0,
            dropped: 0,
            known: RefCell::default(),
            text: PhantomData,
        }
    }

    /// 02's L6, after a carry: "its machine with the mesh, radius, places and steps carried, and its charged with the left that goes
    /// across". Every kernel is in layer 0, with the pieces that the old machine has of it.
    pub fn carried<U: Text>(old: &Machine<U>) -> Machine<T> {
        let mut machine = Machine::open(&old.xyz, &old.faces, old.radius);
        for (at, place) in machine.places.iter_mut().zip(&old.places) {
            *at = place.as_ref().map(|from| {
                let Known { pieces, error, fit, .. } = &*old.known_of(from);
                let known = Known { pieces: pieces.clone(), error: *error, fit: *fit, volumes: RefCell::default() };
                Filled { carried: Some(Rc::new(known)), layer: 0, ..from.clone() }
            });
        }
        machine.charged = machine.left();
        machine
    }

    /// F.
    pub fn face_count(&self) -> usize {
        self.faces.len() / 3
    }

    fn known(&self, k: &Kernel) -> Rc<Known> {
        let key = [k.c[0], k.c[1], k.c[2], k.sigma, k.alpha].map(f64::to_bits);
        let work = || {
            let ((pieces, error), pivots) = watched(|| T::decompose(&[Kernel { w: 1.0, ..*k }], self.radius));
            Rc::new(Known { pieces, error, fit: Fit::of(k.alpha, &pivots), volumes: RefCell::default() })
        };
        self.known.borrow_mut().entry(key).or_insert_with(work).clone()
    }

    /// What a filled place's decomposition is.
    fn known_of(&self, at: &Filled) -> Rc<Known> {
        at.carried.clone().unwrap_or_else(|| self.known(&at.kernel))
    }

    /// "pieces is how many its decomposition gives, need = pieces times F".
    fn need(&self, known: &Known) -> u64 {
        known.pieces.len() as u64 * self.face_count() as u64
    }

    /// The steps that a place has left.
    fn owed(&self, place: usize) -> u64 {
        self.places[place].as_ref().map_or(0, |at| self.need(&self.known_of(at)) - at.p)
    }

    /// "left, the sum of need - p".
    pub fn left(&self) -> u64 {
        (0..PLACES).map(|i| self.owed(i)).sum()
    }

    /// "counted over the places in the set".
    fn left_in(&self, layers: u32) -> u64 {
        (0..PLACES).filter(|i| self.seen(layers, *i).is_some()).map(|i| self.owed(i)).sum()
    }

    /// What a reading of these layers sees of a place: "sees only places in it".
    fn seen(&self, layers: u32, place: usize) -> Option<&Filled> {
        self.places[place].as_ref().filter(|at| in_set(layers, at.layer))
    }

    /// Row 6.
    fn place(&self, place: u32) -> Result<usize, u32> {
        if place >= 32 { Err(6) } else { Ok(place as usize) }
    }

    /// Rows 6 and 7.
    fn filled(&mut self, place: u32) -> Result<(usize, &mut Filled), u32> {
        let i = self.place(place)?;
        self.places[i].as_mut().map(|at| (i, at)).ok_or(7)
    }

    /// "charged += need, dropped += the old need - p (0 for an empty place), p = 0. Answers pieces and need", and by 02's L4 how the fit
    /// ended; "16 when a layer is above 15, after 6".
    pub fn put(&mut self, place: u32, kernel: Kernel, layer: u32) -> Result<(u32, u32, Fit), u32> {
        let i = self.place(place)?;
        if layer > 15 {
            return Err(16);
        }
        let known = self.known(&kernel);
        let need = self.need(&known);
        self.charged += need;
        self.dropped += self.owed(i);
        self.places[i] = Some(Filled { kernel, layer, p: 0, carried: None });
        Ok((known.pieces.len() as u32, need as u32, known.fit))
    }

    /// "dropped += need - p; empty."
    pub fn clear(&mut self, place: u32) -> Result<(), u32> {
        let (i, _) = self.filled(place)?;
        self.dropped += self.owed(i);
        self.places[i] = None;
        Ok(())
    }

    /// "new w, p kept."
    pub fn reweigh(&mut self, place: u32, w: f64) -> Result<(), u32> {
        self.filled(place)?.1.kernel.w = w;
        Ok(())
    }

    /// "does min(n, left) steps, lowest unfinished place first, one face of one piece each": done and left.
    pub fn advance(&mut self, n: u64) -> (u64, u64) {
        let done = n.min(self.left());
        let mut owed: Vec<u64> = (0..PLACES).map(|i| self.owed(i)).collect();
        for _ in 0..done {
            let lowest = (0..PLACES).find(|i| owed[*i] > 0).unwrap();
            owed[lowest] -= 1;
            self.places[lowest].as_mut().unwrap().p += 1;
        }
        (done, self.left())
    }

    /// Whether two machines are of the same body: "radius, V, F, coordinates and corners equal, NaN as one".
    fn same_body(&self, other: &Machine<T>) -> bool {
        let same = |(x, y): (&f64, &f64)| pattern(*x) == pattern(*y);
        same((&self.radius, &other.radius))
            && (self.xyz.len(), self.faces.len()) == (other.xyz.len(), other.faces.len())
            && self.xyz.iter().zip(&other.xyz).all(same)
            && self.faces == other.faces
    }

    /// Many hands: "from another store of the same body [..] a filled place, with its kernel, layer, pieces, error, volumes so far and
    /// steps, comes into a place of this one, whatever that held"; "charged grows by the left that comes across, dropped by the left that
    /// is lost". Refused as 6 "of either place", as 7 "where the other's place is empty"; else "adopted or another body, pieces, steps left".
    pub fn adopt(&mut self, place: u32, other: &Machine<T>, other_place: u32) -> Result<Option<(u32, u64)>, u32> {
        let (i, j) = (self.place(place)?, other.place(other_place)?);
        let from = other.places[j].as_ref().ok_or(7_u32)?;
        if !self.same_body(other) {
            return Ok(None);
        }
        let (Known { pieces, error, fit, .. }, left) = (&*other.known_of(from), other.owed(j));
        self.charged += left;
        self.dropped += self.owed(i);
        let known = Known { pieces: pieces.clone(), error: *error, fit: *fit, volumes: RefCell::default() };
        self.places[i] = Some(Filled { carried: from.carried.as_ref().map(|_| Rc::new(known)), ..from.clone() });
        Ok(Some((pieces.len() as u32, left)))
    }

    /// 02's L12: "its machine then drops the same vertices from its mesh", and "answers how many coordinates were freed"; places and steps
    /// stay. The volumes so far are worked again on the mesh that is left.
    pub fn squeeze(&mut self) -> u32 {
        let before = self.xyz.len();
        (self.xyz, self.faces) = squeezed(&self.xyz, &self.faces);
        let carried = self.places.iter().flatten().filter_map(|at| at.carried.as_ref());
        self.known.borrow().values().chain(carried).for_each(|known| known.volumes.borrow_mut().clear());
        (before - self.xyz.len()) as u32
    }

    /// The filled places in these layers, in order.
    fn all_seen(&self, layers: u32) -> Vec<&Filled> {
        (0..PLACES).filter_map(|i| self.seen(layers, i)).collect()
    }

    /// The pieces of these places, in order, and the greatest error: afresh, or from the pieces that were carried over.
    fn decomposed(&self, places: &[&Filled]) -> (Vec<Kernel>, f64) {
        let (mut pieces, mut most) = (Vec::new(), 0.0);
        for alike in places.chunk_by(|a, b| a.carried.is_none() && b.carried.is_none()) {
            let kernels: Vec<Kernel> = alike.iter().map(|at| at.kernel).collect();
            let (more, error) = match &alike[0].carried {
                Some(known) => (known.pieces.iter().map(|p| Kernel { w: kernels[0].w * p.w, ..*p }).collect(), known.error),
                None => T::decompose(&kernels, self.radius),
            };
            pieces.extend(more);
            most = if error > most { error } else { most };
        }
        (pieces, most)
    }

    /// 16, then row 8.
    fn finished_for(&self, reading: Reading, by: Convention, layers: u32) -> Result<(), u32> {
        set_number(layers)?;
        if by.needs_work(reading) && self.left_in(layers) > 0 { Err(8) } else { Ok(()) }
    }

    /// The rescaled pieces, afresh.
    fn rescaled(&self, by: Convention, layers: u32) -> Vec<Kernel> {
        let (pieces, _) = self.decomposed(&self.all_seen(layers));
        by.rescaled::<T>(&pieces, || T::kernel_field_mass(&self.xyz, &self.faces, &pieces))
    }

    pub fn density(&self, by: Convention, layers: u32, at: [f64; 3]) -> Result<f64, u32> {
        self.finished_for(Reading::Density, by, layers)?;
        Ok(T::densitize(&self.rescaled(by, layers), at))
    }

    pub fn report(&self, by: Convention, layers: u32) -> Result<Report, u32> {
        self.finished_for(Reading::Report, by, layers)?;
        let places = self.all_seen(layers);
        let (pieces, error) = self.decomposed(&places);
        let raw_mass = T::kernel_field_mass(&self.xyz, &self.faces, &pieces);
        let mass = by.mass::<T>(&pieces, raw_mass, T::body_volume(&self.xyz, &self.faces));
        Ok(Report { mass, kernels: places.len() as u32, pieces: pieces.len() as u32, error })
    }

    /// 02's L7: "It covers only the places whose steps are complete, and says how many filled places of its layers it passed over. It
    /// equals the ordinary report of a store holding just those places".
    pub fn finished(&self, by: Convention, layers: u32) -> Result<(Report, u32), u32> {
        set_number(layers)?;
        let mut just = Machine::<T>::open(&self.xyz, &self.faces, self.radius);
        let mut passed = 0;
        for place in (0..PLACES).filter(|place| self.seen(layers, *place).is_some()) {
            match self.owed(place) {
                0 => just.places[place] = self.places[place].clone(),
                _ => passed += 1,
            }
        }
        Ok((just.report(by, ALL_LAYERS)?, passed))
    }

    /// Writes c, sigma, rescaled w, alpha per piece; answers the piece count.
    pub fn list(&self, by: Convention, layers: u32, out: &mut [f64]) -> Result<u32, u32> {
        self.finished_for(Reading::List, by, layers)?;
        write_list(&self.rescaled(by, layers), out)
    }

    /// 02's L1: "Every density equals the single reading at that point"; "for 8 a track counts as a density", and 14 is "checked after 8".
    pub fn track(&self, by: Convention, layers: u32, points: &[f64], out: &mut [f64]) -> Result<u32, u32> {
        self.finished_for(Reading::Density, by, layers)?;
        write_track::<T>(&self.rescaled(by, layers), points, out)
    }

    /// 02's L8: "The mass is the place's own field mass", afresh.
    pub fn page_rows(&self) -> Vec<Row> {
        let row = |(place, at): (usize, &Option<Filled>)| {
            let (pieces, _) = self.decomposed(&[at.as_ref()?]);
            Some(Row { place, pieces: pieces.len(), mass: T::kernel_field_mass(&self.xyz, &self.faces, &pieces) })
        };
        self.places.iter().enumerate().filter_map(row).collect()
    }

    /// "It is given only when nothing is left to do, else 8".
    pub fn page(&self, out: &mut [u8]) -> Result<u64, u32> {
        if self.left() > 0 { Err(8) } else { page::write(&self.page_rows(), out) }
    }

    /// 02's L10: "a writer from a store to bracket lines".
    pub fn lines(&self) -> String {
        let put = |(place, at): (usize, &Option<Filled>)| at.as_ref().map(|at| (place, at.kernel, at.layer));
        let puts = self.places.iter().enumerate().filter_map(put).collect();
        lines::text(&Telling { radius: self.radius, xyz: &self.xyz, faces: &self.faces, puts })
    }

    /// "It answers its byte count"; 19.
    pub fn write(&self, out: &mut [u8]) -> Result<u64, u32> {
        lines::write(&self.lines(), out)
    }

    /// How many places are filled.
    pub fn filled_count(&self) -> usize {
        self.places.iter().flatten().count()
    }

    /// How many pieces the filled places have.
    pub fn piece_count(&self) -> usize {
        self.places.iter().flatten().map(|at| self.known_of(at).pieces.len()).sum()
    }

    /// The volume so far: `kernel_volume` over a piece's first faces.
    fn volume(&self, known: &Known, piece: usize, faces: usize) -> f64 {
        let k = known.pieces[piece];
        let work = || T::kernel_volume(&self.xyz, &self.faces[..3 * faces], k.c, k.sigma);
        *known.volumes.borrow_mut().entry((piece, faces)).or_insert_with(work)
    }

    /// 01's fields of both runs, without excess.
    pub fn fields(&self) -> (Vec<f64>, Vec<u32>) {
        self.fields_in(RECORD)
    }

    /// The same in a form with so many words to a place; that of three has no layer.
    pub fn fields_in(&self, record: usize) -> (Vec<f64>, Vec<u32>) {
        let (mut floats, mut words) = (vec![0.0; 1_761], vec![0; corners(record)]);
        floats[0] = self.radius;
        words[0] = (self.xyz.len() / 3) as u32;
        words[1] = self.face_count() as u32;
        for (i, at) in self.places.iter().enumerate() {
            if let Some(at) = at {
                let state = self.place_fields(i, at, &mut floats);
                words[2 + record * i..][..record].copy_from_slice(&state[..record]);
            }
        }
        floats.extend_from_slice(&self.xyz);
        words.extend_from_slice(&self.faces);
        (floats, words)
    }

    /// The floats of a place; its words: status, pieces finished, faces done, layer.
    fn place_fields(&self, i: usize, at: &Filled, floats: &mut [f64]) -> [u32; RECORD] {
        let (k, known, all) = (at.kernel, self.known_of(at), self.face_count());
        let count = known.pieces.len();
        // with no face every piece is finished
        let (finished, done) = match all {
            0 => (count, 0),
            _ => (at.p as usize / all, at.p as usize % all),
        };
        floats[1 + 7 * i..][..7].copy_from_slice(&[k.c[0], k.c[1], k.c[2], k.sigma, k.w, k.alpha, known.error]);
        for (j, piece) in known.pieces.iter().enumerate() {
            let faces = match j {
                j if j < finished => all,
                j if j == finished => done,
                _ => 0,
            };
            let so_far = self.volume(&known, j, faces);
            floats[225 + 48 * i + 3 * j..][..3].copy_from_slice(&[piece.sigma, piece.w, so_far]);
        }
        [1 + count as u32, finished as u32, done as u32, at.layer]
    }
}
