//! The calls on two runs that may come from anywhere: 01's soundness and, on a sound store, what 01 asks of a call by the fields that
//! the store holds ("Readings use pieces and volumes as the store holds them"). Written from 01's text, sharing nothing with the proved
//! code but the powers.
use crate::conventions::{Convention, Reading, Report, write_list, write_track};
use crate::lines;
use crate::machine::{ALL_LAYERS, CORNERS, OLD_RECORD, RECORD, corners, in_set, room, set_number, squeezed};
use crate::page::{self, Row};
use crate::pattern;
use crate::pieces::Kernel;
use crate::recorder::{Fit, watched};
use crate::text::{ByArchive, Text, volume_on};

/// Rows 4 and 5, of a store given to a call; 0 where it is sound.
pub fn store_number(floats: &[f64], words: &[u32]) -> u32 {
    store_number_in(RECORD, floats, words)
}

/// The same of a store in a form with so many words to a place.
pub fn store_number_in(record: usize, floats: &[f64], words: &[u32]) -> u32 {
    if words.len() < corners(record) {
        return 4;
    }
    let (v, f) = (u64::from(words[0]), u64::from(words[1]));
    if (floats.len() as u64) < 1_761 + 3 * v || (words.len() as u64) < corners(record) as u64 + 3 * f {
        return 4;
    }
    let in_limit = v <= 1_048_576 && f <= 2_097_152;
    let sound = |s: &[u32]| place_sound(s[0], s[1], s[2], words[1]) && s.get(3).is_none_or(|layer| layer_sound(s[0], *layer));
    let places = || words[2..corners(record)].chunks(record).all(sound);
    let named = || words[corners(record)..][..3 * f as usize].iter().all(|i| *i < words[0]);
    if in_limit && places() && named() { 0 } else { 5 }
}

/// 02's L6: "Unsound and short-store refusals apply to the old runs as in 01, and 4 to new runs below L5's lengths".
pub fn carry_number(old_floats: &[f64], old_words: &[u32], floats: usize, words: usize) -> u32 {
    match store_number_in(OLD_RECORD, old_floats, old_words) {
        4 => 4,
        no => {
            let (need_floats, need_words) = room(old_words[0] as usize, old_words[1] as usize);
            if floats < need_floats || words < need_words { 4 } else { no }
        }
    }
}

/// "status ≤ 17, empty means two zeros, finished ≤ pieces, faces done 0 if all are finished and else below F".
fn place_sound(status: u32, finished: u32, done: u32, faces: u32) -> bool {
    match status {
        0 => finished == 0 && done == 0,
        1..=17 if finished == status - 1 => done == 0,
        1..=17 if finished < status - 1 => done < faces,
        _ => false,
    }
}

/// 02's L5: "a kept layer above 15, or any but 0 at an empty place, makes a store unsound".
fn layer_sound(status: u32, layer: u32) -> bool {
    if status == 0 { layer == 0 } else { layer <= 15 }
}

/// A store's two runs, as a call finds them.
#[derive(Clone)]
pub struct Held {
    pub floats: Vec<f64>,
    pub words: Vec<u32>,
}

impl Held {
    /// 02's L6: a sound store of the form before layers "into the new one [..] with every kernel in layer 0": without excess.
    pub fn carried(old_floats: &[f64], old_words: &[u32]) -> Held {
        let mut words = old_words[..2].to_vec();
        for state in old_words[2..corners(OLD_RECORD)].chunks(OLD_RECORD) {
            words.extend_from_slice(state);
            words.push(0);
        }
        words.extend_from_slice(&old_words[corners(OLD_RECORD)..][..3 * old_words[1] as usize]);
        Held { floats: old_floats[..1_761 + 3 * old_words[0] as usize].to_vec(), words }
    }

    fn sound(&self) -> Result<(), u32> {
        match store_number(&self.floats, &self.words) {
            0 => Ok(()),
            no => Err(no),
        }
    }

    fn place(&self, place: u32) -> Result<usize, u32> {
        self.sound()?;
        if place >= 32 { Err(6) } else { Ok(place as usize) }
    }

    fn filled(&self, place: u32) -> Result<usize, u32> {
        let i = self.place(place)?;
        if self.words[2 + RECORD * i] == 0 { Err(7) } else { Ok(i) }
    }

    /// Status, pieces finished, faces done.
    fn state(&self, i: usize) -> [usize; 3] {
        [0, 1, 2].map(|k| self.words[2 + RECORD * i + k] as usize)
    }

    pub fn face_count(&self) -> usize {
        self.words[1] as usize
    }

    fn mesh(&self) -> (&[f64], &[u32]) {
        (&self.floats[1_761..][..3 * self.words[0] as usize], &self.words[CORNERS..][..3 * self.face_count()])
    }

    /// need - p over the places: a sound store's, else 0.
    pub fn left(&self) -> u64 {
        if self.sound().is_ok() { (0..32).map(|i| self.owed(i)).sum() } else { 0 }
    }

    fn owed(&self, i: usize) -> u64 {
        let [status, finished, done] = self.state(i);
        (status.saturating_sub(1) * self.face_count() - (finished * self.face_count() + done)) as u64
    }

    /// Whether a reading of these layers sees a place.
    fn seen(&self, layers: u32, i: usize) -> bool {
        in_set(layers, self.words[2 + RECORD * i + 3])
    }

    pub fn put(&mut self, place: u32, k: Kernel, layer: u32) -> Result<(u32, u32, Fit), u32> {
        let i = self.place(place)?;
        if layer > 15 {
            return Err(16);
        }
        let ((pieces, error), pivots) = watched(|| ByArchive::decompose(&[Kernel { w: 1.0, ..k }], self.floats[0]));
        let count = pieces.len() as u32;
        self.floats[1 + 7 * i..][..7].copy_from_slice(&[k.c[0], k.c[1], k.c[2], k.sigma, k.w, k.alpha, error]);
        self.floats[225 + 48 * i..][..48].fill(0.0);
        for (j, piece) in pieces.iter().enumerate() {
            self.floats[225 + 48 * i + 3 * j] = piece.sigma;
            self.floats[225 + 48 * i + 3 * j + 1] = piece.w;
        }
        let finished = if self.words[1] == 0 { count } else { 0 };
        self.words[2 + RECORD * i..][..RECORD].copy_from_slice(&[1 + count, finished, 0, layer]);
        Ok((count, count * self.words[1], Fit::of(k.alpha, &pivots)))
    }

    pub fn clear(&mut self, place: u32) -> Result<(), u32> {
        let i = self.filled(place)?;
        self.floats[1 + 7 * i..][..7].fill(0.0);
        self.floats[225 + 48 * i..][..48].fill(0.0);
        self.words[2 + RECORD * i..][..RECORD].fill(0);
        Ok(())
    }

    pub fn reweigh(&mut self, place: u32, w: f64) -> Result<(), u32> {
        let i = self.filled(place)?;
        self.floats[1 + 7 * i + 4] = w;
        Ok(())
    }

    pub fn advance(&mut self, n: u64) -> Result<(u64, u64), u32> {
        self.sound()?;
        let (all, done) = (self.face_count(), n.min(self.left()));
        let mut rest = done;
        for i in 0..32 {
            let [status, mut finished, mut at] = self.state(i);
            while rest > 0 && finished + 1 < status {
                let by = rest.min((all - at) as u64);
                self.bring_on(i, finished, at, by as usize);
                rest -= by;
                at += by as usize;
                if at == all {
                    (finished, at) = (finished + 1, 0);
                }
            }
            self.words[2 + RECORD * i + 1] = finished as u32;
            self.words[2 + RECORD * i + 2] = at as u32;
        }
        Ok((done, self.left()))
    }

    /// A piece's held volume, brought on by so many faces.
    fn bring_on(&mut self, i: usize, piece: usize, from: usize, by: usize) {
        let at = 225 + 48 * i + 3 * piece;
        let c = [0, 1, 2].map(|k| self.floats[1 + 7 * i + k]);
        let (xyz, faces) = self.mesh();
        self.floats[at + 2] = volume_on(xyz, faces, c, self.floats[at], from..from + by, self.floats[at + 2]);
    }

    /// Many hands: "Refusals 4 and 5 of either store, 6 of either place, 7 where the other's place is empty", the lowest that applies; then
    /// whether the bodies are the same, "radius, V, F, coordinates and corners equal, NaN as one", and all fields of the place.
    pub fn adopt(&mut self, place: u32, other: &Held, other_place: u32) -> Result<Option<(u32, u64)>, u32> {
        let numbers = [store_number(&self.floats, &self.words), store_number(&other.floats, &other.words)];
        if let Some(no) = numbers.into_iter().filter(|no| *no > 0).min() {
            return Err(no);
        }
        if place >= 32 || other_place >= 32 {
            return Err(6);
        }
        let (i, j) = (place as usize, other_place as usize);
        if other.words[2 + RECORD * j] == 0 {
            return Err(7);
        }
        let ((xyz, faces), (other_xyz, other_faces)) = (self.mesh(), other.mesh());
        let patterns = |radius: f64, xyz: &[f64]| -> Vec<u64> { [&[radius], xyz].concat().into_iter().map(pattern).collect() };
        if faces != other_faces || patterns(self.floats[0], xyz) != patterns(other.floats[0], other_xyz) {
            return Ok(None);
        }
        self.floats[1 + 7 * i..][..7].copy_from_slice(&other.floats[1 + 7 * j..][..7]);
        self.floats[225 + 48 * i..][..48].copy_from_slice(&other.floats[225 + 48 * j..][..48]);
        self.words[2 + RECORD * i..][..RECORD].copy_from_slice(&other.words[2 + RECORD * j..][..RECORD]);
        Ok(Some((other.words[2 + RECORD * j] - 1, other.owed(j))))
    }

    /// 02's L12: "It answers how many coordinates were freed, and those words become zero."
    pub fn squeeze(&mut self) -> Result<u32, u32> {
        self.sound()?;
        let (xyz, faces) = self.mesh();
        let (all, (kept, corners)) = (xyz.len(), squeezed(xyz, faces));
        self.floats[1_761..][..kept.len()].copy_from_slice(&kept);
        self.floats[1_761 + kept.len()..1_761 + all].fill(0.0);
        self.words[CORNERS..][..corners.len()].copy_from_slice(&corners);
        self.words[0] = (kept.len() / 3) as u32;
        Ok((all - kept.len()) as u32)
    }

    /// A place's pieces with their held volumes: "a piece's alpha is the kernel's if that kernel stays, else 1, and its weight is w times
    /// the coefficient".
    fn pieces_of(&self, i: usize) -> impl Iterator<Item = (Kernel, f64)> {
        let k = &self.floats[1 + 7 * i..][..7];
        let stays = (k[5] - 1.0).abs() <= 1e-9;
        (0..self.state(i)[0].saturating_sub(1)).map(move |j| {
            let p = &self.floats[225 + 48 * i + 3 * j..][..3];
            (Kernel { c: [k[0], k[1], k[2]], sigma: p[0], w: k[4] * p[1], alpha: if stays { k[5] } else { 1.0 } }, p[2])
        })
    }

    /// Those of the filled places in these layers, in order.
    fn pieces(&self, layers: u32) -> (Vec<Kernel>, Vec<f64>) {
        (0..32).filter(|i| self.seen(layers, *i)).flat_map(|i| self.pieces_of(i)).unzip()
    }

    fn filled_places(&self) -> impl Iterator<Item = usize> {
        (0..32).filter(|i| self.state(*i)[0] > 0)
    }

    /// Rows 4 and 5, 16, row 8.
    fn finished_for(&self, reading: Reading, by: Convention, layers: u32) -> Result<(), u32> {
        self.sound()?;
        set_number(layers)?;
        let left: u64 = (0..32).filter(|i| self.seen(layers, *i)).map(|i| self.owed(i)).sum();
        if by.needs_work(reading) && left > 0 { Err(8) } else { Ok(()) }
    }

    fn rescaled(&self, by: Convention, layers: u32) -> Vec<Kernel> {
        let (pieces, volumes) = self.pieces(layers);
        by.rescaled::<ByArchive>(&pieces, || raw_mass(&pieces, &volumes))
    }

    pub fn density(&self, by: Convention, layers: u32, at: [f64; 3]) -> Result<f64, u32> {
        self.finished_for(Reading::Density, by, layers)?;
        Ok(ByArchive::densitize(&self.rescaled(by, layers), at))
    }

    /// The greatest error is the greatest of the held ones above +0.
    pub fn report(&self, by: Convention, layers: u32) -> Result<Report, u32> {
        self.finished_for(Reading::Report, by, layers)?;
        let (pieces, volumes) = self.pieces(layers);
        let (xyz, faces) = self.mesh();
        let seen: Vec<usize> = self.filled_places().filter(|i| self.seen(layers, *i)).collect();
        let mass = by.mass::<ByArchive>(&pieces, raw_mass(&pieces, &volumes), ByArchive::body_volume(xyz, faces));
        let error = seen.iter().map(|i| self.floats[1 + 7 * i + 6]).fold(0.0, |most, e| if e > most { e } else { most });
        Ok(Report { mass, kernels: seen.len() as u32, pieces: pieces.len() as u32, error })
    }

    /// 02's L7: the report of a store in which every place outside the layers, or with work left, is empty.
    pub fn finished(&self, by: Convention, layers: u32) -> Result<(Report, u32), u32> {
        self.sound()?;
        set_number(layers)?;
        let mut just = self.clone();
        let mut passed = 0;
        for i in 0..32 {
            let seen = self.seen(layers, i);
            if seen && self.owed(i) > 0 {
                passed += 1;
            }
            if !seen || self.owed(i) > 0 {
                just.words[2 + RECORD * i..][..RECORD].fill(0);
            }
        }
        Ok((just.report(by, ALL_LAYERS)?, passed))
    }

    pub fn list(&self, by: Convention, layers: u32, out: &mut [f64]) -> Result<u32, u32> {
        self.finished_for(Reading::List, by, layers)?;
        write_list(&self.rescaled(by, layers), out)
    }

    /// 02's L1: "Every density equals the single reading at that point"; "for 8 a track counts as a density", and 14 is "checked after 8".
    pub fn track(&self, by: Convention, layers: u32, points: &[f64], out: &mut [f64]) -> Result<u32, u32> {
        self.finished_for(Reading::Density, by, layers)?;
        write_track::<ByArchive>(&self.rescaled(by, layers), points, out)
    }

    /// 02's L8: "The mass is the place's own field mass", a sum of its own over the held volumes.
    pub fn page_rows(&self) -> Vec<Row> {
        let row = |place| {
            let (pieces, volumes): (Vec<Kernel>, Vec<f64>) = self.pieces_of(place).unzip();
            Row { place, pieces: pieces.len(), mass: raw_mass(&pieces, &volumes) }
        };
        self.filled_places().map(row).collect()
    }

    /// "It is given only when nothing is left to do, else 8".
    pub fn page(&self, out: &mut [u8]) -> Result<u64, u32> {
        self.sound()?;
        if self.left() > 0 { Err(8) } else { page::write(&self.page_rows(), out) }
    }

    /// 02's L10: the lines of the fields held; "19 when the writer's lent bytes are too few, after 5".
    pub fn write(&self, out: &mut [u8]) -> Result<u64, u32> {
        lines::write(&lines::of_runs(self)?, out)
    }

    pub fn filled_count(&self) -> usize {
        if self.sound().is_ok() { self.filled_places().count() } else { 0 }
    }

    pub fn piece_count(&self) -> usize {
        if self.sound().is_ok() { self.pieces(ALL_LAYERS).0.len() } else { 0 }
    }
}

/// `kernel_field_mass`'s sum, over the held volumes.
fn raw_mass(pieces: &[Kernel], volumes: &[f64]) -> f64 {
    pieces.iter().zip(volumes).fold(0.0, |sum, (k, v)| sum + k.w * v)
}
