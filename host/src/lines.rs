//! A store as lines of text, and back. The archive writes and reads them; here is how much memory that takes.
use crate::{FLOATS_BEFORE_MESH, FloatState, OpenError, PLACES, Refusal, Store, WORDS_BEFORE_MESH, sys};

/// 01's limits, above which no mesh is taken.
const MAX_VERTICES: u32 = 1_048_576;
const MAX_FACES: u32 = 2_097_152;

// The bytes of each kind of line: of an opening, a face and a put without its decimal numbers.
const OPENING: usize = 51;
const VERTEX: usize = 58;
const FACE: usize = 10;
const PUT: usize = 142;

impl Store {
    /// The store as lines of text: an opening, the vertices, the faces and a put for each filled place, by rising
    /// place and with the weight as it was last entered. [`Store::from_lines`] makes the same mesh, radius, kernels and
    /// layers of them; the work that is done is not in them.
    ///
    /// ```text
    /// (open (radius H) (verts N) (faces N))
    /// (vert H H H)
    /// (face N N N)
    /// (put N (c H H H) (sigma H) (w H) (alpha H) (layer N))
    /// ```
    ///
    /// Each ends in a newline, the last one too, with single spaces and nothing else. H is a number by the 16
    /// upper-case hexadecimal digits of its bits, every NaN as 7FF8000000000000; N is in decimal.
    ///
    /// ```
    /// # use cauchy::{Kernel, Mesh, Store};
    /// let vertices = [[0.0; 3], [1.0, 0.0, 0.0], [0.0, 1.0, 0.0]];
    /// let mut store = Store::open(500.0, Mesh { vertices: &vertices, faces: &[[0, 1, 2]] })?;
    /// let kernel = Kernel { c: [0.0; 3], sigma: 1.0, w: 2.0, alpha: 1.0 };
    /// store.put_in(4, kernel, 15)?;
    /// let lines = String::from_utf8(store.to_lines()?)?;
    /// assert!(lines.starts_with("(open (radius 407F400000000000) (verts 3) (faces 1))\n(vert 0000000000000000 "));
    /// assert!(lines.contains(" 0000000000000000)\n(face 0 1 2)\n(put 4 (c 0000000000000000 "));
    /// assert!(lines.ends_with(" (w 4000000000000000) (alpha 3FF0000000000000) (layer 15))\n"));
    /// # Ok::<(), Box<dyn std::error::Error>>(())
    /// ```
    pub fn to_lines(&self) -> Result<Vec<u8>, Refusal> {
        let mut lines = vec![0; self.lines_room()];
        let count = self.lines_into(&mut lines)?;
        lines.truncate(count);
        Ok(lines)
    }

    /// Writes the lines that [`Store::to_lines`] gives, and answers how many bytes that are; bytes past them stay.
    ///
    /// ```
    /// # use cauchy::{Mesh, Refusal, Store};
    /// let store = Store::open(500.0, Mesh { vertices: &[], faces: &[] })?;
    /// let mut bytes = [b'#'; 60];
    /// assert_eq!(store.lines_into(&mut bytes)?, 53);
    /// assert!(bytes.starts_with(b"(open (radius 407F400000000000) (verts 0) (faces 0))\n#"));
    /// assert_eq!(store.lines_into(&mut bytes[..52]), Err(Refusal::ShortText));
    /// # Ok::<(), Box<dyn std::error::Error>>(())
    /// ```
    pub fn lines_into(&self, bytes: &mut [u8]) -> Result<usize, Refusal> {
        let (floats, words) = (&self.floats, &self.words);
        // SAFETY: vectors of the store's own, only read, and a slice that is unshared.
        let told = unsafe {
            sys::cauchy_store_write(
                floats.as_ptr(),
                floats.len(),
                words.as_ptr(),
                words.len(),
                bytes.as_mut_ptr(),
                bytes.len(),
            )
        };
        Refusal::check(told.no).map(|()| told.bytes as usize)
    }

    /// The bytes that are enough for its lines, whatever its places hold: the most that a store of so many vertices
    /// and faces has.
    ///
    /// ```
    /// # use cauchy::{Mesh, Store};
    /// let store = Store::open(500.0, Mesh { vertices: &[[0.0; 3]; 3], faces: &[[0, 1, 2]] })?;
    /// assert_eq!(store.to_lines()?.len(), 53 + 3 * 58 + 13);
    /// assert_eq!(store.lines_room(), 53 + 3 * 58 + 13 + 4662);
    /// # Ok::<(), Box<dyn std::error::Error>>(())
    /// ```
    pub fn lines_room(&self) -> usize {
        let (vertices, faces) = (self.vertices(), self.faces());
        let opening = OPENING + digits(vertices) + digits(faces);
        let face = FACE + 3 * digits(vertices.saturating_sub(1));
        let puts: usize = (0..PLACES).map(|place| PUT + digits(place) + 2).sum();
        opening + VERTEX * vertices as usize + face * faces as usize + puts
    }

    /// The store of lines as [`Store::to_lines`] writes them, with all work to do: what their opening and then their
    /// puts, one by one, would leave. The puts may be in any order, and of two into one place the later one stands. A
    /// put may lack ` (layer N)`, and is then in layer 0. Where one line is refused, all are.
    ///
    /// ```
    /// # use cauchy::{Kernel, Mesh, OpenError, Refusal, Store};
    /// # let mesh = Mesh { vertices: &[[0.0; 3]; 3], faces: &[[0, 1, 2]] };
    /// # let kernel = Kernel { c: [0.0; 3], sigma: 1.0, w: 2.0, alpha: 1.0 };
    /// let mut store = Store::open(500.0, mesh)?;
    /// store.put_in(4, kernel, 15)?;
    /// store.advance(1)?;
    /// let lines = store.to_lines()?;
    /// let mut again = Store::from_lines(&lines)?;
    /// assert_eq!((again.mesh(), again.radius(), again.held(4)), (mesh, 500.0, store.held(4)));
    /// assert_eq!((store.left()?, again.left()?), (0, 1));
    /// assert_eq!(again.to_lines()?, lines);
    ///
    /// let cut = Store::from_lines(&lines[..lines.len() - 1]);
    /// assert_eq!(cut.unwrap_err(), OpenError::Refused(Refusal::BadLine));
    /// # Ok::<(), Box<dyn std::error::Error>>(())
    /// ```
    pub fn from_lines(lines: &[u8]) -> Result<Store, OpenError> {
        FloatState::check()?;
        // where nothing is lent the archive refuses the lines for what they are, which comes first
        let (vertices, faces) = counts(lines).unwrap_or((0, 0));
        let mut floats = vec![0.0; FLOATS_BEFORE_MESH + 3 * vertices as usize];
        let mut words = vec![0; WORDS_BEFORE_MESH + 3 * faces as usize];
        // SAFETY: slices, borrowed for the call; those that are written are new.
        let told = unsafe {
            sys::cauchy_store_read(
                floats.as_mut_ptr(),
                floats.len(),
                words.as_mut_ptr(),
                words.len(),
                lines.as_ptr(),
                lines.len(),
            )
        };
        Refusal::check(told.no)?;
        Ok(Store { floats, words, carried: false })
    }
}

/// How many digits a number has in decimal.
fn digits(n: u32) -> usize {
    n.checked_ilog10().unwrap_or(0) as usize + 1
}

/// The counts of vertices and faces in the opening line; `None` where the lines cannot be good: without one, with counts
/// above the limits, or with fewer bytes than so many lines have.
fn counts(lines: &[u8]) -> Option<(u32, u32)> {
    let (_, rest) = lines.strip_prefix(b"(open (radius ")?.split_at_checked(16)?;
    let (vertices, rest) = number(rest.strip_prefix(b") (verts ")?)?;
    let (faces, rest) = number(rest.strip_prefix(b") (faces ")?)?;
    let rest = rest.strip_prefix(b"))\n")?;
    let within = vertices <= MAX_VERTICES && faces <= MAX_FACES;
    let least = VERTEX * vertices as usize + (FACE + 3) * faces as usize;
    (within && least <= rest.len()).then_some((vertices, faces))
}

/// A decimal number, and what follows it.
fn number(text: &[u8]) -> Option<(u32, &[u8])> {
    let count = text.iter().take_while(|byte| byte.is_ascii_digit()).count();
    let (digits, rest) = text.split_at(count);
    Some((std::str::from_utf8(digits).ok()?.parse().ok()?, rest))
}

#[cfg(test)]
mod tests {
    use super::{counts, digits};

    #[test]
    fn numbers_have_so_many_digits() {
        assert_eq!([0, 1, 9, 10, 99, 100, 1_048_576, u32::MAX].map(digits), [1, 1, 1, 2, 2, 3, 7, 10]);
    }

    #[test]
    fn no_more_memory_is_taken_than_the_lines_can_fill() {
        let opening = |verts: &str, faces: &str, more: usize| {
            let text = format!("(open (radius 407F400000000000) (verts {verts}) (faces {faces}))\n");
            counts(&[text.as_bytes(), &vec![b' '; more]].concat())
        };
        assert_eq!(opening("2", "3", 2 * 58 + 3 * 13), Some((2, 3)));
        assert_eq!(opening("2", "3", 2 * 58 + 3 * 13 - 1), None);
        assert_eq!(opening("0", "0", 0), Some((0, 0)));
        assert_eq!(opening("1048577", "0", 58 * 1_048_577), None);
        assert_eq!(opening("0", "2097153", 13 * 2_097_153), None);
        for bad in ["", "x", "-1", "4294967296", "99999999999999999999"] {
            assert_eq!(opening(bad, "0", 100), None);
            assert_eq!(opening("0", bad, 100), None);
        }
        let whole = b"(open (radius 407F400000000000) (verts 0) (faces 0))\n";
        assert!((0..whole.len()).all(|cut| counts(&whole[..cut]).is_none()));
    }
}
