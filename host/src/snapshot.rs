//! A store as bytes, and back.
//!
//! A snapshot is, numbers with their lowest byte first: the eight bytes `CAUCHY02`; the count of floats and the
//! count of words, eight bytes each; the floats, eight bytes each, by their bits; the words, four bytes each; and
//! the CRC-64/XZ of all bytes before it, eight bytes.
//!
//! One that begins with `CAUCHY01` is the same in the form before layers, which has three words to a place. It is read
//! too, and its store carried over; none is written.
use crate::store::{OLD_WORDS_BEFORE_MESH, check_excess};
use crate::{FloatState, OpenError, Refusal, Store};
use std::error::Error;
use std::fmt;

const MAGIC: &[u8; 8] = b"CAUCHY02";
const OLD_MAGIC: &[u8; 8] = b"CAUCHY01";
const HEAD: usize = 24;
const CHECKSUM: usize = 8;

/// Why bytes were not taken as a snapshot.
#[derive(Clone, Copy, Debug, PartialEq, Eq)]
pub enum SnapshotError {
    /// They do not begin as a snapshot does.
    Foreign,
    /// They are fewer or more than their counts say.
    Length,
    /// The checksum does not fit.
    Checksum,
    /// They are whole, but hold no store of this library.
    Refused(Refusal),
    /// The thread's floating-point state is not the default one.
    FloatState(FloatState),
}

impl Store {
    /// The store as bytes, with a checksum.
    ///
    /// ```
    /// # use cauchy::{Mesh, Store};
    /// # let mesh = Mesh { vertices: &[[0.0; 3]; 3], faces: &[[0, 1, 2]] };
    /// let store = Store::open(500.0, mesh)?;
    /// let bytes = store.to_bytes();
    /// assert_eq!(Store::from_bytes(&bytes)?.to_bytes(), bytes);
    /// # Ok::<(), Box<dyn std::error::Error>>(())
    /// ```
    pub fn to_bytes(&self) -> Vec<u8> {
        let size = HEAD + 8 * self.floats.len() + 4 * self.words.len() + CHECKSUM;
        let mut bytes = Vec::with_capacity(size);
        bytes.extend(MAGIC);
        bytes.extend((self.floats.len() as u64).to_le_bytes());
        bytes.extend((self.words.len() as u64).to_le_bytes());
        bytes.extend(self.floats.iter().flat_map(|x| x.to_bits().to_le_bytes()));
        bytes.extend(self.words.iter().flat_map(|w| w.to_le_bytes()));
        bytes.extend(crc64(&bytes).to_le_bytes());
        bytes
    }

    /// The store that [`Store::to_bytes`] wrote. Bytes that were damaged since are refused. A snapshot of the form
    /// before layers is taken too, and its store carried over, as by [`Store::carry_from_old`]; [`Store::carried`]
    /// then tells it.
    ///
    /// ```
    /// # use cauchy::{Mesh, SnapshotError, Store};
    /// # let mesh = Mesh { vertices: &[[0.0; 3]; 3], faces: &[[0, 1, 2]] };
    /// let mut bytes = Store::open(500.0, mesh)?.to_bytes();
    /// bytes[100] ^= 1;
    /// assert_eq!(Store::from_bytes(&bytes).unwrap_err(), SnapshotError::Checksum);
    /// assert_eq!(Store::from_bytes(b"v 0 0 0").unwrap_err(), SnapshotError::Foreign);
    /// # Ok::<(), Box<dyn std::error::Error>>(())
    /// ```
    pub fn from_bytes(bytes: &[u8]) -> Result<Store, SnapshotError> {
        FloatState::check().map_err(SnapshotError::FloatState)?;
        if bytes.starts_with(OLD_MAGIC) {
            let (floats, words) = runs(bytes, OLD_MAGIC)?;
            let store = Store::carry_from_old(&floats, &words)?;
            check_excess(&floats, &words, OLD_WORDS_BEFORE_MESH).map_err(SnapshotError::Refused)?;
            return Ok(store);
        }
        let (floats, words) = runs(bytes, MAGIC)?;
        Ok(Store::from_runs(floats, words)?)
    }
}

/// The two runs of a snapshot that begins so, and whose checksum fits.
fn runs(bytes: &[u8], magic: &[u8; 8]) -> Result<(Vec<f64>, Vec<u32>), SnapshotError> {
    let after_magic = bytes.strip_prefix(magic).ok_or(SnapshotError::Foreign)?;
    let (counts, _) = after_magic.split_at_checked(16).ok_or(SnapshotError::Length)?;
    let [n_floats, n_words] = [&counts[..8], &counts[8..]].map(|count| number(count) as usize);
    let sizes = n_floats.checked_mul(8).zip(n_words.checked_mul(4));
    let (floats_size, words_size) = sizes.ok_or(SnapshotError::Length)?;
    let body_size = floats_size.checked_add(words_size).ok_or(SnapshotError::Length)?;
    if bytes.len().checked_sub(HEAD + CHECKSUM) != Some(body_size) {
        return Err(SnapshotError::Length);
    }
    let (covered, checksum) = bytes.split_at(bytes.len() - CHECKSUM);
    if crc64(covered) != number(checksum) {
        return Err(SnapshotError::Checksum);
    }
    let (floats, words) = covered[HEAD..].split_at(floats_size);
    let floats = floats.as_chunks().0.iter().map(|x| f64::from_bits(u64::from_le_bytes(*x)));
    let words = words.as_chunks().0.iter().map(|w| u32::from_le_bytes(*w));
    Ok((floats.collect(), words.collect()))
}

/// At most eight bytes as a number, the lowest first.
fn number(bytes: &[u8]) -> u64 {
    bytes.iter().rev().fold(0, |n, byte| n << 8 | u64::from(*byte))
}

const CRC: [u64; 256] = {
    let mut table = [0; 256];
    let mut i = 0;
    while i < 256 {
        let mut rest = i as u64;
        let mut bit = 0;
        while bit < 8 {
            rest = if rest & 1 == 1 { rest >> 1 ^ 0xc96c_5795_d787_0f42 } else { rest >> 1 };
            bit += 1;
        }
        table[i] = rest;
        i += 1;
    }
    table
};

/// The CRC-64/XZ.
fn crc64(bytes: &[u8]) -> u64 {
    let step = |sum: u64, byte: &u8| sum >> 8 ^ CRC[(sum as u8 ^ byte) as usize];
    !bytes.iter().fold(!0, step)
}

impl fmt::Display for SnapshotError {
    fn fmt(&self, f: &mut fmt::Formatter<'_>) -> fmt::Result {
        match self {
            SnapshotError::Foreign => f.write_str("not a snapshot of a store"),
            SnapshotError::Length => f.write_str("damaged: bytes are missing, or there are too many"),
            SnapshotError::Checksum => f.write_str("damaged: its checksum does not fit its bytes"),
            SnapshotError::Refused(refusal) => write!(f, "whole, but no store: {refusal}"),
            SnapshotError::FloatState(state) => state.fmt(f),
        }
    }
}

impl Error for SnapshotError {}

impl From<OpenError> for SnapshotError {
    fn from(fault: OpenError) -> SnapshotError {
        match fault {
            OpenError::Refused(refusal) => SnapshotError::Refused(refusal),
            OpenError::FloatState(state) => SnapshotError::FloatState(state),
        }
    }
}

#[cfg(test)]
mod tests {
    use super::{MAGIC, OLD_MAGIC, SnapshotError, crc64};
    use crate::{Refusal, Store};

    #[test]
    fn the_checksum_is_the_standard_one() {
        assert_eq!(crc64(b"123456789"), 0x995d_c9bb_df19_39fa);
    }

    /// A snapshot of these runs, of either form, with a checksum that fits.
    fn forged(magic: &[u8; 8], floats: &[f64], words: &[u32]) -> Vec<u8> {
        let mut bytes = Store { floats: floats.to_vec(), words: words.to_vec(), carried: false }.to_bytes();
        bytes[..8].copy_from_slice(magic);
        let covered = bytes.len() - 8;
        let checksum = crc64(&bytes[..covered]);
        bytes[covered..].copy_from_slice(&checksum.to_le_bytes());
        bytes
    }

    #[test]
    fn whole_bytes_that_hold_no_store_are_refused() {
        for (magic, before_mesh) in [(MAGIC, 130), (OLD_MAGIC, 98)] {
            let refused =
                |floats: &[f64], words: &[u32]| match Store::from_bytes(&forged(magic, floats, words)) {
                    Err(SnapshotError::Refused(refusal)) => refusal,
                    other => panic!("{other:?}"),
                };
            let empty = &vec![0; before_mesh];
            assert_eq!(refused(&[], &[]), Refusal::ShortStore);
            assert_eq!(refused(&[0.0; 1761], &empty[1..]), Refusal::ShortStore);
            assert_eq!(refused(&[0.0; 1760], empty), Refusal::ShortStore);
            assert_eq!(refused(&[0.0; 1762], empty), Refusal::Unsound);
            assert_eq!(refused(&[0.0; 1761], &vec![0; before_mesh + 3]), Refusal::Unsound);
            for stray in [1.0, -0.0, f64::NAN] {
                let mut floats = [0.0; 1764];
                floats[1763] = stray;
                assert_eq!(refused(&floats, empty), Refusal::Unsound);
            }
            for (at, to, refusal) in [(2, 18, Refusal::Unsound), (0, u32::MAX, Refusal::ShortStore)] {
                let mut words = empty.clone();
                words[at] = to;
                assert_eq!(refused(&[0.0; 1761], &words), refusal);
            }
            for floats in [vec![f64::NAN; 1761], vec![0.0; 1764]] {
                let taken = Store::from_bytes(&forged(magic, &floats, empty)).unwrap();
                assert_eq!((taken.carried(), taken.words.len()), (magic == OLD_MAGIC, 130));
            }
        }
    }

    #[test]
    fn counts_that_overflow_are_refused() {
        for (count, magic) in
            [u64::MAX, 1 << 61, 1 << 62].into_iter().flat_map(|n| [(n, MAGIC), (n, OLD_MAGIC)])
        {
            let mut bytes = magic.to_vec();
            bytes.extend(count.to_le_bytes());
            bytes.extend(count.to_le_bytes());
            bytes.extend([0; 8]);
            assert_eq!(Store::from_bytes(&bytes).unwrap_err(), SnapshotError::Length);
        }
    }
}
