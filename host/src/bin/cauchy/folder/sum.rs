//! The checksum of the folder's files: XXH64, of 64 bits. It runs at some 10 GB/s, so that the mesh of the largest body
//! is checked at every reading, and tools that know it can check the files too. It finds damage; it is no signature.

const BLOCK: usize = 32;
const P1: u64 = 0x9e37_79b1_85eb_ca87;
const P2: u64 = 0xc2b2_ae3d_27d4_eb4f;
const P3: u64 = 0x1656_67b1_9e37_79f9;
const P4: u64 = 0x85eb_ca77_c2b2_ae63;
const P5: u64 = 0x27d4_eb2f_1656_67c5;

/// A checksum of bytes that come in parts.
pub struct Sum {
    seed: u64,
    lanes: [u64; 4],
    /// The bytes after the last whole block.
    rest: Vec<u8>,
    count: u64,
}

/// The checksum of some bytes.
pub fn of(bytes: &[u8]) -> u64 {
    chained(0, bytes)
}

/// The checksum of some bytes that follow others, of which it is told by their checksum.
pub fn chained(before: u64, bytes: &[u8]) -> u64 {
    let mut sum = Sum::new(before);
    sum.add(bytes);
    sum.end()
}

impl Sum {
    pub fn new(seed: u64) -> Sum {
        let lanes =
            [seed.wrapping_add(P1).wrapping_add(P2), seed.wrapping_add(P2), seed, seed.wrapping_sub(P1)];
        Sum { seed, lanes, rest: Vec::new(), count: 0 }
    }

    /// Takes bytes in: whole blocks at once, what is left over with the next.
    pub fn add(&mut self, mut bytes: &[u8]) {
        self.count += bytes.len() as u64;
        if !self.rest.is_empty() {
            let missing = (BLOCK - self.rest.len()).min(bytes.len());
            let (first, others) = bytes.split_at(missing);
            self.rest.extend(first);
            bytes = others;
            if self.rest.len() < BLOCK {
                return;
            }
            let block = std::mem::take(&mut self.rest);
            self.blocks(&block);
        }
        let (whole, rest) = bytes.split_at(bytes.len() - bytes.len() % BLOCK);
        self.blocks(whole);
        self.rest.extend(rest);
    }

    fn blocks(&mut self, bytes: &[u8]) {
        let mut lanes = self.lanes;
        for block in bytes.as_chunks::<BLOCK>().0 {
            let (words, _) = block.as_chunks::<8>();
            lanes = std::array::from_fn(|i| round(lanes[i], u64::from_le_bytes(words[i])));
        }
        self.lanes = lanes;
    }

    pub fn end(self) -> u64 {
        let mut sum = if self.count < BLOCK as u64 { self.seed.wrapping_add(P5) } else { merged(self.lanes) };
        sum = sum.wrapping_add(self.count);
        let (words, tail) = self.rest.as_chunks::<8>();
        sum = words.iter().fold(sum, |sum, word| {
            (sum ^ round(0, u64::from_le_bytes(*word))).rotate_left(27).wrapping_mul(P1).wrapping_add(P4)
        });
        let (half, tail) = tail.split_at(if tail.len() < 4 { 0 } else { 4 });
        if let Ok(half) = <[u8; 4]>::try_from(half) {
            let half = u64::from(u32::from_le_bytes(half)).wrapping_mul(P1);
            sum = (sum ^ half).rotate_left(23).wrapping_mul(P2).wrapping_add(P3);
        }
        sum = tail.iter().fold(sum, |sum, byte| {
            (sum ^ u64::from(*byte).wrapping_mul(P5)).rotate_left(11).wrapping_mul(P1)
        });
        sum = (sum ^ sum >> 33).wrapping_mul(P2);
        sum = (sum ^ sum >> 29).wrapping_mul(P3);
        sum ^ sum >> 32
    }
}

fn round(lane: u64, word: u64) -> u64 {
    lane.wrapping_add(word.wrapping_mul(P2)).rotate_left(31).wrapping_mul(P1)
}

fn merged(lanes: [u64; 4]) -> u64 {
    let turns = [1, 7, 12, 18];
    let turned =
        lanes.iter().zip(turns).fold(0_u64, |sum, (lane, by)| sum.wrapping_add(lane.rotate_left(by)));
    lanes.iter().fold(turned, |sum, lane| (sum ^ round(0, *lane)).wrapping_mul(P1).wrapping_add(P4))
}

#[cfg(test)]
mod tests {
    use super::*;

    #[test]
    fn the_checksum_is_the_standard_one() {
        assert_eq!(of(b""), 0xef46_db37_51d8_e999);
        assert_eq!(of(b"a"), 0xd24e_c4f1_a98c_6e5b);
        assert_eq!(of(b"abc"), 0x44bc_2cf5_ad77_0999);
        assert_eq!(of(b"Nobody inspects the spammish repetition"), 0xfbce_a83c_8a37_8bf1);
        assert_eq!(chained(20_141_025, b"xxhash"), 0xb559_b98d_844e_0635);
    }

    #[test]
    fn parts_make_the_checksum_of_the_whole() {
        let bytes: Vec<u8> = (0..300_u32).map(|i| (i * 7 % 251) as u8).collect();
        for (first, second) in [(0, 0), (1, 31), (31, 33), (32, 64), (5, 299), (100, 100)] {
            let mut sum = Sum::new(9);
            sum.add(&bytes[..first]);
            sum.add(&bytes[first..second.max(first)]);
            sum.add(&bytes[second.max(first)..]);
            assert_eq!(sum.end(), chained(9, &bytes), "{first} {second}");
        }
    }

    #[test]
    fn every_bit_and_the_length_count() {
        let bytes = [0_u8; 100];
        let whole = of(&bytes);
        for bit in 0..800 {
            let mut other = bytes;
            other[bit / 8] ^= 1 << (bit % 8);
            assert_ne!(of(&other), whole, "bit {bit}");
        }
        assert!((0..100).all(|length| of(&bytes[..length]) != whole));
        assert_ne!(chained(1, &bytes), whole);
    }
}
