//! Small pictures as PNG: a colour out of a palette for each point, packed by runs and by repeated rows.
use std::iter::once;

/// A picture. Colour 0 of its palette is seen through.
pub struct Image<'a> {
    pub width: usize,
    /// The colours, 256 at most.
    pub palette: &'a [[u8; 3]],
    /// The number of each point's colour, row by row.
    pub points: &'a [u8],
}

const SIGNATURE: &[u8; 8] = b"\x89PNG\r\n\x1a\n";

/// The bytes of the file.
pub fn encoded(image: &Image<'_>) -> Vec<u8> {
    let rows = image.points.chunks(image.width.max(1));
    let size = [image.width, rows.len()].map(|n| (n as u32).to_be_bytes()).concat();
    // 8 bits a point, by a palette; packed and filtered in the standard's one way; not interlaced
    let head = [&size[..], &[8, 3, 0, 0, 0]].concat();
    // each row begins with its filter: none
    let filtered: Vec<u8> = rows.flat_map(|row| once(0).chain(row.iter().copied())).collect();
    let chunks = [
        chunk(b"IHDR", &head),
        chunk(b"PLTE", image.palette.as_flattened()),
        chunk(b"tRNS", &[0]),
        chunk(b"IDAT", &zlib(&filtered, image.width + 1)),
        chunk(b"IEND", &[]),
    ];
    [SIGNATURE.to_vec(), chunks.concat()].concat()
}

/// A part of the file: its length, name and bytes, and a checksum of the last two.
fn chunk(name: &[u8; 4], bytes: &[u8]) -> Vec<u8> {
    let covered = [&name[..], bytes].concat();
    let length = (bytes.len() as u32).to_be_bytes();
    [&length[..], &covered, &crc32(&covered).to_be_bytes()].concat()
}

/// The bytes packed, between zlib's head and checksum.
fn zlib(bytes: &[u8], row: usize) -> Vec<u8> {
    let mut packed = vec![0x78, 0x01];
    packed.extend(deflated(bytes, row));
    packed.extend(adler32(bytes).to_be_bytes());
    packed
}

/// The longest repetition that has a code, and the shortest.
const LONGEST: usize = 258;
const SHORTEST: usize = 3;

/// One block with the codes that the standard fixes. Only two repetitions are looked for: of the byte before, and of
/// the row before. A picture of a few flat colours has little else.
fn deflated(bytes: &[u8], row: usize) -> Vec<u8> {
    let mut out = Bits::default();
    out.put(0b011, 3); // the last block, by fixed codes
    let mut at = 0;
    while at < bytes.len() {
        // of two that are equally long the last is taken: the shorter distance has the shorter code
        let found = [row, 1].map(|distance| (repeated(bytes, at, distance), distance));
        let (length, distance) = found.into_iter().max_by_key(|(length, _)| *length).unwrap_or_default();
        if length >= SHORTEST {
            out.repetition(length, distance);
            at += length;
        } else {
            out.symbol(bytes[at].into());
            at += 1;
        }
    }
    out.symbol(256); // the block's end
    out.whole_bytes()
}

/// How many bytes from here on repeat those at a distance before.
fn repeated(bytes: &[u8], at: usize, distance: usize) -> usize {
    let Some(from) = at.checked_sub(distance) else { return 0 };
    bytes[at..].iter().zip(&bytes[from..]).take(LONGEST).take_while(|(here, there)| here == there).count()
}

/// Bits, from the lowest of each byte to its highest.
#[derive(Default)]
struct Bits {
    bytes: Vec<u8>,
    /// Those of the byte that is not full, and how many.
    rest: u32,
    count: u32,
}

impl Bits {
    /// The lowest bits of a value, the lowest first.
    fn put(&mut self, value: u32, count: u32) {
        self.rest |= value << self.count;
        self.count += count;
        while self.count >= 8 {
            self.bytes.push(self.rest as u8);
            self.rest >>= 8;
            self.count -= 8;
        }
    }

    /// A code, its highest bit first, as codes of symbols stand.
    fn code(&mut self, code: u32, count: u32) {
        self.put(code.reverse_bits() >> (32 - count), count);
    }

    /// A byte, the end (256) or a kind of length (from 257), by its fixed code.
    fn symbol(&mut self, symbol: u32) {
        match symbol {
            0..144 => self.code(0x30 + symbol, 8),
            144..256 => self.code(0x190 + symbol - 144, 9),
            256..280 => self.code(symbol - 256, 7),
            _ => self.code(0xc0 + symbol - 280, 8),
        }
    }

    /// So many bytes as stand at a distance before. Kinds of lengths go by fours, each four with one more bit to tell
    /// lengths of a kind apart; kinds of distances go by twos.
    fn repetition(&mut self, length: usize, distance: usize) {
        let above = (length - SHORTEST) as u32;
        let bits = above.checked_ilog2().unwrap_or(0).saturating_sub(2);
        match length {
            LONGEST => self.symbol(285),
            _ if above < 8 => self.symbol(257 + above),
            _ => {
                self.symbol(257 + 4 * (bits + 1) + (above >> bits & 3));
                self.put(above & ((1 << bits) - 1), bits);
            }
        }
        let above = (distance - 1) as u32;
        let bits = above.checked_ilog2().unwrap_or(0).saturating_sub(1);
        let kind = if above < 4 { above } else { 2 * (bits + 1) + (above >> bits & 1) };
        self.code(kind, 5);
        self.put(above & ((1 << bits) - 1), if above < 4 { 0 } else { bits });
    }

    fn whole_bytes(mut self) -> Vec<u8> {
        self.put(0, (8 - self.count) % 8);
        self.bytes
    }
}

const CRC: [u32; 256] = {
    let mut table = [0; 256];
    let mut i = 0;
    while i < 256 * 8 {
        let rest = if i % 8 == 0 { (i / 8) as u32 } else { table[i / 8] };
        table[i / 8] = if rest & 1 == 1 { rest >> 1 ^ 0xedb8_8320 } else { rest >> 1 };
        i += 1;
    }
    table
};

/// The CRC-32 of PNG and zip.
fn crc32(bytes: &[u8]) -> u32 {
    !bytes.iter().fold(!0, |sum, byte| sum >> 8 ^ CRC[usize::from(sum as u8 ^ byte)])
}

fn adler32(bytes: &[u8]) -> u32 {
    const MODULUS: u32 = 65521;
    let step = |(a, b): (u32, u32), byte: &u8| {
        let a = (a + u32::from(*byte)) % MODULUS;
        (a, (b + a) % MODULUS)
    };
    let (a, b) = bytes.iter().fold((1, 0), step);
    b << 16 | a
}

/// Bytes as text that may stand in an address.
pub fn base64(bytes: &[u8]) -> String {
    const DIGITS: &[u8; 64] = b"ABCDEFGHIJKLMNOPQRSTUVWXYZabcdefghijklmnopqrstuvwxyz0123456789+/";
    let four = |three: &[u8]| {
        let byte = |i: usize| u32::from(three.get(i).copied().unwrap_or(0));
        let bits = byte(0) << 16 | byte(1) << 8 | byte(2);
        let digit = move |i: usize| char::from(DIGITS[(bits >> (18 - 6 * i) & 63) as usize]);
        let count = three.len() + 1;
        (0..4).map(move |i| if i < count { digit(i) } else { '=' })
    };
    bytes.chunks(3).flat_map(four).collect()
}

#[cfg(test)]
mod tests {
    use super::*;

    #[test]
    fn checksums_are_the_standard_ones() {
        assert_eq!(crc32(b"123456789"), 0xcbf4_3926);
        assert_eq!(adler32(b"Wikipedia"), 0x11e6_0398);
        assert_eq!(adler32(&[255; 100_000]), 0x149a_302c);
    }

    #[test]
    fn base64_is_the_standard_one() {
        let said = ["", "f", "fo", "foo", "foob", "fooba", "foobar"].map(|text| base64(text.as_bytes()));
        assert_eq!(said, ["", "Zg==", "Zm8=", "Zm9v", "Zm9vYg==", "Zm9vYmE=", "Zm9vYmFy"]);
        assert_eq!(base64(&[0xfb, 0xff, 0xbf]), "+/+/");
    }

    /// A reader of one block with fixed codes, by the standard's tables (RFC 1951, 3.2.5 and 3.2.6).
    struct Reader<'a> {
        bytes: &'a [u8],
        at: usize,
    }

    const LENGTHS: [usize; 29] = [
        3, 4, 5, 6, 7, 8, 9, 10, 11, 13, 15, 17, 19, 23, 27, 31, 35, 43, 51, 59, 67, 83, 99, 115, 131, 163,
        195, 227, 258,
    ];
    const LENGTH_BITS: [u32; 29] =
        [0, 0, 0, 0, 0, 0, 0, 0, 1, 1, 1, 1, 2, 2, 2, 2, 3, 3, 3, 3, 4, 4, 4, 4, 5, 5, 5, 5, 0];
    const DISTANCES: [usize; 20] =
        [1, 2, 3, 4, 5, 7, 9, 13, 17, 25, 33, 49, 65, 97, 129, 193, 257, 385, 513, 769];
    const DISTANCE_BITS: [u32; 20] = [0, 0, 0, 0, 1, 1, 2, 2, 3, 3, 4, 4, 5, 5, 6, 6, 7, 7, 8, 8];

    impl Reader<'_> {
        fn bit(&mut self) -> u32 {
            let bit = self.bytes[self.at / 8] >> (self.at % 8) & 1;
            self.at += 1;
            bit.into()
        }

        fn number(&mut self, count: u32) -> usize {
            (0..count).fold(0, |n, i| n | (self.bit() as usize) << i)
        }

        fn code(&mut self, begun: u32, count: u32) -> u32 {
            (0..count).fold(begun, |code, _| code << 1 | self.bit())
        }

        fn symbol(&mut self) -> u32 {
            let seven = self.code(0, 7);
            match seven {
                0..=0b001_0111 => return 256 + seven,
                0b001_1000..=0b101_1111 => return self.code(seven, 1) - 0b0011_0000,
                0b110_0000..=0b110_0011 => return 280 + self.code(seven, 1) - 0b1100_0000,
                _ => {}
            }
            144 + self.code(seven, 2) - 0b1_1001_0000
        }

        fn read(mut self) -> Vec<u8> {
            assert_eq!(self.number(3), 0b011);
            let mut out = Vec::new();
            loop {
                match self.symbol() {
                    256 => return out,
                    symbol @ 0..256 => out.push(symbol as u8),
                    symbol => {
                        let kind = symbol as usize - 257;
                        let length = LENGTHS[kind] + self.number(LENGTH_BITS[kind]);
                        let kind = self.code(0, 5) as usize;
                        let distance = DISTANCES[kind] + self.number(DISTANCE_BITS[kind]);
                        (0..length).for_each(|_| out.push(out[out.len() - distance]));
                    }
                }
            }
        }
    }

    /// Packs and reads again, and answers how many bytes that took.
    fn packed(bytes: &[u8], row: usize) -> usize {
        let packed = deflated(bytes, row);
        assert!(Reader { bytes: &packed, at: 0 }.read() == bytes, "{} bytes by rows of {row}", bytes.len());
        packed.len()
    }

    #[test]
    fn what_is_packed_is_read_again() {
        let mut noise = 12345_u32;
        let mut random = || {
            noise = noise.wrapping_mul(1_103_515_245).wrapping_add(12345);
            noise >> 16
        };
        for row in [1, 2, 3, 4, 5, 6, 9, 17, 100, 361, 1000] {
            let all: Vec<u8> = (0..2000).map(|i| i as u8).collect();
            packed(&all, row);
            let noisy: Vec<u8> = (0..3000).map(|_| random() as u8).collect();
            packed(&noisy, row);
            let runs: Vec<u8> = (0..700).flat_map(|i| vec![i as u8; random() as usize % 300]).collect();
            assert!(packed(&runs, row) < runs.len() / 10);
            let rows = noisy[..row].repeat(40);
            assert!(row < 100 || packed(&rows, row) < rows.len() / 10);
        }
        assert_eq!((packed(b"", 1), packed(&[7; 100_000], 9)), (2, 634));
    }

    #[test]
    fn a_picture_has_its_parts() {
        let palette = [[0; 3], [255, 0, 0]];
        let file = encoded(&Image { width: 3, palette: &palette, points: &[0, 1, 1, 1, 0, 1] });
        let head = b"\x89PNG\r\n\x1a\n\0\0\0\rIHDR\0\0\0\x03\0\0\0\x02\x08\x03\0\0\0";
        assert!(file.starts_with(head), "{file:?}");
        assert!(file.ends_with(b"\0\0\0\0IEND\xae\x42\x60\x82"));
        let data = file.windows(4).position(|name| name == b"IDAT").unwrap() + 4;
        assert_eq!(Reader { bytes: &file[data + 2..], at: 0 }.read(), [0, 0, 1, 1, 0, 1, 0, 1]);
    }
}
