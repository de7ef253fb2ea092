//! Files of every kind that is read, whole and damaged at random. Tests alone use it, those of the program's parts and
//! that of the built program; so it depends on nothing of either.
mod whole;

pub use whole::{Body, KINDS, Kind, Whole};
use whole::{Mark, Meaning};

/// Numbers at random, the same for the same seed: Marsaglia's xorshift, multiplied.
pub struct Random(u64);

impl Random {
    pub fn new(seed: u64) -> Random {
        Random(seed.wrapping_mul(0x9E37_79B9_7F4A_7C15) | 1)
    }

    fn next(&mut self) -> u64 {
        self.0 ^= self.0 >> 12;
        self.0 ^= self.0 << 25;
        self.0 ^= self.0 >> 27;
        self.0.wrapping_mul(0x2545_F491_4F6C_DD1D) >> 16
    }

    /// A number from 0 up to so many, and 0 where that is 0.
    pub fn below(&mut self, n: usize) -> usize {
        (self.next() % (n as u64).max(1)) as usize
    }

    fn choose<T: Copy>(&mut self, from: &[T]) -> T {
        from[self.below(from.len())]
    }
}

/// A damaged file.
#[derive(Debug)]
pub struct Damaged {
    pub bytes: Vec<u8>,
    /// What was done to it.
    pub how: String,
    /// Whether no reader may take it. Others may be whole by chance, or as far as their kind can tell.
    pub must_be_refused: bool,
}

/// A file damaged at random.
pub fn damaged(kind: Kind, whole: &Whole, random: &mut Random) -> Damaged {
    match random.below(6) {
        0 => cut(kind, whole, random),
        1 | 2 => spoiled(kind, whole, random),
        _ => disturbed(whole, random),
    }
}

// ---- Damage of which it is known whether it is found ----

fn cut(kind: Kind, whole: &Whole, random: &mut Random) -> Damaged {
    let at = random.below(whole.bytes.len());
    let kept = &whole.bytes[..at];
    let is_line_end = kept.ends_with(b"\n");
    let must_be_refused = at == 0
        || match kind {
            Kind::Obj | Kind::List | Kind::Toml | Kind::Track => false,
            Kind::PlyText | Kind::Tab | Kind::StlText => at <= whole.last_line,
            Kind::PlyLittle | Kind::PlyBig | Kind::StlBinary => true,
            Kind::Lines => !is_line_end,
            Kind::StoreLines => !is_line_end || at < whole.end_of_mesh,
        };
    Damaged { bytes: kept.to_vec(), how: format!("cut at {at}"), must_be_refused }
}

/// A number replaced by what cannot stand there.
fn spoiled(kind: Kind, whole: &Whole, random: &mut Random) -> Damaged {
    let mark = random.choose(&whole.marks);
    let value =
        if mark.is_binary { bits(kind, whole, mark, random) } else { words(kind, whole, mark, random) };
    let how =
        format!("{:?} at {} replaced by {:?}", mark.meaning, mark.start, String::from_utf8_lossy(&value));
    let mut bytes = whole.bytes.clone();
    bytes.splice(mark.start..mark.end, value);
    Damaged { bytes, how, must_be_refused: true }
}

fn words(kind: Kind, whole: &Whole, mark: Mark, random: &mut Random) -> Vec<u8> {
    let vertices = whole.vertices;
    let own = match (mark.meaning, kind) {
        (Meaning::Number, Kind::Lines | Kind::StoreLines) => {
            &["3ff0000000000000", "3FF000000000000", "3FF00000000000000", "3FF000000000000G", ""][..]
        }
        (Meaning::Number, Kind::Toml) => &["1__0", "01", "1e999", "\"1\"", "true", "1979-05-27", ".5", ""],
        (Meaning::Number, _) => &["nan", "inf", "-infinity", "1e101", "-1e309"],
        (Meaning::Corner, Kind::Obj | Kind::Tab) => &["0", "-1000000", "+"],
        (Meaning::Corner, _) => &["-1", "-0", "+1"],
        (Meaning::Count, _) => &["-1", "1e3", "18446744073709551616"],
    };
    let more = match mark.meaning {
        Meaning::Number => ["x", "--1", "1e", "1,5"].map(str::to_string),
        Meaning::Corner => [vertices + 1, 99_999_999_999, 4_294_967_295, usize::MAX].map(|n| n.to_string()),
        Meaning::Count => ["4294967295", "99999999999", "x", "1048577000"].map(str::to_string),
    };
    match random.below(2) {
        0 => random.choose(own).as_bytes().to_vec(),
        _ => more[random.below(more.len())].clone().into_bytes(),
    }
}

fn bits(kind: Kind, whole: &Whole, mark: Mark, random: &mut Random) -> Vec<u8> {
    let vertices = whole.vertices as u32;
    let mut value = match (mark.meaning, mark.end - mark.start) {
        (Meaning::Number, 8) => random.choose(&[f64::NAN, f64::INFINITY, -1e101]).to_le_bytes().to_vec(),
        (Meaning::Number, _) => {
            random.choose(&[f32::NAN, f32::INFINITY, f32::NEG_INFINITY]).to_le_bytes().to_vec()
        }
        (Meaning::Corner, _) => random.choose(&[vertices, 1 << 31, u32::MAX, 1 << 24]).to_le_bytes().to_vec(),
        (Meaning::Count, _) => random.choose(&[1, 1 << 31, u32::MAX, 2_097_153]).to_le_bytes().to_vec(),
    };
    if kind == Kind::PlyBig {
        value.reverse();
    }
    value
}

// ---- Damage that may leave a file whole ----

/// A way to damage bytes, and its name.
type Way = (&'static str, fn(&mut Vec<u8>, &mut Random));

const WAYS: [Way; 12] = [
    ("bits flipped", |bytes, random| flip(bytes, random)),
    ("bytes replaced", |bytes, random| replace(bytes, random)),
    ("bytes put in", put_in),
    ("a block removed", remove),
    ("a block doubled", double),
    ("a block moved", move_block),
    ("a word replaced", replace_word),
    ("four bytes replaced", |bytes, random| replace_four(bytes, random)),
    ("a line removed", |bytes, random| change_lines(bytes, random, |lines, at, _| _ = lines.remove(at))),
    ("a line doubled", |bytes, random| {
        change_lines(bytes, random, |lines, at, to| lines.insert(to, lines[at]))
    }),
    ("two lines swapped", |bytes, random| change_lines(bytes, random, |lines, at, to| lines.swap(at, to))),
    ("lines ended otherwise", end_lines),
];

fn disturbed(whole: &Whole, random: &mut Random) -> Damaged {
    let mut bytes = whole.bytes.clone();
    let ways: Vec<Way> = (0..1 + random.below(3)).map(|_| random.choose(&WAYS)).collect();
    for (_, way) in &ways {
        way(&mut bytes, random);
    }
    let how = ways.iter().map(|(name, _)| *name).collect::<Vec<_>>().join(", ");
    Damaged { bytes, how, must_be_refused: false }
}

/// A range of some bytes, of a few mostly.
fn block(length: usize, random: &mut Random) -> std::ops::Range<usize> {
    let most = random.choose(&[1, 4, 50, 1000, usize::MAX]).min(length);
    let size = random.below(most.saturating_add(1));
    let start = random.below(length - size + 1);
    start..start + size
}

fn flip(bytes: &mut [u8], random: &mut Random) {
    for _ in 0..=random.below(8) {
        let at = random.below(bytes.len());
        if let Some(byte) = bytes.get_mut(at) {
            *byte ^= 1 << random.below(8);
        }
    }
}

/// Bytes that mean something to a reader.
const BYTES: &[u8] = b"\0\xFF\x7F\n\r\t #-+.e0123456789/()[]=\"'_\\\xEF\xC3";

fn replace(bytes: &mut [u8], random: &mut Random) {
    for _ in 0..=random.below(16) {
        let at = random.below(bytes.len());
        if let Some(byte) = bytes.get_mut(at) {
            *byte = random.choose(BYTES);
        }
    }
}

fn put_in(bytes: &mut Vec<u8>, random: &mut Random) {
    let at = random.below(2) * random.below(bytes.len() + 1);
    let new: Vec<u8> = match random.below(4) {
        0 => b"\xEF\xBB\xBF".to_vec(),
        1 => b"\xFF\xFE".to_vec(),
        2 => vec![random.choose(BYTES); 1 + random.below(3000)],
        _ => (0..=random.below(20)).map(|_| random.choose(BYTES)).collect(),
    };
    bytes.splice(at..at, new);
}

fn remove(bytes: &mut Vec<u8>, random: &mut Random) {
    bytes.drain(block(bytes.len(), random));
}

fn double(bytes: &mut Vec<u8>, random: &mut Random) {
    let copy = bytes[block(bytes.len(), random)].to_vec();
    let at = random.below(bytes.len() + 1);
    bytes.splice(at..at, copy);
}

fn move_block(bytes: &mut Vec<u8>, random: &mut Random) {
    let moved: Vec<u8> = bytes.drain(block(bytes.len(), random)).collect();
    let at = random.below(bytes.len() + 1);
    bytes.splice(at..at, moved);
}

/// Words at the ends of what numbers can be, and beyond.
const WORDS: [&str; 24] = [
    "nan",
    "inf",
    "-inf",
    "1e999",
    "-1e308",
    "1e-400",
    "1e100",
    "0",
    "-0",
    "-1",
    "+1",
    "1.5",
    "4294967295",
    "4294967296",
    "9223372036854775807",
    "18446744073709551616",
    "99999999999999999999999999",
    "2097153",
    "1048577",
    "0x10",
    "1_0",
    "",
    "\u{661}",
    "none",
];

fn replace_word(bytes: &mut Vec<u8>, random: &mut Random) {
    let at = random.below(bytes.len());
    let is_end = |byte: &u8| byte.is_ascii_whitespace() || b"()[],".contains(byte);
    let start = bytes[..at].iter().rposition(is_end).map_or(0, |end| end + 1);
    let end = bytes[at..].iter().position(is_end).map_or(bytes.len(), |end| at + end);
    bytes.splice(start..end.max(start), random.choose(&WORDS).bytes());
}

fn replace_four(bytes: &mut [u8], random: &mut Random) {
    let values = [0, 1, 3, 255, 1 << 16, 0x7F80_0000, 0x7FC0_0000, i32::MAX as u32, 1 << 31, u32::MAX];
    let at = random.below(bytes.len().saturating_sub(3));
    if let Some(four) = bytes.get_mut(at..at + 4) {
        four.copy_from_slice(&random.choose(&values).to_le_bytes());
    }
}

/// Changes lines, by the number of one and of another.
fn change_lines(bytes: &mut Vec<u8>, random: &mut Random, change: fn(&mut Vec<&[u8]>, usize, usize)) {
    let old = std::mem::take(bytes);
    let mut lines: Vec<&[u8]> = old.split_inclusive(|byte| *byte == b'\n').collect();
    let (at, to) = (random.below(lines.len()), random.below(lines.len()));
    if !lines.is_empty() {
        change(&mut lines, at, to);
    }
    *bytes = lines.concat();
}

fn end_lines(bytes: &mut Vec<u8>, random: &mut Random) {
    let end = random.choose(&[&b"\r\n"[..], b"\r", b"", b" ", b"\n\n"]);
    let one = random.below(bytes.iter().filter(|byte| **byte == b'\n').count());
    let is_all = random.below(2) == 0;
    let old = std::mem::take(bytes);
    for (i, line) in old.split_inclusive(|byte| *byte == b'\n').enumerate() {
        let bare = line.strip_suffix(b"\n").unwrap_or(line);
        let is_changed = bare.len() < line.len() && (is_all || i == one);
        bytes.extend(bare);
        bytes.extend(if is_changed { end } else { &line[bare.len()..] });
    }
}
