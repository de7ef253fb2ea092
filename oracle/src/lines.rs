//! 02's L10, a store as bracket lines, by its words: the writer from what a store holds, and a reader that goes line by line and gives the
//! opening and the puts to 01's machine. Beside them the archive's calls.
use crate::held::{Held, store_number};
use crate::machine::{CORNERS, Machine, PLACES, RECORD, open_number};
use crate::pieces::Kernel;
use crate::program::{Rest, h, hs};
use crate::text::ByTranscription;

/// What a reading of lines answers: a number, vertices, faces, lines of puts.
#[repr(C)]
#[derive(Clone, Copy, Debug, PartialEq, Eq)]
pub struct Loaded {
    pub no: u32,
    pub verts: u32,
    pub faces: u32,
    pub puts: u64,
}

/// What a writing of lines answers: a number, bytes.
#[repr(C)]
#[derive(Clone, Copy, Debug, PartialEq, Eq)]
pub struct Bytes {
    pub no: u32,
    pub bytes: u64,
}

unsafe extern "C" {
    fn cauchy_store_write(f: *const f64, f_len: usize, w: *const u32, w_len: usize, bytes: *mut u8, len: usize) -> Bytes;
    fn cauchy_store_read(f: *mut f64, f_len: usize, w: *mut u32, w_len: usize, bytes: *const u8, len: usize) -> Loaded;
}

// SAFETY, of both calls: runs of these lengths, and no other holds one that is written.

/// The archive's writer.
#[inline]
pub fn store_write(floats: &[f64], words: &[u32], bytes: &mut [u8]) -> Bytes {
    unsafe { cauchy_store_write(floats.as_ptr(), floats.len(), words.as_ptr(), words.len(), bytes.as_mut_ptr(), bytes.len()) }
}

/// The archive's reader.
#[inline]
pub fn store_read(floats: &mut [f64], words: &mut [u32], bytes: &[u8]) -> Loaded {
    unsafe { cauchy_store_read(floats.as_mut_ptr(), floats.len(), words.as_mut_ptr(), words.len(), bytes.as_ptr(), bytes.len()) }
}

// ---- The writer

/// What the lines tell of a store: its mesh and radius, and each filled place with its kernel and its layer.
pub struct Telling<'a> {
    pub radius: f64,
    pub xyz: &'a [f64],
    pub faces: &'a [u32],
    pub puts: Vec<(usize, Kernel, u32)>,
}

/// "opening, vertices, faces, then puts by rising place, with kept weights", "each ending in a newline"; "Lines carry (layer N) after
/// alpha". A NaN is 7FF8000000000000.
pub fn text(store: &Telling) -> String {
    let (verts, faces) = (store.xyz.len() / 3, store.faces.len() / 3);
    let mut text = format!("(open (radius {}) (verts {verts}) (faces {faces}))\n", h(store.radius));
    store.xyz.chunks(3).for_each(|at| text += &format!("(vert {})\n", hs(at)));
    store.faces.chunks(3).for_each(|f| text += &format!("(face {} {} {})\n", f[0], f[1], f[2]));
    for (place, k, layer) in &store.puts {
        text += &put_line(*place as u64, k, Some((*layer).into()));
    }
    text
}

/// The text of the fields that two runs hold, after rows 4 and 5.
pub fn of_runs(Held { floats, words }: &Held) -> Result<String, u32> {
    match store_number(floats, words) {
        0 => {}
        no => return Err(no),
    }
    let put = |i: usize| {
        let k = &floats[1 + 7 * i..][..7];
        (i, Kernel { c: [k[0], k[1], k[2]], sigma: k[3], w: k[4], alpha: k[5] }, words[2 + RECORD * i + 3])
    };
    let puts = (0..PLACES).filter(|i| words[2 + RECORD * i] > 0).map(put).collect();
    let (xyz, faces) = (&floats[1_761..][..3 * words[0] as usize], &words[CORNERS..][..3 * words[1] as usize]);
    Ok(text(&Telling { radius: floats[0], xyz, faces, puts }))
}

/// A put's line, with a layer or without.
pub fn put_line(place: u64, k: &Kernel, layer: Option<u64>) -> String {
    let layer = layer.map_or(String::new(), |n| format!(" (layer {n})"));
    format!("(put {place} (c {}) (sigma {}) (w {}) (alpha {}){layer})\n", hs(&k.c), h(k.sigma), h(k.w), h(k.alpha))
}

/// The bytes written, and those past them as they were; "19 when the writer's lent bytes are too few".
pub fn write(text: &str, bytes: &mut [u8]) -> Result<u64, u32> {
    bytes.get_mut(..text.len()).ok_or(19u32)?.copy_from_slice(text.as_bytes());
    Ok(text.len() as u64)
}

/// The bytes that a host lends: as many as the lines of a sound store of so many vertices and faces can have. Each corner has as many digits
/// as the last vertex, and every place is filled, in a layer of two digits.
pub fn lines_room(verts: usize, faces: usize) -> usize {
    let digits = |n: usize| n.to_string().len();
    let puts: usize = (0..PLACES).map(|place| 142 + digits(place) + 2).sum();
    51 + digits(verts) + digits(faces) + 58 * verts + (10 + 3 * digits(verts.saturating_sub(1))) * faces + puts
}

// ---- The reader

/// A line of one of the four forms.
enum Line {
    Open { radius: f64, verts: u32, faces: u32 },
    Vert([f64; 3]),
    Face([u32; 3]),
    Put(u32, Kernel, u32),
}

type Form = fn(&mut Rest) -> Option<Line>;

const FORMS: [Form; 4] = [
    |s| {
        s.text("(open (radius ")?;
        let radius = s.h()?;
        s.text(") (verts ")?;
        let verts = s.word()?;
        s.text(") (faces ")?;
        let faces = s.word()?;
        s.text("))\n")?;
        Some(Line::Open { radius, verts, faces })
    },
    |s| {
        s.text("(vert ")?;
        let at = s.three(Rest::h)?;
        s.text(")\n")?;
        Some(Line::Vert(at))
    },
    |s| {
        s.text("(face ")?;
        let corners = s.three(Rest::word)?;
        s.text(")\n")?;
        Some(Line::Face(corners))
    },
    |s| {
        s.text("(put ")?;
        let place = s.word()?;
        s.text(" (c ")?;
        let c = s.three(Rest::h)?;
        s.text(") (sigma ")?;
        let sigma = s.h()?;
        s.text(") (w ")?;
        let w = s.h()?;
        s.text(") (alpha ")?;
        let alpha = s.h()?;
        s.text(")")?;
        // "a put line lacking it means layer 0"
        let layer = match s.text(" (layer ") {
            Some(()) => {
                let layer = s.word()?;
                s.text(")")?;
                layer
            }
            None => 0,
        };
        s.text(")\n")?;
        Some(Line::Put(place, Kernel { c, sigma, w, alpha }, layer))
    },
];

/// The line by the one form that it has from its first byte to its newline.
fn line(bytes: &[u8]) -> Option<Line> {
    FORMS.iter().find_map(|form| {
        let mut rest = Rest(bytes);
        form(&mut rest).filter(|_| rest.0.is_empty())
    })
}

/// What the lines so far have done.
struct Reader {
    radius: f64,
    verts: u32,
    faces: u32,
    xyz: Vec<f64>,
    corners: Vec<u32>,
    puts: Vec<(u32, Kernel, u32)>,
}

impl Reader {
    fn open(line: Line) -> Option<Reader> {
        let Line::Open { radius, verts, faces } = line else { return None };
        Some(Reader { radius, verts, faces, xyz: Vec::new(), corners: Vec::new(), puts: Vec::new() })
    }

    fn has_verts(&self) -> bool {
        self.xyz.len() as u64 == 3 * u64::from(self.verts)
    }

    fn has_faces(&self) -> bool {
        self.corners.len() as u64 == 3 * u64::from(self.faces)
    }

    /// The next line, which must be the one that is due: a vertex, then a face, then a put.
    fn take(&mut self, line: Line) -> Option<()> {
        match line {
            Line::Vert(at) if !self.has_verts() => self.xyz.extend(at),
            Line::Face(corners) if self.has_verts() && !self.has_faces() => self.corners.extend(corners),
            Line::Put(place, k, layer) if self.has_verts() && self.has_faces() => self.puts.push((place, k, layer)),
            _ => return None,
        }
        Some(())
    }
}

/// "one whole opening and then puts": none where the bytes are anything else.
fn read_lines(bytes: &[u8]) -> Option<Reader> {
    let mut lines = bytes.split_inclusive(|b| *b == b'\n');
    let mut reader = Reader::open(line(lines.next()?)?)?;
    for bytes in lines {
        reader.take(line(bytes)?)?;
    }
    (reader.has_verts() && reader.has_faces()).then_some(reader)
}

/// The numbers of the reader's refusals, in the order in which they are tested.
pub const REFUSALS: [u32; 6] = [13, 2, 3, 4, 6, 16];

/// A store read: its answer and its machine. Into runs of so many floats and words; or all the numbers for which some line is refused.
pub fn read(bytes: &[u8], floats: usize, words: usize) -> Result<(Loaded, Machine<ByTranscription>), Vec<u32>> {
    let reader = read_lines(bytes).ok_or(vec![13u32])?;
    let opened = open_number(&reader.xyz, &reader.corners, floats, words);
    let mesh: (&[f64], &[u32]) = if opened == 0 { (&reader.xyz, &reader.corners) } else { (&[], &[]) };
    let mut machine = Machine::open(mesh.0, mesh.1, reader.radius);
    let mut told = if opened == 0 { Vec::new() } else { vec![opened] };
    told.extend(reader.puts.iter().filter_map(|(place, k, layer)| machine.put(*place, *k, *layer).err()));
    match told.is_empty() {
        true => Ok((Loaded { no: 0, verts: reader.verts, faces: reader.faces, puts: reader.puts.len() as u64 }, machine)),
        false => Err(told),
    }
}

/// "refuses the whole where one line would be refused": the first of the numbers, in the order in which they are tested.
pub fn first(told: &[u32]) -> u32 {
    REFUSALS.into_iter().find(|no| told.contains(no)).expect("a number of the reader's")
}
