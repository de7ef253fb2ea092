//! A store's lines, per byte, beside a plain way in safe Rust: one pass over a slice of bytes, without `format!` or `parse`, and with no check
//! of a store. The plain reader writes what it has read so far into the runs also where a later line is bad; the archive's reads all
//! lines before it writes a word. Of its digits a float's are told apart one by one, as in any reader of text; a second plain reader looks
//! them up in a table and tells at the end whether all were digits.
use crate::lent::{Body, Lent};
use crate::table::{Id, Row, Timings, Way};
use oracle::inputs::Rng;
use oracle::lines::{lines_room, store_read, store_write};
use oracle::machine::{CORNERS, FACES, VERTS, room};
use oracle::pieces::Kernel;
use oracle::{pattern, store};
use std::cell::RefCell;
use std::hint::black_box;
use std::rc::Rc;

pub fn rows(timings: &mut Timings) {
    let globe = Body::twenty_thousand();
    let small = Lines::of(&globe.plain.xyz, &globe.plain.faces, 0);
    let linear = [small.write(timings, "20,000 faces", small.room(), None), small.read(timings, "20,000 faces", None)];
    let mut r = Rng(1);
    let xyz: Vec<f64> = (0..3 * VERTS).map(|_| r.within(-400.0, 400.0)).collect();
    let in_order: Vec<u32> = (0..FACES).flat_map(face).collect();
    let at_random: Vec<u32> = (0..3 * FACES).map(|_| r.below(VERTS as u64) as u32).collect();
    let [_, random] = [("largest mesh", &in_order), ("largest mesh, corners at random", &at_random)].map(|(name, corners)| {
        let lines = Lines::of(&xyz, corners, 0);
        lines.write(timings, name, lines.room(), Some(linear[0]));
        lines.read(timings, name, Some(linear[1]));
        lines
    });
    random.write(timings, "largest mesh, corners at random, no byte to spare", random.text.len(), None);
    Lines::of(&xyz, &in_order, 32).read(timings, "largest mesh, 32 puts", None);
}

/// A face's corners, in an order that a mesh has: two near each other, and one in the next row of a thousand.
fn face(i: usize) -> [u32; 3] {
    let at = i * VERTS / FACES;
    [at, (at + 1) % VERTS, (at + 1_000) % VERTS].map(|k| k as u32)
}

/// A store and its lines.
struct Lines {
    store: Rc<RefCell<Lent>>,
    text: Rc<Vec<u8>>,
}

impl Lines {
    fn of(xyz: &[f64], corners: &[u32], puts: u32) -> Lines {
        let mut store = Lent::open(xyz, corners);
        for place in 0..puts {
            store.put(place, Kernel { c: [1.0, 2.0, 3.0], sigma: 0.004, w: f64::from(place), alpha: 1.0 });
        }
        let mut text = vec![0; lines_room(xyz.len() / 3, corners.len() / 3)];
        let told = store_write(&store.floats, &store.words, &mut text);
        assert_eq!(told.no, 0);
        text.truncate(told.bytes as usize);
        Lines { store: Rc::new(RefCell::new(store)), text: Rc::new(text) }
    }

    fn way(&self, work: impl FnMut() + 'static) -> Way {
        let turns = (1_000_000 / self.text.len()).max(1);
        Way::turns(turns, self.text.len(), work).seldom(self.text.len() > 10_000_000)
    }

    /// The bytes that a host lends.
    fn room(&self) -> usize {
        let words = &self.store.borrow().words;
        lines_room(words[0] as usize, words[1] as usize)
    }

    /// The lines written into so many bytes. The bar is for as many as a host lends: with fewer their length is found first.
    fn write(&self, timings: &mut Timings, name: &str, room: usize, small: Option<Id>) -> Id {
        let (of_ours, of_plain) = (self.store.clone(), self.store.clone());
        let (lent, room) = (room >= self.room(), Rc::new(RefCell::new(vec![0; room])));
        let again = room.clone();
        let ours = move || {
            let Lent { floats, words } = &*of_ours.borrow();
            assert_eq!(store_write(black_box(floats), words, &mut room.borrow_mut()).no, 0);
        };
        let (text, out) = (self.text.clone(), again.clone());
        let plain = move || {
            let Lent { floats, words } = &*of_plain.borrow();
            assert_eq!(plain_write(black_box(floats), words, &mut again.borrow_mut()), text.len());
        };
        plain();
        assert!(out.borrow()[..self.text.len()] == self.text[..], "lines written");
        let [ours, plain] = [timings.way(self.way(ours)), timings.way(self.way(plain))];
        let row = Row::new(format!("write, a byte, {name}, against one pass over a slice"), ours).platform(plain);
        timings.row(linear(if lent { row.within(1.2) } else { row }, small));
        ours
    }

    fn read(&self, timings: &mut Timings, name: &str, small: Option<Id>) -> Id {
        let (floats, words) = { (self.store.borrow().floats.len(), self.store.borrow().words.len()) };
        let runs = Rc::new(RefCell::new(Lent { floats: vec![0.0; floats], words: vec![0; words] }));
        let (text, of_ours) = (self.text.clone(), runs.clone());
        let ours = move || {
            let Lent { floats, words } = &mut *of_ours.borrow_mut();
            assert_eq!(store_read(floats, words, black_box(&text)).no, 0);
        };
        let [told_apart, looked_up] = [false, true].map(|table| {
            let (text, runs) = (self.text.clone(), runs.clone());
            move || {
                let Lent { floats, words } = &mut *runs.borrow_mut();
                let told = plain_read(floats, words, black_box(&text), table);
                assert!(told.is_some());
            }
        });
        self.held(&runs, &told_apart);
        self.held(&runs, &looked_up);
        let [ours, apart, up] = [timings.way(self.way(ours)), timings.way(self.way(told_apart)), timings.way(self.way(looked_up))];
        let row = Row::new(format!("read, a byte, {name}, against one pass over a slice"), ours).platform(apart).within(1.0);
        timings.row(linear(row, small));
        timings.row(Row::new(format!("read, a byte, {name}, against one pass with a table of digits"), ours).platform(up));
        ours
    }

    /// A plain reader leaves the store's words.
    fn held(&self, runs: &Rc<RefCell<Lent>>, plain: &impl Fn()) {
        plain();
        let (is, was) = (runs.borrow(), self.store.borrow());
        assert!(is.words == was.words && is.floats.iter().zip(&was.floats).all(|(x, y)| pattern(*x) == pattern(*y)), "lines read");
    }
}

fn linear(row: Row, small: Option<Id>) -> Row {
    match small {
        Some(small) => row.bar(1.3, small, "20,000 faces"),
        None => row,
    }
}

// ---- The plain writer

struct Out<'a> {
    bytes: &'a mut [u8],
    at: usize,
}

impl Out<'_> {
    #[inline]
    fn text(&mut self, text: &[u8]) {
        self.bytes[self.at..][..text.len()].copy_from_slice(text);
        self.at += text.len();
    }

    #[inline]
    fn h(&mut self, x: f64) {
        const DIGITS: &[u8; 16] = b"0123456789ABCDEF";
        let bits = if x.is_nan() { 0x7ff8_0000_0000_0000 } else { x.to_bits() };
        for (i, digit) in self.bytes[self.at..][..16].iter_mut().enumerate() {
            *digit = DIGITS[(bits >> (60 - 4 * i) & 15) as usize];
        }
        self.at += 16;
    }

    #[inline]
    fn n(&mut self, mut n: u32) {
        let (mut digits, mut from) = ([0; 10], 10);
        loop {
            from -= 1;
            digits[from] = b'0' + (n % 10) as u8;
            n /= 10;
            if n == 0 {
                break;
            }
        }
        self.text(&digits[from..]);
    }

    #[inline]
    fn hs(&mut self, xs: &[f64]) {
        for (i, x) in xs.iter().enumerate() {
            if i > 0 {
                self.text(b" ");
            }
            self.h(*x);
        }
    }
}

#[inline(never)]
fn plain_write(floats: &[f64], words: &[u32], bytes: &mut [u8]) -> usize {
    let mut out = Out { bytes, at: 0 };
    out.text(b"(open (radius ");
    out.h(floats[0]);
    out.text(b") (verts ");
    out.n(words[0]);
    out.text(b") (faces ");
    out.n(words[1]);
    out.text(b"))\n");
    for at in floats[1_761..][..3 * words[0] as usize].chunks_exact(3) {
        out.text(b"(vert ");
        out.hs(at);
        out.text(b")\n");
    }
    for corners in words[CORNERS..][..3 * words[1] as usize].chunks_exact(3) {
        out.text(b"(face ");
        out.n(corners[0]);
        out.text(b" ");
        out.n(corners[1]);
        out.text(b" ");
        out.n(corners[2]);
        out.text(b")\n");
    }
    for place in (0..32).filter(|place| words[2 + 4 * place] > 0) {
        let k = &floats[1 + 7 * place..][..6];
        out.text(b"(put ");
        out.n(place as u32);
        out.text(b" (c ");
        out.hs(&k[..3]);
        for (name, x) in [(&b") (sigma "[..], k[3]), (b") (w ", k[4]), (b") (alpha ", k[5])] {
            out.text(name);
            out.h(x);
        }
        out.text(b") (layer ");
        out.n(words[2 + 4 * place + 3]);
        out.text(b"))\n");
    }
    out.at
}

// ---- The plain reader

/// A float's bits by 16 digits, if they are: each told apart as it comes.
#[inline(always)]
fn by_match(digits: &[u8; 16]) -> Option<u64> {
    let mut bits = 0;
    for digit in digits {
        let value = match digit {
            b'0'..=b'9' => digit - b'0',
            b'A'..=b'F' => digit - b'A' + 10,
            _ => return None,
        };
        bits = bits << 4 | u64::from(value);
    }
    Some(bits)
}

const VALUES: [u8; 256] = {
    let mut values = [16; 256];
    let mut i = 0;
    while i < 16 {
        values[b"0123456789ABCDEF"[i] as usize] = i as u8;
        i += 1;
    }
    values
};

/// The same, each looked up.
#[inline(always)]
fn by_table(digits: &[u8; 16]) -> Option<u64> {
    let (mut bits, mut all) = (0, 0);
    for digit in digits {
        let value = VALUES[*digit as usize];
        all |= value;
        bits = bits << 4 | u64::from(value & 15);
    }
    (all < 16).then_some(bits)
}

struct In<'a>(&'a [u8]);

impl In<'_> {
    #[inline]
    fn text(&mut self, text: &[u8]) -> Option<()> {
        self.0 = self.0.strip_prefix(text)?;
        Some(())
    }

    #[inline]
    fn h(&mut self, digits: impl Fn(&[u8; 16]) -> Option<u64>) -> Option<f64> {
        let (first, rest) = self.0.split_first_chunk()?;
        self.0 = rest;
        digits(first).map(f64::from_bits)
    }

    #[inline]
    fn n(&mut self) -> Option<u32> {
        let (mut n, mut count) = (0u64, 0);
        while let Some(digit) = self.0.get(count).filter(|b| b.is_ascii_digit()) {
            n = 10 * n + u64::from(digit - b'0');
            count += 1;
            if count > 10 {
                return None;
            }
        }
        let good = count > 0 && (self.0[0] != b'0' || count == 1);
        self.0 = &self.0[count..];
        u32::try_from(n).ok().filter(|_| good)
    }
}

/// How many puts there were; none where a line is bad, a corner is loose or a run is too short. The puts themselves are the archive's.
#[inline(never)]
fn plain_read(floats: &mut [f64], words: &mut [u32], text: &[u8], table: bool) -> Option<u64> {
    if table { read_by(floats, words, text, by_table) } else { read_by(floats, words, text, by_match) }
}

#[inline(always)]
fn read_by(floats: &mut [f64], words: &mut [u32], text: &[u8], digits: impl Fn(&[u8; 16]) -> Option<u64> + Copy) -> Option<u64> {
    let mut text = In(text);
    text.text(b"(open (radius ")?;
    floats[0] = text.h(digits)?;
    text.text(b") (verts ")?;
    let verts = text.n()?;
    text.text(b") (faces ")?;
    let faces = text.n()?;
    text.text(b"))\n")?;
    let (need_floats, need_words) = room(verts as usize, faces as usize);
    if verts as usize > VERTS || faces as usize > FACES || floats.len() < need_floats || words.len() < need_words {
        return None;
    }
    floats[1..1_761].fill(0.0);
    words[..CORNERS].fill(0);
    words[..2].copy_from_slice(&[verts, faces]);
    for at in floats[1_761..need_floats].chunks_exact_mut(3) {
        text.text(b"(vert ")?;
        at[0] = text.h(digits)?;
        text.text(b" ")?;
        at[1] = text.h(digits)?;
        text.text(b" ")?;
        at[2] = text.h(digits)?;
        text.text(b")\n")?;
    }
    let mut most = 0;
    for corners in words[CORNERS..need_words].chunks_exact_mut(3) {
        text.text(b"(face ")?;
        corners[0] = text.n()?;
        text.text(b" ")?;
        corners[1] = text.n()?;
        text.text(b" ")?;
        corners[2] = text.n()?;
        text.text(b")\n")?;
        most = most.max(corners[0]).max(corners[1]).max(corners[2]);
    }
    if faces > 0 && most >= verts {
        return None;
    }
    plain_puts(floats, words, text, digits)
}

fn plain_puts(floats: &mut [f64], words: &mut [u32], mut text: In, digits: impl Fn(&[u8; 16]) -> Option<u64> + Copy) -> Option<u64> {
    let mut puts = 0;
    while !text.0.is_empty() {
        text.text(b"(put ")?;
        let place = text.n()?;
        let mut k = [0.0; 6];
        for (x, name) in k.iter_mut().zip([&b" (c "[..], b" ", b" ", b") (sigma ", b") (w ", b") (alpha "]) {
            text.text(name)?;
            *x = text.h(digits)?;
        }
        text.text(b")")?;
        let mut layer = 0;
        if text.text(b" (layer ").is_some() {
            layer = text.n()?;
            text.text(b")")?;
        }
        text.text(b")\n")?;
        let [x, y, z, sigma, w, alpha] = k;
        if store::put(floats, words, place, Kernel { c: [x, y, z], sigma, w, alpha }, layer).no != 0 {
            return None;
        }
        puts += 1;
    }
    Some(puts)
}
