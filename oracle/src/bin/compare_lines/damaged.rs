//! Damaged texts, and runs that are too short for them.
use crate::damage::{DAMAGES, Damage, OUT_OF_RANGE};
use crate::judge::reads;
use crate::seen::Seen;
use oracle::cases::{self, one};
use oracle::histories;
use oracle::inputs::Rng;
use oracle::lines::{REFUSALS, first, put_line};
use oracle::machine::room;
use oracle::pieces::Kernel;
use oracle::program::hs;
use oracle::tally::Tally;

/// A small body's lines and some puts: any places, a place twice, with a layer and without. And its counts.
fn lines(r: &mut Rng) -> (Vec<u8>, usize, usize) {
    let verts = one(r, &[0, 1, 3, 4, 9, 10, 11]);
    let faces = if verts == 0 { 0 } else { r.below(13) as usize };
    let mut text = format!("(open (radius {}) (verts {verts}) (faces {faces}))\n", hs(&[cases::length(r, 500.0)]));
    for _ in 0..verts {
        text += &format!("(vert {})\n", hs(&[(); 3].map(|()| cases::value(r, 400.0))));
    }
    for _ in 0..faces {
        let [a, b, c] = [(); 3].map(|()| r.below(verts as u64));
        text += &format!("(face {a} {b} {c})\n");
    }
    for _ in 0..one(r, &[0, 0, 1, 1, 2, 3, 5, 12]) {
        let any = histories::kernel(r);
        // a fit takes long
        let k = if r.below(4) == 0 { any } else { Kernel { alpha: 1.0, ..any } };
        let place = one(r, &[0, 1, 9, 10, 31, 31]);
        let layer = one(r, &[None, Some(0), Some(3), Some(9), Some(10), Some(15)]);
        text += &put_line(place, &k, layer);
    }
    (text.into_bytes(), verts, faces)
}

/// Runs as long as they must be, longer, or too short.
fn lengths(r: &mut Rng, verts: usize, faces: usize) -> (usize, usize) {
    let (floats, words) = room(verts, faces);
    match r.below(16) {
        0 => (floats - 1, words),
        1 => (floats, words - 1),
        2 => (r.below(floats as u64) as usize, r.below(words as u64) as usize),
        3..=5 => (floats + r.below(9) as usize, words + r.below(9) as usize),
        // room for a count that was changed too
        6..=9 => (floats + 60, words + 60),
        _ => (floats, words),
    }
}

/// What must be met beside each damage with what it mostly leads to.
const OFTEN: [&str; 42] = [
    "as 0",
    "as 13",
    "as 3",
    "as 4",
    "as 6",
    "as 16",
    "as 0, whole",
    "as 0, no put",
    "as 0, a bit flipped",
    "as 0, a byte changed",
    "as 0, lines cut off",
    "as 0, a line taken out",
    "as 0, a line twice",
    "as 0, two lines exchanged",
    "as 0, the puts in another order",
    "as 0, a put twice, of another weight",
    "as 0, a layer taken out",
    "as 0, a NaN of any bits",
    "as 13, a byte changed",
    "as 13, a bit flipped",
    "as 13, a byte put in",
    "as 13, a byte taken out",
    "as 13, the end cut off",
    "as 13, the last newline missing",
    "as 13, a newline more",
    "as 13, a line taken out",
    "as 13, two lines exchanged",
    "as 13, a count changed",
    "as 13, a count above the limits",
    "as 13, a leading zero",
    "as 13, a number of 33 bits or more",
    "as 13, a sign before a number",
    "as 13, a carriage return",
    "as 13, a space or a tab",
    "as 13, a digit in lower case",
    "as 13, a line of the program",
    "as 3, a corner out of range",
    "as 6, a place of 32 or above",
    "as 16, a layer of 16 or above",
    "as 3, others besides",
    "as 4, others besides",
    "as 6, others besides",
];

pub fn texts(count: u64, mut r: Rng) -> Tally {
    let (mut tally, mut seen) = (Tally::new(), Seen::default());
    for i in 0..count {
        let (mut text, verts, faces) = lines(&mut r);
        let mut done = Vec::new();
        // now and then several lines that are refused, each for its own reason
        let (ways, times): (&[Damage], _) = match r.below(5) {
            0 => (&OUT_OF_RANGE, one(&mut r, &[1, 1, 2, 3, 4])),
            _ => (&DAMAGES, one(&mut r, &[0, 1, 1, 1, 1, 1, 1, 2, 2, 3])),
        };
        for _ in 0..times {
            let (name, damage) = one(&mut r, ways);
            if damage(&mut r, &mut text) {
                done.push(name);
            }
        }
        let (floats, words) = lengths(&mut r, verts, faces);
        let read = reads(&mut r, &text, floats, words);
        let no = if read.numbers.is_empty() { 0 } else { first(&read.numbers) };
        seen.add(format!("as {no}"));
        seen.kinds(&[("as 0, whole", no == 0 && done.is_empty()), ("as 0, no put", no == 0 && !text.windows(4).any(|w| w == b"(put"))]);
        if let [name] = done[..] {
            seen.add(format!("as {no}, {name}"));
        }
        if read.numbers.iter().any(|other| *other != no) {
            seen.add(format!("as {no}, others besides"));
        }
        tally.count(read.difference.is_some(), || format!("text {i}, {done:?}: {}", read.difference.unwrap()));
    }
    let names = REFUSALS.map(|no| format!("as {no}"));
    let shown: Vec<&str> = std::iter::once("as 0").chain(names.iter().map(String::as_str).filter(|name| *name != "as 2")).collect();
    tally.line("lines", "damaged texts", &seen.text(&shown));
    tally.add(seen.all_met("damaged texts", &OFTEN, count / 1_000));
    tally
}
