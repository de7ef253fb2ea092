//! Counts above 01's limits, with all their lines and without one.
use crate::judge::reads;
use oracle::inputs::Rng;
use oracle::machine::{FACES, VERTS, room};
use oracle::tally::Tally;

fn text(verts: usize, faces: usize, given: (usize, usize), corner: &str, put: &str) -> Vec<u8> {
    let mut text = format!("(open (radius 407F400000000000) (verts {verts}) (faces {faces}))\n").into_bytes();
    text.extend(b"(vert 3FF0000000000000 BFF0000000000000 0000000000000000)\n".repeat(given.0));
    text.extend(format!("(face 0 {corner} 0)\n").repeat(given.1).bytes());
    text.extend(put.bytes());
    text
}

/// 2 ahead of 3, 4, 6 and 16, and 13 ahead of it; the largest mesh itself is taken.
pub fn counts(turns: u64, mut r: Rng) -> Tally {
    let (mut tally, mut met) = (Tally::new(), Vec::new());
    let zero = "0000000000000000";
    let put = |place: u64, layer: u64| {
        format!("(put {place} (c {zero} {zero} {zero}) (sigma {zero}) (w {zero}) (alpha 3FF0000000000000) (layer {layer}))\n")
    };
    let most = room(VERTS, FACES);
    for turn in 0..turns as usize {
        let more = 1 + turn * turn * 1_000;
        let cases = [
            // faces above the limit; loose corners, runs too short, places and layers that are none besides
            (1, FACES + more, 0, 0, "0", put(3, 3), most),
            (1, FACES + more, 0, 0, "1", put(32, 16), (0, 0)),
            (1, FACES + more, 0, 1, "0", String::new(), most),
            (VERTS + more, 1, 0, 0, "0", put(31, 16), most),
            (VERTS + more, 1, 1, 0, "0", put(31, 15), most),
            (2, FACES, 0, 0, "1", put(31, 15), room(2, FACES)),
            (2, FACES, 0, 0, "2", put(31, 15), room(2, FACES)),
            (2, FACES, 0, 0, "1", put(31, 16), (room(2, FACES).0, room(2, FACES).1 - 1)),
        ];
        for (verts, faces, no_verts, no_faces, corner, put, (floats, words)) in cases {
            let bytes = text(verts, faces, (verts - no_verts, faces - no_faces), corner, &put);
            let read = reads(&mut r, &bytes, floats, words);
            met.push(if read.numbers.is_empty() { 0 } else { oracle::lines::first(&read.numbers) });
            let of = format!("{verts} vertices, {faces} faces, corner {corner}, {put}");
            tally.count(read.difference.is_some(), || format!("{of}: {}", &read.difference.unwrap()[..200]));
        }
    }
    let want = [2, 2, 13, 2, 13, 0, 3, 4].repeat(turns as usize);
    tally.count(met != want, || format!("{met:?}, not {want:?}"));
    tally.line("lines", "counts at and above the limits", "2, 13, 3 and 4");
    tally
}
