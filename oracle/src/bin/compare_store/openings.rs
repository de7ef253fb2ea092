//! Openings: refused exactly when a row of 1 to 4 applies, by the lowest, and then nothing is written.
use oracle::cases;
use oracle::histories::{self, Body};
use oracle::inputs::Rng;
use oracle::machine::{self, FACES, Machine, VERTS};
use oracle::store;
use oracle::tally::Tally;
use oracle::text::ByArchive;

/// Whether an opening into runs of any contents differs from what 01 asks, and the number it asks.
fn differs(body: &Body, floats: Vec<f64>, words: Vec<u32>) -> (bool, u32) {
    let no = machine::open_number(&body.xyz, &body.faces, floats.len(), words.len());
    let (mut want_floats, mut want_words) = (floats.clone(), words.clone());
    let mut counts = (0, 0);
    if no == 0 {
        let (own_floats, own_words) = Machine::<ByArchive>::open(&body.xyz, &body.faces, body.radius).fields();
        want_floats[..own_floats.len()].copy_from_slice(&own_floats);
        want_words[..own_words.len()].copy_from_slice(&own_words);
        counts = ((body.xyz.len() / 3) as u32, (body.faces.len() / 3) as u32);
    }
    let (mut floats, mut words) = (floats, words);
    let told = store::open(&mut floats, &mut words, body.radius, &body.xyz, &body.faces);
    // a copied NaN is the same NaN, so bits are compared
    let same = floats.iter().zip(&want_floats).all(|(x, y)| x.to_bits() == y.to_bits()) && words == want_words;
    ((told.no, told.verts, told.faces) != (no, counts.0, counts.1) || !same, no)
}

/// Small meshes: whole, ragged, with a loose corner, into runs that suffice, fall short by one, or are empty.
pub fn small(count: u64, mut r: Rng) -> Tally {
    let (mut tally, mut seen) = (Tally::new(), [0u64; 5]);
    for _ in 0..count {
        let mut body = histories::body(&mut r);
        if r.below(4) == 0 {
            body.xyz.extend((0..1 + r.below(3)).map(|_| 1.0));
        }
        if r.below(4) == 0 {
            body.faces.extend((0..1 + r.below(3)).map(|_| 0));
        }
        if r.below(3) == 0 && !body.faces.is_empty() {
            let at = r.below(body.faces.len() as u64) as usize;
            let verts = (body.xyz.len() / 3) as u32;
            body.faces[at] = cases::one(&mut r, &[verts, verts, verts.saturating_sub(1), verts + 1, u32::MAX, 1 << 31]);
        }
        let (floats, words) = machine::room(body.xyz.len() / 3, body.faces.len() / 3);
        let [floats, words] = [floats, words].map(|need| match r.below(8) {
            0 => need - 1,
            1 => r.below(need as u64 + 1) as usize,
            2 => 0,
            3 => need + 1 + r.below(5) as usize,
            _ => need,
        });
        let floats = cases::garbage(&mut r, floats);
        let words: Vec<u32> = (0..words).map(|_| r.word() as u32).collect();
        let lengths = (floats.len(), words.len());
        let (bad, no) = differs(&body, floats, words);
        seen[no as usize] += 1;
        tally.count(bad, || format!("{body:?} into {lengths:?}"));
    }
    let [opened, rest @ ..] = seen;
    tally.line("open", "small meshes", &format!("{opened} opened, {rest:?} refused as 1 to 4"));
    tally
}

/// The largest counts, one above each, and the order of the rows there; the short form takes the first few.
pub fn at_the_limits(count: u64) -> Tally {
    let mut tally = Tally::new();
    let (v, f) = (3 * VERTS, 3 * FACES);
    let few = [(v, f, false, 0), (v + 3, 0, false, 0), (v, f + 3, false, 0), (v, f, true, 0), (v, f, false, 1)];
    let all = [v, v + 1, v + 3].into_iter().flat_map(|xyz| {
        [0, f, f + 2, f + 3]
            .into_iter()
            .flat_map(move |faces| [(false, 0), (true, 0), (false, 1), (true, 1)].map(|(l, s)| (xyz, faces, l, s)))
    });
    for (xyz, faces, loose, short) in few.into_iter().chain(all).take(count as usize) {
        let mut body = Body { xyz: vec![0.5; xyz], faces: vec![VERTS as u32 - 1; faces], radius: -0.0 };
        if loose && let Some(last) = body.faces.last_mut() {
            *last = (xyz / 3) as u32;
        }
        let (floats, words) = machine::room(xyz / 3, faces / 3);
        let (bad, no) = differs(&body, vec![2.5; floats - short], vec![7; words]);
        tally.count(bad, || format!("{xyz} coordinates, {faces} corners, loose {loose}, short by {short}: {no} is asked"));
    }
    tally.line("open", "the largest counts", "");
    tally
}
