//! Too few bytes, at every length, and bytes for the most that such a store can need.
use crate::judge::writes;
use oracle::held::Held;
use oracle::histories;
use oracle::inputs::Rng;
use oracle::lines::{lines_room, of_runs};
use oracle::machine;
use oracle::pieces::Kernel;
use oracle::store;
use oracle::tally::Tally;

/// Of small stores: 19 with every count of bytes below the text's, and nothing written; the text with as many, with more, and with about as
/// many as its mesh can need at most, from which on no length is worked out beforehand. The last store needs so many.
pub fn each(count: u64, mut r: Rng) -> Tally {
    let (mut tally, mut refused, mut most) = (Tally::new(), 0, 0);
    for i in 0..=count {
        let runs = if i < count { drawn(&mut r) } else { fullest() };
        let asked = of_runs(&runs);
        let Ok(text) = &asked else { continue };
        let full = lines_room(runs.words[0] as usize, runs.words[1] as usize);
        tally.count(i == count && full != text.len(), || format!("the fullest store has {} bytes, not {full}", text.len()));
        for room in (0..text.len() + 3).chain(full - 1..full + 2) {
            refused += u64::from(room < text.len());
            most += u64::from(room >= full);
            let difference = writes(&mut r, &runs, room, &asked);
            tally.count(difference.is_some(), || format!("store {i}, {room} bytes: {}", difference.unwrap()));
        }
    }
    tally.count(refused == 0, || "no store was sound".into());
    tally.line("lines", "every count of bytes", &format!("{refused} as 19, {most} with the most that is needed"));
    tally
}

/// A store of a few vertices with a few places filled.
fn drawn(r: &mut Rng) -> Held {
    let mut body = histories::body(r);
    body.xyz.truncate(3 * 12);
    body.faces.retain(|corner| *corner < 12);
    body.faces.truncate(body.faces.len() / 3 * 3);
    let mut runs = histories::unopened(r, &body);
    (3..32).for_each(|i| runs.words[2 + 4 * i..][..4].fill(0));
    runs
}

/// A store whose lines are as long as they can be: each corner is the last vertex, and each place is filled, in the last layer.
fn fullest() -> Held {
    let (floats, words) = machine::room(11, 2);
    let mut runs = Held { floats: vec![0.0; floats], words: vec![0; words] };
    assert_eq!(store::open(&mut runs.floats, &mut runs.words, 500.0, &[1.0; 3 * 11], &[10; 3 * 2]).no, 0);
    let kernel = Kernel { c: [1.0, 2.0, 3.0], sigma: 0.004, w: 1.0, alpha: 1.0 };
    (0..32).for_each(|place| assert_eq!(store::put(&mut runs.floats, &mut runs.words, place, kernel, 15).no, 0));
    runs
}
