//! Pages written out, with the masses that they show.
use crate::judge::differs;
use oracle::held::Held;
use oracle::inputs::Rng;
use oracle::machine::{CORNERS, RECORD};
use oracle::step;
use oracle::tally::Tally;

/// Place, pieces and mass; and the lines.
type Page = (&'static str, &'static [(usize, u32, f64)], &'static [&'static str]);

#[rustfmt::skip]
const PAGES: [Page; 7] = [
    ("no place", &[], &[
        "TOTAL                                                          0",
    ]),
    ("ties to even", &[(0, 1, 0.5), (1, 1, 1.5), (2, 1, 2.5), (9, 1, -0.5), (10, 1, -1.5), (31, 1, -2.5)], &[
        " 0  1                                                          0",
        " 1  1                                                          2",
        " 2  1                                                          2",
        " 9  1                                                          0",
        "10  1                                                         -2",
        "31  1                                                         -2",
        "TOTAL                                                          0",
    ]),
    ("beside a half", &[(0, 1, 0.49999999999999994), (1, 1, 0.5000000000000001), (2, 1, 2.4999999999999996), (3, 1, -0.5000000000000001),
                        (4, 1, -1.4999999999999998)], &[
        " 0  1                                                          0",
        " 1  1                                                          1",
        " 2  1                                                          2",
        " 3  1                                                         -1",
        " 4  1                                                         -1",
        "TOTAL                                                          1",
    ]),
    ("zero has no sign", &[(5, 1, 0.0), (6, 1, -0.0), (7, 1, -0.3), (8, 1, 0.3), (11, 0, f64::NAN), (12, 1, -5e-324)], &[
        " 5  1                                                          0",
        " 6  1                                                          0",
        " 7  1                                                          0",
        " 8  1                                                          0",
        "11  0                                                          0",
        "12  1                                                          0",
        "TOTAL                                                          0",
    ]),
    ("the printed masses are summed", &[(1, 1, 0.4), (2, 1, 0.4), (3, 1, 0.4), (4, 1, 10.5), (5, 1, 11.5)], &[
        " 1  1                                                          0",
        " 2  1                                                          0",
        " 3  1                                                          0",
        " 4  1                                                         10",
        " 5  1                                                         12",
        "TOTAL                                                         22",
    ]),
    ("a sum below 0", &[(0, 16, 1190.0), (20, 13, -1234567.75), (21, 1, -3.0)], &[
        " 0 16                                                       1190",
        "20 13                                                   -1234568",
        "21  1                                                         -3",
        "TOTAL                                                   -1233381",
    ]),
    ("at 10^15", &[(0, 1, 1e15), (1, 1, -1e15), (2, 1, 999_999_999_999_999.5), (3, 1, 999_999_999_999_998.5),
                   (4, 16, -999_999_999_999_999.9)], &[
        " 0  1                                           1000000000000000",
        " 1  1                                          -1000000000000000",
        " 2  1                                           1000000000000000",
        " 3  1                                            999999999999998",
        " 4 16                                          -1000000000000000",
        "TOTAL                                            999999999999998",
    ]),
];

/// A store without a mesh whose places have these pieces and masses: the first piece has it all.
fn store(places: &[(usize, u32, f64)]) -> Held {
    let (mut floats, mut words) = (vec![0.0; 1_761], vec![0; CORNERS]);
    for &(i, pieces, mass) in places {
        floats[1 + 7 * i + 4] = mass;
        floats[225 + 48 * i + 1..][..2].copy_from_slice(&[1.0, 1.0]);
        words[2 + RECORD * i..][..3].copy_from_slice(&[1 + pieces, pieces, 0]);
    }
    Held { floats, words }
}

/// The archive, and the words in plain Rust, held to what stands here.
struct Judge {
    r: Rng,
    tally: Tally,
}

impl Judge {
    fn held(&mut self, name: &str, held: &Held, room: usize, want: Result<&str, u32>) {
        let written = |page: &mut [u8]| {
            want.map(|text| {
                page[..text.len()].copy_from_slice(text.as_bytes());
                text.len() as u64
            })
        };
        let (difference, _) = differs(&mut self.r, held, room, written);
        self.tally.count(difference.is_some(), || format!("{name}: {}", difference.unwrap()));
        let (mut is, mut should) = (vec![b'x'; room], vec![b'x'; room]);
        let same = held.page(&mut is) == written(&mut should) && is == should;
        self.tally.count(!same, || format!("{name}: plain Rust gives\n{}", String::from_utf8_lossy(&is)));
    }
}

pub fn pages(r: Rng) -> Tally {
    let mut judge = Judge { r, tally: Tally::new() };
    for (name, places, lines) in PAGES {
        let text: String = lines.iter().map(|line| format!("{line}\n")).collect();
        let (held, room) = (store(places), text.len());
        for more in [0, 1, 65] {
            judge.held(name, &held, room + more, Ok(&text));
        }
        for short in [0, 1, room - 65, room - 1] {
            judge.held(name, &held, short, Err(18));
        }
    }
    full(&mut judge);
    refused(&mut judge);
    judge.tally.line("page", "pages written by hand", "");
    judge.tally
}

/// Every place, of as much as can be printed.
fn full(judge: &mut Judge) {
    let mut text: String = (0..32).map(|i| format!("{i:2} 16{}1000000000000000\n", " ".repeat(43))).collect();
    text += &format!("TOTAL{}32000000000000000\n", " ".repeat(42));
    assert_eq!(text.len(), 2_145);
    let places: Vec<(usize, u32, f64)> = (0..32).map(|i| (i, 16, 1e15)).collect();
    judge.held("full", &store(&places), 2_145, Ok(&text));
    judge.held("full", &store(&places), 2_144, Err(18));
}

/// 4, 5, 8, 17 and 18, each ahead of those behind it.
fn refused(judge: &mut Judge) {
    for mass in [step(1e15, 1), -step(1e15, 1), f64::NAN, f64::INFINITY, f64::NEG_INFINITY, 1e300] {
        let mut held = store(&[(0, 1, 1.0), (31, 1, mass)]);
        for room in [0, 194, 195] {
            judge.held("no figure", &held, room, Err(17));
        }
        // a face that is not done
        (held.words[1], held.words[2 + RECORD * 31 + 1]) = (1, 0);
        held.words.extend([0, 0, 0]);
        held.words[0] = 1;
        held.floats.extend([0.0; 3]);
        for room in [0, 195] {
            judge.held("work left", &held, room, Err(8));
        }
        // a place of 17 pieces, then no room for the last corner
        held.words[2] = 18;
        judge.held("unsound", &held, 0, Err(5));
        held.words.pop();
        judge.held("short", &held, 0, Err(4));
    }
}
