//! Which kinds of carries were met, and which calls after them.
use crate::judge::{Runs, set_of};
use oracle::histories::{Answer, Call};
use oracle::machine::{OLD_RECORD, PLACES, RECORD, corners};
use oracle::pieces::Kernel;
use oracle::tally::Kinds;
use oracle::text::{ByArchive, Text};

/// What must be met of each of both powers.
const OF_POWERS: [&str; 13] = [
    "no place filled",
    "a piece half done",
    "a place with pieces done and others not",
    "all work done",
    "a kernel that stays",
    "13 pieces",
    "16 pieces",
    "no exponent",
    "filled, without faces",
    "after a clear",
    "after a reweigh",
    "after a squeeze that freed",
    "excess of all runs",
];

/// What must be met besides.
const BESIDES: [&str; 27] = [
    "01's: pieces that L2's powers do not give",
    "then a put over a carried kernel",
    "then a clear of a carried kernel",
    "then a reweigh of a carried kernel",
    "then steps on carried work",
    "then a squeeze that freed",
    "then a density with a carried kernel",
    "then a report with a carried kernel",
    "then what is finished, with a carried kernel",
    "then a list with a carried kernel",
    "then a track with a carried kernel",
    "then a page with a carried kernel",
    "then a reading refused as 8 for carried work",
    "then a reading beside carried kernels, of other layers",
    "then a put in another layer",
    "as 4, old words below 98",
    "as 4, old floats short",
    "as 4, old corners short",
    "as 4, new floats short by one",
    "as 4, new words short by one",
    "as 4, new words of the old length",
    "as 4, new floats empty",
    "as 4, new words empty",
    "as 4, a count above the limits",
    "as 4, not sound besides",
    "as 5, by a place",
    "as 5, by a corner",
];

/// All that must be met.
pub fn all() -> Vec<String> {
    let of_both = ["01's", "L2's"].into_iter().flat_map(|powers| OF_POWERS.map(|name| format!("{powers}: {name}")));
    of_both.chain(BESIDES.map(String::from)).collect()
}

/// Some kinds of carries of stores with these powers, with how often each was met.
pub fn shown(kinds: &Kinds, powers: &str) -> String {
    let of = |name: &str| format!("{} {name}", kinds.times(&format!("{powers}: {name}")));
    let apart = if powers == "01's" { format!(", {}", of("pieces that L2's powers do not give")) } else { String::new() };
    format!("{}, {}{apart}", of(OF_POWERS[1]), of(OF_POWERS[3]))
}

/// What the calls on an old store did.
#[derive(Default)]
pub struct Before {
    cleared: bool,
    reweighed: bool,
    freed: bool,
}

impl Before {
    pub fn add(&mut self, call: Call, answer: Answer) {
        match (call, answer) {
            (Call::Clear(_), Answer::Edited) => self.cleared = true,
            (Call::Reweigh(..), Answer::Edited) => self.reweighed = true,
            (_, Answer::Freed(1..)) => self.freed = true,
            _ => {}
        }
    }
}

/// Whether the pieces that an old store's place holds are others than a fit with L2's powers gives.
fn apart(old: &Runs, place: usize) -> bool {
    let pieces = old.words[2 + OLD_RECORD * place].saturating_sub(1) as usize;
    let k = &old.floats[1 + 7 * place..][..7];
    let kernel = Kernel { c: [k[0], k[1], k[2]], sigma: k[3], w: 1.0, alpha: k[5] };
    let (again, _) = ByArchive::decompose(&[kernel], old.floats[0]);
    let held = old.floats[225 + 48 * place..][..3 * pieces].chunks(3);
    pieces > 0 && again.iter().zip(held).any(|(p, held)| (p.sigma, p.w) != (held[0], held[1]))
}

/// Every kind that a carry of an opened store is.
pub fn add(kinds: &mut Kinds, powers: &str, before: &Before, old: &Runs, new: &Runs) {
    let (verts, faces) = (old.words[0] as usize, old.words[1] as usize);
    let states: Vec<&[u32]> = old.words[2..corners(OLD_RECORD)].chunks(OLD_RECORD).filter(|s| s[0] > 0).collect();
    let any = |test: fn(&&[u32]) -> bool| states.iter().any(test);
    let excess = |runs: &Runs, record| runs.floats.len() > 1_761 + 3 * verts && runs.words.len() > corners(record) + 3 * faces;
    let met = [
        states.is_empty(),
        any(|s| s[2] > 0),
        any(|s| s[1] > 0 && s[1] + 1 < s[0]),
        faces > 0 && !states.is_empty() && states.iter().all(|s| s[1] + 1 == s[0]),
        any(|s| s[0] == 2),
        any(|s| s[0] == 14),
        any(|s| s[0] == 17),
        any(|s| s[0] == 1),
        faces == 0 && any(|s| s[0] > 1),
        before.cleared,
        before.reweighed,
        before.freed,
        excess(old, OLD_RECORD) && excess(new, RECORD),
    ];
    for (name, met) in OF_POWERS.into_iter().zip(met) {
        kinds.met(&[(&format!("{powers}: {name}"), met)]);
    }
    if powers == "01's" {
        kinds.met(&[(BESIDES[0], (0..PLACES).any(|place| apart(old, place)))]);
    }
}

/// The places that still hold a carried kernel, and those of them that had work left at the carry.
pub struct Since {
    carried: [bool; PLACES],
    work: [bool; PLACES],
}

impl Since {
    pub fn of(words: &[u32]) -> Since {
        let states = || words[2..corners(RECORD)].chunks(RECORD);
        let mut since = Since { carried: [false; PLACES], work: [false; PLACES] };
        for (place, state) in states().enumerate() {
            since.carried[place] = state[0] > 0;
            since.work[place] = state[1] + 1 < state[0];
        }
        since
    }

    fn any(&self) -> bool {
        self.carried.contains(&true)
    }

    /// Every kind that a call after the carry is. A place that is 32 or above is refused.
    pub fn add(&mut self, kinds: &mut Kinds, call: Call, answer: Answer) {
        let of_place = match call {
            Call::Put(place, ..) | Call::Clear(place) | Call::Reweigh(place, _) => self.carried.get(place as usize).copied(),
            _ => None,
        };
        let held = of_place == Some(true);
        // kernels that were carried are in layer 0
        let sees = self.any() && set_of(call).is_none_or(|layers| layers & 1 == 1);
        let work = self.carried.iter().zip(&self.work).any(|(carried, work)| *carried && *work);
        kinds.met(&match (call, answer) {
            (Call::Put(_, _, layer), Answer::Placed(..)) => vec![(BESIDES[1], held), ("then a put in another layer", layer > 0)],
            (Call::Clear(_), Answer::Edited) => vec![("then a clear of a carried kernel", held)],
            (Call::Reweigh(..), Answer::Edited) => vec![("then a reweigh of a carried kernel", held)],
            (_, Answer::Steps(1.., _)) => vec![("then steps on carried work", work)],
            (_, Answer::Freed(freed)) => vec![("then a squeeze that freed", freed > 0)],
            (_, Answer::Value(_)) => vec![("then a density with a carried kernel", sees)],
            (_, Answer::Report(_)) => vec![("then a report with a carried kernel", sees)],
            (_, Answer::Finished(report, _)) => vec![("then what is finished, with a carried kernel", sees && report.kernels > 0)],
            (_, Answer::Listed(pieces)) => vec![("then a list with a carried kernel", sees && pieces > 0)],
            (_, Answer::Tracked(points)) => vec![("then a track with a carried kernel", sees && points > 0)],
            (_, Answer::Paged(_)) => vec![("then a page with a carried kernel", sees)],
            (_, Answer::Refused(8)) => vec![("then a reading refused as 8 for carried work", sees && work)],
            _ => vec![],
        });
        let beside = set_of(call).is_some_and(|layers| layers & 1 == 0) && !matches!(answer, Answer::Refused(_));
        kinds.met(&[("then a reading beside carried kernels, of other layers", beside && self.any())]);
        match (call, answer) {
            (Call::Put(place, ..), Answer::Placed(..)) | (Call::Clear(place), Answer::Edited) => self.carried[place as usize] = false,
            (_, Answer::Steps(_, 0)) => self.work = [false; PLACES],
            _ => {}
        }
    }
}

/// Every kind that a carry refused as 4 is.
pub fn add_short(kinds: &mut Kinds, old: &Runs, no: u32, floats: usize, words: usize) {
    if no != 4 {
        return;
    }
    if old.words.len() < corners(OLD_RECORD) {
        kinds.many("as 4, old words below 98", 1);
        return;
    }
    let (verts, faces) = (old.words[0] as usize, old.words[1] as usize);
    let (need_floats, need_words) = oracle::machine::room(verts, faces);
    let old_floats = old.floats.len() < need_floats;
    let old_corners = old.words.len() < corners(OLD_RECORD) + 3 * faces;
    let of_new = !old_floats && !old_corners;
    kinds.met(&[
        ("as 4, old floats short", old_floats),
        ("as 4, old corners short", old_corners),
        ("as 4, new floats short by one", of_new && floats + 1 == need_floats),
        ("as 4, new words short by one", of_new && words + 1 == need_words),
        ("as 4, new words of the old length", of_new && words + PLACES == need_words),
        ("as 4, new floats empty", of_new && floats == 0),
        ("as 4, new words empty", of_new && words == 0),
        ("as 4, a count above the limits", verts > oracle::machine::VERTS || faces > oracle::machine::FACES),
        ("as 4, not sound besides", old.words[2..corners(OLD_RECORD)].contains(&u32::MAX)),
    ]);
}
