//! 02's L14: what no answer shows. Beside a store two others get its calls: one whose mesh is the same with its vertices numbered anew,
//! and one whose puts of kernels that stay have, at times, the negative of sigma. Every answer, every lent run and every word of both runs
//! is the same, but for the numbers of the vertices and the signs of those sigmas, which are as they were given. The lines of a store show
//! both, and are left out, as in the theorems.
use crate::every_call_kinds::{self, Since};
use crate::judge::{Runs, float_differs, lent, opened, same, written};
use crate::squeezes::touch_freed;
use oracle::held::Held;
use oracle::histories::{self, Answer, Body, Call, Places};
use oracle::inputs::Rng;
use oracle::machine::{CORNERS, PLACES, RECORD};
use oracle::pattern;
use oracle::pieces::Kernel;
use oracle::tally::{Kinds, Tally};
use oracle::text::ByArchive;

/// The calls of a history.
const CALLS: usize = 50;

/// What must be met of renumbered meshes, and of turned signs.
const NUMBERS: [&str; 6] = [
    "opened with another number for every vertex",
    "opened with another number for some vertices",
    "steps on faces of other numbers",
    "squeezes that free vertices and leave other numbers",
    "squeezes that free none and leave other numbers",
    "steps after a squeeze, on faces of other numbers",
];
const SIGNS: [&str; 11] = [
    "puts of -sigma, sigma above 0",
    "puts of -sigma, sigma below 0",
    "puts of -sigma, sigma a zero",
    "puts of kernels that do not stay",
    "steps with a kernel of -sigma",
    "density with a kernel of -sigma",
    "track with a kernel of -sigma",
    "report with a kernel of -sigma",
    "finished with a kernel of -sigma",
    "list with a kernel of -sigma",
    "page with a kernel of -sigma",
];

/// All that must be met: those, and each of the theorems' calls with each of its answers.
pub fn all() -> Vec<String> {
    let other = ["write ", "read ", "carry ", "adopt"];
    let calls = every_call_kinds::in_any().into_iter().filter(|name| !other.iter().any(|call| name.starts_with(call)));
    NUMBERS.into_iter().chain(SIGNS).map(String::from).chain(calls).collect()
}

/// What a store told of a call, and wrote into what it was lent.
struct Told {
    answer: Answer,
    out: Vec<f64>,
}

impl Told {
    fn of(runs: &mut Runs, call: Call, lent: &[f64]) -> Told {
        let mut out = lent.to_vec();
        Told { answer: runs.answer(call, &mut out), out }
    }

    /// How another store's differs: floats of a list or a track as numbers, all else bit for bit.
    fn differs(&self, other: &Told) -> Option<String> {
        let at = float_differs(&self.out, &other.out, written(self.answer));
        let alike = same(self.answer, other.answer) && at.is_none();
        (!alike).then(|| format!("{:?}, and by the other store {:?}; lent float {at:?}", self.answer, other.answer))
    }

    /// A list's without the signs of its sigmas; the others as they are.
    fn unsigned(mut self) -> Told {
        if let Answer::Listed(_) = self.answer {
            self.out[..written(self.answer)].iter_mut().skip(3).step_by(6).for_each(|sigma| *sigma = sigma.abs());
        }
        self
    }
}

/// The first float or word before the mesh that differs.
fn places_differ(a: &Runs, b: &Runs) -> Option<String> {
    let float = float_differs(&a.floats[..1_761], &b.floats[..1_761], 1_761);
    let word = (0..CORNERS).find(|i| a.words[*i] != b.words[*i]);
    (float.is_some() || word.is_some()).then(|| format!("float {float:?} or word {word:?} is another"))
}

fn corners(runs: &Runs) -> &[u32] {
    &runs.words[CORNERS..][..3 * runs.words[1] as usize]
}

/// The coordinates of vertex i, NaN as one.
fn vertex(runs: &Runs, i: usize) -> [u64; 3] {
    [0, 1, 2].map(|j| pattern(runs.floats[1_761 + 3 * i + j]))
}

/// How the second store's mesh is not the first's with vertex i as its vertex `number[i]`; both have as many vertices and faces.
fn mesh_differs(first: &Runs, second: &Runs, number: &[usize]) -> Option<String> {
    let at = (0..number.len()).find(|i| vertex(first, *i) != vertex(second, number[*i]));
    let corner = corners(first).iter().zip(corners(second)).position(|(i, j)| number[*i as usize] != *j as usize);
    (at.is_some() || corner.is_some()).then(|| format!("vertex {at:?} or corner {corner:?} is another"))
}

// ---- Vertices numbered anew

/// Any order of the numbers below n.
fn shuffled(r: &mut Rng, n: usize) -> Vec<usize> {
    let mut number: Vec<usize> = (0..n).collect();
    (1..n).rev().for_each(|i| number.swap(i, r.below(i as u64 + 1) as usize));
    number
}

/// The body with vertex i as vertex `number[i]`.
fn renumbered(body: &Body, number: &[usize]) -> Body {
    let mut other = body.clone();
    for (i, to) in number.iter().enumerate() {
        other.xyz[3 * to..][..3].copy_from_slice(&body.xyz[3 * i..][..3]);
    }
    other.faces.iter_mut().for_each(|i| *i = number[*i as usize] as u32);
    other
}

/// The number that a squeeze leaves to each vertex that a face names: how many before it are named.
fn ranks(runs: &Runs) -> Vec<Option<usize>> {
    let mut named = vec![false; runs.words[0] as usize];
    corners(runs).iter().for_each(|i| named[*i as usize] = true);
    (0..named.len()).map(|i| named[i].then(|| named[..i].iter().filter(|n| **n).count())).collect()
}

/// The store whose vertices have other numbers, and these.
struct Renumbered {
    runs: Runs,
    number: Vec<usize>,
    squeezed: bool,
}

impl Renumbered {
    fn other_numbers(&self) -> bool {
        (0..self.number.len()).any(|i| self.number[i] != i)
    }

    /// The call on this store beside what the first one told of it; `before` are the first one's runs before the call.
    fn differs(&mut self, r: &mut Rng, before: &Runs, first: (&Runs, &Told), call: Call, lent: &[f64]) -> Option<String> {
        let mine = if let Call::Squeeze = call { ranks(&self.runs) } else { Vec::new() };
        let told = Told::of(&mut self.runs, call, lent);
        if let Answer::Freed(freed) = told.answer {
            let kept = ranks(before).into_iter().zip(&self.number).filter(|(rank, _)| rank.is_some());
            self.number = kept.map(|(_, to)| mine[*to].expect("a vertex that a face names")).collect();
            self.squeezed |= freed > 0;
            touch_freed(r, &mut self.runs, freed);
        }
        let differs = first.1.differs(&told).or_else(|| places_differ(first.0, &self.runs));
        differs.or_else(|| mesh_differs(first.0, &self.runs, &self.number))
    }

    fn add(&self, kinds: &mut Kinds, answer: Answer) {
        let (steps, other) = (matches!(answer, Answer::Steps(1.., _)), self.other_numbers());
        let (some, none) = (matches!(answer, Answer::Freed(1..)), matches!(answer, Answer::Freed(0)));
        let met = [steps && other, some && other, none && other, steps && other && self.squeezed];
        NUMBERS[2..].iter().zip(met).for_each(|(name, met)| kinds.met(&[(name, met)]));
    }
}

// ---- Signs turned

fn stays(k: &Kernel) -> bool {
    (k.alpha - 1.0).abs() <= 1e-9
}

/// The store whose sigmas have other signs, and the places where they do.
struct Turned {
    runs: Runs,
    places: [bool; PLACES],
}

impl Turned {
    /// The call as this store gets it.
    fn call(r: &mut Rng, call: Call) -> (Call, bool) {
        match call {
            Call::Put(place, k, layer) if stays(&k) && r.below(4) > 0 => (Call::Put(place, Kernel { sigma: -k.sigma, ..k }, layer), true),
            _ => (call, false),
        }
    }

    /// The runs with the signs turned back: of a kernel's sigma, and of that of its one piece.
    fn turned_back(&self) -> Runs {
        let mut runs = self.runs.clone();
        for i in (0..PLACES).filter(|i| self.places[*i]) {
            for at in [1 + 7 * i + 3, 225 + 48 * i] {
                runs.floats[at] = -runs.floats[at];
            }
        }
        runs
    }

    /// The call on this store beside what the first one told of it.
    fn differs(&mut self, r: &mut Rng, first: (&Runs, Told), call: Call, lent: &[f64], kinds: &mut Kinds) -> Option<String> {
        let (mine, turned) = Turned::call(r, call);
        let told = Told::of(&mut self.runs, mine, lent);
        match (call, told.answer) {
            (Call::Put(place, k, _), Answer::Placed(..)) => {
                self.places[place as usize] = turned;
                let met = [turned && k.sigma > 0.0, turned && k.sigma < 0.0, turned && k.sigma == 0.0, !stays(&k)];
                SIGNS.iter().zip(met).for_each(|(name, met)| kinds.met(&[(name, met)]));
            }
            (Call::Clear(place), Answer::Edited) => self.places[place as usize] = false,
            (_, Answer::Freed(freed)) => touch_freed(r, &mut self.runs, freed),
            _ => {}
        }
        self.add(kinds, call, told.answer);
        let (back, same_numbers) = (self.turned_back(), (0..first.0.words[0] as usize).collect::<Vec<_>>());
        let differs = first.1.unsigned().differs(&told.unsigned()).or_else(|| places_differ(first.0, &back));
        differs.or_else(|| mesh_differs(first.0, &back, &same_numbers))
    }

    fn add(&self, kinds: &mut Kinds, call: Call, answer: Answer) {
        let held = (0..PLACES).any(|i| self.places[i] && self.runs.words[2 + RECORD * i] > 0);
        let name = if let Answer::Steps(1.., _) = answer { "steps" } else { every_call_kinds::name(call) };
        if held && !matches!(answer, Answer::Refused(_)) {
            kinds.many(format!("{name} with a kernel of -sigma"), 1);
        }
    }
}

// ---- Histories

/// One history: three openings, then calls; each is compared on either of the other stores.
fn history(r: &mut Rng, tally: &mut Tally, kinds: &mut Kinds) -> Result<(), String> {
    let body = histories::body(r);
    let number = shuffled(r, body.xyz.len() / 3);
    let moved = number.iter().enumerate().filter(|(i, to)| i != *to).count();
    kinds.met(&[(NUMBERS[0], moved > 0 && moved == number.len()), (NUMBERS[1], moved > 0 && moved < number.len())]);
    let mut store = |body: &Body| match opened::<ByArchive>(r, body) {
        (runs, _, None) => Ok(runs),
        (_, _, told) => Err(format!("open {body:?}: {told:?}")),
    };
    let (mut first, second, third) = (store(&body)?, store(&renumbered(&body, &number))?, store(&body)?);
    let mut second = Renumbered { runs: second, number, squeezed: false };
    let mut third = Turned { runs: third, places: [false; PLACES] };
    if let Some(what) = mesh_differs(&first, &second.runs, &second.number) {
        return Err(format!("open {body:?} renumbered: {what}"));
    }
    let places = Places::draw(r);
    for n in 0..CALLS {
        let model = Held { floats: first.floats.clone(), words: first.words.clone() };
        let call = histories::call(r, &model, &places);
        let lent = lent(r, call);
        let before = first.clone();
        let told = Told::of(&mut first, call, &lent);
        let answer = told.answer;
        if let Answer::Freed(freed) = answer {
            touch_freed(r, &mut first, freed);
        }
        every_call_kinds::add_call(kinds, Since::Opening, call, answer);
        let numbers = second.differs(r, &before, (&first, &told), call, &lent);
        second.add(kinds, answer);
        let signs = third.differs(r, (&first, told), call, &lent, kinds);
        for (of, differs) in [("numbers", numbers), ("signs", signs)] {
            tally.count(false, String::new);
            if let Some(what) = differs {
                return Err(format!("call {n} {call:?} on {body:?}, other {of}: {what}"));
            }
        }
    }
    Ok(())
}

pub fn histories(count: u64, mut r: Rng, kinds: &mut Kinds) -> Tally {
    let mut tally = Tally::new();
    for i in 0..count {
        let told = history(&mut r, &mut tally, kinds);
        tally.count(told.is_err(), || format!("history {i}, {}", told.unwrap_err()));
    }
    let more = kinds.text(&[NUMBERS[2], NUMBERS[3], SIGNS[0], SIGNS[1], SIGNS[4], SIGNS[9]]);
    tally.line("unseen", &format!("{count} histories of {CALLS} calls, thrice"), &more);
    tally
}
