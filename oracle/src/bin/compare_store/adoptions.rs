//! Adoptions: the work of one store by many hands. A filled place of another store of the same body comes into a place of this one, at any
//! moment; where the bodies differ nothing is changed, and the answer says so.
use crate::adoption_kinds::{self, Past, Taken, Told};
use crate::carries::same_bits;
use crate::damage::worked;
use crate::judge::{Runs, differs, fields, float_differs, lent, opened, runs_differ, wanted};
use crate::squeezes::touch_freed;
use oracle::cases::{self, one};
use oracle::held::{Held, store_number};
use oracle::histories::{self, Answer, Body, Call, Model, Places};
use oracle::inputs::Rng;
use oracle::machine::{self, CORNERS, FACES, Machine, PLACES, RECORD, VERTS};
use oracle::pieces::Kernel;
use oracle::step;
use oracle::store;
use oracle::tally::{Kinds, Tally};
use oracle::text::{ByArchive, Text};

/// One store of several: its runs, its machine, and what was done with them.
struct One {
    runs: Runs,
    machine: Machine<ByArchive>,
    done: u64,
    squeezed: bool,
    taken: Taken,
}

fn held(runs: &Runs) -> Held {
    Held { floats: runs.floats.clone(), words: runs.words.clone() }
}

fn runs(held: &Held) -> Runs {
    Runs { floats: held.floats.clone(), words: held.words.clone() }
}

/// The archive's answer; beside a refusal's number, and where the bodies differ, every value is 0.
fn answer(told: store::Adopted) -> Told {
    match told {
        store::Adopted { no: 0, same_body: 1, pieces, left } => Ok(Some((pieces, left))),
        store::Adopted { no: 0, same_body: 0, pieces: 0, left: 0 } => Ok(None),
        store::Adopted { no, same_body: 0, pieces: 0, left: 0 } => Err(no),
        told => panic!("an answer with other values: {told:?}"),
    }
}

/// One adoption from the other's place j into place i: what is wrong with it by the fields that both stores hold, bit for bit, and what
/// they ask for.
fn adopted(own: &mut Runs, other: &Runs, (i, j): (u32, u32)) -> (Option<String>, Told) {
    let (mut model, read) = (held(own), other.clone());
    let want = model.adopt(i, &held(other), j);
    let told = answer(store::adopt(&mut own.floats, &mut own.words, i, (&read.floats, &read.words), j));
    let fault = if told != want {
        Some(format!("{told:?}, not {want:?}"))
    } else if !same_bits(&read, other) {
        Some("the other store is not as it was".into())
    } else if !same_bits(own, &runs(&model)) {
        Some(format!("float {:?} or a word is another", float_differs(&own.floats, &model.floats, 0)))
    } else {
        None
    };
    (fault, want)
}

/// The places of a store that are filled.
fn filled(words: &[u32]) -> Vec<u32> {
    (0..PLACES as u32).filter(|i| words[2 + RECORD * *i as usize] > 0).collect()
}

/// A NaN of any bits.
fn any_nan(r: &mut Rng) -> f64 {
    let more = 1 + r.below(1 << 51);
    f64::from_bits(one(r, &[0x7FF8 << 48, 0xFFF8 << 48, 0x7FF0 << 48 | 1, u64::MAX, 0x7FF0 << 48 | more, 0xFFF0 << 48 | more]))
}

/// A body, at times with a NaN or a zero among its coordinates, or a NaN as its radius.
pub fn body(r: &mut Rng) -> Body {
    let mut body = histories::body(r);
    for x in [any_nan(r), either_zero(r)] {
        if r.below(4) == 0 && !body.xyz.is_empty() {
            let at = r.below(body.xyz.len() as u64) as usize;
            body.xyz[at] = x;
        }
    }
    if r.below(16) == 0 {
        body.radius = any_nan(r);
    }
    body
}

fn either_zero(r: &mut Rng) -> f64 {
    cases::either_sign(r, 0.0)
}

/// A coordinate that is a zero where there is one; else any.
fn coordinate(r: &mut Rng, xyz: &[f64]) -> usize {
    let zeros: Vec<usize> = (0..xyz.len()).filter(|i| xyz[*i] == 0.0).collect();
    if zeros.is_empty() { r.below(xyz.len() as u64) as usize } else { one(r, &zeros) }
}

/// A body that is this one, or differs from it in one thing that is hard to see, or has NaNs of other bits.
pub fn relative(r: &mut Rng, body: &Body) -> Body {
    let mut other = body.clone();
    let (verts, faces) = (body.xyz.len() / 3, body.faces.len() / 3);
    match r.below(20) {
        0 => other.radius = one(r, &[step(body.radius, 1), -body.radius, body.radius + 1.0]),
        1 | 2 if verts > 0 => {
            let at = coordinate(r, &body.xyz);
            other.xyz[at] = -body.xyz[at];
        }
        3 if verts > 0 => {
            let at = r.below(3 * verts as u64) as usize;
            other.xyz[at] = step(body.xyz[at], one(r, &[-1, 1]));
        }
        4 if faces > 0 => other.faces[r.below(3 * faces as u64) as usize] = r.below(verts as u64) as u32,
        5 if faces > 0 => other.faces[3 * r.below(faces as u64) as usize..][..3].rotate_left(1),
        6 if faces > 0 => other.faces.truncate(3 * faces - 3),
        7 => other.xyz.extend([0.0; 3]),
        8..=10 => {
            for x in other.xyz.iter_mut().chain([&mut other.radius]).filter(|x| x.is_nan()) {
                *x = any_nan(r);
            }
        }
        _ => {}
    }
    other
}

/// A place of a store, and one of another to be taken into it: mostly one that is filled.
pub fn between(r: &mut Rng, other: &Runs, places: &Places) -> (u32, u32) {
    let choice = filled(&other.words);
    let j = if choice.is_empty() || r.below(8) == 0 { places.one(r) } else { one(r, &choice) };
    let i = if r.below(3) == 0 { j } else { places.one(r) };
    (i, j)
}

/// One adoption beside the machines': what is wrong with it, and what they ask for.
pub fn taken<T: Text>(own: (&mut Runs, &mut Machine<T>), other: (&Runs, &Machine<T>), (i, j): (u32, u32)) -> (Option<String>, Told) {
    let before = own.0.clone();
    let (fault, by_fields) = adopted(own.0, other.0, (i, j));
    let want = own.1.adopt(i, other.1, j);
    let (want_runs, alike) = wanted(&before, 0, own.1.fields());
    let answers = || (by_fields != want).then(|| format!("{by_fields:?}, by the machine {want:?}"));
    (fault.or_else(answers).or_else(|| runs_differ(own.0, &want_runs, alike)), want)
}

/// An adoption between two of the stores, beside the machines'.
fn adoption(r: &mut Rng, stores: &mut [One], places: &Places, kinds: &mut Kinds) -> (Option<String>, String) {
    let at = r.below(3) as usize;
    let from = (at + 1 + r.below(2) as usize) % 3;
    let [own, other] = stores.get_disjoint_mut([at, from]).unwrap();
    let (i, j) = between(r, &other.runs, places);
    let past = Past { squeezed: [own.squeezed, other.squeezed], taken: other.taken.0.get(j as usize) == Some(&true) };
    let before = own.runs.clone();
    let (fault, want) = taken((&mut own.runs, &mut own.machine), (&other.runs, &other.machine), (i, j));
    adoption_kinds::add(kinds, &before, &other.runs, (i, j), want, past);
    if let Ok(Some(_)) = want {
        own.taken.0[i as usize] = true;
    }
    (fault, format!("adoption of place {j} of store {from} into place {i} of store {at}"))
}

/// A call on one of the stores.
fn call(r: &mut Rng, stores: &mut [One], places: &Places, kinds: &mut Kinds) -> (Option<String>, String) {
    let at = r.below(3) as usize;
    let one = &mut stores[at];
    let call = histories::call(r, &one.machine, places);
    let (lent, before) = (lent(r, call), one.runs.clone());
    let (fault, told, want) = differs(&mut one.runs, &mut one.machine, call, &lent, Machine::fields);
    one.taken.add(kinds, call, want, &before);
    match told {
        Answer::Steps(steps, _) => one.done += steps,
        Answer::Freed(freed) => {
            one.squeezed |= freed > 0;
            touch_freed(r, &mut one.runs, freed);
        }
        _ => {}
    }
    (fault, format!("{call:?} on store {at}"))
}

/// One history of three stores; the claim about the sums of each is one more comparison.
fn history(r: &mut Rng, i: u64, tally: &mut Tally, kinds: &mut Kinds) {
    let (first, places) = (body(r), Places::draw(r));
    let bodies = [first.clone(), relative(r, &first), relative(r, &first)];
    let mut stores = Vec::new();
    for body in &bodies {
        let (runs, machine, fault) = opened(r, body);
        tally.count(fault.is_some(), || format!("history {i}, open {body:?}: {fault:?}"));
        stores.push(One { runs, machine, done: 0, squeezed: false, taken: Taken::default() });
    }
    for n in 0..90 {
        let take = n > 10 && r.below(3) == 0;
        let (fault, what) = if take { adoption(r, &mut stores, &places, kinds) } else { call(r, &mut stores, &places, kinds) };
        let bad = fault.is_some();
        tally.count(bad, || format!("history {i}, call {n}, {what}, on {bodies:?}: {}", fault.unwrap()));
        if bad {
            return;
        }
    }
    for One { runs, machine, done, .. } in &mut stores {
        let left = match runs.answer(Call::Advance(0), &mut []) {
            Answer::Steps(0, left) => left,
            told => panic!("an advance of 0 answers {told:?}"),
        };
        let (charged, dropped) = (machine.charged, machine.dropped);
        let sums = left == machine.left() && *done + left + dropped == charged;
        tally.count(!sums, || format!("history {i}: done {done} + left {left} + dropped {dropped} is not charged {charged}"));
    }
}

/// Histories of three stores, with adoptions at any moment.
pub fn histories(count: u64, mut r: Rng, kinds: &mut Kinds) -> Tally {
    let (mut tally, mut seen) = (Tally::new(), Kinds::default());
    for i in 0..count {
        history(&mut r, i, &mut tally, &mut seen);
    }
    let told = seen.text(&["taken", "another body", "another body, by a coordinate's sign of zero", "as 6", "as 7"]);
    tally.line("adopt", &format!("{count} histories of three stores"), &told);
    kinds.add(seen);
    tally
}

/// A store with kernels in some places, some of the work done.
fn begun(r: &mut Rng) -> Runs {
    let body = body(r);
    let (mut runs, mut machine, fault) = opened::<ByArchive>(r, &body);
    assert!(fault.is_none());
    for place in 0..PLACES as u32 {
        if r.below(4) == 0 {
            let call = Call::Put(place, histories::kernel(r), r.below(16) as u32);
            runs.answer(call, &mut []);
            machine.answer(call, &mut []);
        }
    }
    let part = r.below(machine.left() / 2 + 1);
    runs.answer(Call::Advance(part), &mut []);
    runs
}

/// A copy of a store with the places of others cleared.
fn worker(store: &Runs, own: &[u32]) -> Runs {
    let mut copy = store.clone();
    for place in filled(&store.words) {
        if !own.contains(&place) {
            assert_eq!(store::clear(&mut copy.floats, &mut copy.words, place), 0);
        }
    }
    copy
}

/// What an advance of 0 says is left.
pub fn left(runs: &mut Runs) -> u64 {
    store::advance(&mut runs.floats, &mut runs.words, 0).left
}

/// What one worker's places are when they come back: all of them, some twice.
fn come_back(r: &mut Rng, store: &mut Runs, copy: &Runs, own: &[u32], kinds: &mut Kinds) -> Option<String> {
    for place in own {
        let midst = copy.words[2 + RECORD * *place as usize + 2] > 0;
        let twice = r.below(4) == 0;
        kinds.met(&[("hands: places in the midst of a piece came back", midst), ("hands: places came back twice", twice)]);
        for _ in 0..=u64::from(twice) {
            let (fault, want) = adopted(store, copy, (*place, *place));
            if fault.is_some() || !matches!(want, Ok(Some(_))) {
                return Some(format!("place {place}: {fault:?}, {want:?}"));
            }
        }
    }
    None
}

/// One store's work by several copies of it, in any split by places, any portions and any order: what is wrong with its end.
fn by_hands(r: &mut Rng, kinds: &mut Kinds) -> Option<String> {
    let mut store = begun(r);
    let mut whole = store.clone();
    store::advance(&mut whole.floats, &mut whole.words, u64::MAX);
    let mut shares: Vec<Vec<u32>> = vec![Vec::new(); 1 + r.below(5) as usize];
    for place in filled(&store.words) {
        let at = r.below(shares.len() as u64) as usize;
        shares[at].push(place);
    }
    let mut copies: Vec<Runs> = shares.iter().map(|own| worker(&store, own)).collect();
    for _ in 0..4 * copies.len() {
        let at = r.below(copies.len() as u64) as usize;
        let (died, back) = (r.below(8) == 0, r.below(2) == 0);
        kinds.met(&[("hands: a worker that died", died)]);
        if died {
            copies[at] = worker(&store, &shares[at]);
        }
        let copy = &mut copies[at];
        let budget = r.below(left(copy) + 2);
        store::advance(&mut copy.floats, &mut copy.words, budget);
        let fault = if back { come_back(r, &mut store, copy, &shares[at], kinds) } else { None };
        if fault.is_some() {
            return fault;
        }
    }
    kinds.met(&[("hands: places that no one worked on", left(&mut store) > 0)]);
    // what no one has brought back the store does itself
    store::advance(&mut store.floats, &mut store.words, u64::MAX);
    let float = float_differs(&store.floats, &whole.floats, whole.floats.len());
    (float.is_some() || store.words != whole.words).then(|| format!("float {float:?} or a word is not as by one store's own advances"))
}

/// "work done by any number of such stores, in any split by places and any order of adoptions, ends in the very runs that one store's own
/// advances would have ended in".
pub fn many_hands(count: u64, mut r: Rng, kinds: &mut Kinds) -> Tally {
    let mut tally = Tally::new();
    for i in 0..count {
        let fault = by_hands(&mut r, kinds);
        tally.count(fault.is_some(), || format!("store {i}: {}", fault.unwrap()));
    }
    tally.line("adopt", &format!("{count} stores by many hands"), "");
    tally
}

/// Sound stores of one body that nobody opened, by the fields that they hold, and calls after the adoption.
pub fn unopened(count: u64, mut r: Rng) -> Tally {
    let mut tally = Tally::new();
    for i in 0..count {
        let first = body(&mut r);
        let second = relative(&mut r, &first);
        let mut model = histories::unopened(&mut r, &first);
        let (mut own, other) = (runs(&model), histories::unopened(&mut r, &Body { radius: first.radius, ..second }));
        let mut other = runs(&other);
        other.floats[0] = if r.below(8) == 0 { other.floats[0] } else { own.floats[0] };
        let (to, from) = (r.below(33) as u32, r.below(33) as u32);
        let (fault, _) = adopted(&mut own, &other, (to, from));
        let mut bad = fault.is_some();
        tally.count(bad, || format!("store {i}, place {from} into {to}: {}", fault.unwrap()));
        let _ = model.adopt(to, &held(&other), from);
        let places = Places::draw(&mut r);
        for n in 0..5 {
            if bad {
                break;
            }
            let call = histories::call(&mut r, &model, &places);
            let lent = lent(&mut r, call);
            let (difference, ..) = differs(&mut own, &mut model, call, &lent, fields);
            bad = difference.is_some();
            tally.count(bad, || format!("store {i}, call {n} after the adoption {call:?}: {}", difference.unwrap()));
        }
    }
    tally.line("adopt", &format!("{count} sound, never opened"), "");
    tally
}

/// Two stores of one body, the second with more of its work done.
fn pair(r: &mut Rng) -> (Runs, Runs) {
    let own = runs(&worked(r));
    let mut other = own.clone();
    let budget = r.below(left(&mut other) + 1);
    store::advance(&mut other.floats, &mut other.words, budget);
    (own, other)
}

/// A store left as it is, cut short, or with a word that is wrong.
fn damage(r: &mut Rng, runs: &mut Runs) {
    let (floats, words) = (runs.floats.len(), runs.words.len());
    match r.below(8) {
        0 => runs.floats.truncate(floats - 1),
        1 => runs.words.truncate(one(r, &[words - 1, CORNERS - 1, 0])),
        2 => runs.words[2 + r.below(words as u64 - 2) as usize] = u32::MAX,
        3 => runs.words[r.below(words as u64) as usize] = r.word() as u32,
        _ => {}
    }
}

/// Pairs of stores of which either or both are too short or not sound, with places good and bad: the lowest refusal of either.
pub fn damaged(count: u64, mut r: Rng, kinds: &mut Kinds) -> Tally {
    let (mut tally, mut answers) = (Tally::new(), Kinds::default());
    for i in 0..count {
        let (mut own, mut other) = pair(&mut r);
        damage(&mut r, &mut own);
        damage(&mut r, &mut other);
        let places = (one(&mut r, &[0, 3, 31, 32, u32::MAX]), one(&mut r, &[0, 1, 4, 31, 32, 1 << 31]));
        let is = store_number(&own.floats, &own.words);
        let others = store_number(&other.floats, &other.words);
        let (fault, want) = adopted(&mut own, &other, places);
        let no = want.err().unwrap_or(0);
        answers.many(format!("as {no}"), 1);
        let nowhere = places.0 >= 32 || places.1 >= 32;
        kinds.met(&[
            ("as 4, of this store", is == 4 && others == 0),
            ("as 4, of the other", is == 0 && others == 4),
            ("as 4, the other not sound, this one short", (is, others) == (4, 5)),
            ("as 4, this one not sound, the other short", (is, others) == (5, 4)),
            ("as 5, of this store", (is, others) == (5, 0)),
            ("as 5, of the other", (is, others) == (0, 5)),
            ("as 5, and a place that there is not", no == 5 && nowhere),
            ("as 6, and the other's place is empty", no == 6 && places.1 == 1),
        ]);
        tally.count(fault.is_some(), || format!("stores {i}, {places:?}: {}", fault.unwrap()));
    }
    tally.line("adopt", "two stores, some damaged", &answers.text(&["as 0", "as 4", "as 5", "as 6", "as 7"]));
    tally
}

/// Every word of either store, changed in each of these ways.
pub fn every_word(count: u64, mut r: Rng) -> Tally {
    let (mut tally, mut answers) = (Tally::new(), Kinds::default());
    for i in 0..count {
        let whole = pair(&mut r);
        let (v, f) = (whole.0.words[0], whole.0.words[1]);
        for at in 0..2 * whole.0.words.len() {
            let (word, of_other) = (at / 2, at % 2 == 1);
            let was = if of_other { whole.1.words[word] } else { whole.0.words[word] };
            let near = [was.wrapping_sub(1), was.wrapping_add(1), 0, 1, 15, 16, 17, 18, v - 1, v, f - 1, f, u32::MAX];
            for to in near.into_iter().chain([1_048_577, 2_097_153, r.word() as u32]) {
                let (mut own, mut other) = whole.clone();
                (if of_other { &mut other } else { &mut own }).words[word] = to;
                let places = (one(&mut r, &[0, 3, 31, 9]), one(&mut r, &[0, 3, 5, 31, 9]));
                let (fault, want) = adopted(&mut own, &other, places);
                answers.many(want.map_or_else(|no| format!("as {no}"), |told| told.map_or("another body", |_| "taken").to_string()), 1);
                let side = if of_other { "the other" } else { "this" };
                tally.count(fault.is_some(), || format!("stores {i}, word {word} of {side} store to {to}: {}", fault.unwrap()));
            }
        }
    }
    tally.line("adopt", "each word of either store", &answers.text(&["taken", "another body", "as 4", "as 5", "as 7"]));
    tally
}

/// The largest body, and bodies that differ from it in the first or last coordinate or corner.
pub fn largest(mut r: Rng, kinds: &mut Kinds) -> Tally {
    let mut tally = Tally::new();
    let xyz: Vec<f64> = (0..3 * VERTS).map(|i| if i % (3 * VERTS - 1) == 0 { 0.0 } else { r.within(-400.0, 400.0) }).collect();
    let faces: Vec<u32> = (0..3 * FACES).map(|_| 1 + r.below(VERTS as u64 - 1) as u32).collect();
    let (floats, words) = machine::room(VERTS, FACES);
    let mut own = Runs { floats: vec![0.0; floats], words: vec![0; words] };
    assert_eq!(store::open(&mut own.floats, &mut own.words, 500.0, &xyz, &faces).no, 0);
    let kernel = Kernel { c: [1.0, 2.0, 3.0], sigma: 0.004, w: 1190.0, alpha: 1.0 };
    assert_eq!(store::put(&mut own.floats, &mut own.words, 3, kernel, 2).no, 0);
    let mut other = own.clone();
    store::advance(&mut other.floats, &mut other.words, 1_000);
    let (last_float, last_word) = (floats - 1, words - 1);
    for float in [1_761, last_float] {
        other.floats[float] = -0.0;
        let (fault, want) = adopted(&mut own, &other, (3, 3));
        adoption_kinds::add(kinds, &own, &other, (3, 3), want, Past { squeezed: [false; 2], taken: false });
        tally.count(fault.is_some() || want != Ok(None), || format!("float {float}: {fault:?}, {want:?}"));
        other.floats[float] = 0.0;
    }
    for word in [CORNERS, last_word] {
        let was = std::mem::replace(&mut other.words[word], 0);
        let (fault, want) = adopted(&mut own, &other, (3, 3));
        tally.count(fault.is_some() || want != Ok(None), || format!("word {word}: {fault:?}, {want:?}"));
        other.words[word] = was;
    }
    let (fault, want) = adopted(&mut own, &other, (3, 3));
    tally.count(fault.is_some() || want != Ok(Some((1, FACES as u64 - 1_000))), || format!("{fault:?}, {want:?}"));
    tally.line("adopt", "the largest body", "");
    tally
}
