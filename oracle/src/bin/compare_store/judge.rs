//! One call on the store beside the same call on a model, and histories of them.
use crate::squeezes::{altered, touch_freed};
use crate::tracks::apart;
use oracle::cases;
use oracle::conventions::Report;
use oracle::held::Held;
use oracle::histories::{self, Answer, Body, Call, Model, Places};
use oracle::inputs::Rng;
use oracle::lines::{Bytes, store_write};
use oracle::machine::{self, ALL_LAYERS, Machine};
use oracle::page;
use oracle::pattern;
use oracle::pieces;
use oracle::recorder::Fit;
use oracle::store;
use oracle::tally::Tally;
use oracle::text::{ByArchive, Text};

/// The two runs that the archive's store lives in.
#[derive(Clone)]
pub struct Runs {
    pub floats: Vec<f64>,
    pub words: Vec<u32>,
}

impl Runs {
    /// The archive's answer.
    pub fn answer(&mut self, call: Call, out: &mut [f64]) -> Answer {
        let (f, w) = (&mut self.floats[..], &mut self.words[..]);
        let edited = |no| if no == 0 { Answer::Edited } else { Answer::Refused(no) };
        match call {
            Call::Put(place, k, layer) => match store::put(f, w, place, k, layer) {
                store::Placed { no: 0, pieces, need, fit } => Answer::Placed(pieces, need, ended(fit)),
                store::Placed { no, pieces: 0, need: 0, fit } if fit.told() == (0, 0, 0) => Answer::Refused(no),
                told => panic!("a refusal with values: {told:?}"),
            },
            Call::Clear(place) => edited(store::clear(f, w, place)),
            Call::Reweigh(place, weight) => edited(store::reweigh(f, w, place, weight)),
            Call::Advance(n) => match store::advance(f, w, n) {
                store::Steps { no: 0, done, left } => Answer::Steps(done, left),
                store::Steps { no, done: 0, left: 0 } => Answer::Refused(no),
                told => panic!("a refusal with values: {told:?}"),
            },
            Call::Squeeze => match store::squeeze(f, w) {
                store::Squeezed { no: 0, freed } => Answer::Freed(freed),
                store::Squeezed { no, freed: 0 } => Answer::Refused(no),
                told => panic!("a refusal with values: {told:?}"),
            },
            _ => self.reading(call, out),
        }
    }

    pub fn reading(&self, call: Call, out: &mut [f64]) -> Answer {
        // beside a refusal's number every value is 0
        let told = |no, values: &[f64], answer| match no {
            0 => answer,
            _ if values.iter().all(|x| x.to_bits() == 0) => Answer::Refused(no),
            _ => panic!("a refusal with values: {no}, {answer:?}"),
        };
        match call {
            Call::Density(by, layers, at) => {
                let (no, value) = store::density(&self.floats, &self.words, by, layers, at);
                told(no, &[value], Answer::Value(value))
            }
            Call::Report(by, layers) => {
                let (no, report) = store::report(&self.floats, &self.words, by, layers);
                let more = [report.kernels.into(), report.pieces.into(), report.error];
                told(no, &[&report.mass[..], &more].concat(), Answer::Report(report))
            }
            Call::Finished(by, layers) => {
                let (no, report, passed) = store::finished(&self.floats, &self.words, by, layers);
                let more = [report.kernels.into(), report.pieces.into(), report.error, passed.into()];
                told(no, &[&report.mass[..], &more].concat(), Answer::Finished(report, passed))
            }
            Call::List(by, layers, _) => {
                let (no, pieces) = store::list(&self.floats, &self.words, by, layers, out);
                told(no, &[pieces.into()], Answer::Listed(pieces))
            }
            Call::Track(by, layers, points, _) => {
                let (no, count) = store::track(&self.floats, &self.words, by, layers, points, out);
                told(no, &[count.into()], Answer::Tracked(count))
            }
            Call::Page(room) => {
                let (no, bytes) = store::page(&self.floats, &self.words, &mut page::bytes(out)[..room]);
                told(no, &[bytes as f64], Answer::Paged(bytes))
            }
            Call::Write(room) => {
                let Bytes { no, bytes } = store_write(&self.floats, &self.words, &mut page::bytes(out)[..room]);
                told(no, &[bytes as f64], Answer::Written(bytes))
            }
            _ => unreachable!("no reading"),
        }
    }
}

/// What was seen of answers: accepted and refused, by number; of squeezes: how many freed vertices, freed none, were refused; of tracks:
/// how many had points, had none, were refused as 14, as another number; of pages: how many had lines of places, had none, were refused
/// as 8, 17 and 18, as another number; of readings by layers: how many of all sixteen, of some and of none were accepted, and puts and
/// readings refused as 16.
#[derive(Default)]
pub struct Seen {
    accepted: u64,
    refused: [u64; 19],
    squeezes: [u64; 3],
    tracks: [u64; 4],
    pages: [u64; 6],
    layers: [u64; 4],
    finished: [u64; 3],
}

impl Seen {
    pub fn add(&mut self, call: Call, answer: Answer) {
        match answer {
            Answer::Refused(no) => self.refused[no as usize] += 1,
            _ => self.accepted += 1,
        }
        match (call, answer) {
            (Call::Squeeze, Answer::Freed(1..)) => self.squeezes[0] += 1,
            (Call::Squeeze, Answer::Freed(0)) => self.squeezes[1] += 1,
            (Call::Squeeze, _) => self.squeezes[2] += 1,
            (Call::Track(..), Answer::Tracked(1..)) => self.tracks[0] += 1,
            (Call::Track(..), Answer::Tracked(0)) => self.tracks[1] += 1,
            (Call::Track(..), Answer::Refused(14)) => self.tracks[2] += 1,
            (Call::Track(..), _) => self.tracks[3] += 1,
            (Call::Page(_), Answer::Paged(66..)) => self.pages[0] += 1,
            (Call::Page(_), Answer::Paged(_)) => self.pages[1] += 1,
            (Call::Page(_), Answer::Refused(8)) => self.pages[2] += 1,
            (Call::Page(_), Answer::Refused(17)) => self.pages[3] += 1,
            (Call::Page(_), Answer::Refused(18)) => self.pages[4] += 1,
            (Call::Page(_), _) => self.pages[5] += 1,
            _ => {}
        }
        match answer {
            Answer::Finished(_, 0) => self.finished[0] += 1,
            Answer::Finished(Report { kernels: 0, .. }, _) => self.finished[2] += 1,
            Answer::Finished(..) => self.finished[1] += 1,
            _ => {}
        }
        match (set_of(call), answer) {
            (_, Answer::Refused(16)) => self.layers[3] += 1,
            (None, _) | (_, Answer::Refused(_)) => {}
            (Some(ALL_LAYERS), _) => self.layers[0] += 1,
            (Some(0), _) => self.layers[2] += 1,
            (Some(_), _) => self.layers[1] += 1,
        }
    }

    pub fn text(&self) -> String {
        let refused = self.refused.iter().enumerate().filter(|(_, n)| **n > 0).map(|(no, n)| format!(", {n} refused as {no}"));
        let [freed, none, turned_away] = self.squeezes;
        let squeezes = format!("; of squeezes {freed} freed vertices, {none} freed none, {turned_away} refused");
        let [written, empty, bad, other] = self.tracks;
        let tracks = format!("; of tracks {written} written, {empty} without points, {bad} refused as 14, {other} as another");
        let [lines, total, left, figure, short, other] = self.pages;
        let pages = format!("; of pages {lines} written, {total} without places, {left} refused as 8, {figure} as 17, {short} as 18");
        let [all, some, none, no_layer] = self.layers;
        let layers = format!("; of readings {all} by all layers, {some} by some, {none} by none; {no_layer} calls refused as 16");
        let [whole, part, empty] = self.finished;
        let finished = format!("; of what is finished {whole} passed over none, {part} some, {empty} all");
        format!("{} accepted{}{squeezes}{tracks}{pages}, {other} as another{layers}{finished}", self.accepted, refused.collect::<String>())
    }
}

/// How a fit ended, as the archive told it; the values that its kind does not use are 0.
fn ended(fit: pieces::Fit) -> Fit {
    match fit.told() {
        (0, 0, 0) => Fit::Kept,
        (1, 0, _) => Fit::Fitted(fit.pivot),
        (2, column, 0) => Fit::Fallback(column),
        (3, 0, 0) => Fit::NoExponent,
        _ => panic!("no end of a fit: {fit:?}"),
    }
}

pub fn same(a: Answer, b: Answer) -> bool {
    let floats = |x: &[f64], y: &[f64]| x.iter().zip(y).all(|(x, y)| pattern(*x) == pattern(*y));
    let reports = |x: &Report, y: &Report| {
        floats(&x.mass, &y.mass) && (x.kernels, x.pieces) == (y.kernels, y.pieces) && floats(&[x.error], &[y.error])
    };
    match (a, b) {
        (Answer::Refused(x), Answer::Refused(y)) => x == y,
        (Answer::Placed(a, b, f), Answer::Placed(x, y, g)) => (a, b, f.told()) == (x, y, g.told()),
        (Answer::Edited, Answer::Edited) => true,
        (Answer::Steps(a, b), Answer::Steps(x, y)) => (a, b) == (x, y),
        (Answer::Freed(x), Answer::Freed(y)) => x == y,
        (Answer::Value(x), Answer::Value(y)) => floats(&[x], &[y]),
        (Answer::Listed(x), Answer::Listed(y)) | (Answer::Tracked(x), Answer::Tracked(y)) => x == y,
        (Answer::Paged(x), Answer::Paged(y)) | (Answer::Written(x), Answer::Written(y)) => x == y,
        (Answer::Report(x), Answer::Report(y)) => reports(&x, &y),
        (Answer::Finished(x, m), Answer::Finished(y, n)) => m == n && reports(&x, &y),
        _ => false,
    }
}

/// The first float that differs: as numbers up to `alike`, bit for bit past it.
pub fn float_differs(is: &[f64], want: &[f64], alike: usize) -> Option<usize> {
    let equal = |i: usize| if i < alike { pattern(is[i]) == pattern(want[i]) } else { is[i].to_bits() == want[i].to_bits() };
    if is.len() != want.len() { Some(is.len()) } else { (0..is.len()).find(|i| !equal(*i)) }
}

fn told_of(what: &str, at: usize, is: &[f64], want: &[f64]) -> String {
    let bits = |run: &[f64]| run.get(at).map_or(0, |x| x.to_bits());
    format!("{what} {at}: {:016x}, not {:016x}", bits(is), bits(want))
}

/// The first float or word of a store's runs that differs: floats as numbers up to `alike`, bit for bit past it.
pub fn runs_differ(is: &Runs, want: &Runs, alike: usize) -> Option<String> {
    if let Some(at) = float_differs(&is.floats, &want.floats, alike) {
        return Some(told_of("float", at, &is.floats, &want.floats));
    }
    let at = (0..is.words.len().max(want.words.len())).find(|i| is.words.get(*i) != want.words.get(*i))?;
    Some(format!("word {at}: {:?}, not {:?}", is.words.get(at), want.words.get(at)))
}

/// The runs as the call must leave them, and how many floats are the model's: its fields, zeros where it had some that a squeeze gave up,
/// and the excess as it was.
pub fn wanted(before: &Runs, had: usize, (mut floats, mut words): (Vec<f64>, Vec<u32>)) -> (Runs, usize) {
    let own = floats.len();
    floats.resize(own.max(had), 0.0);
    floats.extend_from_slice(&before.floats[own.max(had)..]);
    words.extend_from_slice(&before.words[words.len()..]);
    (Runs { floats, words }, own)
}

/// How many floats of a lent run an answer says are written; the bytes of a page or of lines are no floats, and are compared as they are.
pub fn written(answer: Answer) -> usize {
    match answer {
        Answer::Listed(n) => 6 * n as usize,
        Answer::Tracked(n) => n as usize,
        _ => 0,
    }
}

/// The set of layers that a reading names.
pub fn set_of(call: Call) -> Option<u32> {
    match call {
        Call::Density(_, layers, _)
        | Call::Report(_, layers)
        | Call::Finished(_, layers)
        | Call::List(_, layers, _)
        | Call::Track(_, layers, ..) => Some(layers),
        _ => None,
    }
}

/// Whether the call only reads the store.
pub fn reads(call: Call) -> bool {
    set_of(call).is_some() || matches!(call, Call::Page(_) | Call::Write(_))
}

/// One call on both: the answer, the lent run, and the runs, which `fields` then says of the model. A refused call and a reading leave
/// every bit; the model's answer is handed on.
pub fn differs<M: Model>(
    runs: &mut Runs,
    model: &mut M,
    call: Call,
    lent: &[f64],
    fields: impl Fn(&M) -> (Vec<f64>, Vec<u32>),
) -> (Option<String>, Answer, Answer) {
    let before = runs.clone();
    let had = if let Call::Squeeze = call { fields(model).0.len() } else { 0 };
    let (mut out, mut want_out) = (lent.to_vec(), lent.to_vec());
    let (told, want) = (runs.answer(call, &mut out), model.answer(call, &mut want_out));
    let stays = matches!(want, Answer::Refused(_)) || reads(call);
    let (want_runs, own_floats) = wanted(&before, had, fields(model));
    let difference = if !same(told, want) {
        Some(format!("{told:?}, not {want:?}"))
    } else if let Some(at) = float_differs(&out, &want_out, written(want)) {
        Some(told_of("lent float", at, &out, &want_out))
    } else if let Some(what) = runs_differ(runs, &want_runs, own_floats) {
        Some(what)
    } else if stays && runs_differ(runs, &before, 0).is_some() {
        Some("a refusal or a reading wrote into the store".into())
    } else {
        None
    };
    (difference, told, want)
}

/// A run for a list or a track, and one whose bytes are more than a page or lines have; no other call is lent one.
pub fn lent(r: &mut Rng, call: Call) -> Vec<f64> {
    match call {
        Call::List(_, _, room) | Call::Track(_, _, _, room) => cases::garbage(r, room),
        Call::Page(room) | Call::Write(room) => cases::garbage(r, room / 8 + 2),
        _ => Vec::new(),
    }
}

pub fn histories(count: u64, r: Rng) -> Tally {
    of_machine("histories of 50 calls", count, 50, r)
}

pub fn long_histories(count: u64, r: Rng) -> Tally {
    of_machine("histories of 1,000 calls", count, 1_000, r)
}

fn of_machine(name: &str, count: u64, calls: usize, mut r: Rng) -> Tally {
    let (mut tally, mut seen) = (Tally::new(), Seen::default());
    let (mut charged, mut dropped) = (0, 0);
    for i in 0..count {
        let machine = history(&mut r, i, calls, &mut tally, &mut seen);
        charged += machine.charged;
        dropped += machine.dropped;
    }
    tally.line("store", &format!("{count} {name}"), &format!("{}; charged {charged}, dropped {dropped}", seen.text()));
    tally
}

/// A store on the body, its runs somewhat longer than it needs, the machine beside it, and what the opening did wrong.
pub fn opened<T: Text>(r: &mut Rng, body: &Body) -> (Runs, Machine<T>, Option<store::Opened>) {
    let (floats, words) = machine::room(body.xyz.len() / 3, body.faces.len() / 3);
    let (more_floats, more_words) = (r.below(9) as usize, r.below(9) as usize);
    let mut runs =
        Runs { floats: cases::garbage(r, floats + more_floats), words: (0..words + more_words).map(|_| r.word() as u32).collect() };
    let before = runs.clone();
    let told = store::open(&mut runs.floats, &mut runs.words, body.radius, &body.xyz, &body.faces);
    let machine = Machine::open(&body.xyz, &body.faces, body.radius);
    let (want, own) = wanted(&before, 0, machine.fields());
    let as_asked = (told.no, told.verts as usize, told.faces as usize) == (0, body.xyz.len() / 3, body.faces.len() / 3)
        && runs_differ(&runs, &want, own).is_none();
    (runs, machine, if as_asked { None } else { Some(told) })
}

/// One history: an accepted opening, then calls; the claim about its sums is one more comparison.
fn history(r: &mut Rng, i: u64, calls: usize, tally: &mut Tally, seen: &mut Seen) -> Machine<ByArchive> {
    let body = histories::body(r);
    let (mut runs, mut machine, fault) = opened(r, &body);
    tally.count(fault.is_some(), || format!("history {i}, open {body:?}: {fault:?}"));
    let mut spared = runs.clone();
    let places = Places::draw(r);
    let (mut charged, mut done) = (0, 0);
    for n in 0..calls {
        let call = histories::call(r, &machine, &places);
        let lent = lent(r, call);
        let (difference, told, want) = differs(&mut runs, &mut machine, call, &lent, Machine::fields);
        seen.add(call, want);
        match told {
            Answer::Placed(_, need, _) => charged += u64::from(need),
            Answer::Steps(steps, _) => done += steps,
            Answer::Freed(freed) => touch_freed(r, &mut runs, freed),
            _ => {}
        }
        let difference = difference.or_else(|| altered(&mut spared, &runs, call, &lent, told)).or_else(|| apart(&runs, call));
        let bad = difference.is_some();
        tally.count(bad, || format!("history {i}, call {n} {call:?} on {body:?}: {}", difference.unwrap()));
        if bad {
            return machine;
        }
    }
    let left = match runs.answer(Call::Advance(0), &mut []) {
        Answer::Steps(0, left) => left,
        told => panic!("an advance of 0 answers {told:?}"),
    };
    let sums = done + left + machine.dropped == charged && charged == machine.charged;
    tally.count(!sums, || format!("history {i}: done {done} + left {left} + dropped {} is not charged {charged}", machine.dropped));
    machine
}

/// Histories of sound stores that nobody opened, by the fields they hold.
pub fn unopened(count: u64, mut r: Rng) -> Tally {
    let (mut tally, mut seen) = (Tally::new(), Seen::default());
    for i in 0..count {
        let body = histories::body(&mut r);
        let mut held = histories::unopened(&mut r, &body);
        let mut runs = Runs { floats: held.floats.clone(), words: held.words.clone() };
        let excess = r.below(4) as usize;
        runs.floats.extend(cases::garbage(&mut r, excess));
        runs.words.extend((0..r.below(4)).map(|_| r.word() as u32));
        let places = Places::draw(&mut r);
        for n in 0..25 {
            let call = histories::call(&mut r, &held, &places);
            let lent = lent(&mut r, call);
            let (difference, _, want) = differs(&mut runs, &mut held, call, &lent, fields);
            seen.add(call, want);
            let bad = difference.is_some();
            tally.count(bad, || format!("store {i}, call {n} {call:?}: {}", difference.unwrap()));
            if bad {
                break;
            }
        }
    }
    tally.line("store", &format!("{count} sound, never opened, 25 calls"), &seen.text());
    tally
}

pub fn fields(held: &Held) -> (Vec<f64>, Vec<u32>) {
    (held.floats.clone(), held.words.clone())
}
