//! Histories of every call: lists of any calls of the store, in an order that nobody rehearsed, beside the machine of 01 and 02, which sees the
//! calls alone. A list begins in one of demand 3's three ways: an opening, a carry of a store of the form before layers, lines that are
//! read. A second store, begun in any of them too, gives places to be adopted.
//!
//! The machine works with the second transcription of 01's powers, so that it shares nothing with the archive. Pieces that were fitted
//! before 02's L2 go across as held: the archive's powers without L2 made those.
use crate::adoptions::{between, body, left, relative, taken};
use crate::carries::{carried, garbage, needed, same_bits, with_excess};
use crate::every_call_kinds::{self, Since};
use crate::judge::{Runs, differs, lent, opened, runs_differ, wanted};
use oracle::cases::one;
use oracle::histories::{self, Answer, Body, Call, Model, Places};
use oracle::inputs::Rng;
use oracle::lines::{self, Bytes, Loaded, Telling, first, put_line, store_read, store_write};
use oracle::machine::{ALL_LAYERS, CORNERS, FACES, Machine, OLD_RECORD, PLACES, RECORD, room};
use oracle::tally::{Kinds, Tally};
use oracle::text::{BeforeTens, ByTranscription};

/// The calls of a history.
const CALLS: usize = 50;

/// Once in so many histories lines with more faces than 01 allows are read: they are long.
const LONG_LINES: u64 = 250;

type Literal = Machine<ByTranscription>;

/// What was compared and met, and where the comparison stands.
struct Notes<'a> {
    tally: Tally,
    kinds: &'a mut Kinds,
    history: u64,
    calls: usize,
    /// Whether the next lines to be read are those.
    long_lines: bool,
}

/// Something differs, which is told already: its history ends there.
struct Differs;

impl Notes<'_> {
    /// One comparison.
    fn compared(&mut self, fault: Option<String>) -> Result<(), Differs> {
        let bad = fault.is_some();
        self.tally.count(bad, || format!("history {}, call {}: {}", self.history, self.calls, fault.unwrap()));
        if bad { Err(Differs) } else { Ok(()) }
    }
}

/// A store and its machine, how their list began, and what its calls have answered since.
struct Store {
    runs: Runs,
    machine: Literal,
    since: Since,
    charged: u64,
    done: u64,
}

impl Store {
    /// Charged begins as the machine's: 0 after an opening, "the left that goes across" after a carry, the need of the lines' puts after
    /// a reading.
    fn begun(runs: Runs, machine: Literal, since: Since) -> Store {
        Store { charged: machine.charged, done: 0, runs, machine, since }
    }

    fn call(&mut self, r: &mut Rng, call: Call, notes: &mut Notes) -> Result<(), Differs> {
        let lent = lent(r, call);
        let (fault, told, want) = differs(&mut self.runs, &mut self.machine, call, &lent, Machine::fields);
        match told {
            Answer::Placed(_, need, _) => self.charged += u64::from(need),
            Answer::Steps(steps, _) => self.done += steps,
            _ => {}
        }
        every_call_kinds::add_call(notes.kinds, self.since, call, want);
        notes.compared(fault.map(|what| format!("{call:?}: {what}")))
    }

    /// At the end of the list, "done + left + dropped = charged": left by an advance of 0, charged by the answers and by the machine.
    fn end(&mut self, notes: &mut Notes) -> Result<(), Differs> {
        let (Store { charged, done, .. }, left, dropped) = (&*self, left(&mut self.runs.clone()), self.machine.dropped);
        let sums = done + left + dropped == *charged && *charged == self.machine.charged && left == self.machine.left();
        notes.compared((!sums).then(|| format!("done {done} + left {left} + dropped {dropped} is not charged {charged}")))
    }
}

/// How the runs that a beginning left differ from the machine's fields; past them they are as before.
fn apart(runs: &Runs, before: &Runs, fields: (Vec<f64>, Vec<u32>)) -> Option<String> {
    let (want, alike) = wanted(before, 0, fields);
    runs_differ(runs, &want, alike)
}

/// A store as it begins: after fewer calls than `most` where it is carried over.
fn begun(r: &mut Rng, body: &Body, places: &Places, most: u64, notes: &mut Notes) -> Result<Store, Differs> {
    match r.below(6) {
        0 | 1 => {
            let (runs, machine, fault) = opened(r, body);
            notes.compared(fault.map(|told| format!("open {body:?}: {told:?}")))?;
            Ok(Store::begun(runs, machine, Since::Opening))
        }
        2 | 3 => {
            let text = drawn_lines(r, body, places);
            let (floats, words) = room(body.xyz.len() / 3, body.faces.len() / 3);
            let (fault, read) = read(r, text.as_bytes(), floats + 5, words + 5);
            notes.compared(fault.or_else(|| read.as_ref().err().map(|no| format!("good lines refused as {no}: {text}"))))?;
            read.map_err(|_| Differs)
        }
        way => {
            let count = r.below(most);
            if way == 4 { with_tens(r, body, places, count, notes) } else { before_tens(r, body, places, count, notes) }
        }
    }
}

// ---- A carry

/// A call as a store of the form before layers has it: a put in layer 0, a reading of all there is.
fn without_layers(call: Call) -> Call {
    match call {
        Call::Put(place, k, _) => Call::Put(place, k, 0),
        Call::Density(by, _, at) => Call::Density(by, ALL_LAYERS, at),
        Call::Report(by, _) => Call::Report(by, ALL_LAYERS),
        Call::Finished(by, _) => Call::Finished(by, ALL_LAYERS),
        Call::List(by, _, room) => Call::List(by, ALL_LAYERS, room),
        Call::Track(by, _, points, room) => Call::Track(by, ALL_LAYERS, points, room),
        _ => call,
    }
}

/// A store of the form before layers whose puts were made with L2's powers. The archive has no call on that form: a store of today's whose
/// puts are all in layer 0 gets the calls, and its words without the layers are the old store's.
fn with_tens(r: &mut Rng, body: &Body, places: &Places, count: u64, notes: &mut Notes) -> Result<Store, Differs> {
    let (runs, machine, fault) = opened(r, body);
    notes.compared(fault.map(|told| format!("open {body:?}: {told:?}")))?;
    let mut old = Store::begun(runs, machine, Since::OldOpening);
    for _ in 0..count {
        let call = without_layers(histories::call(r, &old.machine, places));
        old.call(r, call, notes)?;
        notes.calls += 1;
    }
    old.end(notes)?;
    let rows = old.runs.words[2..CORNERS].chunks(RECORD).flat_map(|row| &row[..OLD_RECORD]);
    let words = old.runs.words[..2].iter().chain(rows).chain(&old.runs.words[CORNERS..]).copied().collect();
    let old_runs = Runs { floats: old.runs.floats.clone(), words };
    notes.compared(apart(&old_runs, &old_runs, old.machine.fields_in(OLD_RECORD)))?;
    let runs = carry(r, &old_runs, notes)?;
    // "as one would that had received the old store's calls"; or by the machine that begins at the carry
    let store = match r.below(2) {
        0 => Store { runs, since: Since::Carry, ..old },
        _ => Store::begun(runs, Machine::carried(&old.machine), Since::Carry),
    };
    notes.compared(apart(&store.runs, &store.runs, store.machine.fields()))?;
    Ok(store)
}

/// One whose puts were made before L2: the archive makes no such store, and the old runs are those that its machine asks for. Its calls
/// do not count among those of the history, since there is nothing to compare before the carry.
fn before_tens(r: &mut Rng, body: &Body, places: &Places, count: u64, notes: &mut Notes) -> Result<Store, Differs> {
    let mut old = Machine::<BeforeTens>::open(&body.xyz, &body.faces, body.radius);
    for _ in 0..count {
        let call = without_layers(histories::call(r, &old, places));
        old.answer(call, &mut lent(r, call));
    }
    let old_runs = with_excess(r, old.fields_in(OLD_RECORD));
    let runs = carry(r, &old_runs, notes)?;
    let store = Store::begun(runs, Machine::carried(&old), Since::CarryBeforeTens);
    notes.compared(apart(&store.runs, &store.runs, store.machine.fields()))?;
    Ok(store)
}

/// A carry into runs of any contents, at times after one into runs that are too short; what it leaves.
fn carry(r: &mut Rng, old: &Runs, notes: &mut Notes) -> Result<Runs, Differs> {
    let (floats, words) = needed(old);
    if r.below(3) == 0 {
        let (floats, words) = one(r, &[(floats - 1, words), (floats, words - 1), (floats, words - PLACES)]);
        let (fault, no, _) = carried(r, old, floats, words);
        every_call_kinds::add(notes.kinds, Since::OldOpening, "carry", no);
        notes.compared(fault)?;
    }
    let (floats, words) = (floats + r.below(5) as usize, words + r.below(5) as usize);
    let (fault, no, runs) = carried(r, old, floats, words);
    every_call_kinds::add(notes.kinds, Since::OldOpening, "carry", no);
    notes.compared(fault)?;
    notes.calls += 1;
    Ok(runs)
}

// ---- Lines

/// A body's opening and some puts, in any order, a place twice, with a layer and without.
fn drawn_lines(r: &mut Rng, body: &Body, places: &Places) -> String {
    let mut text = lines::text(&Telling { radius: body.radius, xyz: &body.xyz, faces: &body.faces, puts: Vec::new() });
    for _ in 0..one(r, &[0, 1, 3, 8]) {
        let (place, layer) = (places.one(r) % 32, one(r, &[None, Some(0), Some(1), Some(15)]));
        text += &put_line(place.into(), &histories::kernel(r), layer);
    }
    text
}

/// Lines read into runs of any contents: what is wrong with it, and the store, or the number of the refusal.
fn read(r: &mut Rng, bytes: &[u8], floats: usize, words: usize) -> (Option<String>, Result<Store, u32>) {
    let mut runs = garbage(r, floats, words);
    let before = runs.clone();
    let told = store_read(&mut runs.floats, &mut runs.words, bytes);
    let answers = |want: Loaded| (told != want).then(|| format!("{told:?}, not {want:?}"));
    match lines::read(bytes, floats, words) {
        Ok((want, machine)) => {
            let fault = answers(want).or_else(|| apart(&runs, &before, machine.fields()));
            (fault, Ok(Store::begun(runs, machine, Since::Reading)))
        }
        Err(numbers) => {
            let no = first(&numbers);
            let fault = answers(Loaded { no, verts: 0, faces: 0, puts: 0 });
            (fault.or_else(|| (!same_bits(&runs, &before)).then(|| "a refusal wrote into the runs".into())), Err(no))
        }
    }
}

/// The store is written and read into other runs, and the history goes on there, "with all steps still to do". At times the lines were
/// changed in between, or the runs are too short; where that is refused it goes on as it was.
fn read_back(r: &mut Rng, own: &mut Store, notes: &mut Notes) -> Result<(), Differs> {
    let text = own.machine.lines();
    let mut bytes = vec![0; text.len()];
    let told = store_write(&own.runs.floats, &own.runs.words, &mut bytes);
    let as_asked = told == Bytes { no: 0, bytes: text.len() as u64 } && bytes == text.as_bytes();
    notes.compared((!as_asked).then(|| format!("written for a reader: {told:?}\n{}not\n{text}", String::from_utf8_lossy(&bytes))))?;
    let (mut floats, mut words) = room(own.runs.words[0] as usize, own.runs.words[1] as usize);
    match r.below(12) {
        0 => floats -= 1,
        1 => words -= 1,
        2 => bytes.truncate(r.below(bytes.len() as u64) as usize),
        3 => bytes.extend(put_line(one(r, &[32, 33, 1 << 31]), &histories::kernel(r), None).bytes()),
        4 => bytes.extend(put_line(0, &histories::kernel(r), Some(one(r, &[16, 17, 1 << 31]))).bytes()),
        5 => loosen(&mut bytes, own.runs.words[0]),
        _ => (floats, words) = (floats + r.below(9) as usize, words + r.below(9) as usize),
    }
    if std::mem::take(&mut notes.long_lines) {
        bytes = format!("(open (radius {0:016X}) (verts 1) (faces {1}))\n(vert {0:016X} {0:016X} {0:016X})\n", 0, FACES + 1).into();
        bytes.extend(b"(face 0 0 0)\n".repeat(FACES + 1));
    }
    let (fault, read) = read(r, &bytes, floats, words);
    every_call_kinds::add(notes.kinds, own.since, "read", read.as_ref().err().copied().unwrap_or(0));
    notes.compared(fault.map(|what| format!("read {floats} floats, {words} words: {what}")))?;
    if let Ok(store) = read {
        own.end(notes)?;
        *own = store;
    }
    Ok(())
}

/// The last face names a vertex that is not there.
fn loosen(bytes: &mut Vec<u8>, verts: u32) {
    let text = String::from_utf8_lossy(bytes).into_owned();
    if let Some(at) = text.rfind("\n(face ") {
        let end = at + 1 + text[at + 1..].find('\n').expect("a line's end");
        bytes.splice(at + 1..end, format!("(face 0 {verts} 0)").into_bytes());
    }
}

// ---- A history

/// One call of the history.
fn step(r: &mut Rng, own: &mut Store, other: &Store, places: &Places, notes: &mut Notes) -> Result<(), Differs> {
    match r.below(25) {
        0 | 1 => {
            let room = histories::byte_room(r, own.machine.lines().len());
            own.call(r, Call::Write(room), notes)
        }
        2 | 3 => read_back(r, own, notes),
        4..=6 => {
            let (i, j) = between(r, &other.runs, places);
            let (fault, want) = taken((&mut own.runs, &mut own.machine), (&other.runs, &other.machine), (i, j));
            // "charged grows by the left that comes across"
            own.charged += want.ok().flatten().map_or(0, |(_, left)| left);
            every_call_kinds::add_adoption(notes.kinds, own.since, want);
            notes.compared(fault.map(|what| format!("adoption of place {j} into place {i}: {what}")))
        }
        _ => {
            let call = histories::call(r, &own.machine, places);
            own.call(r, call, notes)
        }
    }
}

/// A history of so many calls on one store, each compared; now and then a call on the other comes between.
fn history(r: &mut Rng, notes: &mut Notes) -> Result<(), Differs> {
    let (body, places) = (body(r), Places::draw(r));
    let relative = relative(r, &body);
    let mut other = begun(r, &relative, &places, 9, notes)?;
    notes.calls = 0;
    let mut own = begun(r, &body, &places, 40, notes)?;
    while notes.calls < CALLS {
        if r.below(3) == 0 {
            let call = histories::call(r, &other.machine, &places);
            other.call(r, call, notes)?;
        }
        step(r, &mut own, &other, &places, notes)?;
        notes.calls += 1;
    }
    own.end(notes)?;
    other.end(notes)
}

pub fn histories(count: u64, mut r: Rng, kinds: &mut Kinds) -> Tally {
    let mut notes = Notes { tally: Tally::new(), kinds, history: 0, calls: 0, long_lines: false };
    for i in 0..count {
        (notes.history, notes.calls) = (i, 0);
        notes.long_lines |= i % LONG_LINES == 0;
        // a difference is told where it is met
        let _ = history(&mut r, &mut notes);
    }
    notes.tally.line("every call", &format!("{count} histories of {CALLS} calls"), &every_call_kinds::shown(notes.kinds));
    notes.tally
}
