//! A mixed history of one store, for the program `test_store`: what 01's machine answers to the program's calls, topic by topic as there,
//! with the digests of both runs after each call. Words written past the store's calls make it unsound and sound again.
use crate::topics;
use oracle::conventions::{Convention, RAW, RHO0, Report};
use oracle::held::store_number;
use oracle::histories::{Answer, Call, Model};
use oracle::machine::{ALL_LAYERS, Machine, open_number};
use oracle::page;
use oracle::pattern;
use oracle::text::ByTranscription;

#[derive(Clone, Copy)]
pub enum Step {
    /// So many coordinates and corners from the front of the mesh below.
    Open(usize, usize, f64),
    /// So many coordinates from the front, and the corners from one position to another.
    Excerpt(usize, usize, usize, f64),
    Call(Call),
    /// Word at, from outside.
    Write(usize, u32),
    /// Word at, as the machine has it.
    Mend(usize),
}

/// The runs have room for 8 vertices and 12 faces, and a few words of excess.
const FLOATS: usize = 1_787;
const WORDS: usize = 167;
/// What they hold before the first call, and what the run of a list or a track holds before each.
const BEFORE: (f64, u32) = (1.5, 9);
const LENT: f64 = 2.5;
const LIST: usize = 1_200;
const TRACK: usize = 4_100;
/// A lent page is so many bytes, full stops before each call, here eight to a float.
const PAGE: usize = 2_200;
const STOPS: f64 = f64::from_bits(0x2e2e_2e2e_2e2e_2e2e);

/// An uneven box, and two points more.
#[rustfmt::skip]
const XYZ: [f64; 30] = [
    -1.0, -1.5, -1.0,   1.0, -1.25, -1.0,   1.5, 1.0, -0.75,   -1.0, 1.0, -1.0,
    -1.25, -1.0, 1.0,   1.0, -1.0, 1.0,   1.0, 1.75, 1.0,   -1.0, 1.0, 1.125,
    4.0, 0.0, 0.0,   0.0, 4.0, 0.0,
];

/// Its faces, and one whose last corner is the ninth vertex.
#[rustfmt::skip]
const FACES: [u32; 39] = [
    0, 2, 1,  0, 3, 2,  4, 5, 6,  4, 6, 7,  0, 1, 5,  0, 5, 4,
    1, 2, 6,  1, 6, 5,  2, 3, 7,  2, 7, 6,  3, 0, 4,  3, 4, 7,
    0, 1, 8,
];

/// A store's two runs as 01 asks for them, and the machine of the last opening.
struct Replay {
    floats: Vec<f64>,
    words: Vec<u32>,
    machine: Option<Machine<ByTranscription>>,
}

impl Replay {
    fn new() -> Replay {
        Replay { floats: vec![BEFORE.0; FLOATS], words: vec![BEFORE.1; WORDS], machine: None }
    }

    /// The runs as the machine stands, their excess kept.
    fn follow(&mut self) {
        let (floats, words) = self.machine.as_ref().unwrap().fields();
        self.floats[..floats.len()].copy_from_slice(&floats);
        self.words[..words.len()].copy_from_slice(&words);
    }

    /// The floats behind the coordinates that a squeeze left become zero.
    fn free(&mut self, count: usize) {
        let end = 1_761 + 3 * self.words[0] as usize;
        self.floats[end..][..count].fill(0.0);
    }

    fn line(&mut self, step: Step) -> String {
        let told = match step {
            Step::Open(xyz, faces, radius) => format!("open {xyz} {faces}{}", self.open(&XYZ[..xyz], &FACES[..faces], radius)),
            Step::Excerpt(xyz, from, to, radius) => {
                format!("excerpt {xyz} {from} {to}{}", self.open(&XYZ[..xyz], &FACES[from..to], radius))
            }
            Step::Call(call) => self.call(call),
            Step::Write(at, to) => self.write(at, to),
            Step::Mend(at) => self.write(at, self.machine.as_ref().unwrap().fields().1[at]),
        };
        let words = digest(self.words.iter().map(|w| u64::from(*w)));
        format!("{told} {:016x} {words:016x}\n", digest_floats(&self.floats))
    }

    fn open(&mut self, xyz: &[f64], faces: &[u32], radius: f64) -> String {
        match open_number(xyz, faces, FLOATS, WORDS) {
            0 => {
                self.machine = Some(Machine::open(xyz, faces, radius));
                self.follow();
                format!(" verts {} faces {}", xyz.len() / 3, faces.len() / 3)
            }
            no => answer(Answer::Refused(no)),
        }
    }

    fn write(&mut self, at: usize, to: u32) -> String {
        self.words[at] = to;
        format!("write {at} {to}")
    }

    /// The call and its answer; the runs are then as it leaves them.
    fn call(&mut self, call: Call) -> String {
        let (mut run, room) = match call {
            Call::List(_, _, room) => (vec![LENT; LIST], room),
            Call::Track(_, _, _, room) => (vec![LENT; TRACK], room),
            Call::Page(_) => (vec![STOPS; PAGE / 8], PAGE / 8),
            _ => (Vec::new(), 0),
        };
        let told = match store_number(&self.floats, &self.words) {
            0 => {
                let told = self.machine.as_mut().unwrap().answer(call, &mut run[..room]);
                self.follow();
                if let Answer::Freed(n) = told {
                    self.free(n as usize);
                }
                told
            }
            no => Answer::Refused(no),
        };
        let run = match call {
            Call::Page(_) => format!(" run {:016x}", digest(page::bytes(&mut run).iter().map(|b| u64::from(*b)))),
            _ if run.is_empty() => String::new(),
            _ => format!(" run {:016x}", digest_floats(&run)),
        };
        format!("{}{}{run}", head(call), answer(told))
    }
}

/// The call as its line in the script shows it, after the layer of a put that is not 0, or the set of layers of a reading that is not
/// of all sixteen.
fn head(call: Call) -> String {
    let within = match call {
        Call::Put(_, _, layer) if layer != 0 => Some(layer),
        Call::Density(_, set, _) | Call::Report(_, set) | Call::List(_, set, _) | Call::Track(_, set, ..) if set != ALL_LAYERS => Some(set),
        _ => None,
    };
    within.map_or(String::new(), |number| format!("in {number} ")) + &named(call)
}

fn named(call: Call) -> String {
    match call {
        Call::Put(place, ..) => format!("put {place}"),
        Call::Clear(place) => format!("clear {place}"),
        Call::Reweigh(place, _) => format!("reweigh {place}"),
        Call::Advance(n) => format!("advance {n}"),
        Call::Squeeze => "squeeze".into(),
        Call::Density(by, ..) => format!("density{}", convention(by)),
        Call::Report(by, _) => format!("report{}", convention(by)),
        Call::Finished(by, _) => format!("finished{}", convention(by)),
        Call::List(by, _, room) => format!("list {room}{}", convention(by)),
        Call::Track(by, _, points, room) => format!("track {} {room}{}", points.len(), convention(by)),
        Call::Page(room) => format!("page {room}"),
        Call::Write(room) => format!("write {room}"),
    }
}

fn convention(by: Convention) -> String {
    match by.kind {
        RAW => " raw".into(),
        RHO0 => format!(" rho0{}", bits(&[by.bulk])),
        _ => format!(" mass{}", bits(&[by.target, by.bulk])),
    }
}

fn answer(told: Answer) -> String {
    match told {
        Answer::Refused(no) => format!(" no {no}"),
        Answer::Placed(pieces, need, fit) => format!(" pieces {pieces} need {need}{}", fit.text()),
        Answer::Edited => String::new(),
        Answer::Steps(done, left) => format!(" done {done} left {left}"),
        Answer::Freed(n) => format!(" freed {n}"),
        Answer::Value(x) => format!(" value{}", bits(&[x])),
        Answer::Report(report) => masses(report),
        Answer::Finished(report, passed) => format!("{} passed {passed}", masses(report)),
        Answer::Listed(pieces) => format!(" pieces {pieces}"),
        Answer::Tracked(points) => format!(" points {points}"),
        Answer::Paged(bytes) | Answer::Written(bytes) => format!(" bytes {bytes}"),
    }
}

fn masses(Report { mass, kernels, pieces, error }: Report) -> String {
    format!(" masses{} kernels {kernels} pieces {pieces} error{}", bits(&mass), bits(&[error]))
}

fn bits(list: &[f64]) -> String {
    list.iter().map(|x| format!(" {:016x}", pattern(*x))).collect()
}

fn digest_floats(floats: &[f64]) -> u64 {
    digest(floats.iter().map(|x| pattern(*x)))
}

/// For each word of a run: 27 binary digits turned, the word by exclusive or, a constant added.
fn digest(words: impl Iterator<Item = u64>) -> u64 {
    words.fold(0, |sum, word| (sum.rotate_left(27) ^ word).wrapping_add(0x9e37_79b9_7f4a_7c15))
}

pub fn answers() -> String {
    let mut replay = Replay::new();
    topics::steps().into_iter().map(|step| replay.line(step)).collect()
}
