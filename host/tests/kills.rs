//! A store in a folder under kills: a writer that is killed at a random moment leaves the machine after some prefix
//! of its calls that has every acknowledged one. The machine is a store in memory, by the library; what the folder
//! holds is read here from its files, not by the program.
//!
//! The short forms run with the other tests. The long ones are run by `host/test --long`, or by
//! `cargo test --release --test kills -- --ignored`.
use cauchy::{Adoption, FLOATS_BEFORE_MESH, Kernel, Mesh, Refusal, Store};
use std::fmt::Write as _;
use std::fs;
use std::io::{BufRead, BufReader, Read};
use std::path::{Path, PathBuf};
use std::process::{Child, Command, Stdio};
use std::sync::mpsc::{self, Receiver};
use std::time::{Duration, Instant};

// ---- A body, and calls at random ----

/// A globe with a vertex at the end that no face uses, so that a squeeze has something to do.
struct Body {
    vertices: Vec<[f64; 3]>,
    faces: Vec<[u32; 3]>,
}

impl Body {
    /// So many rings of so many vertices, between two poles.
    fn globe(rings: u32) -> Body {
        let around = rings;
        let mut vertices = vec![[0.0, 0.0, 0.5]];
        for (ring, turn) in (1..=rings).flat_map(|ring| (0..around).map(move |turn| (ring, turn))) {
            let latitude = std::f64::consts::PI * f64::from(ring) / f64::from(rings + 1);
            let longitude = std::f64::consts::TAU * f64::from(turn) / f64::from(around);
            let (flat, height) = latitude.sin_cos();
            vertices.push([0.5 * flat * longitude.cos(), 0.5 * flat * longitude.sin(), 0.5 * height]);
        }
        let at = |ring: u32, turn: u32| 1 + (ring - 1) * around + turn % around;
        let south = vertices.len() as u32;
        vertices.extend([[0.0, 0.0, -0.5], [0.1, 0.1, 0.1]]);
        let mut faces = Vec::new();
        for turn in 0..around {
            faces.push([0, at(1, turn), at(1, turn + 1)]);
            faces.push([south, at(rings, turn + 1), at(rings, turn)]);
            faces.extend((1..rings).flat_map(|ring| {
                let [a, b, c, d] =
                    [at(ring, turn), at(ring, turn + 1), at(ring + 1, turn), at(ring + 1, turn + 1)];
                [[a, c, d], [a, d, b]]
            }));
        }
        Body { vertices, faces }
    }

    /// As a file, in metres: shortest decimals are read as the same floats.
    fn obj(&self) -> String {
        let mut text = String::new();
        for [x, y, z] in &self.vertices {
            let _ = writeln!(text, "v {x} {y} {z}");
        }
        self.faces.iter().fold(text, |text, [a, b, c]| text + &format!("f {} {} {}\n", a + 1, b + 1, c + 1))
    }

    fn store(&self) -> Store {
        let mesh = Mesh { vertices: &self.vertices, faces: &self.faces };
        let farthest =
            self.vertices.iter().map(|[x, y, z]| (x * x + y * y + z * z).sqrt()).fold(0.0, f64::max);
        Store::open(farthest, mesh).unwrap()
    }
}

struct Rng(u64);

impl Rng {
    fn below(&mut self, n: u64) -> u64 {
        self.0 = self.0.wrapping_mul(0x5851_f42d_4c95_7f2d).wrapping_add(0x1405_7b7e_f767_814f);
        (self.0 >> 33) % n
    }

    fn float(&mut self) -> f64 {
        self.below(20_001) as f64 / 1e4 - 1.0
    }

    /// A call, now and then one that is refused.
    fn call(&mut self, most_steps: u64) -> Call {
        let place = self.below(33) as u32;
        match self.below(40) {
            0..=13 => {
                let c = [self.float(), self.float(), self.float()];
                let (sigma, alpha) = (5.0 * self.float(), [1.0, 1.5, 2.5][self.below(3) as usize]);
                let kernel = Kernel { c, sigma, w: 1e3 * self.float(), alpha };
                Call::Put(place, kernel, self.below(17) as u32)
            }
            14..=20 => Call::Clear(place),
            21..=27 => Call::Reweigh(place, 1e3 * self.float()),
            28 => Call::Squeeze,
            29 | 30 => Call::Adopt(place, self.below(most_steps)),
            _ => Call::Advance(self.below(most_steps)),
        }
    }
}

#[derive(Clone, Copy)]
enum Call {
    Put(u32, Kernel, u32),
    Clear(u32),
    Reweigh(u32, f64),
    Advance(u64),
    Squeeze,
    Adopt(u32, u64),
}

impl Call {
    fn line(self) -> String {
        let h = |x: f64| format!("{:016X}", x.to_bits());
        match self {
            Call::Put(place, kernel, layer) => {
                let [x, y, z] = kernel.c.map(h);
                let [sigma, w, alpha] = [kernel.sigma, kernel.w, kernel.alpha].map(h);
                let head = format!("(put {place} (c {x} {y} {z}) (sigma {sigma}) (w {w}) (alpha {alpha})");
                format!("{head} (layer {layer}))\n")
            }
            Call::Clear(place) => format!("(clear {place})\n"),
            Call::Reweigh(place, w) => format!("(reweigh {place} {})\n", h(w)),
            Call::Advance(steps) => format!("(advance {steps})\n"),
            Call::Squeeze => "(squeeze)\n".to_string(),
            Call::Adopt(place, steps) => format!("(adopt {place} (steps {steps}))\n"),
        }
    }

    /// What the library answers, as the program prints it.
    fn apply(self, store: &mut Store) -> String {
        let told = match self {
            Call::Put(place, kernel, layer) => store
                .put_in(place, kernel, layer)
                .map(|placed| format!("(put {place} (pieces {}) (steps {}))", placed.pieces, placed.need)),
            Call::Clear(place) => store.clear(place).map(|()| format!("(clear {place})")),
            Call::Reweigh(place, w) => store.reweigh(place, w).map(|()| format!("(reweigh {place})")),
            Call::Advance(steps) => store
                .advance(steps)
                .map(|steps| format!("(advance (done {}) (left {}))", steps.done, steps.left)),
            Call::Squeeze => store.squeeze().map(|freed| format!("(squeeze (freed {freed}))")),
            Call::Adopt(place, steps) => adopt(store, place, steps),
        };
        told.unwrap_or_else(|refusal: Refusal| format!("(no {}) {}", refusal.number(), refusal.meaning()))
    }
}

/// The work on a place from its put on, done in a store that has it alone.
fn adopt(store: &mut Store, place: u32, steps: u64) -> Result<String, Refusal> {
    let mut other = store.clone();
    for place in 0..cauchy::PLACES {
        let _ = other.clear(place);
    }
    match store.held(place) {
        Some(held) => other.put_in(place, held.kernel, held.layer).map(|_| other.advance(steps))??,
        None => return store.clear(place).map(|()| String::new()),
    };
    match store.adopt(place, &other, place)? {
        Adoption::Taken { pieces, left } => Ok(format!("(adopt {place} (pieces {pieces}) (left {left}))")),
        Adoption::AnotherBody => panic!("it is the same body"),
    }
}

// ---- A folder, and what is in its files ----

/// A folder of a test's own, with a body's file and a store of it.
struct Folder(PathBuf);

impl Folder {
    fn new(name: &str, body: &Body) -> Folder {
        let path = std::env::temp_dir().join(format!("cauchy-kills-{name}-{}", std::process::id()));
        let _ = fs::remove_dir_all(&path);
        fs::create_dir_all(&path).unwrap();
        fs::write(path.join("body.obj"), body.obj()).unwrap();
        let folder = Folder(path);
        folder.goes(&["init", "store", "body.obj", "--mesh-unit", "m"]);
        folder
    }

    fn store(&self) -> PathBuf {
        self.0.join("store")
    }

    fn command(&self, words: &[&str]) -> Command {
        let mut command = Command::new(env!("CARGO_BIN_EXE_cauchy"));
        command.args(words).current_dir(&self.0);
        command
    }

    fn goes(&self, words: &[&str]) -> String {
        let output = self.command(words).output().unwrap();
        let said = String::from_utf8_lossy(&output.stderr);
        assert_eq!(output.status.code(), Some(0), "{words:?}: {said}");
        String::from_utf8(output.stdout).unwrap()
    }

    /// Starts a writer on these calls.
    fn writer(&self, calls: &[Call]) -> Writer {
        let lines: String = calls.iter().map(|call| call.line()).collect();
        fs::write(self.0.join("edits"), lines).unwrap();
        Writer::start(self.command(&["edit", "store", "edits"]))
    }
}

impl Drop for Folder {
    fn drop(&mut self) {
        let _ = fs::remove_dir_all(&self.0);
    }
}

/// A program that edits, and its answers as they come.
struct Writer {
    child: Child,
    answers: Receiver<String>,
}

impl Writer {
    fn start(mut command: Command) -> Writer {
        let mut child = command.stdout(Stdio::piped()).stderr(Stdio::piped()).spawn().unwrap();
        let out = child.stdout.take().unwrap();
        let (send, answers) = mpsc::channel();
        // a line without its newline was not acknowledged
        std::thread::spawn(move || {
            let mut lines = BufReader::new(out);
            let mut line = String::new();
            while lines.read_line(&mut line).is_ok_and(|count| count > 0) {
                if line.pop() == Some('\n') && send.send(std::mem::take(&mut line)).is_err() {
                    return;
                }
                line.clear();
            }
        });
        Writer { child, answers }
    }

    /// Kills it, and answers what it had acknowledged.
    fn kill(mut self) -> Vec<String> {
        let _ = self.child.kill();
        self.child.wait().unwrap();
        self.answers.iter().collect()
    }

    /// Waits for its end: its answers, its exit status and what it said.
    fn end(mut self) -> (Vec<String>, Option<i32>, String) {
        let mut said = String::new();
        self.child.stderr.take().unwrap().read_to_string(&mut said).unwrap();
        let status = self.child.wait().unwrap();
        (self.answers.iter().collect(), status.code(), said)
    }
}

/// Both runs of a store by their bits, without what a squeeze freed.
type Bits = (Vec<u64>, Vec<u32>);

fn bits(store: &Store) -> Bits {
    let (floats, words) = store.runs();
    let count = FLOATS_BEFORE_MESH + 3 * store.vertices() as usize;
    (floats[..count].iter().map(|x| x.to_bits()).collect(), words.to_vec())
}

/// The store that the folder's files hold: the head's floats and words, then the coordinates and corners of its mesh.
fn read(store: &Path) -> Bits {
    let number = |bytes: &[u8]| bytes.iter().rev().fold(0_u64, |n, byte| n << 8 | u64::from(*byte));
    let floats = |bytes: &[u8]| bytes.chunks_exact(8).map(number).collect::<Vec<_>>();
    let words = |bytes: &[u8]| bytes.chunks_exact(4).map(|w| number(w) as u32).collect::<Vec<_>>();
    let head = fs::read(store.join("head")).unwrap();
    assert_eq!((head.len(), &head[..8]), (14_672, &b"CAUCHYF1"[..]));
    let (own_floats, own_words) = (floats(&head[56..14_144]), words(&head[14_144..14_664]));
    let mesh = fs::read(store.join(format!("mesh-{}", number(&head[16..24])))).unwrap();
    let coordinates = 24 + 24 * own_words[0] as usize;
    let corners = coordinates + 12 * own_words[1] as usize;
    assert_eq!((mesh.len(), &mesh[..8]), (corners + 8, &b"CAUCHYM1"[..]));
    let floats = [own_floats, floats(&mesh[24..coordinates])].concat();
    (floats, [own_words, words(&mesh[coordinates..corners])].concat())
}

/// Brings the machine on, call by call, to the state that was found: at least by the acknowledged calls, and perhaps by
/// some steps of an advance that was under way.
fn catch_up(machine: &mut Store, calls: &[Call], answers: &[String], found: &Bits) {
    for (call, answer) in calls.iter().zip(answers) {
        assert_eq!(call.apply(machine), *answer, "{}", call.line());
    }
    for call in calls.iter().skip(answers.len()) {
        if bits(machine) == *found {
            return;
        }
        if let Call::Advance(most) = call {
            let mut part = machine.clone();
            let left = left(found);
            let done = machine.left().unwrap().saturating_sub(left).min(*most);
            part.advance(done).unwrap();
            if bits(&part) == *found {
                *machine = part;
                return;
            }
        }
        call.apply(machine);
    }
    assert!(
        bits(machine) == *found,
        "the store is no prefix of its calls with the {} acknowledged",
        answers.len()
    );
}

/// The steps that a store has left.
fn left((_, words): &Bits) -> u64 {
    let faces = u64::from(words[1]);
    let states = words[2..130].chunks_exact(4).map(|state| [state[0], state[1], state[2]].map(u64::from));
    states.map(|[status, finished, done]| status.saturating_sub(1) * faces - finished * faces - done).sum()
}

// ---- Kills at random ----

/// Kills so many writers at random moments, one after the other on one store. They come within the time of so many
/// edits and the program's start, as this machine takes it.
fn kills(name: &str, rings: u32, count: u64, most_steps: u64, edits: u64) {
    let body = Body::globe(rings);
    let folder = Folder::new(name, &body);
    let mut machine = body.store();
    let mut rng = Rng(count);
    let within = pace(&folder, &mut machine, &mut rng, most_steps) * edits as u32;
    let mut acknowledged = 0;
    for round in 0..count {
        let calls: Vec<Call> = (0..10 * edits).map(|_| rng.call(most_steps)).collect();
        let writer = folder.writer(&calls);
        std::thread::sleep(within * rng.below(1000) as u32 / 1000);
        let answers = writer.kill();
        acknowledged += answers.len() as u64;
        catch_up(&mut machine, &calls, &answers, &read(&folder.store()));
        if round % 5 == 0 {
            folder.goes(&["verify", "store"]);
        }
    }
    let said = folder.goes(&["verify", "store"]);
    assert!(said.starts_with("verified "), "{said}");
    println!("{name}: {count} kills within {within:?}, {acknowledged} edits acknowledged");
    assert!(
        acknowledged > count * edits / 20,
        "{acknowledged} edits: the kills came too early to try anything"
    );
}

/// The time that an edit takes, from a few of them with the program's start.
fn pace(folder: &Folder, machine: &mut Store, rng: &mut Rng, most_steps: u64) -> Duration {
    let calls: Vec<Call> = (0..20).map(|_| rng.call(most_steps)).collect();
    let begun = Instant::now();
    let (answers, ..) = folder.writer(&calls).end();
    let took = begun.elapsed() / 20;
    catch_up(machine, &calls, &answers, &read(&folder.store()));
    took
}

#[test]
fn a_killed_writer_leaves_a_prefix_of_its_calls() {
    kills("short", 12, 25, 3000, 40);
}

/// The work of some seconds: the kill comes in one of its portions.
#[test]
fn killed_work_is_kept_but_for_the_portion_under_way() {
    let body = Body::globe(90);
    let folder = Folder::new("work", &body);
    let mut machine = body.store();
    let kernel = Kernel { c: [0.1, 0.0, 0.1], sigma: 3.0, w: 1e3, alpha: 2.5 };
    let puts: Vec<Call> = (0..32).map(|place| Call::Put(place, kernel, 0)).collect();
    let (answers, status, said) = folder.writer(&puts).end();
    assert_eq!((answers.len(), status), (32, Some(0)), "{said}");
    puts.iter().for_each(|put| drop(put.apply(&mut machine)));
    for wait in [300, 700] {
        let before = left(&read(&folder.store()));
        let writer = folder.writer(&[Call::Advance(u64::MAX)]);
        // a portion is kept, and the kill comes in a later one
        let begun = Instant::now();
        while before > 0 && left(&read(&folder.store())) == before {
            assert!(begun.elapsed() < Duration::from_secs(120), "no portion was kept");
            std::thread::sleep(Duration::from_millis(20));
        }
        std::thread::sleep(Duration::from_millis(wait));
        let answers = writer.kill();
        let found = read(&folder.store());
        catch_up(&mut machine, &[Call::Advance(u64::MAX)], &answers, &found);
    }
    folder.goes(&["verify", "store"]);
}

#[test]
#[ignore = "some minutes: host/test --long"]
fn five_hundred_killed_writers_leave_prefixes_of_their_calls() {
    kills("long-edits", 12, 300, 3000, 40);
    kills("long-work", 60, 100, 1_000_000, 20);
    kills("long-start", 12, 100, 3000, 4);
}

// ---- Kills at every call of the system ----

/// The calls of the system by which a folder is read and written.
const CALLS: [&str; 11] = [
    "mkdir",
    "openat",
    "flock",
    "read",
    "ftruncate",
    "write",
    "fsync",
    "fdatasync",
    "rename",
    "unlink",
    "close",
];

/// Has a command killed at its first call of the system of each kind, at its second and so on, each time on the
/// folder as it was; what it had printed and left is looked at. That takes strace, which sends the kill before the
/// call is made; without it this is left out with a line.
fn kill_everywhere(folder: &Folder, words: &[&str], look: impl Fn(&str, &str)) {
    if Command::new("strace").arg("-V").output().is_err() {
        println!("skipped: no strace");
        return;
    }
    let kept = folder.0.join("kept");
    copy(&folder.store(), &kept);
    let mut kills = Vec::new();
    for kind in CALLS {
        let ends = |count: &usize| {
            copy(&kept, &folder.store());
            let inject = format!("inject={kind}:signal=KILL:when={count}");
            let mut command = Command::new("strace");
            command.args(["-f", "-o", "/dev/null", "-e", &inject, env!("CARGO_BIN_EXE_cauchy")]);
            let output = command.args(words).current_dir(&folder.0).output().unwrap();
            look(&format!("{kind} {count}"), &String::from_utf8_lossy(&output.stdout));
            output.status.success()
        };
        let end = (1..).find(ends).unwrap_or_default();
        kills.push(format!("{kind} {}", end - 1));
    }
    println!("{words:?}: killed at each of {}", kills.join(", "));
    assert!(kills.iter().any(|kill| kill == "rename 1" || kill == "rename 2"), "{kills:?}");
}

/// Makes a folder's files those of another; where that is not there, there is none.
fn copy(from: &Path, to: &Path) {
    let _ = fs::remove_dir_all(to);
    if !from.exists() {
        return;
    }
    fs::create_dir(to).unwrap();
    for entry in fs::read_dir(from).unwrap().map(|entry| entry.unwrap()) {
        fs::copy(entry.path(), to.join(entry.file_name())).unwrap();
    }
}

#[test]
#[ignore = "some minutes: host/test --long"]
fn a_kill_at_any_call_of_the_system_leaves_one_state_or_the_other() {
    let body = Body::globe(5);
    let folder = Folder::new("everywhere", &body);
    let mut machine = body.store();
    let kernel = Kernel { c: [0.1, 0.0, 0.1], sigma: 3.0, w: 1e3, alpha: 2.5 };
    for edit in [Call::Put(3, kernel, 1), Call::Advance(77), Call::Squeeze, Call::Clear(3)] {
        let before = bits(&machine);
        let answer = edit.apply(&mut machine) + "\n";
        let after = bits(&machine);
        fs::write(folder.0.join("one"), edit.line()).unwrap();
        kill_everywhere(&folder, &["edit", "store", "one"], |call, printed| {
            let found = read(&folder.store());
            assert!(found == before || found == after, "{} killed at {call}", edit.line());
            assert!(found == after || printed != answer, "{} was acknowledged at {call}", edit.line());
            folder.goes(&["verify", "store"]);
        });
        assert!(read(&folder.store()) == after);
    }
}

#[test]
#[ignore = "some minutes: host/test --long"]
fn an_opening_that_is_killed_leaves_a_whole_store_or_none() {
    let body = Body::globe(5);
    let folder = Folder::new("opening", &body);
    fs::remove_dir_all(folder.store()).unwrap();
    let init = ["init", "store", "body.obj", "--mesh-unit", "m"];
    kill_everywhere(&folder, &init, |_, _| {
        if !folder.store().join("head").exists() {
            folder.goes(&init);
        }
        assert!(read(&folder.store()) == bits(&body.store()));
        folder.goes(&["verify", "store"]);
    });
}

// ---- What is on the disk before what ----

/// A kill does not show it, but a failure of the power would: what an edit writes, and in which order it is brought
/// to the disk, the answer last.
#[test]
fn what_an_edit_writes_is_on_the_disk_before_its_head_is_moved() {
    if Command::new("strace").arg("-V").output().is_err() {
        println!("skipped: no strace");
        return;
    }
    let folder = Folder::new("order", &Body::globe(5));
    let kept =
        "write log, fdatasync log, write head.new, fsync head.new, rename head, fsync store, write output";
    let mesh = "write mesh-2.new, fsync mesh-2.new, rename mesh-2, fsync store, ";
    let kernel = Kernel { c: [0.1, 0.0, 0.1], sigma: 3.0, w: 1e3, alpha: 2.5 };
    for (edit, order) in
        [(Call::Put(1, kernel, 0), kept.to_string()), (Call::Squeeze, mesh.to_string() + kept)]
    {
        fs::write(folder.0.join("one"), edit.line()).unwrap();
        let mut command = Command::new("strace");
        command.args(["-f", "-y", "-o", "trace", "-e", "trace=write,fsync,fdatasync,rename"]);
        command.args([env!("CARGO_BIN_EXE_cauchy"), "edit", "store", "one"]).current_dir(&folder.0);
        assert!(command.stdout(fs::File::create(folder.0.join("output")).unwrap()).output().is_ok());
        let trace = fs::read_to_string(folder.0.join("trace")).unwrap();
        let mut calls: Vec<String> =
            trace.lines().filter_map(traced).filter(|call| !call.ends_with(" lock")).collect();
        calls.dedup();
        assert_eq!(calls.join(", "), order, "{}", edit.line());
    }
}

/// A call of the system and the name of its file, from a line such as `77 fsync(5</store/head.new>) = 0`.
fn traced(line: &str) -> Option<String> {
    let (call, rest) =
        line.split_whitespace().nth(1).and_then(|_| line.split_once(' '))?.1.trim().split_once('(')?;
    let path = match call {
        "rename" => rest.split('"').nth(3)?,
        _ => rest.split_once('<')?.1.split_once('>')?.0,
    };
    Some(format!("{call} {}", path.rsplit('/').next()?))
}

// ---- Readers and other writers meanwhile ----

/// Has a writer make some calls and reads the store meanwhile. Answers how often it was read.
fn read_meanwhile(folder: &Folder, machine: &mut Store, calls: &[Call]) -> u64 {
    let mut states = vec![bits(machine)];
    for call in calls {
        call.apply(machine);
        states.push(bits(machine));
    }
    let mut writer = folder.writer(calls);
    let (mut last, mut reads) = (0, 0);
    while writer.child.try_wait().unwrap().is_none() {
        let seen = read(&folder.store());
        let state = states[last..].iter().position(|state| *state == seen);
        last += state.expect("a reader sees a committed state, and none that is older than the one before");
        // the program's own readers
        match reads % 8 {
            0 => drop(folder.goes(&["status", "store"])),
            4 => drop(folder.goes(&["verify", "store"])),
            _ => {}
        }
        reads += 1;
    }
    let (answers, ..) = writer.end();
    assert_eq!(answers.len(), calls.len());
    assert!(read(&folder.store()) == states[calls.len()]);
    reads
}

/// As many writers one after the other as it takes until the store was read often while they wrote.
#[test]
fn readers_see_committed_states_in_order() {
    let body = Body::globe(8);
    let folder = Folder::new("readers", &body);
    let mut machine = body.store();
    let mut rng = Rng(99);
    let (mut reads, mut rounds) = (0, 0);
    while reads < 40 {
        let calls: Vec<Call> = (0..120).map(|_| rng.call(2000)).collect();
        reads += read_meanwhile(&folder, &mut machine, &calls);
        rounds += 1;
        assert!(rounds < 100, "{reads} readings while {rounds} writers wrote");
    }
}

#[test]
fn another_writer_is_refused() {
    let body = Body::globe(180);
    let folder = Folder::new("writers", &body);
    let kernel = Kernel { c: [0.1, 0.0, 0.1], sigma: 3.0, w: 1e3, alpha: 2.5 };
    let mut calls: Vec<Call> = (0..32).map(|place| Call::Put(place, kernel, 0)).collect();
    calls.push(Call::Advance(u64::MAX));
    let writer = folder.writer(&calls);
    assert!(writer.answers.recv_timeout(Duration::from_secs(60)).is_ok());
    let refused = |words: &[&str]| {
        let output = folder.command(words).output().unwrap();
        let said = String::from_utf8(output.stderr).unwrap();
        let held = format!("cauchy: store: busy: process {} of ", writer.child.id());
        assert_eq!(output.status.code(), Some(1), "{words:?}: {said}");
        assert!(said.starts_with(&held) && said.contains(", cauchy edit, since "), "{words:?}: {said}");
    };
    refused(&["clear", "store", "0"]);
    refused(&["advance", "store"]);
    refused(&["squeeze", "store"]);
    folder.goes(&["status", "store"]);
    writer.kill();
    // the lock ends with its process
    folder.goes(&["clear", "store", "0"]);
    folder.goes(&["verify", "store"]);
}
