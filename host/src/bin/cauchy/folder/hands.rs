//! An advance by many hands: processes of this program, each the worker of a share of the places, whose parts come in
//! while they work. A hand that dies costs only the portion of its own places that was under way; the rest is done
//! here.
use super::adopt::steps;
use super::part::Part;
use super::writer::Writer;
use crate::failure::Result;
use crate::interrupt;
use crate::output::say;
use crate::page::entry;
use crate::work::Bar;
use cauchy::{PLACES, Steps, Store};
use std::fs;
use std::io::Read;
use std::path::{Path, PathBuf};
use std::process::{Child, ChildStdin, Command, ExitStatus, Stdio};
use std::time::{Duration, Instant};

/// What a hand is told by: it then ends when its standard input does.
pub const VARIABLE: &str = "CAUCHY_HAND";

/// The work, in steps, below which no processes are started of the program's own accord: about a second of one core.
const LITTLE: u64 = 8_000_000;
/// How often it is asked whether hands work still.
const ASK: Duration = Duration::from_millis(10);
/// How often the parts are looked at, for the bar.
const LOOK: Duration = Duration::from_millis(200);
/// How often they are taken in.
const TAKE: Duration = Duration::from_secs(2);

/// The shares of the work that is left for so many processes; where that is not said, one for each processor, but one
/// alone where little is left.
pub fn shares(store: &Store, jobs: Option<usize>) -> Vec<Vec<u32>> {
    let processors = || std::thread::available_parallelism().map_or(1, usize::from);
    let is_little = left(store) < LITTLE;
    store.shares(jobs.unwrap_or_else(|| if is_little { 1 } else { processors() }))
}

fn left(store: &Store) -> u64 {
    (0..PLACES).map(|place| store.left_at(place)).sum()
}

/// Whether a name is that of a hand's part, or of one that is being written.
pub fn is_part(name: &str) -> bool {
    name.starts_with("work-") && name.contains(".part")
}

/// The parts that hands have left in a folder.
pub fn parts(folder: &Path) -> Vec<PathBuf> {
    let paths = fs::read_dir(folder).into_iter().flatten().flatten().map(|entry| entry.path());
    let is_part = |path: &PathBuf| path.file_name().and_then(|name| name.to_str()).is_some_and(is_part);
    paths.filter(is_part).collect()
}

/// Does the work that is left by a hand for each share, and commits it as it comes in. An interrupt ends each hand
/// after its portion.
pub fn advance(writer: &mut Writer, shares: &[Vec<u32>]) -> Result<Steps> {
    let before = left(&writer.store);
    let folder = writer.commits.folder().to_path_buf();
    let start = |(number, share): (usize, &Vec<u32>)| Hand::start(&folder, number, share).ok();
    let mut hands: Vec<Hand> = (1..).zip(shares).filter_map(start).collect();
    // the mesh is read while they begin
    let begun = shares.iter().flatten().map(|place| steps(&writer.store, *place)).sum();
    writer.whole()?;
    follow(writer, &mut hands, begun, before)?;
    let faults: Vec<String> = hands.iter_mut().filter_map(Hand::fault).collect();
    if !faults.is_empty() {
        say(&entry("workers", &faults))?;
    }
    drop(hands);
    if left(&writer.store) > 0 && !interrupt::asked() {
        writer.advance(None)?;
    }
    let left = left(&writer.store);
    Ok(Steps { done: before - left, left })
}

/// Shows the steps of all hands, which begin from so many with so many to do, and takes in their parts until all have
/// ended.
fn follow(writer: &mut Writer, hands: &mut [Hand], begun: u64, asked: u64) -> Result<()> {
    let (mut bar, mut looked, mut taken) = (Bar::new(), Instant::now(), Instant::now());
    while hands.iter_mut().any(Hand::is_working) {
        std::thread::sleep(ASK);
        if interrupt::asked() {
            hands.iter_mut().for_each(Hand::stop);
        }
        if looked.elapsed() >= LOOK {
            let done = hands.iter_mut().map(Hand::look).sum::<u64>().saturating_sub(begun);
            bar.show(done.clamp(1, asked), asked);
            looked = Instant::now();
        }
        if taken.elapsed() >= TAKE {
            hands.iter_mut().try_for_each(|hand| hand.take(writer))?;
            taken = Instant::now();
        }
    }
    bar.end();
    hands.iter_mut().try_for_each(|hand| hand.take(writer))
}

/// A process that works on a share of the places.
struct Hand {
    number: usize,
    places: Vec<u32>,
    child: Child,
    /// When this is closed, the process ends after its portion.
    input: Option<ChildStdin>,
    ended: Option<ExitStatus>,
    path: PathBuf,
    /// The steps of its part as it was last seen, and as it was last taken in.
    seen: u64,
    taken: u64,
}

impl Hand {
    fn start(folder: &Path, number: usize, places: &[u32]) -> std::io::Result<Hand> {
        let path = folder.join(format!("work-{}-{number}.part", std::process::id()));
        let list = places.iter().map(u32::to_string).collect::<Vec<_>>().join(",");
        let mut command = Command::new(std::env::current_exe()?);
        command.arg("work").arg(format!("--places={list}")).arg("--out").arg(&path).arg("--").arg(folder);
        command.env(VARIABLE, "1").stdin(Stdio::piped()).stdout(Stdio::null()).stderr(Stdio::piped());
        let mut child = command.spawn()?;
        let input = child.stdin.take();
        Ok(Hand { number, places: places.to_vec(), child, input, ended: None, path, seen: 0, taken: 0 })
    }

    fn is_working(&mut self) -> bool {
        if self.ended.is_none() {
            self.ended = self.child.try_wait().ok().flatten();
        }
        self.ended.is_none()
    }

    fn stop(&mut self) {
        self.input = None;
    }

    /// The part as it is now, where there is one.
    fn part(&self) -> Option<Part> {
        let bytes = fs::read(&self.path).ok()?;
        Part::parse(&self.path, &bytes).ok()
    }

    /// The steps that its places have by its part.
    fn look(&mut self) -> u64 {
        self.seen = self.part().map_or(self.seen, |part| part.steps());
        self.seen
    }

    /// Takes in what is new of its part.
    fn take(&mut self, writer: &mut Writer) -> Result<()> {
        let Some(part) = self.part().filter(|part| part.steps() > self.taken) else {
            return Ok(());
        };
        writer.adopt(&self.path, &part)?;
        self.taken = part.steps();
        Ok(())
    }

    /// What is to be said where it did not end as it should.
    fn fault(&mut self) -> Option<String> {
        let status = self.ended.filter(|status| !status.success() && !interrupt::asked())?;
        let mut said = String::new();
        let _ = self.child.stderr.take().map(|mut stderr| stderr.read_to_string(&mut said));
        let said = said.lines().next().map_or(String::new(), |line| format!(" ({line})"));
        let places = self.places.iter().map(u32::to_string).collect::<Vec<_>>().join(", ");
        let number = self.number;
        Some(format!(
            "Note: worker {number} of places {places} ended early, {status}{said}; its rest is done here"
        ))
    }
}

/// Whatever happens, no process is left, and no part of one.
impl Drop for Hand {
    fn drop(&mut self) {
        self.stop();
        let _ = self.child.wait();
        let _ = fs::remove_file(&self.path);
    }
}
