//! The work on some places of a folder, on a copy of its store, to a part of its own.
use super::adopt::steps;
use super::hands;
use super::part::Part;
use crate::failure::{Failure, Result, is_standard};
use crate::figures::counted;
use crate::interrupt;
use crate::output::{Output, are_one, say};
use crate::page::{self, entry};
use crate::work::{self, Bar};
use cauchy::PLACES;
use std::io::Read;
use std::path::Path;
use std::time::{Duration, Instant};

/// How often the part is written.
const KEPT: Duration = Duration::from_secs(1);

/// Does the work that is left of these places, and writes the part about each second and at the end. The folder is only
/// read, and has no lock meanwhile.
pub fn work(dir: &Path, places: &[u32], out: &Path, overwrite: bool) -> Result<()> {
    let is_hand = std::env::var_os(hands::VARIABLE).is_some();
    if !is_hand && out.parent().is_some_and(|folder| are_one(&folder.join("head"), &dir.join("head"))) {
        return Err(Failure::of_file(out, "is in the store's folder; keep parts elsewhere"));
    }
    let output = Output::prepare(out, overwrite)?;
    let (head, store) = super::committed(dir, super::store)?;
    let mut worker = store.worker(places).map_err(work::refused)?;
    drop(store);
    interrupt::watch();
    if is_hand {
        stop_with_input();
    }
    let left = worker.left().map_err(work::refused)?;
    let (mut bar, mut kept) = (Bar::new(), Instant::now());
    let done = work::portions(&mut worker, left, |worker, steps| {
        bar.show(steps.done, left);
        // standard output takes the part once
        if kept.elapsed() >= KEPT && !is_standard(out) {
            output.write(&Part::of(&head, worker).to_bytes())?;
            kept = Instant::now();
        }
        Ok(())
    });
    bar.end();
    let done = done?;
    output.write(&Part::of(&head, &worker).to_bytes())?;
    let held = (0..PLACES).filter(|place| worker.held(*place).is_some());
    let all: u64 = held.clone().map(|place| steps(&worker, place)).sum();
    let places = counted(held.count() as u64, "place");
    let said = [
        page::steps(done, left - done),
        format!("{} with {}: {}", places, counted(all, "step"), output.name()),
    ];
    say(&entry("work", &said))?;
    if interrupt::asked() { Err(Failure::Interrupted) } else { Ok(()) }
}

/// A worker of another process of this program ends with that: what it reads from there has then ended.
fn stop_with_input() {
    std::thread::spawn(|| {
        let _ = std::io::stdin().read_to_end(&mut Vec::new());
        interrupt::ask();
    });
}
