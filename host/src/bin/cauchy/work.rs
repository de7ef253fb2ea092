//! The work, in portions of a fifth of a second, with a bar on a terminal and snapshots between portions.
use crate::failure::{Failure, Result};
use crate::interrupt;
use crate::output::Output;
use cauchy::{Refusal, Steps, Store};
use std::io::{IsTerminal, Write, stderr};
use std::time::{Duration, Instant};

const PORTION_TIME: Duration = Duration::from_millis(200);
const SNAPSHOT_TIME: Duration = Duration::from_secs(30);

/// Does the steps that are left, or the first `limit` of them, and keeps a snapshot. An interrupt ends it after the portion
/// under way.
pub fn work(store: &mut Store, limit: Option<u64>, snapshot: Option<&Output>) -> Result<Steps> {
    let left = store.left().map_err(refused)?;
    let asked = limit.map_or(left, |limit| limit.min(left));
    let mut bar = Bar::new();
    save(store, snapshot)?;
    let mut saved = Instant::now();
    let done = portions(store, asked, |store, steps| {
        bar.show(steps.done, asked);
        if saved.elapsed() > SNAPSHOT_TIME {
            save(store, snapshot)?;
            saved = Instant::now();
        }
        Ok(())
    })?;
    bar.end();
    if done > 0 {
        save(store, snapshot)?;
    }
    Ok(Steps { done, left: left - done })
}

/// Does so many steps of those that are left, in portions; after each the store and all steps done so far are told. An
/// interrupt ends it after the portion under way. Answers the steps done.
pub fn portions(
    store: &mut Store,
    asked: u64,
    mut after: impl FnMut(&Store, Steps) -> Result<()>,
) -> Result<u64> {
    let mut portion = Portion::of(store);
    let mut done = 0;
    while done < asked && !interrupt::asked() {
        let begun = Instant::now();
        let told = store.advance(portion.steps.min(asked - done)).map_err(refused)?;
        done += told.done;
        portion.adapt(begun.elapsed());
        after(store, Steps { done, left: told.left })?;
        if told.left == 0 {
            break;
        }
    }
    Ok(done)
}

pub fn refused(refusal: Refusal) -> Failure {
    Failure::Work(format!("work: {refusal}"))
}

fn save(store: &Store, snapshot: Option<&Output>) -> Result<()> {
    snapshot.map_or(Ok(()), |output| output.write(&store.to_bytes()))
}

/// How many steps one call is given: never fewer than the faces, which each call looks over.
struct Portion {
    least: u64,
    steps: u64,
}

impl Portion {
    fn of(store: &Store) -> Portion {
        let least = u64::from(store.faces()).max(4096);
        Portion { least, steps: least }
    }

    fn adapt(&mut self, took: Duration) {
        if took < PORTION_TIME / 2 {
            self.steps = self.steps.saturating_mul(2);
        } else if took > PORTION_TIME * 2 {
            self.steps = (self.steps / 2).max(self.least);
        }
    }
}

/// A bar on standard error, where that is a terminal.
pub struct Bar {
    begun: Instant,
    on_terminal: bool,
    shown: bool,
}

impl Bar {
    pub fn new() -> Bar {
        Bar { begun: Instant::now(), on_terminal: stderr().is_terminal(), shown: false }
    }

    pub fn show(&mut self, done: u64, asked: u64) {
        if self.on_terminal {
            eprint!("\r{}\x1b[K", bar_line(done, asked, self.begun.elapsed()));
            let _ = stderr().flush();
            self.shown = true;
        }
    }

    pub fn end(&self) {
        if self.shown {
            eprint!("\r\x1b[K");
        }
    }
}

fn bar_line(done: u64, asked: u64, took: Duration) -> String {
    const WIDTH: usize = 40;
    let part = done as f64 / asked as f64;
    let full = (part * WIDTH as f64) as usize;
    let left = took.as_secs_f64() * (1.0 - part) / part;
    let (full_part, rest) = ("#".repeat(full), "-".repeat(WIDTH - full));
    format!("[{full_part}{rest}] {:3.0} %  {} left", part * 100.0, time(left))
}

/// A time in words.
pub fn time(seconds: f64) -> String {
    let seconds = seconds.ceil() as u64;
    match seconds {
        0..60 => format!("{seconds} s"),
        60..3600 => format!("{} min {} s", seconds / 60, seconds % 60),
        _ => format!("{} h {} min", seconds / 3600, seconds % 3600 / 60),
    }
}

#[cfg(test)]
mod tests {
    use super::*;

    #[test]
    fn the_bar_tells_part_and_time_left() {
        let line = bar_line(250, 1000, Duration::from_secs(30));
        assert_eq!(line, "[##########------------------------------]  25 %  1 min 30 s left");
        let line = bar_line(1000, 1000, Duration::from_secs(30));
        assert_eq!(line, "[########################################] 100 %  0 s left");
        assert_eq!(time(7300.0), "2 h 1 min");
    }

    #[test]
    fn portions_follow_the_time_that_they_take() {
        let mut portion = Portion { least: 4096, steps: 4096 };
        portion.adapt(Duration::from_millis(1));
        assert_eq!(portion.steps, 8192);
        portion.adapt(Duration::from_millis(200));
        assert_eq!(portion.steps, 8192);
        portion.adapt(Duration::from_secs(1));
        portion.adapt(Duration::from_secs(1));
        assert_eq!(portion.steps, 4096);
    }
}
