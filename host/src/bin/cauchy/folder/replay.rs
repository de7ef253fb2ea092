//! A log played again, from the opening on, into a fresh store.
//!
//! The work is done at the end and not line by line: an advance is only counted here, place by place, and the steps
//! that each place then has are done in one go. Work on a kernel that was cleared or replaced later is so left out.
//! That this gives the same words is no approximation: after every list of calls the two runs are a function of 01's
//! machine (`fields` of `Demand3`, crates/machine/specs/Demands.antt), and a place of that machine is a kernel, its
//! steps and its layer. Any other list of calls that ends in the same machine therefore leaves the same runs, and the
//! one that [`Replay::end`] makes does: it puts the kernels by falling place, so that each is the lowest one with
//! work left when its steps are done. An adoption is counted too: it names the steps that the place then has.
use super::call::{self, Answer, Call, Open};
use super::log::Entry;
use super::mesh::{self, Meshed, Sizes};
use crate::failure::{Failure, Result};
use crate::work::{self, Bar};
use cauchy::{Held, Mesh, PLACES, Refusal, Store};
use std::path::Path;

/// The store under way: every kernel is in its place, with all its work to do.
pub struct Replay {
    store: Store,
    /// The steps that each place has by the calls so far.
    steps: [u64; PLACES as usize],
    /// Whether a squeeze took vertices out.
    pub squeezed: bool,
}

/// The answer of a line that is another one now.
pub struct Mismatch {
    pub number: u64,
    pub now: String,
}

impl Replay {
    /// The opening that a log's first line tells, of the mesh beside it.
    pub fn open(folder: &Path, log: &[Entry]) -> Result<Replay> {
        let of_log = |what: &str| Failure::of_line(&folder.join(super::log::NAME), 1, what);
        let first = log.first().ok_or_else(|| of_log("damaged: the opening is missing"))?;
        let open = Open::parse(&first.call).ok_or_else(|| of_log("damaged: it is no opening"))?;
        if first.answer != open.answer() {
            return Err(of_log("damaged: the answer is not that of the opening"));
        }
        let path = mesh::path(folder, 1);
        let sizes = Sizes { vertices: open.vertices, faces: open.faces };
        let Meshed { floats, words, sums } = mesh::read(&path, sizes, &[], &[])?;
        sums.check(&path, open.mesh)?;
        let view = Mesh { vertices: floats.as_chunks().0, faces: words.as_chunks().0 };
        let store = Store::open(open.radius, view).map_err(|fault| Failure::of_file(&path, fault))?;
        Ok(Replay { store, steps: [0; PLACES as usize], squeezed: false })
    }

    /// Plays the lines after the opening, and answers those whose answer is another one now.
    pub fn play(&mut self, folder: &Path, log: &[Entry]) -> Result<Vec<Mismatch>> {
        let mut others = Vec::new();
        for entry in log.iter().skip(1) {
            let Some(call) = Call::parse(&entry.call) else {
                let line = entry.number as usize;
                return Err(Failure::of_line(&folder.join(super::log::NAME), line, "damaged: it is no call"));
            };
            let answer = self.call(call);
            if !answer.is(&entry.answer) {
                others.push(Mismatch { number: entry.number, now: answer.to_string() });
            }
        }
        Ok(others)
    }

    /// A call: one that is no work is made on the store.
    fn call(&mut self, call: Call) -> Answer {
        let answer = match call {
            Call::Advance(budget) => return self.advance(budget),
            Call::Adopt { place, steps } => {
                return self.adopt(place, steps).unwrap_or_else(Answer::Refused);
            }
            _ => call.apply(&mut self.store),
        };
        match answer {
            Answer::Placed { place, .. } | Answer::Cleared(place) => self.steps[place as usize] = 0,
            Answer::Squeezed { freed } => self.squeezed |= freed > 0,
            _ => {}
        }
        answer
    }

    /// The steps of an advance go to the lowest place that has some left, then to the next.
    fn advance(&mut self, budget: u64) -> Answer {
        let mut rest = budget;
        let mut left = 0;
        for place in 0..PLACES {
            let due = self.due(place) - self.steps[place as usize];
            let now = due.min(rest);
            self.steps[place as usize] += now;
            rest -= now;
            left += due - now;
        }
        Answer::Advanced { done: budget - rest, left }
    }

    /// A place gets the steps that were done elsewhere.
    fn adopt(&mut self, place: u32, steps: u64) -> std::result::Result<Answer, Refusal> {
        let due = call::due(&self.store, place)?;
        let done = steps.min(due);
        self.steps[place as usize] = done;
        let pieces = self.store.held(place).map_or(0, |held| held.pieces);
        Ok(Answer::Adopted { place, pieces, left: due - done })
    }

    /// All steps of a place.
    fn due(&self, place: u32) -> u64 {
        call::due(&self.store, place).unwrap_or(0)
    }

    /// The steps to be done.
    pub fn work(&self) -> u64 {
        self.steps.iter().sum()
    }

    /// Does them, and answers the store.
    pub fn end(mut self) -> Result<Store> {
        let held: [Option<Held>; PLACES as usize] =
            std::array::from_fn(|place| self.store.held(place as u32));
        for (place, _) in (0..).zip(&held).filter(|(_, held)| held.is_some()) {
            self.store.clear(place).map_err(work::refused)?;
        }
        let (all, mut before) = (self.work(), 0);
        let mut bar = Bar::new();
        for (place, held) in (0..PLACES).zip(held).rev() {
            let Some(held) = held else { continue };
            self.store.put_in(place, held.kernel, held.layer).map_err(work::refused)?;
            let due = self.steps[place as usize];
            let done = work::portions(&mut self.store, due, |_, steps| {
                bar.show(before + steps.done, all);
                Ok(())
            })?;
            if done < due {
                bar.end();
                return Err(Failure::Interrupted);
            }
            before += done;
        }
        bar.end();
        Ok(self.store)
    }
}

#[cfg(test)]
mod tests {
    use super::super::testing::{Rng, bits, made, opened};
    use super::super::writer::Writer;
    use super::*;
    use crate::folder::Folder;

    /// The very calls, one by one, against the replay that leaves work out.
    #[test]
    fn a_replay_makes_every_word_that_the_calls_make() {
        for seed in 0..40 {
            let (_scratch, path) = made();
            let mut store = opened();
            let mut rng = Rng(seed);
            let calls: Vec<Call> = (0..60).map(|_| rng.call()).collect();
            Writer::open(&path, "test").unwrap().apply(&calls).unwrap();
            let mut states = vec![bits(&store)];
            for call in calls {
                call.apply(&mut store);
                states.push(bits(&store));
            }
            assert!(bits(Folder::read(&path).unwrap().store()) == *states.last().unwrap(), "seed {seed}");
            for (line, state) in (1..).zip(&states).step_by(7) {
                let at = Folder::at(&path, line).unwrap();
                assert!(bits(at.store()) == *state, "seed {seed}, line {line}");
                assert_eq!(at.log().len() as u64, line);
            }
        }
    }

    #[test]
    fn work_on_a_kernel_that_is_gone_is_left_out() {
        let (_scratch, path) = made();
        let kernel = cauchy::Kernel { c: [1.0; 3], sigma: 0.01, w: 2.0, alpha: 1.0 };
        let put = |place| Call::Put { place, kernel, layer: 0 };
        let calls = [put(3), put(1), Call::Advance(6), put(1), Call::Advance(1), Call::Clear(3)];
        Writer::open(&path, "test").unwrap().apply(&calls).unwrap();
        let log = Folder::read(&path).unwrap().log;
        let mut replay = Replay::open(&path, &log).unwrap();
        assert!(replay.play(&path, &log).unwrap().is_empty());
        assert_eq!(replay.work(), 1);
    }

    #[test]
    fn an_answer_that_is_another_one_is_told() {
        let (_scratch, path) = made();
        Writer::open(&path, "test").unwrap().apply(&[Call::Clear(3), Call::Advance(5)]).unwrap();
        let mut log = Folder::read(&path).unwrap().log;
        log[1].answer = "(clear 3)".to_string();
        let mut replay = Replay::open(&path, &log).unwrap();
        let others = replay.play(&path, &log).unwrap();
        assert_eq!((others.len(), others[0].number), (1, 2));
        assert_eq!(others[0].now, "(no 7) vacant: the place is empty");
    }
}
