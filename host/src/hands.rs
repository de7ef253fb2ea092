//! Many hands: the work of one store in shares of whole places, each done on a copy of the store, with the same bits.
//!
//! Places are independent of each other, so a copy with all other places cleared does exactly the work of its own, and
//! [`Store::adopt`], a proved call, brings each place back.
use crate::{Adoption, PLACES, Refusal, Steps, Store};
use std::thread;

impl Store {
    /// The places with work left in at most so many shares, as even as whole places allow: the place with the most
    /// steps left goes first, each to the share that has the fewest steps so far. No share is empty.
    ///
    /// ```
    /// # use cauchy::{Kernel, Mesh, Store};
    /// # let mesh = Mesh { vertices: &[[0.0; 3]; 3], faces: &[[0, 1, 2]; 10] };
    /// let mut store = Store::open(500.0, mesh)?;
    /// let kernel = Kernel { c: [0.0; 3], sigma: 0.01, w: 300.0, alpha: 1.0 };
    /// for place in [3, 7, 9] {
    ///     store.put(place, kernel)?;
    /// }
    /// store.put(20, Kernel { alpha: 2.0, ..kernel })?;
    /// assert_eq!(store.shares(2), [vec![20], vec![3, 7, 9]]);
    /// assert_eq!(store.shares(9), [[20], [3], [7], [9]]);
    /// store.advance(u64::MAX)?;
    /// assert!(store.shares(2).is_empty());
    /// # Ok::<(), Box<dyn std::error::Error>>(())
    /// ```
    pub fn shares(&self, workers: usize) -> Vec<Vec<u32>> {
        let mut places: Vec<(u64, u32)> = (0..PLACES).map(|place| (self.left_at(place), place)).collect();
        places.retain(|(left, _)| *left > 0);
        // this sort keeps places with as much left in their order
        places.sort_by_key(|(left, _)| std::cmp::Reverse(*left));
        let mut shares = vec![(0, vec![]); workers.max(1).min(places.len())];
        for (left, place) in places {
            if let Some((load, share)) = shares.iter_mut().min_by_key(|(load, _)| *load) {
                *load += left;
                share.push(place);
            }
        }
        shares.into_iter().map(|(_, share)| share).collect()
    }

    /// A copy of the store in which every place but these is empty. One of them that is empty stays so.
    ///
    /// ```
    /// # use cauchy::{Kernel, Mesh, Refusal, Store};
    /// # let mesh = Mesh { vertices: &[[0.0; 3]; 3], faces: &[[0, 1, 2]; 10] };
    /// # let kernel = Kernel { c: [0.0; 3], sigma: 0.01, w: 300.0, alpha: 1.0 };
    /// let mut store = Store::open(500.0, mesh)?;
    /// store.put(3, kernel)?;
    /// store.put(7, kernel)?;
    /// let worker = store.worker(&[7, 8])?;
    /// assert_eq!((worker.held(3), worker.held(7)), (None, store.held(7)));
    /// assert_eq!(store.worker(&[32]).unwrap_err(), Refusal::NoPlace);
    /// # Ok::<(), Box<dyn std::error::Error>>(())
    /// ```
    pub fn worker(&self, places: &[u32]) -> Result<Store, Refusal> {
        if places.iter().any(|place| *place >= PLACES) {
            return Err(Refusal::NoPlace);
        }
        let mut worker = self.clone();
        for place in (0..PLACES).filter(|place| self.held(*place).is_some() && !places.contains(place)) {
            worker.clear(place)?;
        }
        Ok(worker)
    }

    /// Does all work that is left, on so many threads. Each works on a copy of the store that has its share of the
    /// places alone, and the places come back by [`Store::adopt`]: the store is then, bit for bit, the one that
    /// [`Store::advance`] makes. Where there is one thread or one place it is that call. What a thread that the system
    /// does not start would have done is done here.
    ///
    /// ```
    /// # use cauchy::{Kernel, Mesh, Steps, Store};
    /// # let mesh = Mesh { vertices: &[[0.0; 3]; 3], faces: &[[0, 1, 2]; 10] };
    /// # let kernel = Kernel { c: [0.0; 3], sigma: 0.01, w: 300.0, alpha: 1.0 };
    /// let mut store = Store::open(500.0, mesh)?;
    /// store.put(3, kernel)?;
    /// store.put(7, kernel)?;
    /// let mut alone = store.clone();
    /// assert_eq!(store.advance_with(2)?, Steps { done: 20, left: 0 });
    /// alone.advance(20)?;
    /// assert_eq!(store.to_bytes(), alone.to_bytes());
    /// # Ok::<(), Box<dyn std::error::Error>>(())
    /// ```
    pub fn advance_with(&mut self, threads: usize) -> Result<Steps, Refusal> {
        let shares = self.shares(threads);
        if shares.len() < 2 {
            return self.advance(u64::MAX);
        }
        let before = self.left()?;
        for (share, worker) in shares.iter().zip(self.hands(&shares)?) {
            if let Some(worker) = worker? {
                self.take(share, &worker)?;
            }
        }
        let left = self.advance(u64::MAX)?.left;
        Ok(Steps { done: before - left, left })
    }

    /// A worker for each share, when its work is done; none where the system starts no thread.
    fn hands(&self, shares: &[Vec<u32>]) -> Result<Vec<Result<Option<Store>, Refusal>>, Refusal> {
        let workers =
            shares.iter().map(|share| self.worker(share)).collect::<Result<Vec<Store>, Refusal>>()?;
        let work = |mut worker: Store| worker.advance(u64::MAX).map(|_| Some(worker));
        Ok(thread::scope(|scope| {
            let start = |worker| thread::Builder::new().spawn_scoped(scope, move || work(worker)).ok();
            let started: Vec<_> = workers.into_iter().map(start).collect();
            let ended = started.into_iter().map(|thread| match thread.map(|thread| thread.join()) {
                None => Ok(None),
                Some(told) => told.unwrap_or_else(|panic| std::panic::resume_unwind(panic)),
            });
            ended.collect()
        }))
    }

    /// Takes places of a worker of this store. Its body is the same, so nothing else comes of it.
    fn take(&mut self, places: &[u32], worker: &Store) -> Result<(), Refusal> {
        let mut adopt = |place: &u32| match self.adopt(*place, worker, *place)? {
            Adoption::Taken { .. } => Ok(()),
            Adoption::AnotherBody => Err(Refusal::Unsound),
        };
        places.iter().try_for_each(&mut adopt)
    }
}
