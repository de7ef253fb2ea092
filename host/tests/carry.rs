//! A store of the form before layers, carried over. The snapshot in `data` is of a half worked store, and the
//! answers beside it are those of the version that wrote it, as it went on; `data/make.py` tells how both were
//! made. That version stood before L2 too, so its pieces are of other powers: they must go across as they are held.
use cauchy::{Convention, Kernel, OpenError, PLACES, Refusal, SnapshotError, Store};
use std::collections::VecDeque;

const SNAPSHOT: &[u8] = include_bytes!("data/before-layers.snapshot");
const ANSWERS: &str = include_str!("data/before-layers.answers");

/// The old runs, read from the snapshot by hand.
fn old_runs() -> (Vec<f64>, Vec<u32>) {
    let number = |at: usize| u64::from_le_bytes(SNAPSHOT[at..at + 8].try_into().unwrap());
    let (n_floats, n_words) = (number(8) as usize, number(16) as usize);
    let floats = (0..n_floats).map(|i| f64::from_bits(number(24 + 8 * i)));
    let words = SNAPSHOT[24 + 8 * n_floats..].chunks(4).take(n_words);
    (floats.collect(), words.map(|word| u32::from_le_bytes(word.try_into().unwrap())).collect())
}

/// The fields of a line: floats by their bits, and counts.
struct Fields<'a>(VecDeque<&'a str>);

impl Fields<'_> {
    fn count(&mut self) -> u64 {
        self.0.pop_front().unwrap().parse().unwrap()
    }

    fn bits(&mut self) -> u64 {
        u64::from_str_radix(self.0.pop_front().unwrap(), 16).unwrap()
    }

    fn float(&mut self) -> f64 {
        f64::from_bits(self.bits())
    }

    fn convention(&mut self) -> Convention {
        match (self.count(), self.float(), self.float()) {
            (0, ..) => Convention::Raw,
            (1, _, bulk) => Convention::Rho0 { bulk },
            (_, target, bulk) => Convention::Mass { target, bulk },
        }
    }
}

/// Makes the calls of all lines, in order, and finds each answer as the old version gave it, bit for bit. Answers how
/// many.
fn goes_on(store: &mut Store) -> usize {
    let mut by = Convention::Raw;
    let (mut pieces, mut page) = (VecDeque::new(), None);
    for line in ANSWERS.lines() {
        let (word, rest) = line.split_once(' ').unwrap();
        let mut fields = Fields(rest.split_whitespace().collect());
        match word {
            "state" => {
                let (place, faces) = (fields.count() as u32, u64::from(store.faces()));
                let [status, finished, done] = [fields.count(), fields.count(), fields.count()];
                let held = store.held(place).unwrap();
                assert_eq!((u64::from(held.pieces), held.layer), (status - 1, 0), "{line}");
                assert_eq!(store.left_at(place), (status - 1 - finished) * faces - done, "{line}");
            }
            "left" => assert_eq!(store.left(), Ok(fields.count()), "{line}"),
            "advance" => {
                let told = store.advance(fields.count()).unwrap();
                assert_eq!((told.done, told.left), (fields.count(), fields.count()), "{line}");
            }
            "by" => by = fields.convention(),
            "density" => {
                let point = [fields.float(), fields.float(), fields.float()];
                assert_eq!(store.density(by, point).unwrap().to_bits(), fields.bits(), "{line}");
            }
            "report" => {
                let told = store.report(by).unwrap();
                let m = told.mass;
                let masses = [m.raw_mass, m.rho0_scale, m.rho0_mass, m.applied_scale, m.applied_mass];
                for x in masses.into_iter().chain([m.target_mass, m.volume]) {
                    assert_eq!(x.to_bits(), fields.bits(), "{line}");
                }
                assert_eq!(
                    (told.kernels.into(), told.pieces.into()),
                    (fields.count(), fields.count()),
                    "{line}"
                );
                assert_eq!(told.error.to_bits(), fields.bits(), "{line}");
                assert!(pieces.is_empty());
                pieces = store.list(by).unwrap().into();
            }
            "piece" => {
                let Kernel { c: [x, y, z], sigma, w, alpha } = pieces.pop_front().unwrap();
                for x in [x, y, z, sigma, w, alpha] {
                    assert_eq!(x.to_bits(), fields.bits(), "{line}");
                }
            }
            "page" => {
                let page = page.get_or_insert_with(|| {
                    VecDeque::from_iter(store.page().unwrap().lines().map(str::to_owned))
                });
                assert_eq!(page.pop_front().as_deref(), Some(rest));
            }
            _ => panic!("{line}"),
        }
    }
    assert!(pieces.is_empty() && page.is_some_and(|page| page.is_empty()));
    ANSWERS.lines().count()
}

#[test]
fn a_snapshot_of_the_version_before_layers_goes_on_as_it_did() {
    let mut store = Store::from_bytes(SNAPSHOT).unwrap();
    assert!(store.carried() && store.clone().carried());
    assert!(goes_on(&mut store) > 100);
    // a snapshot of it is of the form with layers, and goes on the same way
    let store = Store::from_bytes(SNAPSHOT).unwrap();
    let mut again = Store::from_bytes(&store.to_bytes()).unwrap();
    assert!(!again.carried());
    goes_on(&mut again);
}

#[test]
fn a_carry_of_the_runs_is_the_snapshots_store() {
    let (mut floats, mut words) = old_runs();
    let store = Store::from_bytes(SNAPSHOT).unwrap();
    let mut carried = Store::carry_from_old(&floats, &words).unwrap();
    assert_eq!(carried.to_bytes(), store.to_bytes());
    goes_on(&mut carried);
    // what stands past the old store's own is left behind
    floats.push(f64::NAN);
    words.extend([1, 2]);
    assert_eq!(Store::carry_from_old(&floats, &words).unwrap().to_bytes(), store.to_bytes());
}

/// Otherwise the snapshot would say nothing of pieces that go across as they are held.
#[test]
fn pieces_of_the_version_before_are_not_fitted_anew() {
    let store = Store::from_bytes(SNAPSHOT).unwrap();
    let mut list = VecDeque::from(store.list(Convention::Raw).unwrap());
    let mut apart = 0;
    for held in (0..PLACES).filter_map(|place| store.held(place)) {
        let pieces: Vec<Kernel> = list.drain(..held.pieces as usize).collect();
        let again = Kernel { w: 1.0, ..held.kernel }.pieces(store.radius()).unwrap();
        assert_eq!(again.kernels.len(), pieces.len());
        let weighed = again.kernels.into_iter().map(|piece| Kernel { w: held.kernel.w * piece.w, ..piece });
        let same = weighed.zip(&pieces).all(|(a, b)| (a.sigma, a.w) == (b.sigma, b.w));
        apart += u32::from(!same);
        assert_eq!(same, again.error.to_bits() == held.error.to_bits());
    }
    assert!(apart > 0);
}

#[test]
fn a_put_after_the_carry_is_as_in_any_store() {
    let mut store = Store::from_bytes(SNAPSHOT).unwrap();
    let (left, held) = (store.left().unwrap(), store.held(9).unwrap());
    let told = store.put_in(9, held.kernel, 4).unwrap();
    let again = held.kernel.pieces(store.radius()).unwrap();
    assert_eq!((told.pieces as usize, told.fit), (again.kernels.len(), again.fit));
    assert_eq!(store.held(9).map(|held| (held.layer, held.error)), Some((4, again.error)));
    assert!(store.left().unwrap() > left);
}

#[test]
fn old_runs_that_hold_no_store_are_refused() {
    let (floats, words) = old_runs();
    let refusal = |floats: &[f64], words: &[u32]| match Store::carry_from_old(floats, words) {
        Err(OpenError::Refused(refusal)) => refusal,
        other => panic!("{other:?}"),
    };
    assert_eq!(refusal(&floats, &[]), Refusal::ShortStore);
    assert_eq!(refusal(&[], &words), Refusal::ShortStore);
    assert_eq!(refusal(&floats, &words[..97]), Refusal::ShortStore);
    assert_eq!(refusal(&floats, &words[..words.len() - 1]), Refusal::ShortStore);
    assert_eq!(refusal(&floats[..1761 + 3 * words[0] as usize - 1], &words), Refusal::ShortStore);
    for (at, to, wanted) in [
        (0, u32::MAX, Refusal::ShortStore),
        (1, u32::MAX, Refusal::ShortStore),
        (2, 18, Refusal::Unsound),
        (4, words[1], Refusal::Unsound),
        (98, words[0], Refusal::Unsound),
        (words.len() - 1, u32::MAX, Refusal::Unsound),
    ] {
        let mut damaged = words.clone();
        damaged[at] = to;
        assert_eq!(refusal(&floats, &damaged), wanted, "word {at}");
    }
}

#[test]
fn a_damaged_old_snapshot_is_refused() {
    for at in (8..SNAPSHOT.len()).step_by(97) {
        let mut bytes = SNAPSHOT.to_vec();
        bytes[at] ^= 1 << (at % 8);
        let fault = Store::from_bytes(&bytes).unwrap_err();
        assert!(matches!(fault, SnapshotError::Length | SnapshotError::Checksum), "byte {at}: {fault}");
        assert_eq!(Store::from_bytes(&SNAPSHOT[..at]).unwrap_err(), SnapshotError::Length);
    }
    // the same bytes as a snapshot of the form with layers are no store of it
    let mut other = SNAPSHOT.to_vec();
    other[7] = b'2';
    assert_eq!(Store::from_bytes(&other).unwrap_err(), SnapshotError::Checksum);
}
