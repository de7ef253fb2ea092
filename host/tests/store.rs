//! The crate over the archive, as a user sees it.
use cauchy::{
    Adoption, Bill, Convention, Fit, Kernel, Layers, MAX_PIECES, MAX_TRACK, Mesh, OpenError, Placed, Refusal,
    SnapshotError, SolveError, Steps, Store, bill, density, solve,
};

const VERTICES: [[f64; 3]; 4] = [[0.0, 0.0, 0.0], [900.0, 0.0, 0.0], [0.0, 800.0, 0.0], [0.0, 0.0, 700.0]];
const FACES: [[u32; 3]; 4] = [[0, 2, 1], [0, 1, 3], [0, 3, 2], [1, 2, 3]];
const FLAT: Kernel = Kernel { c: [100.0, 150.0, 50.0], sigma: 0.002, w: 1200.0, alpha: 1.0 };
const STEEP: Kernel = Kernel { c: [50.0, 20.0, 90.0], sigma: 0.01, w: -300.0, alpha: 2.0 };
const BY_MASS: Convention = Convention::Mass { target: 1e11, bulk: 1190.0 };

fn opened() -> Store {
    Store::open(900.0, Mesh { vertices: &VERTICES, faces: &FACES }).unwrap()
}

fn filled() -> Store {
    let mut store = opened();
    store.put(2, FLAT).unwrap();
    store.put(30, STEEP).unwrap();
    store
}

#[test]
fn a_refusal_changes_no_byte() {
    let mut store = filled();
    let before = store.to_bytes();
    assert_eq!(store.put(32, FLAT), Err(Refusal::NoPlace));
    assert_eq!(store.clear(3), Err(Refusal::Vacant));
    assert_eq!(store.clear(u32::MAX), Err(Refusal::NoPlace));
    assert_eq!(store.reweigh(3, 1.0), Err(Refusal::Vacant));
    assert_eq!(store.reweigh(32, 1.0), Err(Refusal::NoPlace));
    assert_eq!(store.density(BY_MASS, [0.0; 3]), Err(Refusal::Unfinished));
    assert_eq!(store.list(BY_MASS), Err(Refusal::Unfinished));
    assert_eq!(store.densities(BY_MASS, &[]), Err(Refusal::Unfinished));
    assert_eq!(store.report(Convention::Raw), Err(Refusal::Unfinished));
    assert_eq!(store.to_bytes(), before);
}

#[test]
fn work_of_other_stores_ends_in_the_very_store_of_ones_own() {
    let mut whole = filled();
    whole.put_in(9, STEEP, 15).unwrap();
    let mut store = whole.clone();
    whole.advance(u64::MAX).unwrap();
    // each place is worked on in a store that has it alone, at a place of another number; the last one comes twice
    for (place, elsewhere) in [(30, 0), (2, 31), (9, 9), (9, 9)] {
        let mut worker = opened();
        let held = store.held(place).unwrap();
        worker.put_in(elsewhere, held.kernel, held.layer).unwrap();
        worker.advance(3).unwrap();
        let (pieces, left) = (held.pieces, worker.left().unwrap());
        assert_eq!(store.adopt(place, &worker, elsewhere), Ok(Adoption::Taken { pieces, left }));
        assert_eq!(store.left_at(place), left);
        worker.advance(u64::MAX).unwrap();
        assert_eq!(store.adopt(place, &worker, elsewhere), Ok(Adoption::Taken { pieces, left: 0 }));
    }
    assert_eq!(store.to_bytes(), whole.to_bytes());
}

#[test]
fn another_body_changes_no_byte() {
    let mut store = filled();
    let before = store.to_bytes();
    let mut adopt = |radius, vertices: &[[f64; 3]], faces: &[[u32; 3]]| {
        let mut other = Store::open(radius, Mesh { vertices, faces }).unwrap();
        other.put(2, STEEP).unwrap();
        let told = store.adopt(1, &other, 2).unwrap();
        assert_eq!(told == Adoption::AnotherBody, store.to_bytes() == before);
        told == Adoption::AnotherBody
    };
    let (mut minus, mut turned, more) = (VERTICES, FACES, [&VERTICES[..], &[[0.0; 3]]].concat());
    minus[1][2] = -0.0;
    turned[3] = [2, 3, 1];
    assert!(adopt(900.5, &VERTICES, &FACES));
    assert!(adopt(900.0, &minus, &FACES) && adopt(900.0, &more, &FACES));
    assert!(adopt(900.0, &VERTICES, &turned) && adopt(900.0, &VERTICES, &FACES[..3]));
    assert!(!adopt(900.0, &VERTICES, &FACES));
}

#[test]
fn every_nan_of_a_body_is_one() {
    let opened = |radius: u64, y: u64| {
        let (radius, mut vertices) = (f64::from_bits(radius), VERTICES);
        vertices[0][1] = f64::from_bits(y);
        let mut store = Store::open(radius, Mesh { vertices: &vertices, faces: &FACES }).unwrap();
        store.put(7, FLAT).unwrap();
        store
    };
    let mut store = opened(0xFFF0_0000_0000_0001, 0x7FF8_0000_0000_0000);
    let other = opened(0x7FF8_0000_0000_0000, 0xFFF8_0000_0000_0123);
    assert_eq!(store.adopt(0, &other, 7), Ok(Adoption::Taken { pieces: 1, left: 4 }));
    let infinite = opened(0x7FF8_0000_0000_0000, 0x7FF0_0000_0000_0000);
    assert_eq!(store.adopt(0, &infinite, 7), Ok(Adoption::AnotherBody));
}

#[test]
fn a_refused_adoption_changes_no_byte() {
    let (mut store, other) = (filled(), filled());
    let before = store.to_bytes();
    assert_eq!(store.adopt(32, &other, 3), Err(Refusal::NoPlace));
    assert_eq!(store.adopt(1, &other, 32), Err(Refusal::NoPlace));
    assert_eq!(store.adopt(1, &other, 3), Err(Refusal::Vacant));
    assert_eq!((store.to_bytes(), other.to_bytes()), (before.clone(), before));
}

#[test]
fn a_bad_mesh_is_refused() {
    let open = |vertices: &[[f64; 3]], faces: &[[u32; 3]]| match Store::open(1.0, Mesh { vertices, faces }) {
        Err(OpenError::Refused(refusal)) => refusal,
        other => panic!("{other:?}"),
    };
    assert_eq!(open(&[], &[[0, 0, 0]]), Refusal::LooseCorner);
    assert_eq!(open(&VERTICES, &[[0, 1, 4]]), Refusal::LooseCorner);
    assert_eq!(open(&vec![[0.0; 3]; 1_048_577], &[]), Refusal::Oversize);
    assert_eq!(open(&VERTICES, &vec![[0; 3]; 2_097_153]), Refusal::Oversize);
    assert!(Store::open(f64::NAN, Mesh { vertices: &[], faces: &[] }).is_ok());
}

#[test]
fn a_put_tells_how_its_fit_ended() {
    let mut store = opened();
    assert_eq!(store.put(0, FLAT).unwrap().fit, Fit::Kept);
    let told = store.put(1, STEEP).unwrap().fit;
    assert!(matches!(told, Fit::Fitted { pivot } if pivot > 1e-18 && pivot < 1.0), "{told:?}");
    // a decomposition on the store's radius tells the same, whatever the weight and the centre
    assert_eq!(Kernel { c: [7.0; 3], w: -1.0, ..STEEP }.pieces(900.0).unwrap().fit, told);
    let none = store.put(2, Kernel { alpha: f64::NAN, ..FLAT });
    assert_eq!(none, Ok(Placed { pieces: 0, need: 0, fit: Fit::NoExponent }));
    // sums that overflow leave a NaN among the pivots, which is told
    let wild = store.put(3, Kernel { alpha: f64::NEG_INFINITY, ..FLAT }).unwrap().fit;
    assert!(matches!(wild, Fit::Fitted { .. } | Fit::Fallback { .. }), "{wild:?}");
}

#[test]
fn a_flat_pivot_is_told_with_its_column() {
    let mut answer = [0.0; 2];
    assert_eq!(solve(2, &[4.0, 0.0, 8.0, 0.0, -0.5, 1.0], &mut answer), Ok(0.5));
    assert_eq!(answer, [2.0, -2.0]);
    assert_eq!(solve(0, &[], &mut answer), Ok(f64::INFINITY));
    assert!(solve(1, &[f64::NAN, 1.0], &mut answer).unwrap().is_nan());
    answer = [7.0, 7.0];
    let flat = solve(2, &[1.0, 1.0, 2.0, 1.0, 1.0, 2.0], &mut answer);
    assert_eq!((flat, answer), (Err(SolveError::FlatPivot { column: 1 }), [7.0, 7.0]));
    assert_eq!(solve(1, &[1e-18, 1.0], &mut answer), Err(SolveError::FlatPivot { column: 0 }));
    assert_eq!(solve(2, &[1.0; 5], &mut answer), Err(SolveError::BadMatrix));
    assert_eq!(Refusal::from(SolveError::FlatPivot { column: 3 }), Refusal::FlatPivot);
    assert_eq!(SolveError::BadMatrix.to_string(), Refusal::BadMatrix.to_string());
}

#[test]
fn steps_add_up() {
    let mut store = opened();
    assert_eq!(store.put(0, FLAT), Ok(Placed { pieces: 1, need: 4, fit: Fit::Kept }));
    let steep = store.put(5, STEEP).unwrap();
    assert_eq!((steep.pieces, steep.need), (13, 52));
    assert_eq!(store.advance(6), Ok(Steps { done: 6, left: 50 }));
    assert_eq!(store.reweigh(5, 9.0), Ok(()));
    assert_eq!(store.left(), Ok(50));
    assert_eq!(store.clear(5), Ok(()));
    assert_eq!(store.left(), Ok(0));
    assert_eq!(store.put(5, FLAT), Ok(Placed { pieces: 1, need: 4, fit: Fit::Kept }));
    assert_eq!(store.advance(u64::MAX), Ok(Steps { done: 4, left: 0 }));
}

/// Kernels of every kind: two that stay, one without an exponent, and others.
fn of_all_kinds() -> Vec<Kernel> {
    let alphas = [1.0, 1.0 + 0.5e-9, f64::NAN, 1.5, 2.0, 0.0, 2.5, -3.0, 40.0, f64::INFINITY, -f64::INFINITY];
    let sigmas = [0.01, 0.0, -2.0, 1e300, f64::NAN];
    let kernels = alphas.iter().zip(sigmas.iter().cycle());
    kernels.map(|(alpha, sigma)| Kernel { alpha: *alpha, sigma: *sigma, ..STEEP }).collect()
}

#[test]
fn no_put_and_no_list_takes_more_than_its_bill() {
    for radius in [900.0, 0.0, -1.0, 1e300, f64::INFINITY, f64::NAN] {
        let mut store = Store::open(radius, Mesh { vertices: &VERTICES, faces: &FACES }).unwrap();
        let mut charged = 0;
        for (place, kernel) in (0..).zip(of_all_kinds()) {
            let told = store.put(place, kernel).unwrap();
            let due = bill(&[kernel], 4, 4).unwrap();
            assert!(u64::from(told.need) <= due.steps, "{kernel:?}, radius {radius}");
            assert!(6 * u64::from(told.pieces) <= due.floats, "{kernel:?}, radius {radius}");
            let stays = (kernel.alpha - 1.0).abs() <= 1e-9;
            if stays || kernel.alpha.is_nan() {
                let exact = Bill { steps: told.need.into(), floats: 6 * u64::from(told.pieces) };
                assert_eq!((due, told.pieces), (exact, stays.into()));
            }
            charged += u64::from(told.need);
        }
        let due = bill(&of_all_kinds(), 4, 4).unwrap();
        let listed = store.list(Convention::Raw).unwrap();
        assert!(charged <= due.steps && store.left() == Ok(charged) && 6 * listed.len() as u64 <= due.floats);
    }
}

#[test]
fn a_bill_is_refused_and_never_cut_down() {
    let most = Bill { steps: 32 * 16 * 2_097_152, floats: 32 * 16 * 6 };
    let wide = [Kernel { alpha: 9.0, ..FLAT }; 33];
    assert_eq!(most.floats as usize, 32 * MAX_PIECES * 6);
    assert_eq!(bill(&wide[..32], 1_048_576, 2_097_152), Ok(most));
    assert_eq!(bill(&wide, 1_048_576, 2_097_152), Err(Refusal::ManyKernels));
    assert_eq!(bill(&[], 0, 0), Ok(Bill { steps: 0, floats: 0 }));
    for count in [1 << 32, (1 << 32) + 4, 1 << 63, usize::MAX] {
        assert_eq!(bill(&wide, count, 4), Err(Refusal::Oversize));
        assert_eq!(bill(&[FLAT], 4, count), Err(Refusal::Oversize));
    }
    assert_eq!(bill(&wide, 1_048_577, 4), Err(Refusal::Oversize));
    assert_eq!(bill(&wide, 4, 2_097_153), Err(Refusal::Oversize));
}

#[test]
fn portions_of_any_size_leave_the_same_store() {
    let finished = |portion| {
        let mut store = filled();
        while store.advance(portion).unwrap().left > 0 {}
        store.to_bytes()
    };
    let whole = finished(u64::MAX);
    for portion in [1, 3, 4, 5, 7, 1000] {
        assert_eq!(finished(portion), whole, "portions of {portion}");
    }
}

#[test]
fn a_mesh_is_closed_or_it_is_told() {
    let closed = |faces: &[[u32; 3]]| Mesh { vertices: &VERTICES, faces }.closed();
    let [a, b, c, d] = FACES;
    let turned = |[p, q, r]: [u32; 3]| [p, r, q];
    assert_eq!(closed(&FACES), Ok(()));
    assert_eq!(closed(&FACES.map(turned)), Ok(()));
    assert_eq!(closed(&[]), Ok(()));
    assert_eq!(closed(&[a, turned(a)]), Ok(()));
    assert_eq!(closed(&[a, b, c]), Err(Refusal::NotClosed));
    assert_eq!(closed(&[a, b, c, turned(d)]), Err(Refusal::NotClosed));
    assert_eq!(closed(&[a, b, c, d, d]), Err(Refusal::NotClosed));
    assert_eq!(closed(&[a, b, c, d, a, b, c, d]), Err(Refusal::NotClosed));
    assert_eq!(closed(&[a, b, c, d, [1, 1, 1]]), Err(Refusal::NotClosed));
    assert_eq!(closed(&[[0, 1, 0]]), Err(Refusal::NotClosed));
    assert_eq!(closed(&[a, b, c, [1, 2, 4]]), Err(Refusal::LooseCorner));
    assert_eq!(closed(&vec![[0; 3]; 2_097_153]), Err(Refusal::Oversize));
    assert!(Store::open(900.0, Mesh { vertices: &VERTICES, faces: &[a, b, c] }).is_ok());
}

/// The same body with vertices that no face uses, first, within and last, and with one corner moved to a vertex
/// of its own that has the coordinates of another.
const SPARE_VERTICES: [[f64; 3]; 8] = [
    [5000.0, 0.0, 1.0],
    VERTICES[0],
    VERTICES[1],
    [f64::NAN, f64::INFINITY, -0.0],
    VERTICES[2],
    VERTICES[3],
    VERTICES[0],
    VERTICES[1],
];
const SPARE_FACES: [[u32; 3]; 4] = [[1, 4, 2], [1, 2, 5], [6, 5, 4], [2, 4, 5]];
const KEPT_VERTICES: [[f64; 3]; 5] = [VERTICES[0], VERTICES[1], VERTICES[2], VERTICES[3], VERTICES[0]];
const KEPT_FACES: [[u32; 3]; 4] = [[0, 2, 1], [0, 1, 3], [4, 3, 2], [1, 2, 3]];

fn with_spare_vertices() -> Store {
    let mut store = Store::open(900.0, Mesh { vertices: &SPARE_VERTICES, faces: &SPARE_FACES }).unwrap();
    store.put(2, FLAT).unwrap();
    store.put(30, STEEP).unwrap();
    store
}

#[test]
fn a_squeeze_alters_no_step_and_no_reading() {
    for steps in [0, 1, 4, 9, 55, 56] {
        let mut store = with_spare_vertices();
        store.advance(steps).unwrap();
        let mut squeezed = store.clone();
        assert_eq!(squeezed.squeeze(), Ok(9));
        assert_eq!(squeezed.mesh(), Mesh { vertices: &KEPT_VERTICES, faces: &KEPT_FACES });
        assert_eq!(squeezed.squeeze(), Ok(0));
        assert_eq!(squeezed.left(), store.left());
        for budget in [3, u64::MAX] {
            assert_eq!(squeezed.advance(budget), store.advance(budget), "after {steps} steps");
        }
        for by in [Convention::Raw, Convention::Rho0 { bulk: 1500.0 }, BY_MASS] {
            assert_eq!(squeezed.report(by), store.report(by), "after {steps} steps");
            assert_eq!(squeezed.list(by), store.list(by));
            assert_eq!(squeezed.density(by, [120.0, 60.0, 30.0]), store.density(by, [120.0, 60.0, 30.0]));
        }
        assert!(squeezed.report(BY_MASS).is_ok());
        assert_eq!(squeezed.held(30), store.held(30));
    }
}

#[test]
fn a_mesh_without_faces_loses_every_vertex() {
    let mut store = Store::open(900.0, Mesh { vertices: &VERTICES, faces: &[] }).unwrap();
    assert_eq!(store.squeeze(), Ok(12));
    assert_eq!(store.mesh(), Mesh { vertices: &[], faces: &[] });
    assert_eq!(store.squeeze(), Ok(0));
    assert!(Store::from_bytes(&store.to_bytes()).is_ok());
}

#[test]
fn a_squeezed_store_goes_on_from_its_snapshot() {
    let mut store = with_spare_vertices();
    let before = store.to_bytes();
    store.advance(9).unwrap();
    store.squeeze().unwrap();
    let bytes = store.to_bytes();
    assert_eq!(bytes.len(), before.len());
    let mut resumed = Store::from_bytes(&bytes).unwrap();
    assert_eq!(resumed.mesh(), store.mesh());
    resumed.advance(u64::MAX).unwrap();
    store.advance(u64::MAX).unwrap();
    assert_eq!(resumed.to_bytes(), store.to_bytes());
}

#[test]
fn every_call_stays_within_its_stack() {
    // 512 KiB for the call, as the header has it, and some for the thread around it
    let thread = std::thread::Builder::new().stack_size((512 + 32) << 10).spawn(|| {
        let mut store = with_spare_vertices();
        store.advance(9).unwrap();
        store.squeeze().unwrap();
        let worker = store.clone();
        store.adopt(0, &worker, 2).unwrap();
        store.mesh().closed().unwrap_err();
        store.advance(u64::MAX).unwrap();
        store.report(BY_MASS).unwrap();
        store.list(BY_MASS).unwrap();
        store.densities(BY_MASS, &points(100)).unwrap();
    });
    thread.unwrap().join().unwrap();
}

#[test]
fn readings_agree_with_each_other() {
    let mut store = filled();
    store.advance(u64::MAX).unwrap();
    let at = [120.0, 60.0, 30.0];
    for by in [Convention::Raw, Convention::Rho0 { bulk: 1500.0 }, BY_MASS] {
        let list = store.list(by).unwrap();
        assert_eq!(store.density(by, at), density(&list, at));
        let report = store.report(by).unwrap();
        let mass = store.mesh().mass(&list).unwrap();
        assert!((mass / report.mass.applied_mass - 1.0).abs() < 1e-12, "{by:?}");
        assert_eq!((report.kernels, report.pieces), (2, 14));
        assert_eq!(report.mass.volume, store.mesh().volume().unwrap());
    }
    assert_eq!(store.report(BY_MASS).unwrap().mass.target_mass, 1e11);
    assert_eq!(store.held(2).unwrap().kernel, FLAT);
    assert_eq!(store.held(30).unwrap().error, store.report(Convention::Raw).unwrap().error);
}

/// Points along a line through the body, with some that are no numbers among them.
fn points(count: usize) -> Vec<[f64; 3]> {
    let point = |i: usize| match i % 500 {
        77 => [f64::NAN, 1.0, 2.0],
        78 => [1.0, f64::NEG_INFINITY, 2.0],
        _ => [i as f64 * 0.3 - 50.0, i as f64 * 0.2, 40.0 - i as f64 * 0.1],
    };
    (0..count).map(point).collect()
}

/// The bits of a float, those of every NaN alike.
fn bits(x: &f64) -> u64 {
    if x.is_nan() { f64::NAN.to_bits() } else { x.to_bits() }
}

#[test]
fn every_density_of_a_track_is_the_single_reading() {
    let mut store = filled();
    store.advance(u64::MAX).unwrap();
    for by in [Convention::Raw, Convention::Rho0 { bulk: 1500.0 }, BY_MASS] {
        for count in [0, 1, 15, 16, 17, 100, MAX_TRACK - 1, MAX_TRACK] {
            let points = points(count);
            let mut out = vec![-7.0; count + 3];
            assert_eq!(store.track(by, &points, &mut out), Ok(count));
            let (densities, rest) = out.split_at(count);
            for (density, point) in densities.iter().zip(&points) {
                assert_eq!(bits(density), bits(&store.density(by, *point).unwrap()), "{by:?}, {point:?}");
            }
            assert_eq!(rest, [-7.0; 3]);
        }
    }
}

#[test]
fn longer_tracks_are_read_in_portions() {
    let store = filled();
    let points = points(3 * MAX_TRACK + 5);
    let whole: Vec<u64> = store.densities(Convention::Raw, &points).unwrap().iter().map(bits).collect();
    for (portion, densities) in points.chunks(1000).zip(whole.chunks(1000)) {
        let mut out = [0.0; 1000];
        let count = store.track(Convention::Raw, portion, &mut out).unwrap();
        assert_eq!(out[..count].iter().map(bits).collect::<Vec<_>>(), densities);
    }
    assert_eq!(store.densities(Convention::Raw, &[]), Ok(vec![]));
}

#[test]
fn a_bad_track_is_refused() {
    let mut store = filled();
    let mut out = vec![-7.0; MAX_TRACK + 1];
    let points = points(MAX_TRACK + 1);
    // work is left: that is told first
    assert_eq!(store.track(BY_MASS, &points, &mut out), Err(Refusal::Unfinished));
    assert_eq!(store.track(BY_MASS, &[], &mut []), Err(Refusal::Unfinished));
    store.advance(u64::MAX).unwrap();
    assert_eq!(store.track(BY_MASS, &points, &mut out), Err(Refusal::BadTrack));
    assert_eq!(store.track(BY_MASS, &points[..10], &mut out[..9]), Err(Refusal::BadTrack));
    assert!(out.iter().all(|x| *x == -7.0));
    assert_eq!(store.track(BY_MASS, &[], &mut []), Ok(0));
}

#[test]
fn a_snapshot_goes_on_where_it_was_taken() {
    let mut whole = filled();
    whole.advance(u64::MAX).unwrap();
    for steps in [0, 1, 4, 9, 55, 56] {
        let mut store = filled();
        store.advance(steps).unwrap();
        let mut resumed = Store::from_bytes(&store.to_bytes()).unwrap();
        resumed.advance(u64::MAX).unwrap();
        assert_eq!(resumed.to_bytes(), whole.to_bytes(), "after {steps} steps");
    }
}

#[test]
fn every_damaged_byte_of_a_snapshot_is_seen() {
    let bytes = filled().to_bytes();
    for i in 0..bytes.len() {
        let mut damaged = bytes.clone();
        damaged[i] ^= 1 << (i % 8);
        let told = Store::from_bytes(&damaged).unwrap_err();
        match i {
            0..8 => assert_eq!(told, SnapshotError::Foreign),
            8..24 => assert_eq!(told, SnapshotError::Length),
            _ => assert_eq!(told, SnapshotError::Checksum),
        }
    }
}

#[test]
fn every_cut_or_longer_snapshot_is_seen() {
    let bytes = filled().to_bytes();
    for length in 0..bytes.len() {
        let told = Store::from_bytes(&bytes[..length]).unwrap_err();
        assert_eq!(told, if length < 8 { SnapshotError::Foreign } else { SnapshotError::Length });
    }
    let longer = [bytes.as_slice(), &[0]].concat();
    assert_eq!(Store::from_bytes(&longer).unwrap_err(), SnapshotError::Length);
}

#[test]
fn stores_work_in_threads() {
    let finish = |mut store: Store| {
        store.advance(u64::MAX).unwrap();
        store.to_bytes()
    };
    let alone = finish(filled());
    let threads: Vec<_> = (0..4).map(|_| std::thread::spawn(move || finish(filled()))).collect();
    for thread in threads {
        assert_eq!(thread.join().unwrap(), alone);
    }
}

#[test]
fn a_store_may_be_sent_and_shared() {
    fn sent_and_shared<T: Send + Sync + 'static>() {}
    sent_and_shared::<Store>();
    sent_and_shared::<Refusal>();
    sent_and_shared::<OpenError>();
    sent_and_shared::<SnapshotError>();
}

#[test]
fn one_store_is_read_by_many_threads() {
    let mut store = filled();
    store.advance(u64::MAX).unwrap();
    let track = points(300);
    let read = |by: Convention| {
        let densities: Vec<u64> = store.densities(by, &track).unwrap().iter().map(bits).collect();
        (densities, store.report(by).unwrap(), store.list(by).unwrap(), store.to_bytes())
    };
    let conventions = [Convention::Raw, Convention::Rho0 { bulk: 1500.0 }, BY_MASS];
    let alone = conventions.map(read);
    // each thread begins with another convention, so that different readings meet
    std::thread::scope(|scope| {
        for first in 0..8 {
            let (alone, read) = (&alone, &read);
            scope.spawn(move || {
                for i in first..first + 60 {
                    assert_eq!(read(conventions[i % 3]), alone[i % 3]);
                }
            });
        }
    });
}

#[test]
fn a_store_goes_on_in_another_thread() {
    let mut store = filled();
    store.advance(9).unwrap();
    let moved = std::thread::spawn(move || {
        store.advance(u64::MAX).unwrap();
        store
    });
    let mut here = filled();
    here.advance(u64::MAX).unwrap();
    assert_eq!(moved.join().unwrap().to_bytes(), here.to_bytes());
}

#[test]
fn layers_are_read_as_if_the_others_were_empty() {
    let mut store = opened();
    store.put_in(2, FLAT, 3).unwrap();
    store.put_in(30, STEEP, 15).unwrap();
    assert_eq!(store.put_in(30, FLAT, 16), Err(Refusal::NoLayer));
    assert_eq!(store.put_in(32, FLAT, 16), Err(Refusal::NoPlace));
    store.reweigh(2, 700.0).unwrap();
    assert_eq!((store.held(2).unwrap().layer, store.held(30).unwrap().layer), (3, 15));
    // the work of place 2 comes first, and a reading of its layer needs no other
    store.advance(4).unwrap();
    let of = |layers: &[u32]| Layers::of(layers).unwrap();
    assert_eq!(store.report(BY_MASS), Err(Refusal::Unfinished));
    assert_eq!(store.layers(of(&[15])).report(BY_MASS), Err(Refusal::Unfinished));
    let alone = |store: &Store, place: u32| {
        let mut other = store.clone();
        other.clear(if place == 2 { 30 } else { 2 }).unwrap();
        other.advance(u64::MAX).unwrap();
        other
    };
    assert_eq!(store.layers(of(&[3])).report(BY_MASS), alone(&store, 2).report(BY_MASS));
    let points = [[10.0, 20.0, 30.0], [0.0; 3], [f64::INFINITY, 0.0, 0.0]];
    let seen = store.layers(of(&[3, 4]));
    assert_eq!(seen.densities(BY_MASS, &points), alone(&store, 2).densities(BY_MASS, &points));
    assert_eq!(seen.density(BY_MASS, points[0]), alone(&store, 2).density(BY_MASS, points[0]));
    store.advance(u64::MAX).unwrap();
    let seen = store.layers(of(&[15]));
    assert_eq!(seen.report(BY_MASS), alone(&store, 30).report(BY_MASS));
    assert_eq!(seen.list(BY_MASS), alone(&store, 30).list(BY_MASS));
    assert_eq!(store.layers(Layers::ALL).report(BY_MASS), store.report(BY_MASS));
    let none = store.layers(Layers::NONE);
    assert_eq!((none.density(BY_MASS, [0.0; 3]), none.list(BY_MASS)), (Ok(0.0), Ok(vec![])));
    assert_eq!(none.report(BY_MASS).unwrap().mass.volume, store.report(BY_MASS).unwrap().mass.volume);
    store.clear(30).unwrap();
    store.put(30, FLAT).unwrap();
    assert_eq!(store.held(30).unwrap().layer, 0);
}

#[test]
fn what_is_finished_is_the_report_of_those_places_alone() {
    let mut store = opened();
    let none = Kernel { alpha: f64::NAN, ..FLAT };
    for (place, kernel, layer) in [(2, FLAT, 3), (5, none, 3), (9, STEEP, 3), (30, FLAT, 4), (31, STEEP, 4)] {
        store.put_in(place, kernel, layer).unwrap();
    }
    // one step is left of place 9, and all of those behind it
    store.advance(4 + 13 * 4 - 1).unwrap();
    assert_eq!((store.left_at(2), store.left_at(5), store.left_at(9), store.left_at(30)), (0, 0, 1, 4));
    let just = |store: &Store, places: &[u32]| {
        let mut other = store.clone();
        let rest = (0..32).filter(|place| store.held(*place).is_some() && !places.contains(place));
        rest.for_each(|place| other.clear(place).unwrap());
        other.report(BY_MASS).unwrap()
    };
    let told = store.finished(BY_MASS).unwrap();
    assert_eq!((told.report, told.passed_over), (just(&store, &[2, 5]), 3));
    let seen = store.layers(Layers::of(&[3]).unwrap());
    assert_eq!(
        seen.finished(BY_MASS).map(|told| (told.report, told.passed_over)),
        Ok((just(&store, &[2, 5]), 1))
    );
    let other = store.layers(Layers::of(&[4]).unwrap());
    assert_eq!(other.finished(BY_MASS).unwrap().report.kernels, 0);
    store.advance(u64::MAX).unwrap();
    let told = store.finished(BY_MASS).unwrap();
    assert_eq!((Ok(told.report), told.passed_over), (store.report(BY_MASS), 0));
}
