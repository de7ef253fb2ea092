//! The wall page, as a user of the crate sees it, against a page that is written here.
use cauchy::{Convention, Kernel, MAX_PAGE, Mesh, PLACES, Refusal, Store};

const VERTICES: [[f64; 3]; 4] = [[0.0, 0.0, 0.0], [9.0, 0.0, 0.0], [0.0, 8.0, 0.0], [0.0, 0.0, 7.0]];
const FACES: [[u32; 3]; 4] = [[0, 2, 1], [0, 1, 3], [0, 3, 2], [1, 2, 3]];
const FLAT: Kernel = Kernel { c: [1.0, 1.5, 0.5], sigma: 0.2, w: 1200.0, alpha: 1.0 };
const STEEP: Kernel = Kernel { c: [0.5, 0.2, 0.9], sigma: 0.1, w: -300.0, alpha: 2.0 };

fn opened() -> Store {
    Store::open(9.0, Mesh { vertices: &VERTICES, faces: &FACES }).unwrap()
}

/// A store of these kernels at these places, its work done.
fn finished(kernels: &[(u32, Kernel)]) -> Store {
    let mut store = opened();
    for (place, kernel) in kernels {
        store.put(*place, *kernel).unwrap();
    }
    store.advance(u64::MAX).unwrap();
    store
}

/// The page by the words of the specification, its masses worked afresh of the list; nothing where a mass has no figure.
fn expected(store: &Store) -> Option<String> {
    let pieces = store.list(Convention::Raw).unwrap();
    let (mut text, mut total, mut rest) = (String::new(), 0, pieces.as_slice());
    for place in 0..PLACES {
        let Some(held) = store.held(place) else { continue };
        let (own, after) = rest.split_at(held.pieces as usize);
        let mass = store.mesh().mass(own).unwrap();
        if mass.is_nan() || mass.abs() > 1e15 {
            return None;
        }
        let printed = mass.round_ties_even() as i64;
        text += &format!("{place:>2} {:>2}{printed:>59}\n", held.pieces);
        total += printed;
        rest = after;
    }
    Some(text + &format!("TOTAL{total:>59}\n"))
}

fn hold(store: &Store) {
    let wanted = expected(store).ok_or(Refusal::NoFigure);
    assert_eq!(store.page(), wanted);
    let Ok(wanted) = wanted else { return };
    assert!(wanted.lines().all(|line| line.len() == 64));
    let filled = (0..PLACES).filter(|place| store.held(*place).is_some()).count();
    assert_eq!(wanted.len(), 65 * (filled + 1));
    let mut page = [b'#'; MAX_PAGE + 2];
    for room in [wanted.len(), wanted.len() + 1, page.len()] {
        page.fill(b'#');
        assert_eq!(store.page_into(&mut page[..room]), Ok(wanted.len()));
        assert_eq!(page[..wanted.len()], *wanted.as_bytes());
        assert!(page[wanted.len()..].iter().all(|byte| *byte == b'#'));
    }
    for room in [0, 1, 64, wanted.len() - 1] {
        page.fill(b'#');
        assert_eq!(store.page_into(&mut page[..room]), Err(Refusal::ShortPage));
        assert!(page.iter().all(|byte| *byte == b'#'));
    }
}

#[test]
fn a_page_of_no_place_is_the_total() {
    let total = format!("TOTAL{:>59}\n", 0);
    assert_eq!(opened().page(), Ok(total.clone()));
    let empty = Store::open(1.0, Mesh { vertices: &[], faces: &[] }).unwrap();
    assert_eq!(empty.page(), Ok(total));
    hold(&opened());
}

#[test]
fn each_filled_place_has_a_line() {
    let none = Kernel { alpha: f64::NAN, ..FLAT };
    hold(&finished(&[(2, FLAT), (30, STEEP)]));
    hold(&finished(&[(0, STEEP), (7, none), (31, Kernel { alpha: 2.5, ..STEEP })]));
    let all: Vec<_> = (0..PLACES).map(|place| (place, if place % 5 == 0 { STEEP } else { FLAT })).collect();
    let store = finished(&all);
    hold(&store);
    assert_eq!(store.page().unwrap().len(), MAX_PAGE);
}

#[test]
fn a_page_is_given_when_nothing_is_left() {
    let mut store = opened();
    store.put(3, FLAT).unwrap();
    store.put(4, Kernel { w: f64::NAN, ..FLAT }).unwrap();
    // work that is left is told before a mass without a figure and a page that is too short
    for left in (1..=8).rev() {
        let before = store.to_bytes();
        assert_eq!(store.page(), Err(Refusal::Unfinished));
        assert_eq!(store.page_into(&mut []), Err(Refusal::Unfinished));
        assert_eq!(store.to_bytes(), before);
        assert_eq!(store.advance(1).unwrap().left, left - 1);
    }
    assert_eq!(store.page_into(&mut []), Err(Refusal::NoFigure));
    store.clear(4).unwrap();
    assert_eq!(store.page_into(&mut []), Err(Refusal::ShortPage));
    hold(&store);
    // without a face there is no work, and no mass
    let mut bare = Store::open(1.0, Mesh { vertices: &VERTICES, faces: &[] }).unwrap();
    bare.put(5, Kernel { w: -7.0, ..FLAT }).unwrap();
    assert_eq!(bare.page(), Ok(format!(" 5  1{:>59}\nTOTAL{:>59}\n", 0, 0)));
}

/// Brings the mass of a store's only place to exactly this float, by its weight.
fn bring_to(store: &mut Store, mass: f64) {
    store.reweigh(0, 1.0).unwrap();
    let near = mass / store.report(Convention::Raw).unwrap().mass.raw_mass;
    let found = (-4..=4).find(|ulps| {
        let w = f64::from_bits(near.to_bits().wrapping_add_signed(*ulps));
        store.reweigh(0, w).unwrap();
        store.report(Convention::Raw).unwrap().mass.raw_mass == mass
    });
    assert!(found.is_some(), "no weight gives a mass of exactly {mass}");
}

#[test]
fn masses_are_rounded_to_the_nearest_ties_to_even() {
    let mut store = finished(&[(0, Kernel { sigma: 0.0, ..FLAT })]);
    for (mass, printed) in [
        (0.3, "0"),
        (-0.3, "0"),
        (-0.4, "0"),
        (0.5, "0"),
        (-0.5, "0"),
        (1.5, "2"),
        (-1.5, "-2"),
        (2.5, "2"),
        (-2.5, "-2"),
        (-0.75, "-1"),
        (4503599627370.5, "4503599627370"),
        (999999999999999.5, "1000000000000000"),
        (1e15, "1000000000000000"),
        (-1e15, "-1000000000000000"),
    ] {
        bring_to(&mut store, mass);
        assert_eq!(store.page(), Ok(format!(" 0  1{printed:>59}\nTOTAL{printed:>59}\n")), "{mass}");
        hold(&store);
    }
    bring_to(&mut store, 1e15_f64.next_up());
    assert_eq!(store.page(), Err(Refusal::NoFigure));
    for w in [f64::NAN, f64::INFINITY, f64::MIN, 1e300] {
        store.reweigh(0, w).unwrap();
        assert_eq!(store.page(), Err(Refusal::NoFigure));
    }
    for zero in [0.0, -0.0] {
        store.reweigh(0, zero).unwrap();
        assert_eq!(store.page(), Ok(format!(" 0  1{:>59}\nTOTAL{:>59}\n", 0, 0)));
    }
}

#[test]
fn the_total_is_of_what_is_printed() {
    let flat = Kernel { sigma: 0.0, ..FLAT };
    let mut one = finished(&[(0, flat)]);
    bring_to(&mut one, 0.75);
    let w = one.held(0).unwrap().kernel.w;
    let store = finished(&[(0, Kernel { w, ..flat }), (1, Kernel { w, ..flat }), (2, Kernel { w, ..flat })]);
    let line = |label: &str, mass: i64| format!("{label}{mass:>59}\n");
    let wanted = [line(" 0  1", 1), line(" 1  1", 1), line(" 2  1", 1), line("TOTAL", 3)].concat();
    assert_eq!(store.page(), Ok(wanted));
}

/// Numbers that look random, the same in every run.
struct Random(u64);

impl Random {
    fn below(&mut self, limit: u32) -> u32 {
        self.0 = self.0.wrapping_mul(6_364_136_223_846_793_005).wrapping_add(1_442_695_040_888_963_407);
        (self.0 >> 33) as u32 % limit
    }
}

#[test]
fn random_stores() {
    let mut random = Random(8);
    let (mut pages, mut refused) = (0, 0);
    for _ in 0..400 {
        let mut store = opened();
        for place in 0..PLACES {
            if random.below(4) == 0 {
                let exponent = random.below(36) as i32 - 20;
                let w = (random.below(2000) as f64 - 1000.0) * 10f64.powi(exponent.min(12));
                let alpha = [1.0, 1.0, 1.5, 2.5, f64::NAN][random.below(5) as usize];
                let w = if random.below(60) == 0 { f64::NAN } else { w };
                let sigma = random.below(100) as f64 / 50.0;
                store.put(place, Kernel { sigma, w, alpha, ..FLAT }).unwrap();
            }
        }
        store.advance(u64::MAX).unwrap();
        hold(&store);
        if store.page().is_ok() { pages += 1 } else { refused += 1 }
    }
    assert!(pages > 100 && refused > 20, "{pages} pages, {refused} without a figure");
}

#[test]
fn pages_are_read_by_many_threads_and_from_snapshots() {
    let store = finished(&[(2, FLAT), (30, STEEP)]);
    let page = store.page().unwrap();
    assert_eq!(Store::from_bytes(&store.to_bytes()).unwrap().page(), Ok(page.clone()));
    std::thread::scope(|scope| {
        for _ in 0..4 {
            scope.spawn(|| (0..500).for_each(|_| assert_eq!(store.page().as_ref(), Ok(&page))));
        }
    });
    let small = std::thread::Builder::new().stack_size((512 + 32) << 10);
    assert_eq!(small.spawn(move || store.page()).unwrap().join().unwrap(), Ok(page));
}
