//! The calls of the program `test_store`, in its topics.
use crate::history::Step;
use oracle::conventions::Convention;
use oracle::histories::Call;
use oracle::machine::ALL_LAYERS;
use oracle::pieces::Kernel;

pub fn steps() -> Vec<Step> {
    let topics = [
        unopened(),
        opened(),
        placed(),
        portioned(),
        unfinished(),
        overwritten(),
        finished(),
        weighed(),
        various(),
        unsound(),
        crowded(),
        faceless(),
        meshless(),
        reopened(),
        squeezed(),
        tracked(),
        paged(),
        layered(),
    ];
    topics.concat()
}

const NAN: f64 = f64::from_bits(0x7ff8_0000_0000_0000);
const INFINITY: f64 = f64::INFINITY;
const RAW: Convention = Convention::RAW;

fn rho0(bulk: f64) -> Convention {
    Convention::rho0(bulk)
}

fn mass(target: f64, bulk: f64) -> Convention {
    Convention::mass_of(target, bulk)
}

fn centred(sigma: f64, w: f64, alpha: f64) -> Kernel {
    Kernel { c: [0.25, -0.125, 0.5], sigma, w, alpha }
}

/// Of one piece, 13, 16 and none.
fn one() -> Kernel {
    centred(0.5, 2.0, 1.0)
}

fn thirteen() -> Kernel {
    centred(1.5, 1190.0, 2.0)
}

fn sixteen() -> Kernel {
    centred(0.75, -3.0, 2.5)
}

fn none() -> Kernel {
    centred(0.5, 1.0, NAN)
}

fn open(coordinates: usize, corners: usize, radius: f64) -> Step {
    Step::Open(coordinates, corners, radius)
}

fn excerpt(coordinates: usize, from: usize, to: usize, radius: f64) -> Step {
    Step::Excerpt(coordinates, from, to, radius)
}

fn put_in(layer: u32, place: u32, k: Kernel) -> Step {
    Step::Call(Call::Put(place, k, layer))
}

fn put(place: u32, k: Kernel) -> Step {
    put_in(0, place, k)
}

fn clear(place: u32) -> Step {
    Step::Call(Call::Clear(place))
}

fn reweigh(place: u32, w: f64) -> Step {
    Step::Call(Call::Reweigh(place, w))
}

fn advance(n: u64) -> Step {
    Step::Call(Call::Advance(n))
}

fn squeeze() -> Step {
    Step::Call(Call::Squeeze)
}

fn density_of(layers: u32, by: Convention) -> Step {
    Step::Call(Call::Density(by, layers, [0.75, -0.5, 0.25]))
}

fn density(by: Convention) -> Step {
    density_of(ALL_LAYERS, by)
}

fn report_of(layers: u32, by: Convention) -> Step {
    Step::Call(Call::Report(by, layers))
}

fn report(by: Convention) -> Step {
    report_of(ALL_LAYERS, by)
}

fn list_of(layers: u32, by: Convention, room: usize) -> Step {
    Step::Call(Call::List(by, layers, room))
}

fn list(by: Convention, room: usize) -> Step {
    list_of(ALL_LAYERS, by, room)
}

/// The points of a track, no numbers and infinities among them, and those of a long one.
#[rustfmt::skip]
const POINTS: [f64; 24] = [
    0.75, -0.5, 0.25,   0.25, -0.125, 0.5,   0.0, 0.0, 0.0,   -0.0, 0.0, 3.0,
    NAN, 0.5, 0.5,   INFINITY, 1.0, 2.0,   1e300, 1.0, 1.0,   -2.0, 1.5, 0.125,
];
static FAR: [f64; 12_291] = [0.5; 12_291];

fn track_of(layers: u32, by: Convention, coordinates: usize, room: usize) -> Step {
    let points: &'static [f64] = if coordinates <= POINTS.len() { &POINTS } else { &FAR };
    Step::Call(Call::Track(by, layers, &points[..coordinates], room))
}

fn track(by: Convention, coordinates: usize, room: usize) -> Step {
    track_of(ALL_LAYERS, by, coordinates, room)
}

fn page(room: usize) -> Step {
    Step::Call(Call::Page(room))
}

/// Nobody opened it: by its counts the runs are too short, then its corners are loose.
fn unopened() -> Vec<Step> {
    vec![
        advance(5),
        density(RAW),
        report(RAW),
        list(RAW, 0),
        squeeze(),
        track(RAW, 21, 7),
        Step::Write(0, 0),
        advance(0),
        put(32, one()),
        clear(0),
        reweigh(32, 1.0),
        density(mass(1.0, 1190.0)),
        report(rho0(1190.0)),
        list(mass(1.0, 1190.0), 0),
        squeeze(),
        track(mass(1.0, 1190.0), 23, 0),
    ]
}

/// Openings that are refused, the lowest row first, then a good one; readings of a store with no kernel.
fn opened() -> Vec<Step> {
    vec![
        open(23, 36, 2.0),
        open(24, 38, 2.0),
        open(23, 39, 2.0),
        open(24, 39, 2.0),
        open(0, 3, 2.0),
        open(27, 39, 2.0),
        open(30, 0, 2.0),
        open(24, 36, 2.0),
        advance(0),
        advance(u64::MAX),
        density(RAW),
        density(mass(1e9, 1190.0)),
        report(rho0(2000.0)),
        report(mass(1e9, 1190.0)),
        list(RAW, 0),
        list(RAW, 7),
    ]
}

/// No place, and places that are empty; 31 is the last one.
fn placed() -> Vec<Step> {
    vec![
        clear(0),
        reweigh(31, 1.0),
        clear(32),
        reweigh(u32::MAX, 1.0),
        put(32, one()),
        put(u32::MAX, one()),
        put(31, one()),
        reweigh(32, 1.0),
        reweigh(31, 2.5),
    ]
}

/// Small portions, a weight between them.
fn portioned() -> Vec<Step> {
    vec![put(4, sixteen()), advance(1), advance(7), density(RAW), advance(10), reweigh(4, 5.5), density(RAW), advance(3), advance(0)]
}

/// What can be read of 17 pieces while work is left, and what not; a list too short is refused after that.
fn unfinished() -> Vec<Step> {
    vec![
        density(rho0(1190.0)),
        density(rho0(-1.0)),
        density(mass(0.0, 2000.0)),
        density(mass(-0.0, NAN)),
        density(mass(NAN, 2000.0)),
        density(mass(-1e9, 2000.0)),
        density(mass(1e9, 2000.0)),
        density(mass(5e-324, 2000.0)),
        report(RAW),
        report(rho0(1190.0)),
        report(mass(0.0, 2000.0)),
        report(mass(1e9, 2000.0)),
        list(RAW, 102),
        list(RAW, 101),
        list(rho0(1190.0), 200),
        list(rho0(1190.0), 0),
        list(mass(0.0, 2000.0), 102),
        list(mass(0.0, 2000.0), 101),
        list(mass(1e9, 2000.0), 102),
        list(mass(1e9, 2000.0), 101),
    ]
}

/// A lower place goes first; half-done work is overwritten, cleared, and put again.
fn overwritten() -> Vec<Step> {
    vec![
        put(0, thirteen()),
        advance(20),
        density(RAW),
        put(0, one()),
        density(RAW),
        advance(5),
        reweigh(0, -1.0),
        clear(0),
        clear(0),
        reweigh(0, 1.0),
        advance(100),
        put(4, none()),
        reweigh(4, -0.0),
        advance(11),
        report(RAW),
        advance(11),
        report(RAW),
        put(4, sixteen()),
        report(RAW),
        advance(191),
        list(mass(1e9, 1190.0), 102),
        advance(0),
        advance(1),
        advance(1),
    ]
}

/// The readings of 17 finished pieces; a weight given anew needs no work.
fn finished() -> Vec<Step> {
    vec![
        density(RAW),
        density(rho0(1190.0)),
        density(rho0(NAN)),
        density(mass(1e9, 2000.0)),
        density(mass(0.0, 2000.0)),
        report(RAW),
        report(rho0(2000.0)),
        report(mass(1e9, 2000.0)),
        report(mass(-0.0, 0.0)),
        report(mass(INFINITY, INFINITY)),
        list(RAW, 102),
        list(rho0(2000.0), 150),
        list(mass(1e9, 2000.0), 102),
        list(mass(1e9, 2000.0), 101),
        list(RAW, 0),
        reweigh(4, 5.5),
        density(mass(1e9, 2000.0)),
        report(mass(1e9, 2000.0)),
    ]
}

/// Weights whose mass has no scale: rho0's is taken, or 1.
fn weighed() -> Vec<Step> {
    vec![
        reweigh(4, INFINITY),
        report(mass(1e9, 2000.0)),
        reweigh(4, 0.0),
        reweigh(31, INFINITY),
        report(mass(1e9, 2000.0)),
        reweigh(31, NAN),
        report(mass(1e9, 2000.0)),
        density(mass(1e9, 2000.0)),
        reweigh(31, 1e-40),
        report(mass(1e9, 2000.0)),
        list(mass(1e9, 2000.0), 102),
    ]
}

/// Kernels of every kind, none of them finished.
fn various() -> Vec<Step> {
    vec![
        put(31, thirteen()),
        put(30, centred(NAN, 1.0, 1.7)),
        put(29, centred(0.5, INFINITY, -INFINITY)),
        put(28, centred(0.5, 1.0, 1.0000000005)),
        put(27, centred(0.5, 1.0, 1.000000001)),
        density(RAW),
        advance(77),
    ]
}

/// One word written from outside, every call, and the word as it was: what is refused before what.
fn damaged(at: usize, value: u32) -> Vec<Step> {
    vec![
        Step::Write(at, value),
        advance(1),
        put(32, one()),
        clear(6),
        reweigh(32, 1.0),
        density(mass(1e9, 2000.0)),
        report(RAW),
        list(RAW, 0),
        squeeze(),
        track(RAW, 3, 0),
        Step::Mend(at),
    ]
}

/// Each way to be unsound: counts, corners, and the words of a place.
fn unsound() -> Vec<Step> {
    let damages = [
        (0, u32::MAX),
        (1, 2_097_153),
        (1, 13),
        (0, 1),
        (0, 0),
        (130, 8),
        (165, u32::MAX),
        (2, 18),
        (2 + 4 * 4, 0),
        (2 + 4 * 4, 16),
        (2 + 4 * 4, 18),
        (3 + 4 * 4, 17),
        (4 + 4 * 4, 1),
        (4 + 4 * 31, 12),
        (3 + 4 * 6, 1),
        (4 + 4 * 6, 1),
        (5 + 4 * 4, 16),
        (5 + 4 * 31, u32::MAX),
        (5 + 4 * 6, 1),
    ];
    damages.map(|(at, value)| damaged(at, value)).concat()
}

/// Many places filled, in part by work half done; then all of it.
fn crowded() -> Vec<Step> {
    vec![
        advance(12),
        put(31, one()),
        clear(30),
        clear(29),
        reweigh(28, 1e300),
        advance(30),
        put(0, centred(0.0, 100.0, 0.0)),
        put(4, centred(0.25, 100.0, 0.5)),
        put(8, centred(0.5, 100.0, 1.0)),
        put(12, centred(0.75, 100.0, 1.5)),
        put(16, centred(1.0, 100.0, 2.0)),
        put(20, centred(1.25, 100.0, 2.5)),
        put(24, centred(1.5, 100.0, 3.0)),
        put(28, centred(1.75, 100.0, 3.5)),
        advance(250),
        reweigh(12, 7.0),
        put(12, sixteen()),
        clear(16),
        report(RAW),
        advance(u64::MAX),
        report(mass(4e10, 1190.0)),
        density(mass(4e10, 1190.0)),
        list(mass(4e10, 1190.0), 1200),
        advance(1),
        put(31, sixteen()),
        advance(0),
        report(RAW),
    ]
}

/// No face: every piece is finished at once, and no reading is refused for work.
fn faceless() -> Vec<Step> {
    vec![
        open(24, 0, -0.0),
        put(31, sixteen()),
        put(32, one()),
        advance(5),
        reweigh(31, 3.0),
        report(mass(1e9, 2000.0)),
        density(mass(1e9, 2000.0)),
        list(mass(1e9, 2000.0), 96),
        list(mass(1e9, 2000.0), 95),
        clear(31),
        clear(31),
        report(RAW),
    ]
}

/// No mesh at all; a count of pieces finished that does not fit.
fn meshless() -> Vec<Step> {
    [vec![open(0, 0, NAN), put(0, thirteen()), advance(u64::MAX), report(rho0(1190.0))], damaged(3, 12), vec![advance(0), clear(0)]]
        .concat()
}

/// The first mesh again, and work that is dropped.
fn reopened() -> Vec<Step> {
    vec![
        open(27, 36, 1e9),
        open(24, 36, 1e9),
        put(31, thirteen()),
        advance(100),
        open(24, 39, 1e9),
        report(RAW),
        clear(31),
        advance(0),
        report(RAW),
    ]
}

/// Vertices in no face, before, among and behind the others, squeezed out with work half done; then there are none, no face, no mesh.
fn squeezed() -> Vec<Step> {
    vec![
        excerpt(24, 18, 24, 2.0),
        put(31, sixteen()),
        put(3, one()),
        advance(3),
        density(RAW),
        squeeze(),
        squeeze(),
        density(RAW),
        advance(0),
        report(RAW),
        put(4, thirteen()),
        advance(u64::MAX),
        report(mass(1e9, 1190.0)),
        list(mass(1e9, 1190.0), 180),
        excerpt(24, 24, 30, 2.0),
        put(0, one()),
        advance(1),
        squeeze(),
        advance(1),
        report(RAW),
        open(24, 36, 2.0),
        put(0, thirteen()),
        advance(5),
        squeeze(),
        advance(0),
        open(24, 0, 2.0),
        put(31, sixteen()),
        squeeze(),
        squeeze(),
        report(rho0(1190.0)),
        open(0, 0, 2.0),
        squeeze(),
        open(24, 36, 2.0),
        report(RAW),
    ]
}

/// Tracks with work left and without: of no point, of eight, of the most there may be; 8 comes before 14.
fn tracked() -> Vec<Step> {
    vec![
        track(RAW, 24, 8),
        put(0, thirteen()),
        put(17, one()),
        put(31, sixteen()),
        advance(20),
        track(RAW, 24, 8),
        track(rho0(1190.0), 24, 12),
        track(mass(0.0, 2000.0), 21, 7),
        track(mass(1e9, 2000.0), 24, 8),
        track(mass(1e9, 2000.0), 0, 0),
        track(mass(1e9, 2000.0), 23, 8),
        track(RAW, 0, 0),
        track(RAW, 23, 8),
        track(RAW, 22, 8),
        track(RAW, 24, 7),
        track(RAW, 12_289, 4_100),
        track(RAW, 12_291, 4_100),
        advance(u64::MAX),
        track(mass(1e9, 2000.0), 24, 9),
        track(rho0(NAN), 3, 1),
        track(mass(1e9, 2000.0), 0, 5),
        track(mass(1e9, 2000.0), 24, 7),
        track(mass(1e9, 2000.0), 1, 1),
        track(mass(1e9, 2000.0), 12_288, 4_096),
        track(rho0(1190.0), 12_288, 4_095),
        density(mass(1e9, 2000.0)),
    ]
}

/// Pages of three places, with room and without; masses that have no figure, which comes before the room; work left, which comes before
/// both; a place without pieces; a store too short and one that is not sound; no place filled.
fn paged() -> Vec<Step> {
    vec![
        page(260),
        page(2_200),
        page(259),
        page(0),
        reweigh(17, NAN),
        page(2_200),
        page(0),
        reweigh(17, 1e300),
        page(2_200),
        reweigh(17, -INFINITY),
        page(2_200),
        reweigh(17, -0.03),
        reweigh(31, 1e12),
        page(260),
        put(6, one()),
        page(2_200),
        reweigh(17, NAN),
        page(0),
        advance(u64::MAX),
        page(0),
        reweigh(17, 0.25),
        page(2_200),
        put(5, none()),
        page(390),
        page(389),
        squeeze(),
        page(400),
        Step::Write(0, 9),
        page(2_200),
        Step::Mend(0),
        Step::Write(2, 18),
        page(2_200),
        Step::Mend(2),
        clear(0),
        clear(5),
        clear(6),
        clear(17),
        page(130),
        clear(31),
        page(130),
        page(65),
        page(64),
        open(24, 0, 2.0),
        put(9, sixteen()),
        put(10, thirteen()),
        page(195),
    ]
}

/// Layers 0, 1, 3, 7 and 15: what is refused before what, readings of sets with work left in them and outside them, of no layer, after a
/// place changed its layer, and of a store whose words have a wild layer.
fn layered() -> Vec<Step> {
    let (first, third, seventh, last) = (1 << 1, 1 << 3, 1 << 7, 1 << 15);
    vec![
        open(24, 36, 2.0),
        put_in(16, 0, one()),
        put_in(u32::MAX, 31, one()),
        put_in(16, 32, one()),
        put_in(15, 0, one()),
        put_in(3, 1, thirteen()),
        put(2, none()),
        put_in(7, 31, sixteen()),
        advance(12),
        report_of(last, RAW),
        report_of(1, RAW),
        report_of(third, RAW),
        report_of(last | seventh, RAW),
        report(RAW),
        report_of(0, mass(1e9, 2000.0)),
        density_of(0, mass(1e9, 2000.0)),
        density_of(third, RAW),
        density_of(last | seventh, rho0(1190.0)),
        density_of(last, mass(1e9, 2000.0)),
        density_of(seventh, mass(1e9, 2000.0)),
        density_of(65_536, mass(1e9, 2000.0)),
        density_of(u32::MAX, RAW),
        report_of(65_537, RAW),
        list_of(131_072, mass(1e9, 2000.0), 0),
        track_of(65_536, RAW, 23, 8),
        list_of(last, mass(1e9, 2000.0), 6),
        list_of(third, RAW, 78),
        list_of(third, RAW, 77),
        list_of(seventh | 1, rho0(1190.0), 96),
        list_of(seventh | 1, mass(1e9, 2000.0), 96),
        list_of(0, mass(1e9, 2000.0), 0),
        track_of(last, mass(1e9, 2000.0), 24, 8),
        track_of(seventh, mass(1e9, 2000.0), 24, 8),
        track_of(third, RAW, 24, 9),
        track_of(0, rho0(1190.0), 24, 8),
        reweigh(1, 2.5),
        advance(156),
        report_of(third, mass(1e9, 2000.0)),
        report_of(third | last, rho0(1190.0)),
        report_of(seventh, RAW),
        clear(1),
        report_of(third, RAW),
        put_in(7, 1, one()),
        put_in(1, 0, one()),
        report_of(last, RAW),
        report_of(first, RAW),
        reweigh(31, 5.5),
        advance(u64::MAX),
        report_of(first, RAW),
        report_of(seventh, mass(1e9, 1190.0)),
        report_of(first | seventh, mass(1e9, 1190.0)),
        report(mass(1e9, 1190.0)),
        list_of(seventh, mass(1e9, 1190.0), 102),
        density(mass(1e9, 1190.0)),
        page(400),
        Step::Write(1, 13),
        put_in(16, 0, one()),
        report_of(65_536, RAW),
        Step::Mend(1),
        Step::Write(5 + 4 * 31, 16),
        put_in(16, 32, one()),
        report_of(65_536, RAW),
        page(400),
        Step::Mend(5 + 4 * 31),
        clear(31),
        report_of(seventh, RAW),
    ]
}
