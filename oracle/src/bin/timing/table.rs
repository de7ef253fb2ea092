//! Ways to do a work, all timed in turn, and the table of rows that set the least time of one beside another's.
use crate::clock;
use std::hint::black_box;

const ROUNDS: usize = 25;
/// How often a way runs in a round: the first time fetches into the caches what the others find there.
const TIMES: usize = 3;
/// A long way runs once, in one round of so many.
const SELDOM: usize = 2;

pub fn how() -> String {
    format!("the least of {} times in {ROUNDS} rounds, of {} for the long ones (*)", TIMES * ROUNDS, ROUNDS.div_ceil(SELDOM))
}

/// A way to do a work of so many units, and the least nanoseconds that it took.
pub struct Way {
    units: f64,
    before: Box<dyn FnMut()>,
    work: Box<dyn FnMut()>,
    clock: fn() -> f64,
    seldom: bool,
    least: f64,
}

impl Way {
    pub fn new<V>(units: usize, mut work: impl FnMut() -> V + 'static) -> Way {
        let work = Box::new(move || {
            black_box(work());
        });
        Way { units: units as f64, before: Box::new(|| ()), work, clock: clock::thread, seldom: false, least: f64::INFINITY }
    }

    /// The same work so many times over.
    pub fn turns<V>(turns: usize, units: usize, mut work: impl FnMut() -> V + 'static) -> Way {
        Way::new(turns * units, move || {
            for _ in 0..turns {
                black_box(work());
            }
        })
    }

    /// With something to do before each time, which is not timed.
    pub fn after(self, before: impl FnMut() + 'static) -> Way {
        Way { before: Box::new(before), ..self }
    }

    pub fn by(self, clock: fn() -> f64) -> Way {
        Way { clock, ..self }
    }

    /// Long where asked.
    pub fn seldom(self, seldom: bool) -> Way {
        Way { seldom, ..self }
    }

    fn round(&mut self, round: usize) {
        let times = match (self.seldom, round % SELDOM) {
            (false, _) => TIMES,
            (true, 0) => 1,
            (true, _) => 0,
        };
        for time in 0..times {
            (self.before)();
            deeper(round / SELDOM + time, &mut || {
                let start = (self.clock)();
                (self.work)();
                self.least = self.least.min((self.clock)() - start);
            });
        }
    }
}

/// Does the work so many frames farther down the stack. Where a frame lies can slow its code by a third, and by chance a whole run
/// would keep such a place.
#[inline(never)]
fn deeper(frames: usize, work: &mut dyn FnMut()) {
    let frame = black_box([0u64; 32]);
    if frames == 0 {
        work();
    } else {
        deeper(frames - 1, work);
    }
    black_box(&frame);
}

/// A way that is timed.
#[derive(Clone, Copy)]
pub struct Id(usize);

/// What a row's time may be at most, as a multiple of another way's.
struct Bar {
    most: f64,
    of: Id,
    named: &'static str,
}

/// Our way beside the platform's and that by 01's steps, where there are such.
pub struct Row {
    name: String,
    ours: Id,
    platform: Option<Id>,
    steps: Option<Id>,
    less: Option<Id>,
    bars: Vec<Bar>,
}

impl Row {
    pub fn new(name: impl Into<String>, ours: Id) -> Row {
        Row { name: name.into(), ours, platform: None, steps: None, less: None, bars: Vec::new() }
    }

    pub fn platform(self, way: Id) -> Row {
        Row { platform: Some(way), ..self }
    }

    pub fn steps(self, way: Id) -> Row {
        Row { steps: Some(way), ..self }
    }

    /// Our time without this way's, per unit.
    pub fn less(self, way: Id) -> Row {
        Row { less: Some(way), ..self }
    }

    pub fn bar(mut self, most: f64, of: Id, named: &'static str) -> Row {
        self.bars.push(Bar { most, of, named });
        self
    }

    /// A bar by the platform's way.
    pub fn within(self, most: f64) -> Row {
        let of = self.platform.expect("a platform's way");
        self.bar(most, of, "platform")
    }
}

#[derive(Default)]
pub struct Timings {
    ways: Vec<Way>,
    rows: Vec<Row>,
}

const HEAD: [&str; 7] = ["row", "platform's Rust", "01's steps, machine's sqrt", "ours", "/ platform", "/ 01", "bar"];

impl Timings {
    pub fn way(&mut self, way: Way) -> Id {
        self.ways.push(way);
        Id(self.ways.len() - 1)
    }

    pub fn row(&mut self, row: Row) {
        self.rows.push(row);
    }

    pub fn run(&mut self) {
        for round in 0..ROUNDS {
            self.ways.iter_mut().for_each(|way| way.round(round));
        }
    }

    /// Nanoseconds a unit.
    fn each(&self, Id(i): Id) -> f64 {
        self.ways[i].least / self.ways[i].units
    }

    fn ours(&self, row: &Row) -> f64 {
        self.each(row.ours) - row.less.map_or(0.0, |way| self.each(way))
    }

    fn cells(&self, row: &Row) -> [String; 7] {
        let ours = self.ours(row);
        let (by, unit) = match ours {
            1e6.. => (1e6, "ms"),
            1e3.. => (1e3, "µs"),
            _ => (1.0, "ns"),
        };
        let time = |ns: f64| format!("{:.*} {unit}", if ns / by < 10.0 { 2 } else { 1 }, ns / by);
        let [platform, steps] = [row.platform, row.steps].map(|way| way.map(|way| self.each(way)));
        let ratio = |other: Option<f64>| other.map_or(String::new(), |ns| format!("{:.2}", ours / ns));
        let bars: Vec<String> = row.bars.iter().map(|bar| self.judged(ours, bar)).collect();
        let name = format!("{}{}", row.name, if self.ways[row.ours.0].seldom { " *" } else { "" });
        let [told, counted] = [platform, steps].map(|other| other.map_or(String::new(), time));
        [name, told, counted, time(ours), ratio(platform), ratio(steps), bars.join("; ")]
    }

    fn judged(&self, ours: f64, bar: &Bar) -> String {
        let ratio = ours / self.each(bar.of);
        let word = if ratio <= bar.most { "met" } else { "not met" };
        format!("{:.2} of {}: {ratio:.3}, {word}", bar.most, bar.named)
    }

    /// The table, as a document takes it.
    pub fn print(&self) {
        let rows: Vec<[String; 7]> = std::iter::once(HEAD.map(String::from)).chain(self.rows.iter().map(|row| self.cells(row))).collect();
        let width = |i: usize| rows.iter().map(|row| row[i].chars().count()).max().unwrap_or(0);
        let widths = [0, 1, 2, 3, 4, 5, 6].map(width);
        for (n, row) in rows.iter().enumerate() {
            let padded = |i: usize| {
                let (cell, wide) = (&row[i], widths[i]);
                if (1..6).contains(&i) { format!("{cell:>wide$}") } else { format!("{cell:wide$}") }
            };
            println!("| {} |", [0, 1, 2, 3, 4, 5, 6].map(padded).join(" | "));
            if n == 0 {
                println!("|---|---:|---:|---:|---:|---:|---|");
            }
        }
    }
}
