//! Which kinds of pages were met.
use oracle::page::{Row, figure, no_figure};
use oracle::step;
use oracle::tally::{Kinds, Tally};

/// How often each kind was met.
#[derive(Default)]
pub struct Seen(Kinds);

/// What must be met, each by one page of 1,000 at least.
const OFTEN: [&str; 36] = [
    "as 0",
    "as 4",
    "as 5",
    "as 8",
    "as 17",
    "as 18",
    "as 0, no place",
    "as 0, 32 places",
    "as 0, more bytes than needed",
    "as 8, a mass without figure besides",
    "as 8, too few bytes besides",
    "as 17, too few bytes besides",
    "as 17, by the float after 10^15",
    "as 17, by a NaN",
    "as 17, by an infinity",
    "as 18, a byte short",
    "as 18, all but TOTAL",
    "TOTAL below 0",
    "TOTAL of 0 with places",
    "TOTAL of 17 digits",
    "TOTAL other than the rounded sum",
    "lines",
    "lines of 0 pieces",
    "lines of 1 piece",
    "lines of 13 pieces and more",
    "a half to the even number below",
    "a half to the even number above",
    "a half below 0 to the even number below",
    "a half below 0 to the even number above",
    "the float below a half",
    "the float above a half",
    "10^15 itself",
    "-10^15 itself",
    "0 of a mass above 0",
    "0 of a mass below 0",
    "a minus",
];

impl Seen {
    pub fn add(&mut self, other: Seen) {
        self.0.add(other.0);
    }

    pub fn answer(&mut self, answer: Result<u64, u32>) {
        self.0.many(format!("as {}", answer.err().unwrap_or(0)), 1);
    }

    /// How many pages had each answer, and what their lines have.
    pub fn text(&self) -> String {
        let shown = ["as 0", "as 4", "as 5", "as 8", "as 17", "as 18", "lines", "a minus"];
        let halves = OFTEN.into_iter().filter(|name| name.starts_with("a half")).map(|name| self.0.times(name)).sum::<u64>();
        format!("{}, {halves} a half", self.0.text(&shown))
    }

    pub fn all_met(&self, pages: u64) -> Tally {
        self.0.all_met("page", "pages", &OFTEN, pages / 1_000)
    }

    /// Every kind that a page of these rows is.
    pub fn page(&mut self, rows: &[Row], left: u64, room: usize, answer: Result<u64, u32>) {
        let full = 65 * (rows.len() + 1);
        let any = |bad: fn(f64) -> bool| rows.iter().any(|r| bad(r.mass));
        match answer {
            Ok(bytes) => {
                self.0.met(&[
                    ("as 0, no place", rows.is_empty()),
                    ("as 0, 32 places", rows.len() == 32),
                    ("as 0, more bytes than needed", room as u64 > bytes),
                ]);
                self.total(rows);
                rows.iter().for_each(|r| self.line(r));
            }
            Err(8) => {
                assert!(left > 0);
                self.0.met(&[("as 8, a mass without figure besides", any(no_figure)), ("as 8, too few bytes besides", room < full)]);
            }
            Err(17) => self.0.met(&[
                ("as 17, too few bytes besides", room < full),
                ("as 17, by the float after 10^15", any(|m| m.abs() == step(1e15, 1))),
                ("as 17, by a NaN", any(f64::is_nan)),
                ("as 17, by an infinity", any(f64::is_infinite)),
            ]),
            _ => self.0.met(&[("as 18, a byte short", room + 1 == full), ("as 18, all but TOTAL", room + 65 == full)]),
        }
    }

    fn total(&mut self, rows: &[Row]) {
        let total: i64 = rows.iter().map(|r| figure(r.mass)).sum();
        let sum: f64 = rows.iter().map(|r| r.mass).sum();
        self.0.met(&[
            ("TOTAL below 0", total < 0),
            ("TOTAL of 0 with places", total == 0 && !rows.is_empty()),
            ("TOTAL of 17 digits", total.abs() >= 10_000_000_000_000_000),
            ("TOTAL other than the rounded sum", figure(sum) != total),
        ]);
    }

    fn line(&mut self, r: &Row) {
        let (mass, figure) = (r.mass, figure(r.mass));
        let is_half = |x: f64| x.abs().fract() == 0.5;
        let (half, below) = (is_half(mass), mass < 0.0);
        // of a half the figure is apart by one: to the one side or to the other
        let up = figure as f64 > mass;
        self.0.met(&[
            ("lines", true),
            ("lines of 0 pieces", r.pieces == 0),
            ("lines of 1 piece", r.pieces == 1),
            ("lines of 13 pieces and more", r.pieces >= 13),
            ("a half to the even number below", half && !below && !up),
            ("a half to the even number above", half && !below && up),
            ("a half below 0 to the even number below", half && below && !up),
            ("a half below 0 to the even number above", half && below && up),
            ("the float below a half", is_half(step(mass, 1)) && !half),
            ("the float above a half", is_half(step(mass, -1)) && !half),
            ("10^15 itself", mass == 1e15),
            ("-10^15 itself", mass == -1e15),
            ("0 of a mass above 0", figure == 0 && mass > 0.0),
            ("0 of a mass below 0", figure == 0 && below),
            ("a minus", figure < 0),
        ]);
    }
}
