//! One call of the archive beside what is asked.
use oracle::cases;
use oracle::convert::{asked, convert};
use oracle::inputs::Rng;
use oracle::pattern;

/// Floats before and behind the lent run.
const GUARD: usize = 8;

/// The arguments of a call, whose run has room for so many floats.
pub struct Case<'a> {
    pub lines: &'a [u8],
    pub default: f64,
    pub loader: u32,
    pub room: usize,
}

impl Case<'_> {
    /// By 02's words.
    pub fn asked(&self) -> Result<Vec<f64>, u32> {
        asked(self.lines, self.default, self.loader, self.room)
    }

    /// How the call differs from what is asked of it, if it does: its answer, what it writes, and the words past that, which stay, as all
    /// do at a refusal.
    pub fn differs(&self, r: &mut Rng, asked: &Result<Vec<f64>, u32>) -> Option<String> {
        let mut run = cases::garbage(r, GUARD + self.room + GUARD);
        let before = run.clone();
        let told = convert(self.lines, self.default, self.loader, &mut run[GUARD..][..self.room]);
        let (no, kernels): (u32, &[f64]) = asked.as_ref().map_or_else(|no| (*no, &[][..]), |kernels| (0, kernels));
        let want = (no, kernels.len() as u64 / 6);
        if told != want {
            return Some(self.said(format!("{told:?}, not {want:?}")));
        }
        let written = GUARD..GUARD + kernels.len();
        let alike = |i: usize| match written.contains(&i) {
            true => pattern(run[i]) == pattern(kernels[i - GUARD]),
            false => run[i].to_bits() == before[i].to_bits(),
        };
        let at = (0..run.len()).find(|i| !alike(*i))?;
        Some(self.said(format!("float {} is {:016x}", at as i64 - GUARD as i64, run[at].to_bits())))
    }

    fn said(&self, what: String) -> String {
        let Case { lines, default, loader, room } = self;
        format!("{what}: loader {loader}, default {:016x}, room for {room}, {}", default.to_bits(), String::from_utf8_lossy(lines))
    }
}
