//! 01's program `bench` ("Remainder"), written from its sentences over 01's machine: what it prints for each line of its input. It shares
//! nothing with the proved code: roots and powers are the second transcription's, all else is the original's own text.
use crate::conventions::Convention;
use crate::histories::{Answer, Call, Model};
use crate::inputs::{self, Rng};
use crate::machine::{ALL_LAYERS, Machine, open_number, room};
use crate::pattern;
use crate::pieces::Kernel;
use crate::text::ByTranscription;

/// "V ≤ 500, F ≤ 1,000".
pub const VERTS: u32 = 500;
pub const FACES: u32 = 1_000;

/// A line of one of the forms; those past an opening are calls on the store.
#[derive(Clone, Copy, Debug)]
pub enum Line {
    Open { radius: f64, verts: u32, faces: u32 },
    Vert([f64; 3]),
    Face([u32; 3]),
    Call(Call),
}

/// What is left of a line.
pub(crate) struct Rest<'a>(pub(crate) &'a [u8]);

impl Rest<'_> {
    /// These bytes, and no other.
    pub(crate) fn text(&mut self, text: &str) -> Option<()> {
        self.0 = self.0.strip_prefix(text.as_bytes())?;
        Some(())
    }

    /// "h is 16 upper-case hexadecimal digits of a float's bits".
    pub(crate) fn h(&mut self) -> Option<f64> {
        let (digits, rest) = self.0.split_at_checked(16)?;
        let mut bits = 0;
        for digit in digits {
            let value = match digit {
                b'0'..=b'9' => digit - b'0',
                b'A'..=b'F' => digit - b'A' + 10,
                _ => return None,
            };
            bits = bits << 4 | u64::from(value);
        }
        self.0 = rest;
        Some(f64::from_bits(bits))
    }

    /// "decimal, without leading zeros", up to `most`.
    fn decimal(&mut self, most: u64) -> Option<u64> {
        let count = self.0.iter().take_while(|b| b.is_ascii_digit()).count();
        let (digits, rest) = self.0.split_at(count);
        if count == 0 || (digits[0] == b'0' && count > 1) {
            return None;
        }
        let mut n: u64 = 0;
        for digit in digits {
            n = n.checked_mul(10)?.checked_add(u64::from(digit - b'0'))?;
        }
        self.0 = rest;
        (n <= most).then_some(n)
    }

    /// A number "up to 64 bits for advance and 32 elsewhere".
    pub(crate) fn word(&mut self) -> Option<u32> {
        self.decimal(u32::MAX.into()).map(|n| n as u32)
    }

    /// Three of them, a space between.
    pub(crate) fn three<V: Copy + Default>(&mut self, one: fn(&mut Self) -> Option<V>) -> Option<[V; 3]> {
        let mut all = [V::default(); 3];
        for (i, x) in all.iter_mut().enumerate() {
            if i > 0 {
                self.text(" ")?;
            }
            *x = one(self)?;
        }
        Some(all)
    }

    /// "(raw), (rho0 h), (mass h h)": target, then bulk.
    fn convention(&mut self) -> Option<Convention> {
        if self.text("(raw)").is_some() {
            return Some(Convention::RAW);
        }
        let by = if self.text("(rho0 ").is_some() {
            Convention::rho0(self.h()?)
        } else {
            self.text("(mass ")?;
            let target = self.h()?;
            self.text(" ")?;
            Convention::mass_of(target, self.h()?)
        };
        self.text(")")?;
        Some(by)
    }
}

type Form = fn(&mut Rest) -> Option<Line>;

const FORMS: [Form; 9] = [
    |s| {
        s.text("(open (radius ")?;
        let radius = s.h()?;
        s.text(") (verts ")?;
        let verts = s.word()?;
        s.text(") (faces ")?;
        let faces = s.word()?;
        s.text("))")?;
        Some(Line::Open { radius, verts, faces })
    },
    |s| {
        s.text("(vert ")?;
        let at = s.three(Rest::h)?;
        s.text(")")?;
        Some(Line::Vert(at))
    },
    |s| {
        s.text("(face ")?;
        let corners = s.three(Rest::word)?;
        s.text(")")?;
        Some(Line::Face(corners))
    },
    |s| {
        s.text("(put ")?;
        let place = s.word()?;
        s.text(" (c ")?;
        let c = s.three(Rest::h)?;
        s.text(") (sigma ")?;
        let sigma = s.h()?;
        s.text(") (w ")?;
        let w = s.h()?;
        s.text(") (alpha ")?;
        let alpha = s.h()?;
        s.text("))")?;
        Some(Line::Call(Call::Put(place, Kernel { c, sigma, w, alpha }, 0)))
    },
    |s| {
        s.text("(clear ")?;
        let place = s.word()?;
        s.text(")")?;
        Some(Line::Call(Call::Clear(place)))
    },
    |s| {
        s.text("(reweigh ")?;
        let place = s.word()?;
        s.text(" ")?;
        let w = s.h()?;
        s.text(")")?;
        Some(Line::Call(Call::Reweigh(place, w)))
    },
    |s| {
        s.text("(advance ")?;
        let n = s.decimal(u64::MAX)?;
        s.text(")")?;
        Some(Line::Call(Call::Advance(n)))
    },
    |s| {
        s.text("(density ")?;
        let by = s.convention()?;
        s.text(" ")?;
        let at = s.three(Rest::h)?;
        s.text(")")?;
        Some(Line::Call(Call::Density(by, ALL_LAYERS, at)))
    },
    |s| {
        s.text("(report ")?;
        let by = s.convention()?;
        s.text(")")?;
        Some(Line::Call(Call::Report(by, ALL_LAYERS)))
    },
];

/// The line by the one form that it has from its first byte to its last; none is "any other line".
pub fn read(line: &[u8]) -> Option<Line> {
    FORMS.iter().find_map(|form| {
        let mut rest = Rest(line);
        form(&mut rest).filter(|_| rest.0.is_empty())
    })
}

/// "a NaN is printed as 7FF8000000000000".
pub fn h(x: f64) -> String {
    format!("{:016X}", pattern(x))
}

/// Several h, a space between.
pub fn hs(all: &[f64]) -> String {
    all.iter().map(|x| h(*x)).collect::<Vec<_>>().join(" ")
}

fn no(number: u32) -> String {
    format!("(no {number})")
}

/// What a call prints.
fn printed(call: Call, answer: Answer) -> String {
    match (call, answer) {
        (_, Answer::Refused(number)) => no(number),
        (Call::Put(place, ..), Answer::Placed(pieces, need, _)) => format!("(put {place} (pieces {pieces}) (steps {need}))"),
        (Call::Clear(place), _) => format!("(clear {place})"),
        (Call::Reweigh(place, _), _) => format!("(reweigh {place})"),
        (_, Answer::Steps(done, left)) => format!("(advance (done {done}) (left {left}))"),
        (_, Answer::Value(x)) => format!("(density {})", h(x)),
        (_, Answer::Report(r)) => {
            format!("(report {} (kernels {}) (pieces {}) (error {}))", hs(&r.mass), r.kernels, r.pieces, h(r.error))
        }
        _ => unreachable!("{call:?} answers {answer:?}"),
    }
}

/// An opening whose vert and face lines are not all there.
struct Opening {
    radius: f64,
    verts: u32,
    faces: u32,
    xyz: Vec<f64>,
    corners: Vec<u32>,
}

impl Opening {
    fn verts_due(&self) -> bool {
        self.xyz.len() < 3 * self.verts as usize
    }

    fn faces_due(&self) -> bool {
        self.corners.len() < 3 * self.faces as usize
    }

    /// "The vert lines, then the face lines, follow an open in its counts": whether the line is the next of them.
    fn takes(&mut self, line: Option<Line>) -> bool {
        match line {
            Some(Line::Vert(at)) if self.verts_due() => self.xyz.extend(at),
            Some(Line::Face(corners)) if !self.verts_due() && self.faces_due() => self.corners.extend(corners),
            _ => return false,
        }
        true
    }
}

/// The program between two lines.
pub struct Program {
    pub machine: Machine<ByTranscription>,
    opening: Option<Opening>,
}

impl Default for Program {
    /// "Before an opening the store is all zeros".
    fn default() -> Program {
        Program { machine: Machine::open(&[], &[], 0.0), opening: None }
    }
}

impl Program {
    /// Whether vert or face lines are awaited.
    pub fn opening(&self) -> bool {
        self.opening.is_some()
    }

    /// The line that this line has printed, if any.
    pub fn line(&mut self, line: &[u8]) -> Option<String> {
        let line = read(line);
        match self.opening.take() {
            Some(mut opening) => {
                // "another line among them [..] gives up that opening"
                if !opening.takes(line) {
                    return Some(no(13));
                }
                self.go_on(opening)
            }
            None => match line {
                Some(Line::Open { verts, faces, .. }) if verts > VERTS || faces > FACES => Some(no(13)),
                Some(Line::Open { radius, verts, faces }) => {
                    self.go_on(Opening { radius, verts, faces, xyz: Vec::new(), corners: Vec::new() })
                }
                Some(Line::Call(call)) => Some(printed(call, self.machine.answer(call, &mut []))),
                _ => Some(no(13)),
            },
        }
    }

    /// Waits for the opening's next line, or opens.
    fn go_on(&mut self, opening: Opening) -> Option<String> {
        if opening.verts_due() || opening.faces_due() {
            self.opening = Some(opening);
            return None;
        }
        let (floats, words) = room(VERTS as usize, FACES as usize);
        match open_number(&opening.xyz, &opening.corners, floats, words) {
            0 => self.machine = Machine::open(&opening.xyz, &opening.corners, opening.radius),
            number => return Some(no(number)),
        }
        Some(format!("(open (verts {}) (faces {}))", opening.verts, opening.faces))
    }
}

/// The lines of an input: a last one without a newline is a line if it has a byte.
pub fn lines(input: &[u8]) -> impl Iterator<Item = &[u8]> {
    input.split_inclusive(|b| *b == b'\n').map(|line| line.strip_suffix(b"\n").unwrap_or(line))
}

/// All that is printed for an input.
pub fn answers(input: &[u8]) -> String {
    let mut program = Program::default();
    lines(input).filter_map(|line| program.line(line)).map(|answer| answer + "\n").collect()
}

/// So many short lines on a small body.
pub fn long(count: u64) -> Vec<u8> {
    let mut r = Rng(1);
    let unit = |i: usize| [0, 1, 2].map(|k| if i == k { "3FF0000000000000" } else { "0000000000000000" }).join(" ");
    let mut lines = vec!["(open (radius 3FF0000000000000) (verts 4) (faces 4))".to_string()];
    lines.extend((0..4).map(|i| format!("(vert {})", unit(i))));
    lines.extend(["0 1 2", "0 3 1", "1 3 2", "2 3 0"].map(|f| format!("(face {f})")));
    let kernel = format!("(c {}) (sigma 3FF0000000000000) (w 4000000000000000) (alpha 3FF0000000000000)", unit(3));
    while (lines.len() as u64) < count {
        let place = r.below(33);
        lines.push(match r.below(8) {
            0 => format!("(put {place} {kernel})"),
            1 => format!("(clear {place})"),
            2 => format!("(reweigh {place} {:016X})", inputs::positive(&mut r).to_bits()),
            3 | 4 => format!("(advance {})", r.below(4)),
            5 => format!("(density (raw) {})", unit(r.below(4) as usize)),
            6 => "(report (raw))".into(),
            _ => format!("(advance 0{place})"),
        });
    }
    lines.truncate(count as usize);
    (lines.join("\n") + "\n").into_bytes()
}
