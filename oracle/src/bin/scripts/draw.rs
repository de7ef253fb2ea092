//! Inputs that can be repeated: openings whole and broken, calls by where the machine stands, and lines that are no line of the program.
use crate::cases;
use oracle::cases::one;
use oracle::histories::{self, Body, Call, Places};
use oracle::inputs::Rng;
use oracle::meshes;
use oracle::program::{FACES, Program, VERTS};

/// An input and what is printed for it.
pub struct Script {
    pub input: Vec<u8>,
    pub printed: String,
}

/// What has been written of an input, and the program after it.
struct Writer {
    r: Rng,
    program: Program,
    places: Places,
    /// The lines of the cases, to be mixed in.
    known: Vec<Vec<u8>>,
    script: Script,
}

/// The input of a seed.
pub fn script(seed: u64) -> Script {
    let mut r = Rng(seed.wrapping_mul(0xd134_2543_de82_ef95));
    let places = Places::draw(&mut r);
    let known = cases::all().iter().flat_map(|case| oracle::program::lines(&case.input).map(<[u8]>::to_vec).collect::<Vec<_>>()).collect();
    let mut to = Writer { r, program: Program::default(), places, known, script: Script { input: Vec::new(), printed: String::new() } };
    if to.r.below(4) > 0 {
        to.opening();
    }
    for _ in 0..to.r.below(120) {
        to.item();
    }
    to.end();
    to.script
}

impl Writer {
    fn line(&mut self, line: &[u8]) {
        self.script.input.extend(line);
        self.script.input.push(b'\n');
        if let Some(answer) = self.program.line(line) {
            self.script.printed += &(answer + "\n");
        }
    }

    /// The last line often lacks its newline, if it has a byte.
    fn end(&mut self) {
        let input = &mut self.script.input;
        if !input.ends_with(b"\n\n") && input.len() > 1 && self.r.below(2) == 0 {
            input.pop();
        }
    }

    fn item(&mut self) {
        match self.r.below(24) {
            0 => self.opening(),
            1..=4 => self.other(),
            _ => {
                let line = self.call();
                self.line(line.as_bytes());
            }
        }
    }

    /// A good line: a call on the store.
    fn call(&mut self) -> String {
        loop {
            let call = histories::call(&mut self.r, &self.program.machine, &self.places);
            if let Some(line) = call_line(&mut self.r, call) {
                return line;
            }
        }
    }

    /// An opening: as it should be, or in part, or with a line too many or another one among its lines.
    fn opening(&mut self) {
        let body = body(&mut self.r);
        let mut lines = opening_lines(&mut self.r, &body);
        let at = self.r.below(lines.len() as u64) as usize;
        match self.r.below(12) {
            0 => lines.truncate(at),
            1 => drop(lines.remove(at)),
            2 => lines.insert(at, self.call()),
            3 => lines.insert(at, lines[at].clone()),
            4 => lines.swap(at, 0),
            5 => lines[at].push(one(&mut self.r, &['\r', ' ', ')', '0'])),
            _ => {}
        }
        let seldom = 12 * lines.len() as u64;
        for (i, line) in lines.iter().enumerate() {
            if self.r.below(seldom) == 0 {
                self.other();
            }
            // a few lines of a large opening that is given up tell enough
            if i > 60 && !self.program.opening() {
                return;
            }
            self.line(line.as_bytes());
        }
    }

    /// A line that most often is of no form: blank, of the cases, a good one changed, any bytes.
    fn other(&mut self) {
        let line = match self.r.below(12) {
            0 => Vec::new(),
            1..=3 => {
                let i = self.r.below(self.known.len() as u64) as usize;
                self.known[i].clone()
            }
            4 => {
                let size = if self.r.below(8) == 0 { 100_001 } else { 300 };
                self.bytes(size)
            }
            5 => self.long(),
            _ => {
                let mut line = self.call().into_bytes();
                for _ in 0..1 + self.r.below(2) {
                    change(&mut self.r, &mut line);
                }
                line
            }
        };
        self.line(&line);
    }

    /// Fewer bytes than `size`, of any kind or of those that the forms have; a newline would end the line.
    fn bytes(&mut self, size: u64) -> Vec<u8> {
        let (count, any) = (self.r.below(size), self.r.below(2) == 0);
        let signs = b"() 0123456789ABCDEFadvncelrputigh";
        (0..count).map(|_| if any { byte(&mut self.r) } else { one(&mut self.r, signs) }).collect()
    }

    /// A good line with up to 100,000 bytes more.
    fn long(&mut self) -> Vec<u8> {
        let (line, count) = (self.call().into_bytes(), self.r.below(100_000 - 300) as usize);
        let more = vec![one(&mut self.r, b" 0)\0(9"); count];
        let at = one(&mut self.r, &[0, line.len() - 1, line.len()]);
        [&line[..at], &more, &line[at..]].concat()
    }
}

fn byte(r: &mut Rng) -> u8 {
    let b = r.below(255) as u8;
    if b < b'\n' { b } else { b + 1 }
}

/// A mesh within the program's limits, at them, or above; corners sometimes loose.
fn body(r: &mut Rng) -> Body {
    let mut body = match r.below(24) {
        0 => {
            let mesh = meshes::sphere(r.spread(2, 11), 4 + r.below(12) as usize);
            Body { xyz: mesh.xyz, faces: mesh.faces, radius: 500.0 }
        }
        1 => {
            let (v, f) = (u64::from(VERTS) + r.below(2), u64::from(FACES) + r.below(2));
            let xyz = (0..3 * v).map(|_| r.within(-300.0, 300.0)).collect();
            Body { xyz, faces: (0..3 * f).map(|_| r.below(v) as u32).collect(), radius: 300.0 }
        }
        _ => histories::body(r),
    };
    if r.below(6) == 0 && !body.faces.is_empty() {
        let verts = (body.xyz.len() / 3) as u32;
        let at = r.below(body.faces.len() as u64) as usize;
        body.faces[at] = one(r, &[verts, verts, verts + 1, u32::MAX]);
    }
    body
}

/// The opening's lines; its counts are the mesh's, or nearly.
fn opening_lines(r: &mut Rng, body: &Body) -> Vec<String> {
    let mut counts = [body.xyz.len() as u64 / 3, body.faces.len() as u64 / 3];
    if r.below(12) == 0 {
        let i = r.below(2) as usize;
        counts[i] = one(r, &[counts[i] + 1, counts[i].saturating_sub(1), 500, 501, 1_000, 1_001, u32::MAX.into(), 1 << 32]);
    }
    let first = format!("(open (radius {}) (verts {}) (faces {}))", h(r, body.radius), counts[0], counts[1]);
    let verts: Vec<String> = body.xyz.chunks(3).map(|at| format!("(vert {})", hs(r, at))).collect();
    let faces = body.faces.chunks(3).map(|f| format!("(face {} {} {})", f[0], f[1], f[2]));
    [first].into_iter().chain(verts).chain(faces).collect()
}

/// A float's digits, a NaN's by any of its patterns.
fn h(r: &mut Rng, x: f64) -> String {
    let bits = if x.is_nan() { (r.word() | 1) | 0x7ff0_0000_0000_0000 } else { x.to_bits() };
    format!("{bits:016X}")
}

fn hs(r: &mut Rng, all: &[f64]) -> String {
    all.iter().map(|x| h(r, *x)).collect::<Vec<_>>().join(" ")
}

fn convention(r: &mut Rng, by: oracle::conventions::Convention) -> String {
    match by.kind {
        oracle::conventions::RAW => "(raw)".into(),
        oracle::conventions::RHO0 => format!("(rho0 {})", h(r, by.bulk)),
        _ => format!("(mass {})", hs(r, &[by.target, by.bulk])),
    }
}

/// The call's line; a list, a track and a squeeze have none.
fn call_line(r: &mut Rng, call: Call) -> Option<String> {
    Some(match call {
        Call::Put(place, k, _) => {
            let (c, sigma, w, alpha) = (hs(r, &k.c), h(r, k.sigma), h(r, k.w), h(r, k.alpha));
            format!("(put {place} (c {c}) (sigma {sigma}) (w {w}) (alpha {alpha}))")
        }
        Call::Clear(place) => format!("(clear {place})"),
        Call::Reweigh(place, w) => format!("(reweigh {place} {})", h(r, w)),
        Call::Advance(n) => format!("(advance {n})"),
        Call::Density(by, _, at) => format!("(density {} {})", convention(r, by), hs(r, &at)),
        Call::Report(by, _) => format!("(report {})", convention(r, by)),
        Call::Finished(..) | Call::List(..) | Call::Track(..) | Call::Page(_) | Call::Write(_) | Call::Squeeze => return None,
    })
}

/// One change of a line that has a byte.
fn change(r: &mut Rng, line: &mut Vec<u8>) {
    let at = r.below(line.len() as u64) as usize;
    match r.below(12) {
        0 if line.len() > 1 => drop(line.remove(at)),
        1 => line.insert(at, byte(r)),
        2 => line[at] = byte(r),
        3 => line.insert(at, b' '),
        4 => line.push(b'\r'),
        5 => line.make_ascii_lowercase(),
        6 => line.truncate(at.max(1)),
        7 => line.extend(line.clone()),
        8 => line.swap(at, 0),
        // a number by another: a zero before it, its bound, one above
        _ => {
            let digits = |b: &u8| b.is_ascii_digit();
            let from = line.iter().position(digits).unwrap_or(at);
            let count = line[from..].iter().take_while(|b| digits(b)).count();
            let number = String::from_utf8_lossy(&line[from..from + count]).into_owned();
            let numbers = ["4294967295", "4294967296", "18446744073709551615", "18446744073709551616", "31", "32", "-1", ""];
            let number = if r.below(3) == 0 { format!("0{number}") } else { one(r, &numbers).into() };
            line.splice(from..from + count, number.bytes());
        }
    }
}
