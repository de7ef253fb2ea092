//! Calls on a store as bracket lines, and their answers. The forms are those of the proved program `bench` and of a
//! store's lines, so that a log can be played by other tools: numbers by the 16 upper-case hexadecimal digits of their
//! bits, counts in decimal. The forms have no squeeze and no adoption; their lines are made after the manner of the
//! others.
use cauchy::{Adoption, Kernel, PLACES, Refusal, Store};
use std::fmt;

/// A call that changes a store.
#[derive(Clone, Copy, Debug, PartialEq)]
pub enum Call {
    Put {
        place: u32,
        kernel: Kernel,
        layer: u32,
    },
    Clear(u32),
    Reweigh(u32, f64),
    Advance(u64),
    Squeeze,
    /// The work on a place, done elsewhere up to so many steps of its kernel, comes in.
    Adopt {
        place: u32,
        steps: u64,
    },
}

/// What a call answers.
#[derive(Clone, Copy, Debug, PartialEq, Eq)]
pub enum Answer {
    Placed { place: u32, pieces: u32, steps: u32 },
    Cleared(u32),
    Reweighed(u32),
    Advanced { done: u64, left: u64 },
    Squeezed { freed: u32 },
    Adopted { place: u32, pieces: u32, left: u64 },
    Refused(Refusal),
}

/// The opening of a folder: its mesh stands in a file of its own, and is told by the checksum of that.
#[derive(Clone, Copy, Debug, PartialEq)]
pub struct Open {
    pub radius: f64,
    pub vertices: u32,
    pub faces: u32,
    pub mesh: u64,
}

/// The forms of the lines that change a store.
pub const FORMS: &str = "(put N (c H H H) (sigma H) (w H) (alpha H) (layer N)), (clear N), (reweigh N H), \
                         (advance N), (squeeze) or (adopt N (steps N))";

impl Call {
    /// The call on a store.
    pub fn apply(self, store: &mut Store) -> Answer {
        let told = match self {
            Call::Put { place, kernel, layer } => store
                .put_in(place, kernel, layer)
                .map(|placed| Answer::Placed { place, pieces: placed.pieces, steps: placed.need }),
            Call::Clear(place) => store.clear(place).map(|()| Answer::Cleared(place)),
            Call::Reweigh(place, w) => store.reweigh(place, w).map(|()| Answer::Reweighed(place)),
            Call::Advance(budget) => {
                let told = store.advance(budget);
                told.map(|steps| Answer::Advanced { done: steps.done, left: steps.left })
            }
            Call::Squeeze => store.squeeze().map(|freed| Answer::Squeezed { freed }),
            Call::Adopt { place, steps } => adopt(store, place, steps),
        };
        told.unwrap_or_else(Answer::Refused)
    }

    /// Whether it reads or writes the mesh.
    pub fn needs_mesh(self) -> bool {
        matches!(self, Call::Advance(_) | Call::Squeeze | Call::Adopt { .. })
    }

    /// The call of a line, without its newline.
    pub fn parse(line: &str) -> Option<Call> {
        let mut rest = Rest(line);
        let call = match line.split([' ', ')']).next()? {
            "(put" => put(&mut rest)?,
            "(clear" => Call::Clear(rest.then("(clear ")?.word()?),
            "(reweigh" => Call::Reweigh(rest.then("(reweigh ")?.word()?, rest.then(" ")?.float()?),
            "(advance" => Call::Advance(rest.then("(advance ")?.number()?),
            "(squeeze" => rest.then("(squeeze").map(|_| Call::Squeeze)?,
            "(adopt" => {
                let place = rest.then("(adopt ")?.word()?;
                let steps = rest.then(" (steps ")?.number()?;
                rest.then(")").map(|_| Call::Adopt { place, steps })?
            }
            _ => return None,
        };
        rest.then(")")?;
        rest.0.is_empty().then_some(call)
    }
}

/// All steps of the kernel in a place, or why that has none.
pub fn due(store: &Store, place: u32) -> Result<u64, Refusal> {
    let held = store.held(place).ok_or(if place < PLACES { Refusal::Vacant } else { Refusal::NoPlace })?;
    Ok(u64::from(held.pieces) * u64::from(store.faces()))
}

/// What an adoption brought is brought about here: a worker has the place alone, does its steps, and is adopted. After
/// so many steps of a kernel a place is the same wherever they were done. More steps than the kernel has are all of
/// them.
fn adopt(store: &mut Store, place: u32, steps: u64) -> Result<Answer, Refusal> {
    let due = due(store, place)?;
    let steps = steps.min(due);
    let mut worker = store.worker(&[place])?;
    let mut done = due - worker.left_at(place);
    if let Some(held) = store.held(place).filter(|_| done > steps) {
        worker.put_in(place, held.kernel, held.layer)?;
        done = 0;
    }
    worker.advance(steps - done)?;
    adopted(store, place, &worker)
}

/// The place of a store of the same body comes in.
pub fn adopted(store: &mut Store, place: u32, other: &Store) -> Result<Answer, Refusal> {
    match store.adopt(place, other, place)? {
        Adoption::Taken { pieces, left } => Ok(Answer::Adopted { place, pieces, left }),
        Adoption::AnotherBody => Err(Refusal::Unsound),
    }
}

fn put(rest: &mut Rest<'_>) -> Option<Call> {
    let place = rest.then("(put ")?.word()?;
    let c = rest.then(" (c ")?.three()?;
    let sigma = rest.then(") (sigma ")?.float()?;
    let w = rest.then(") (w ")?.float()?;
    let alpha = rest.then(") (alpha ")?.float()?;
    rest.then(")")?;
    let layer = match rest.then(" (layer ") {
        Some(rest) => rest.word().and_then(|layer| rest.then(")").map(|_| layer))?,
        None => 0,
    };
    Some(Call::Put { place, kernel: Kernel { c, sigma, w, alpha }, layer })
}

impl fmt::Display for Call {
    fn fmt(&self, f: &mut fmt::Formatter<'_>) -> fmt::Result {
        match self {
            Call::Put { place, kernel, layer } => {
                let [x, y, z] = kernel.c.map(hex);
                let [sigma, w, alpha] = [kernel.sigma, kernel.w, kernel.alpha].map(hex);
                write!(f, "(put {place} (c {x} {y} {z}) (sigma {sigma}) (w {w}) (alpha {alpha})")?;
                // `bench` takes puts without a layer alone
                if *layer > 0 { write!(f, " (layer {layer}))") } else { f.write_str(")") }
            }
            Call::Clear(place) => write!(f, "(clear {place})"),
            Call::Reweigh(place, w) => write!(f, "(reweigh {place} {})", hex(*w)),
            Call::Advance(steps) => write!(f, "(advance {steps})"),
            Call::Squeeze => f.write_str("(squeeze)"),
            Call::Adopt { place, steps } => write!(f, "(adopt {place} (steps {steps}))"),
        }
    }
}

impl Answer {
    /// Whether an answer is this one, as it was written: by its brackets, since words behind them may change.
    pub fn is(self, written: &str) -> bool {
        let brackets = self.brackets();
        match written.strip_prefix(&brackets) {
            Some(words) => words.is_empty() || words.starts_with(' '),
            None => false,
        }
    }

    /// The answer of a text as the log has it.
    pub fn parse(text: &str) -> Option<Answer> {
        let mut rest = Rest(text);
        let answer = match text.split([' ', ')']).next()? {
            "(put" => Answer::Placed {
                place: rest.then("(put ")?.word()?,
                pieces: rest.then(" (pieces ")?.word()?,
                steps: rest.then(") (steps ")?.word()?,
            },
            "(clear" => Answer::Cleared(rest.then("(clear ")?.word()?),
            "(reweigh" => Answer::Reweighed(rest.then("(reweigh ")?.word()?),
            "(advance" => Answer::Advanced {
                done: rest.then("(advance (done ")?.number()?,
                left: rest.then(") (left ")?.number()?,
            },
            "(squeeze" => Answer::Squeezed { freed: rest.then("(squeeze (freed ")?.word()? },
            "(adopt" => Answer::Adopted {
                place: rest.then("(adopt ")?.word()?,
                pieces: rest.then(" (pieces ")?.word()?,
                left: rest.then(") (left ")?.number()?,
            },
            "(no" => {
                let number = rest.then("(no ")?.word()?;
                Answer::Refused(Refusal::ALL.into_iter().find(|refusal| refusal.number() == number)?)
            }
            _ => return None,
        };
        Some(answer).filter(|answer| answer.is(text))
    }

    fn brackets(self) -> String {
        match self {
            Answer::Placed { place, pieces, steps } => {
                format!("(put {place} (pieces {pieces}) (steps {steps}))")
            }
            Answer::Cleared(place) => format!("(clear {place})"),
            Answer::Reweighed(place) => format!("(reweigh {place})"),
            Answer::Advanced { done, left } => format!("(advance (done {done}) (left {left}))"),
            Answer::Squeezed { freed } => format!("(squeeze (freed {freed}))"),
            Answer::Adopted { place, pieces, left } => {
                format!("(adopt {place} (pieces {pieces}) (left {left}))")
            }
            Answer::Refused(refusal) => format!("(no {})", refusal.number()),
        }
    }
}

/// A refusal is its number, and then its words.
impl fmt::Display for Answer {
    fn fmt(&self, f: &mut fmt::Formatter<'_>) -> fmt::Result {
        match self {
            Answer::Refused(refusal) => write!(f, "{} {}", self.brackets(), refusal.meaning()),
            _ => f.write_str(&self.brackets()),
        }
    }
}

impl Open {
    /// What an opening answers.
    pub fn answer(&self) -> String {
        format!("(open (verts {}) (faces {}))", self.vertices, self.faces)
    }

    pub fn parse(line: &str) -> Option<Open> {
        let mut rest = Rest(line);
        let radius = rest.then("(open (radius ")?.float()?;
        let vertices = rest.then(") (verts ")?.word()?;
        let faces = rest.then(") (faces ")?.word()?;
        let mesh = rest.then(") (mesh ")?.bits()?;
        rest.then("))")?;
        rest.0.is_empty().then_some(Open { radius, vertices, faces, mesh })
    }
}

impl fmt::Display for Open {
    fn fmt(&self, f: &mut fmt::Formatter<'_>) -> fmt::Result {
        let Open { vertices, faces, mesh, .. } = self;
        let radius = hex(self.radius);
        write!(f, "(open (radius {radius}) (verts {vertices}) (faces {faces}) (mesh {mesh:016X}))")
    }
}

/// A number by its bits, those of a NaN too, so that a call can be made again exactly.
fn hex(x: f64) -> String {
    format!("{:016X}", x.to_bits())
}

/// What is left of a line.
struct Rest<'a>(&'a str);

impl<'a> Rest<'a> {
    fn then(&mut self, text: &str) -> Option<&mut Rest<'a>> {
        self.0 = self.0.strip_prefix(text)?;
        Some(self)
    }

    fn bits(&mut self) -> Option<u64> {
        let (digits, rest) = self.0.split_at_checked(16)?;
        let is_upper = digits.bytes().all(|digit| matches!(digit, b'0'..=b'9' | b'A'..=b'F'));
        self.0 = rest;
        u64::from_str_radix(digits, 16).ok().filter(|_| is_upper)
    }

    fn float(&mut self) -> Option<f64> {
        self.bits().map(f64::from_bits)
    }

    fn three(&mut self) -> Option<[f64; 3]> {
        Some([self.float()?, self.then(" ")?.float()?, self.then(" ")?.float()?])
    }

    /// A decimal number without leading zeros.
    fn number(&mut self) -> Option<u64> {
        let count = self.0.bytes().take_while(u8::is_ascii_digit).count();
        let (digits, rest) = self.0.split_at(count);
        let is_plain = digits == "0" || !digits.starts_with('0');
        self.0 = rest;
        digits.parse().ok().filter(|_| is_plain)
    }

    fn word(&mut self) -> Option<u32> {
        self.number().and_then(|n| u32::try_from(n).ok())
    }
}

#[cfg(test)]
mod tests {
    use super::*;
    use cauchy::Mesh;

    const KERNEL: Kernel = Kernel { c: [1.0, -2.0, 0.0], sigma: 0.5, w: -0.0, alpha: 2.0 };

    #[test]
    fn a_line_is_read_as_it_was_written() {
        let put = |place, layer| Call::Put { place, kernel: KERNEL, layer };
        let calls = [
            put(0, 0),
            put(31, 15),
            put(u32::MAX, u32::MAX),
            Call::Clear(7),
            Call::Reweigh(3, f64::from_bits(1)),
            Call::Advance(u64::MAX),
            Call::Squeeze,
            Call::Adopt { place: 31, steps: u64::MAX },
        ];
        for call in calls {
            let line = call.to_string();
            assert_eq!(Call::parse(&line), Some(call), "{line}");
            assert!((0..line.len()).all(|cut| Call::parse(&line[..cut]).is_none()), "{line}");
            assert_eq!(Call::parse(&format!("{line} ")), None);
        }
        assert_eq!(put(1, 0).to_string().split(" (alpha").nth(1), Some(" 4000000000000000))"));
        assert!(put(1, 2).to_string().ends_with(" (alpha 4000000000000000) (layer 2))"));
        let odd = f64::from_bits(0x7ff8_0000_0000_0001);
        assert_eq!(Call::Reweigh(0, odd).to_string(), "(reweigh 0 7FF8000000000001)");
    }

    #[test]
    fn other_lines_are_none() {
        let bad = [
            "",
            " ",
            "()",
            "(",
            "hello",
            "(clear)",
            "(clear )",
            "(clear 01)",
            "(clear -1)",
            "(clear +1)",
            "(clear 4294967296)",
            "(clear 1) ",
            " (clear 1)",
            "(clear  1)",
            "(advance 18446744073709551616)",
            "(reweigh 1 3ff0000000000000)",
            "(reweigh 1 3FF000000000000)",
            "(reweigh 1)",
            "(squeeze )",
            "(squeeze 1)",
            "(squeeze))",
            "(adopt 1)",
            "(adopt 1 (steps 01))",
            "(adopt 1 (steps 1)))",
            "(adopt 1 (steps))",
            "(open)",
            "(put 1)",
            "é",
            "(reweigh 1 +FF0000000000000)",
            "(reweigh 1 ééééééééé)",
            "(density (raw) 0 0 0)",
        ];
        for line in bad {
            assert_eq!(Call::parse(line), None, "{line:?}");
        }
    }

    #[test]
    fn an_opening_is_read_as_it_was_written() {
        let open = Open { radius: 500.0, vertices: 3, faces: 1, mesh: 0xab };
        let line = "(open (radius 407F400000000000) (verts 3) (faces 1) (mesh 00000000000000AB))";
        assert_eq!((open.to_string().as_str(), Open::parse(line)), (line, Some(open)));
        assert_eq!(open.answer(), "(open (verts 3) (faces 1))");
        assert!((0..line.len()).all(|cut| Open::parse(&line[..cut]).is_none()));
    }

    #[test]
    fn calls_answer_as_the_store_does() {
        let mesh = Mesh { vertices: &[[0.0; 3]; 4], faces: &[[0, 1, 2]; 10] };
        let mut store = Store::open(500.0, mesh).unwrap();
        let told = |store: &mut Store, line: &str| Call::parse(line).unwrap().apply(store).to_string();
        let put = Call::Put { place: 2, kernel: KERNEL, layer: 3 }.to_string();
        assert_eq!(told(&mut store, &put), "(put 2 (pieces 13) (steps 130))");
        assert_eq!(told(&mut store, "(advance 7)"), "(advance (done 7) (left 123))");
        assert_eq!(told(&mut store, "(reweigh 2 0000000000000000)"), "(reweigh 2)");
        assert_eq!(told(&mut store, "(squeeze)"), "(squeeze (freed 3))");
        assert_eq!(told(&mut store, "(adopt 2 (steps 90))"), "(adopt 2 (pieces 13) (left 40))");
        assert_eq!(told(&mut store, "(adopt 3 (steps 90))"), "(no 7) vacant: the place is empty");
        assert_eq!(told(&mut store, "(adopt 32 (steps 90))"), "(no 6) no place: the places are 0 to 31");
        assert_eq!(told(&mut store, "(clear 2)"), "(clear 2)");
        assert_eq!(told(&mut store, "(clear 2)"), "(no 7) vacant: the place is empty");
    }

    /// More steps, fewer, as many, and more than there are: the place is that of a kernel with so many steps.
    #[test]
    fn an_adoption_makes_the_place_that_so_many_steps_make() {
        let mesh = Mesh { vertices: &[[0.0; 3], [9.0, 0.0, 1.0], [0.0, 7.0, 0.0]], faces: &[[0, 1, 2]; 10] };
        let opened = || {
            let mut store = Store::open(500.0, mesh).unwrap();
            store.put_in(2, KERNEL, 3).unwrap();
            store
        };
        for (steps, done) in [(90, 7), (7, 90), (30, 30), (0, 5), (130, 1), (u64::MAX, 1), (90, 130)] {
            let (mut store, mut wanted) = (opened(), opened());
            store.reweigh(2, 5.0).unwrap();
            wanted.reweigh(2, 5.0).unwrap();
            store.advance(done).unwrap();
            wanted.advance(steps).unwrap();
            let left = 130 - steps.min(130);
            let told = Call::Adopt { place: 2, steps }.apply(&mut store);
            assert_eq!(told, Answer::Adopted { place: 2, pieces: 13, left });
            assert!(store.to_bytes() == wanted.to_bytes(), "{steps} after {done}");
        }
    }

    #[test]
    fn answers_are_compared_by_their_brackets() {
        let vacant = Answer::Refused(Refusal::Vacant);
        assert!(vacant.is("(no 7)") && vacant.is("(no 7) in other words"));
        assert!(!vacant.is("(no 7)x") && !vacant.is("(no 16)") && !vacant.is(""));
        assert!(!Answer::Cleared(1).is("(clear 12)"));
    }

    #[test]
    fn answers_are_read_as_they_were_written() {
        let answers = [
            Answer::Placed { place: 31, pieces: 16, steps: u32::MAX },
            Answer::Cleared(0),
            Answer::Reweighed(9),
            Answer::Advanced { done: u64::MAX, left: 0 },
            Answer::Squeezed { freed: 3 },
            Answer::Adopted { place: 31, pieces: 16, left: u64::MAX },
        ];
        let refused = Refusal::ALL.map(Answer::Refused);
        for answer in answers.iter().chain(&refused) {
            assert_eq!(Answer::parse(&answer.to_string()), Some(*answer));
        }
        for bad in
            ["", "(clear)", "(clear 1", "(clear 1)x", "(no 0)", "(no 23)", "(no 07)", "(open (verts 1))"]
        {
            assert_eq!(Answer::parse(bad), None, "{bad}");
        }
    }
}
