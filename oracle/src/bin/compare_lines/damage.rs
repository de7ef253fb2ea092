//! Ways to damage a store's lines.
use oracle::cases::one;
use oracle::inputs::Rng;
use std::ops::Range;

/// A damage by its name; it says whether it could be done.
pub type Damage = (&'static str, fn(&mut Rng, &mut Vec<u8>) -> bool);

/// What a decimal number in a line counts or names.
#[derive(Clone, Copy, PartialEq)]
enum Of {
    Count,
    Corner,
    Place,
    Layer,
}

/// The decimal numbers of a text: those of other lengths than a float's 16 digits.
fn numbers(text: &[u8]) -> Vec<(Range<usize>, Of)> {
    let mut found = Vec::new();
    for from in (1..text.len()).filter(|i| text[i - 1] == b' ' && text[*i].is_ascii_digit()) {
        let count = text[from..].iter().take_while(|b| b.is_ascii_alphanumeric()).count();
        if count == 16 {
            continue;
        }
        let before = &text[..from];
        let of = match () {
            () if before.ends_with(b"(verts ") || before.ends_with(b"(faces ") => Of::Count,
            () if before.ends_with(b"(put ") => Of::Place,
            () if before.ends_with(b"(layer ") => Of::Layer,
            () => Of::Corner,
        };
        found.push((from..from + count, of));
    }
    found
}

/// Any number of a kind, given another value.
fn renumber(r: &mut Rng, text: &mut Vec<u8>, which: impl Fn(Of) -> bool, new: impl Fn(&mut Rng, u64) -> String) -> bool {
    let found: Vec<Range<usize>> = numbers(text).into_iter().filter(|(_, of)| which(*of)).map(|(range, _)| range).collect();
    if found.is_empty() {
        return false;
    }
    let range = found[r.below(found.len() as u64) as usize].clone();
    let old = String::from_utf8_lossy(&text[range.clone()]).parse().unwrap_or(0);
    let value = new(r, old);
    text.splice(range, value.into_bytes());
    true
}

/// Where the lines are, each with its newline.
fn lines(text: &[u8]) -> Vec<Range<usize>> {
    let next = |at: &mut usize, line: &[u8]| {
        let from = *at;
        *at += line.len();
        Some(from..*at)
    };
    text.split_inclusive(|b| *b == b'\n').scan(0, next).collect()
}

fn any(r: &mut Rng, count: usize) -> usize {
    r.below(count as u64) as usize
}

/// A byte, mostly one that lines have or nearly have.
fn byte(r: &mut Rng) -> u8 {
    if r.below(3) == 0 { r.word() as u8 } else { one(r, b"0123456789ABCDEFabcdefopenvrtux() \n\r\t") }
}

/// A word that is above the limit by nothing, by one, by much.
fn above(r: &mut Rng, limit: u64) -> u64 {
    let any = limit + r.word() % ((1 << 32) - limit);
    one(r, &[limit, limit, limit + 1, 2 * limit, (1 << 31) + limit, (1 << 32) - 1, any])
}

/// Two lines exchanged, the first of them given first.
fn exchange(text: &mut Vec<u8>, a: Range<usize>, b: Range<usize>) {
    let new = [&text[..a.start], &text[b.clone()], &text[a.end..b.start], &text[a.clone()], &text[b.end..]].concat();
    *text = new;
}

/// Something put before the newline of any line, or at its beginning.
fn beside(r: &mut Rng, text: &mut Vec<u8>, what: &[u8], behind: bool) -> bool {
    let lines = lines(text);
    if lines.is_empty() {
        return false;
    }
    let line = lines[any(r, lines.len())].clone();
    let at = if behind { line.end - 1 } else { line.start };
    text.splice(at..at, what.iter().copied());
    true
}

/// Lines of the right form that are refused.
pub const OUT_OF_RANGE: [Damage; 3] = [
    ("a place of 32 or above", |r, text| renumber(r, text, |of| of == Of::Place, |r, _| above(r, 32).to_string())),
    ("a layer of 16 or above", |r, text| renumber(r, text, |of| of == Of::Layer, |r, _| above(r, 16).to_string())),
    ("a corner out of range", |r, text| {
        let verts = numbers(text).into_iter().next().map(|(range, _)| String::from_utf8_lossy(&text[range]).parse().unwrap_or(0));
        let verts: u64 = verts.unwrap_or(0).min(1 << 31);
        renumber(r, text, |of| of == Of::Corner, |r, _| above(r, verts).to_string())
    }),
];

pub const DAMAGES: [Damage; 24] = [
    ("a byte changed", |r, text| {
        if text.is_empty() {
            return false;
        }
        let at = any(r, text.len());
        let old = text[at];
        while text[at] == old {
            text[at] = byte(r);
        }
        true
    }),
    ("a bit flipped", |r, text| {
        if text.is_empty() {
            return false;
        }
        let at = any(r, text.len());
        text[at] ^= 1 << r.below(8);
        true
    }),
    ("a byte put in", |r, text| {
        let at = any(r, text.len() + 1);
        text.insert(at, byte(r));
        true
    }),
    ("a byte taken out", |r, text| {
        if text.is_empty() {
            return false;
        }
        text.remove(any(r, text.len()));
        true
    }),
    ("the end cut off", |r, text| {
        text.truncate(any(r, text.len() + 1));
        true
    }),
    ("lines cut off", |r, text| {
        let lines = lines(text);
        if lines.is_empty() {
            return false;
        }
        text.truncate(lines[any(r, lines.len())].start);
        true
    }),
    ("the last newline missing", |_, text| text.pop() == Some(b'\n')),
    ("a newline more", |r, text| {
        let lines = lines(text);
        let at = lines.get(any(r, lines.len() + 1)).map_or(text.len(), |line| line.start);
        text.insert(at, b'\n');
        true
    }),
    ("a line taken out", |r, text| {
        let lines = lines(text);
        if lines.is_empty() {
            return false;
        }
        text.drain(lines[any(r, lines.len())].clone());
        true
    }),
    ("a line twice", |r, text| {
        let lines = lines(text);
        if lines.is_empty() {
            return false;
        }
        let line = text[lines[any(r, lines.len())].clone()].to_vec();
        let at = lines[any(r, lines.len())].start;
        text.splice(at..at, line);
        true
    }),
    ("two lines exchanged", |r, text| {
        let lines = lines(text);
        if lines.len() < 2 {
            return false;
        }
        let a = any(r, lines.len() - 1);
        let b = a + 1 + any(r, lines.len() - 1 - a);
        exchange(text, lines[a].clone(), lines[b].clone());
        true
    }),
    ("the puts in another order", |r, text| {
        let puts: Vec<Range<usize>> = lines(text).into_iter().filter(|line| text[line.clone()].starts_with(b"(put")).collect();
        if puts.len() < 2 {
            return false;
        }
        let a = any(r, puts.len() - 1);
        let b = a + 1 + any(r, puts.len() - 1 - a);
        exchange(text, puts[a].clone(), puts[b].clone());
        true
    }),
    ("a put twice, of another weight", |r, text| {
        let puts: Vec<Range<usize>> = lines(text).into_iter().filter(|line| text[line.clone()].starts_with(b"(put")).collect();
        if puts.is_empty() {
            return false;
        }
        let mut line = text[puts[any(r, puts.len())].clone()].to_vec();
        if let Some(at) = line.windows(19).position(|w| w.starts_with(b"(w ")) {
            line.splice(at + 3..at + 19, format!("{:016X}", r.word()).into_bytes());
        }
        let at = one(r, &[puts[0].start, text.len()]);
        text.splice(at..at, line);
        true
    }),
    ("a count changed", |r, text| {
        renumber(r, text, |of| of == Of::Count, |r, n| one(r, &[n + 1, n + 1, n.saturating_sub(1), 0, 2 * n, n + 10]).to_string())
    }),
    ("a count above the limits", |r, text| {
        renumber(
            r,
            text,
            |of| of == Of::Count,
            |r, _| {
                let limit = one(r, &[1_048_577, 2_097_153]);
                above(r, limit).to_string()
            },
        )
    }),
    ("a leading zero", |r, text| renumber(r, text, |_| true, |r, n| format!("{}{n}", one(r, &["0", "0", "00", "0000000000"])))),
    ("a number of 33 bits or more", |r, text| {
        renumber(
            r,
            text,
            |_| true,
            |r, n| {
                let high =
                    [(1u128 << 32) + u128::from(n), 1 << 32, 1 << 33, (1 << 64) + u128::from(n), 9_999_999_999, 10_000_000_000, u128::MAX];
                one(r, &high).to_string()
            },
        )
    }),
    ("a sign before a number", |r, text| renumber(r, text, |_| true, |r, n| format!("{}{n}", one(r, &["-", "+"])))),
    ("a layer taken out", |r, text| {
        let layers: Vec<Range<usize>> = numbers(text).into_iter().filter(|(_, of)| *of == Of::Layer).map(|(range, _)| range).collect();
        if layers.is_empty() {
            return false;
        }
        let range = layers[any(r, layers.len())].clone();
        text.drain(range.start - b" (layer ".len()..text.len().min(range.end + 1));
        true
    }),
    ("a carriage return", |r, text| beside(r, text, b"\r", true)),
    ("a space or a tab", |r, text| {
        let what = one(r, &[b" ", b"\t"]);
        let behind = r.below(2) == 0;
        match r.below(3) {
            0 => {
                let spaces: Vec<usize> = (0..text.len()).filter(|i| text[*i] == b' ').collect();
                if spaces.is_empty() {
                    return false;
                }
                text.insert(spaces[any(r, spaces.len())], what[0]);
                true
            }
            _ => beside(r, text, what, behind),
        }
    }),
    ("a digit in lower case", |r, text| {
        let upper: Vec<usize> = (0..text.len()).filter(|i| text[*i].is_ascii_uppercase()).collect();
        if upper.is_empty() {
            return false;
        }
        text[upper[any(r, upper.len())]].make_ascii_lowercase();
        true
    }),
    ("a line of the program", |r, text| {
        let of = [
            "(clear 0)\n",
            "(advance 5)\n",
            "(report (raw))\n",
            "(reweigh 0 3FF0000000000000)\n",
            "(open (radius 3FF0000000000000) (verts 0) (faces 0))\n",
        ];
        let lines = lines(text);
        let at = lines.get(any(r, lines.len() + 1)).map_or(text.len(), |line| line.start);
        let line = one(r, &of);
        text.splice(at..at, line.bytes());
        true
    }),
    ("a NaN of any bits", |r, text| {
        let floats: Vec<usize> = (1..text.len().saturating_sub(16))
            .filter(|i| text[i - 1] == b' ' && text[*i..][..16].iter().all(u8::is_ascii_hexdigit))
            .collect();
        if floats.is_empty() {
            return false;
        }
        let bits = r.below(2) << 63 | 0x7ff0_0000_0000_0000 | (r.word() >> 12 >> r.below(52)).max(1);
        let at = floats[any(r, floats.len())];
        text.splice(at..at + 16, format!("{bits:016X}").into_bytes());
        true
    }),
];
