//! One call of the archive beside what is asked.
use oracle::cases;
use oracle::held::Held;
use oracle::inputs::Rng;
use oracle::lines::{self, Bytes, Loaded, store_read, store_write};
use oracle::pattern;

/// Bytes before and behind the lent ones.
const GUARD: usize = 24;

fn same_bits(x: &[f64], y: &[f64]) -> bool {
    x.len() == y.len() && x.iter().zip(y).all(|(x, y)| x.to_bits() == y.to_bits())
}

/// How the archive's lines of two runs differ from the text or the refusal that is asked, if they do.
pub fn writes(r: &mut Rng, runs: &Held, room: usize, asked: &Result<String, u32>) -> Option<String> {
    let mut bytes: Vec<u8> = (0..GUARD + room + GUARD).map(|_| r.word() as u8).collect();
    let (mut want, before) = (bytes.clone(), runs.clone());
    let told = store_write(&runs.floats, &runs.words, &mut bytes[GUARD..][..room]);
    let answer = asked.as_ref().map_err(|no| *no).and_then(|text| lines::write(text, &mut want[GUARD..][..room]));
    let answer = answer.map_or_else(|no| Bytes { no, bytes: 0 }, |bytes| Bytes { no: 0, bytes });
    if told != answer {
        return Some(format!("{told:?}, not {answer:?}"));
    }
    if let Some(at) = (0..bytes.len()).find(|i| bytes[*i] != want[*i]) {
        let [is, should] = [&bytes, &want].map(|bytes| String::from_utf8_lossy(&bytes[GUARD..][..told.bytes as usize]).into_owned());
        return Some(format!("byte {} of\n{is}not as in\n{should}", at as i64 - GUARD as i64));
    }
    let kept = runs.words == before.words && same_bits(&runs.floats, &before.floats);
    (!kept).then(|| "a word of the store is another".into())
}

/// What came of a reading: how it differs from what is asked, the numbers of all refusals that apply, and the runs afterwards.
pub struct Read {
    pub difference: Option<String>,
    pub numbers: Vec<u32>,
    pub runs: Held,
}

/// The archive's store of lines beside the machine that took them one by one, in runs of so many floats and words of any bits.
pub fn reads(r: &mut Rng, text: &[u8], floats: usize, words: usize) -> Read {
    // at any place of memory, with more lines behind what is lent
    let at = r.below(8) as usize;
    let lent = [&vec![b'('; at], text, b"(put 0 (c 0000000000000000 "].concat();
    let mut runs = Held { floats: cases::garbage(r, floats), words: (0..words).map(|_| r.word() as u32).collect() };
    let before = runs.clone();
    let told = store_read(&mut runs.floats, &mut runs.words, &lent[at..at + text.len()]);
    let (answer, fields, numbers) = match lines::read(text, floats, words) {
        Ok((answer, machine)) => (answer, machine.fields(), Vec::new()),
        Err(told) => (Loaded { no: lines::first(&told), verts: 0, faces: 0, puts: 0 }, (Vec::new(), Vec::new()), told),
    };
    let difference = if told != answer { Some(format!("{told:?}, not {answer:?}")) } else { apart(&runs, &before, &fields) };
    let difference = difference.map(|what| format!("{what}: {floats} floats, {words} words, {}", String::from_utf8_lossy(text)));
    Read { difference, numbers, runs }
}

/// The first word that is neither as the fields have it, NaN as one, nor past them as it was.
fn apart(runs: &Held, before: &Held, fields: &(Vec<f64>, Vec<u32>)) -> Option<String> {
    let float = |i: &usize| match fields.0.get(*i) {
        Some(x) => pattern(*x) == pattern(runs.floats[*i]),
        None => before.floats[*i].to_bits() == runs.floats[*i].to_bits(),
    };
    let word = |i: &usize| *fields.1.get(*i).unwrap_or(&before.words[*i]) == runs.words[*i];
    if let Some(at) = (0..runs.floats.len()).find(|i| !float(i)) {
        return Some(format!("float {at} is {:016X}", runs.floats[at].to_bits()));
    }
    let at = (0..runs.words.len()).find(|i| !word(i))?;
    Some(format!("word {at} is {}", runs.words[at]))
}
