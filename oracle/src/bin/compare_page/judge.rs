//! One page of the archive beside what is asked.
use oracle::cases::one;
use oracle::held::Held;
use oracle::inputs::Rng;
use oracle::store;

/// Bytes before and behind the lent page.
const GUARD: usize = 40;

/// How many bytes are lent for a page of so many places: enough, one too few, any, all but the last line, more.
pub fn room(r: &mut Rng, places: usize) -> usize {
    let full = 65 * (places + 1);
    match r.below(12) {
        0 => full - 1,
        1 => r.below(full as u64) as usize,
        2 => full - 65,
        3 | 4 => full + one(r, &[1, 2, 64, 65, 66]),
        _ => full,
    }
}

/// How the archive's page of two runs differs from what `asked` does with the same bytes, if it does; and what that answers.
pub fn differs(r: &mut Rng, runs: &Held, room: usize, asked: impl Fn(&mut [u8]) -> Result<u64, u32>) -> (Option<String>, Result<u64, u32>) {
    let mut page: Vec<u8> = (0..GUARD + room + GUARD).map(|_| r.word() as u8).collect();
    let (mut want, before) = (page.clone(), runs.clone());
    let (no, bytes) = store::page(&runs.floats, &runs.words, &mut page[GUARD..][..room]);
    let answer = asked(&mut want[GUARD..][..room]);
    let as_asked = match answer {
        Ok(count) => (no, bytes) == (0, count),
        Err(number) => (no, bytes) == (number, 0),
    };
    let kept = runs.words == before.words && runs.floats.iter().zip(&before.floats).all(|(x, y)| x.to_bits() == y.to_bits());
    let difference = if !as_asked {
        Some(format!("{no}, {bytes} bytes, not {answer:?}"))
    } else if let Some(at) = (0..page.len()).find(|i| page[*i] != want[*i]) {
        let [is, should] = [&page, &want].map(|page| String::from_utf8_lossy(&page[GUARD..][..bytes as usize]).into_owned());
        Some(format!("byte {} of\n{is}not as in\n{should}", at as i64 - GUARD as i64))
    } else if !kept {
        Some("a word of the store is another".into())
    } else {
        None
    };
    (difference, answer)
}
