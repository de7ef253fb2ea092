//! 02's L8, the wall page, by its words: what it shows of each filled place, and the bytes.

/// A filled place: its number, its pieces, its own field mass.
#[derive(Clone, Copy, Debug)]
pub struct Row {
    pub place: usize,
    pub pieces: usize,
    pub mass: f64,
}

/// "a place's field mass is NaN or, unrounded, exceeds 10^15 in magnitude".
pub fn no_figure(mass: f64) -> bool {
    mass.is_nan() || mass.abs() > 1e15
}

/// "nearest, ties to even"; of a whole number there is no -0.
pub fn figure(mass: f64) -> i64 {
    mass.round_ties_even() as i64
}

/// "its number in columns 1-2, its pieces in 4-5 and its raw mass in whole kilograms in columns 45-64, all right-aligned, spaces
/// elsewhere"; "A last line has TOTAL in columns 1-5 and the sum of the printed masses, written alike, in 45-64".
pub fn text(rows: &[Row]) -> String {
    let line = |r: &Row| format!("{:>2} {:>2}{:39}{:>20}\n", r.place, r.pieces, "", figure(r.mass));
    let total: i64 = rows.iter().map(|r| figure(r.mass)).sum();
    rows.iter().map(line).collect::<String>() + &format!("TOTAL{:39}{total:>20}\n", "")
}

/// The bytes written, "bytes past that untouched"; 17, and "18 when the lent page is too short, after 17".
pub fn write(rows: &[Row], page: &mut [u8]) -> Result<u64, u32> {
    if rows.iter().any(|r| no_figure(r.mass)) {
        return Err(17);
    }
    let text = text(rows);
    page.get_mut(..text.len()).ok_or(18u32)?.copy_from_slice(text.as_bytes());
    Ok(text.len() as u64)
}

/// A run of floats as bytes, for a page to be written there.
pub fn bytes(run: &mut [f64]) -> &mut [u8] {
    // SAFETY: a byte may stand anywhere, and a float may have any bytes.
    unsafe { run.align_to_mut().1 }
}
