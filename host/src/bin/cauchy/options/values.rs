//! The values of options and operands: words that are read, or told what they are not.
use crate::failure::is_standard;
use crate::input::{self, Told};
use cauchy::{Layers, Loader, PLACES};
use std::ffi::OsStr;
use std::path::{Path, PathBuf};

pub const METRES_IN_KM: f64 = 1000.0;

/// The greatest number that is read: it stays finite in metres and squared.
const GREATEST: f64 = 1e100;

fn read<T>(word: &OsStr, read: impl Fn(&str) -> Option<T>, what: &str) -> Told<T> {
    word.to_str().and_then(read).ok_or_else(|| format!("{} is {what}", word.display()))
}

pub fn number(word: &OsStr) -> Told<f64> {
    let finite = |text: &str| text.parse().ok().filter(|x: &f64| x.abs() <= GREATEST);
    read(word, finite, "not a number from -1e100 to 1e100")
}

pub fn above_zero(word: &OsStr) -> Told<f64> {
    let above = |text: &str| text.parse().ok().filter(|x: &f64| x.is_finite() && *x > 0.0);
    read(word, above, "not a number above 0")
}

pub fn whole(word: &OsStr) -> Told<u64> {
    read(word, digits, "not a whole number")
}

/// A whole number by its digits alone, without a sign.
fn digits(text: &str) -> Option<u64> {
    text.parse().ok().filter(|_| text.bytes().all(|byte| byte.is_ascii_digit()))
}

/// A length in km, in metres.
pub fn kilometres(word: &OsStr) -> Told<f64> {
    number(word).map(|km| km * METRES_IN_KM)
}

pub fn place(word: &OsStr) -> Told<u32> {
    let place = |text: &str| u32::try_from(digits(text)?).ok().filter(|place| *place < PLACES);
    read(word, place, &format!("not a place: they are 0 to {}", PLACES - 1))
}

/// Places by their numbers, with commas between them.
pub fn places(word: &OsStr) -> Told<Vec<u32>> {
    word.to_string_lossy().split(',').map(|number| place(OsStr::new(number))).collect()
}

/// How many processes work at once.
pub fn jobs(word: &OsStr) -> Told<usize> {
    let jobs = |text: &str| usize::try_from(digits(text)?).ok().filter(|jobs| *jobs > 0);
    read(word, jobs, "not a whole number above 0")
}

pub fn layer(word: &OsStr) -> Told<u32> {
    input::layer_of(&word.to_string_lossy())
}

/// Layers by their numbers, with commas between them.
pub fn layers(word: &OsStr) -> Told<Layers> {
    let layers = word.to_string_lossy().split(',').map(input::layer_of).collect::<Told<Vec<u32>>>()?;
    Layers::of(&layers).map_err(|refusal| refusal.to_string())
}

/// An exponent; nothing for `-`.
pub fn exponent(word: &OsStr) -> Told<Option<f64>> {
    if word == "-" { Ok(None) } else { number(word).map(Some) }
}

/// The metres in a unit of length.
pub fn unit(word: &OsStr) -> Told<f64> {
    let unit = |text: &str| match text {
        "km" => Some(METRES_IN_KM),
        "m" => Some(1.0),
        _ => None,
    };
    read(word, unit, "neither km nor m")
}

pub fn loader(word: &OsStr) -> Told<Loader> {
    let loaders = [Loader::Native, Loader::Source, Loader::Strict];
    let named = |text: &str| loaders.into_iter().find(|loader| text == loader.name());
    read(word, named, "none of native, source and strict")
}

/// A file, or `-` for a stream.
pub fn file(word: &OsStr) -> Told<PathBuf> {
    match word.is_empty() {
        true => Err("an empty word names no file".to_string()),
        false => Ok(word.into()),
    }
}

/// A store's folder.
pub fn folder(word: &OsStr) -> Told<PathBuf> {
    match is_standard(Path::new(word)) {
        true => Err("`-` is a stream, and a store is a folder; ./- would be one of that name".to_string()),
        false => file(word),
    }
}
