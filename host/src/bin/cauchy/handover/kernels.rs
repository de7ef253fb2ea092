//! The tab Kernels: what each place holds, and how its fit ended.
use super::html::{Html, Table, cell, element, figure, marked_figure, paragraph};
use super::readings::Readings;
use crate::figures::{counted, rounded, short};
use crate::notes;
use cauchy::{Fit, Held, Kernel, PLACES};

/// The tab; the body has this radius.
pub fn tab(read: &Readings, radius: f64) -> Html {
    let heads = [
        "place",
        "layer",
        "x [km]",
        "y [km]",
        "z [km]",
        "sigma [1/km]",
        "weight [kg/m³]",
        "exponent",
        "pieces",
        "how its fit ended",
        "greatest error of the fit [of the peak]",
    ];
    let mut table =
        Table::new("kernels-table", "The filled places, lengths in kilometres as in kernel files", heads);
    for (place, held) in &read.held {
        table.row(place.to_string(), row(held, radius));
    }
    let density = "The density is the sum of weight · (1 + sigma² · distance²)^(−exponent) over the kernels.";
    Html::from([paragraph(density), table.html(), paragraph(empty_places(read))])
}

fn row(held: &Held, radius: f64) -> Vec<Html> {
    let Kernel { c, sigma, w, alpha } = held.kernel;
    let lengths = [c[0] / 1000.0, c[1] / 1000.0, c[2] / 1000.0, sigma * 1000.0];
    let mut cells = vec![figure(held.layer)];
    cells.extend(lengths.into_iter().chain([w, alpha]).map(short).map(figure));
    cells.push(figure(held.pieces));
    let (ended, is_marked) = ended(held, radius);
    let ended = Html::from(ended);
    cells.push(cell(if is_marked { element("strong", &[("class", "mark")], ended) } else { ended }));
    let error = rounded(held.error, 2);
    // a NaN is not known to be small
    let is_small = held.error <= notes::GREATEST_ERROR;
    cells.push(if is_small { figure(error) } else { marked_figure(error, "above 1 %") });
    cells
}

/// How a place's fit ended, in words, and whether somebody should look at it.
fn ended(held: &Held, radius: f64) -> (String, bool) {
    match notes::how_it_ended(held, radius) {
        Some(Fit::Kept) => ("kept: its exponent is 1, nothing is fitted".into(), false),
        Some(Fit::NoExponent) => ("no exponent: it has no piece and adds nothing".into(), true),
        // an exponent of minus infinity
        Some(_) if held.pieces == 0 => ("it has no piece and adds nothing".into(), true),
        Some(Fit::Fitted { pivot }) => (format!("fitted, smallest pivot {}", rounded(pivot, 2)), false),
        Some(Fit::Fallback { column }) => {
            (format!("by the fallback, one piece for the fit: flat pivot in column {column}"), true)
        }
        None => ("fitted by an earlier version, of which the error alone is known".into(), false),
    }
}

fn empty_places(read: &Readings) -> String {
    let is_empty = |place: &u32| read.held.iter().all(|(filled, _)| filled != place);
    let empty: Vec<u32> = (0..PLACES).filter(is_empty).collect();
    match empty.len() {
        0 => format!("All {PLACES} places are filled."),
        n => format!("{}: {}.", counted(n as u64, "empty place"), ranges(&empty)),
    }
}

/// Places, by rising number, in words.
pub fn places(numbers: &[u32]) -> String {
    format!("{} {}", if numbers.len() == 1 { "place" } else { "places" }, ranges(numbers))
}

/// Rising numbers in words, neighbours drawn together.
fn ranges(numbers: &[u32]) -> String {
    let run = |run: &[u32]| match run {
        [first, _, .., last] => format!("{first} to {last}"),
        few => few.iter().map(u32::to_string).collect::<Vec<_>>().join(", "),
    };
    numbers.chunk_by(|a, b| a + 1 == *b).map(run).collect::<Vec<_>>().join(", ")
}

#[cfg(test)]
mod tests {
    use super::*;

    #[test]
    fn places_are_told_in_words() {
        assert_eq!(
            [&[7][..], &[1, 2], &[0, 1, 2, 5, 30, 31]].map(places),
            ["place 7", "places 1, 2", "places 0 to 2, 5, 30, 31"]
        );
    }
}
