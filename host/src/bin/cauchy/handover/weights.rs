//! The tab Weights: as entered, and rescaled by each convention.
use super::html::{Html, Table, cell, element, figure, list, paragraph};
use super::png::base64;
use super::readings::{Reading, Readings};
use crate::figures::{counted, short, whole};
use crate::page;
use cauchy::{Convention, Kernel, Layers, Store};

pub fn tab(store: &Store, read: &Readings) -> Html {
    let said = "The store keeps the weights as entered. A convention belongs to one reading: it rescales what that \
                reading gives and changes nothing that is kept.";
    let parts =
        [paragraph(said), by_place(read), element("h3", &[], "The rescaled list"), by_piece(store, read)];
    Html::from([Html::from(parts), files(store, read)])
}

/// The convention as the head of a column.
pub fn head(by: Convention) -> String {
    format!("{}: {}", by.name(), page::convention(by))
}

/// The weight of each place, as entered and times the factor of each other convention.
fn by_place(read: &Readings) -> Html {
    let others = || read.by.iter().filter(|reading| reading.by != Convention::Raw);
    let heads: Vec<String> = others().map(|reading| format!("{} [kg/m³]", head(reading.by))).collect();
    let fixed = ["place", "layer", "raw: weights as entered [kg/m³]"];
    let heads = fixed.into_iter().chain(heads.iter().map(String::as_str));
    let mut table = Table::new("weights-table", "The weight of each place", heads);
    let factors = others().map(|reading| match &reading.report {
        Ok(report) => figure(whole(report.mass.applied_scale)),
        Err(refusal) => cell(refusal.to_string()),
    });
    table.row("factor", [cell(""), figure(1)].into_iter().chain(factors));
    for (place, held) in &read.held {
        let w = held.kernel.w;
        let rescaled = others().map(|reading| match &reading.report {
            Ok(report) => figure(whole(w * report.mass.applied_scale)),
            Err(_) => cell("no factor yet"),
        });
        table.row(place.to_string(), [figure(held.layer), figure(whole(w))].into_iter().chain(rescaled));
    }
    table.html()
}

/// The pieces with their weights by each convention.
fn by_piece(store: &Store, read: &Readings) -> Html {
    let places = page::places_of(store, Layers::ALL);
    let weights: Vec<String> =
        read.by.iter().map(|reading| format!("weight by {} [kg/m³]", reading.by.name())).collect();
    let fixed = ["place", "x [m]", "y [m]", "z [m]", "sigma [1/m]", "exponent"];
    let heads = fixed.into_iter().chain(weights.iter().map(String::as_str));
    let caption = format!("{} in the order of the list, six digits", counted(places.len() as u64, "piece"));
    let mut table = Table::new("list-table", caption, heads);
    let given = read.by.iter().find_map(|reading| reading.list.as_ref().ok());
    for (i, (place, piece)) in places.iter().zip(given.into_iter().flatten()).enumerate() {
        let Kernel { c: [x, y, z], sigma, alpha, .. } = *piece;
        let fields = [x, y, z, sigma, alpha].map(|field| figure(short(field)));
        let weights = read.by.iter().map(|reading| weight(reading, i));
        table.row(place.to_string(), fields.into_iter().chain(weights));
    }
    let refused = read.by.iter().filter_map(|reading| {
        let refusal = reading.list.as_ref().err()?;
        Some(paragraph(format!("The list by {} is refused: {refusal}.", reading.by.name())))
    });
    Html::from([refused.collect(), table.html()])
}

fn weight(reading: &Reading, piece: usize) -> Html {
    match &reading.list {
        Ok(list) => figure(list.get(piece).map_or(String::new(), |piece| short(piece.w))),
        Err(_) => cell("refused"),
    }
}

/// The lists with all digits, as files within the page.
fn files(store: &Store, read: &Readings) -> Html {
    let places = page::places_of(store, Layers::ALL);
    let link = |reading: &Reading| {
        let list = reading.list.as_ref().ok()?;
        let bytes = page::list_csv(&places, list).into_bytes();
        let address = format!("data:text/csv;base64,{}", base64(&bytes));
        let name = format!("list-{}.csv", reading.by.name());
        let said = format!("{name}: {}", head(reading.by));
        Some(element("a", &[("href", &address), ("download", &name)], said))
    };
    let said = paragraph("With all digits, as tables that this page holds (metres, kg/m³):");
    Html::from([said, list(read.by.iter().filter_map(link))])
}
