//! The tab Shape model: the mesh in figures, with its kernels as a picture, and the density in slices.
use super::html::{Html, Table, element, figure, list, paragraph};
use super::kernels::places;
use super::picture::{not_shown, picture};
use super::readings::Readings;
use super::slice::{Plane, slices};
use super::thin::{MOST, thinned};
use super::view::{Frame, VIEWS};
use crate::figures::{count, counted, rounded, whole};
use crate::holes::Holes;
use crate::inside::Faces;
use crate::notes::Note;
use cauchy::{Mesh, Refusal, Store};

pub fn tab(store: &Store, read: &Readings) -> Html {
    let mesh = store.mesh();
    let frame = Frame::of(mesh);
    let drawn = match &frame {
        Some(frame) => Html::from([pictures(mesh, frame, read), densities(store, frame, read)]),
        None => paragraph("There is no picture: the mesh has no face of a finite extent."),
    };
    Html::from([figures(store, read, frame.as_ref()), closed(mesh, read), drawn])
}

/// The mesh in figures.
fn figures(store: &Store, read: &Readings, frame: Option<&Frame>) -> Html {
    let mesh = store.mesh();
    let mut table = Table::new("mesh-table", "The mesh, as the store keeps it", ["field", "figure", "unit"]);
    let mut row = |field: &str, said: String, unit: &str| table.row(field, [figure(said), unit_cell(unit)]);
    row("vertices", count(store.vertices().into()), "");
    row("vertices that no face uses", count(unused(read)), "");
    row("faces", count(store.faces().into()), "");
    if let Some(frame) = frame {
        let [x, y, z] = frame.extent.map(|length| rounded(length / 1000.0, 4));
        row("extent of its faces along x, y and z", format!("{x} × {y} × {z}"), "km");
    }
    row("radius, for the fits of exponents other than 1", rounded(store.radius() / 1000.0, 6), "km");
    row("volume", told(mesh.volume(), whole), "m³");
    row(
        "centroid of the volume: x, y, z",
        told(mesh.centroid(), |at| at.map(|x| rounded(x / 1000.0, 4)).join(", ")),
        "km",
    );
    table.html()
}

fn unused(read: &Readings) -> u64 {
    let found = |note: &Note| if let Note::Unused(found) = note { Some(*found) } else { None };
    read.notes.iter().find_map(found).unwrap_or(0)
}

fn unit_cell(unit: &str) -> Html {
    element("td", &[], unit)
}

/// An answer, or why there is none.
fn told<T>(answer: Result<T, Refusal>, said: impl Fn(T) -> String) -> String {
    answer.map_or_else(|refusal| refusal.to_string(), said)
}

/// Whether the mesh is closed and, where it is not, the first places to look at.
fn closed(mesh: Mesh<'_>, read: &Readings) -> Html {
    if read.closed {
        return paragraph("The mesh is closed: every edge occurs once each way.");
    }
    let said = "The mesh is NOT closed: field mass means nothing on a shell with a hole.";
    let said = paragraph(element("strong", &[("class", "mark")], said));
    let lines = Holes::find(mesh).lines(mesh);
    Html::from([said, list(lines.iter().map(|line| Html::from(line.trim())))])
}

fn pictures(mesh: Mesh<'_>, frame: &Frame, read: &Readings) -> Html {
    let body = thinned(mesh, frame);
    let one = |view| {
        let drawn = picture(view, frame, &body, &read.held, read.closed);
        let said = format!("Seen from {}: {}", view.from, view.axes());
        element("figure", &[], [drawn, element("figcaption", &[], said)])
    };
    let views = element("div", &[("class", "views")], VIEWS.map(one));
    let head = element("h3", &[], "The mesh with its kernels");
    let mut said =
        "A number is that of a kernel's place, a dot its centre, and a dashed ring is where the kernel has \
                    fallen to half its weight; of a wide kernel the ring may lie outside the picture."
            .to_string();
    if mesh.faces.len() > MOST {
        let (drawn, all) = (counted(body.faces.len() as u64, "face"), count(mesh.faces.len() as u64));
        said += &format!(" The mesh is drawn with {drawn} in place of its {all}.");
    }
    let out = out_of_sight(frame, read);
    Html::from([head, views, paragraph(said), out])
}

/// The kernels whose centres lie outside some picture, in words.
fn out_of_sight(frame: &Frame, read: &Readings) -> Html {
    let mut out: Vec<u32> = VIEWS.iter().flat_map(|view| not_shown(*view, frame, &read.held)).collect();
    out.sort_unstable();
    out.dedup();
    let said = format!("Not in every picture, since the centres lie far outside the mesh: {}.", places(&out));
    if out.is_empty() { Html::default() } else { paragraph(said) }
}

fn densities(store: &Store, frame: &Frame, read: &Readings) -> Html {
    let head = element("h3", &[], "The density in slices through the origin");
    if read.held.is_empty() {
        return Html::from([head, paragraph("No place is filled: the density is 0 everywhere.")]);
    }
    let faces = Faces::new(store.mesh());
    let planes = VIEWS.map(|view| Plane::read(store, frame, view, &faces));
    let drawn = match planes.into_iter().collect::<Result<Vec<_>, _>>() {
        Ok(planes) => slices(frame, &planes),
        Err(refusal) => paragraph(format!("density: {refusal}")),
    };
    let said = "Weights as entered; by another convention each figure is to be multiplied by its factor (see \
                Hand-over). The cross is the origin. Points outside the mesh are blank";
    let open = match read.closed {
        true => "",
        false => "; since it is not closed, inside is where it surrounds a point by more than half",
    };
    Html::from([head, drawn, paragraph(format!("{said}{open}."))])
}
