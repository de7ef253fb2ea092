//! The fields of the page, what they mean and their units.
use super::html::{Html, Table, cell};

const FIELDS: [(&str, &str, &str); 26] = [
    ("place", "one of the 32 places of the store, numbered from 0, that hold a kernel or are empty", "none"),
    ("layer", "one of 16 layers, numbered from 0, that geologists keep apart", "none"),
    ("x, y, z of a kernel", "its centre", "km; in the list and the log m"),
    ("sigma", "the inverse of its width", "1/km; in the list and the log 1/m"),
    ("weight", "the density that it adds at its centre; it may be negative", "kg/m³"),
    ("exponent", "how fast it falls with the distance; alpha in lines", "none"),
    ("pieces", "the kernels of exponent 1 that stand for it in sums; 1 to 16", "none"),
    (
        "error of the fit",
        "the greatest difference between the kernel and its pieces",
        "part of the kernel's peak",
    ),
    (
        "smallest pivot",
        "of the equations of a fit; a very small one tells of a fit that hangs on rounding",
        "none",
    ),
    ("vertices, faces", "the counts of the mesh", "none"),
    ("extent, radius, centroid", "lengths of the mesh and of the body", "km"),
    ("volume", "what the mesh encloses; below 0 where its faces are turned inwards", "m³"),
    ("density", "the sum of the kernels at a point", "kg/m³"),
    ("step", "the work for one face of one piece", "none"),
    ("done", "the steps done, as a part of those needed", "%"),
    ("convention", "how one reading rescales the weights: raw, rho0 or mass", "none"),
    ("raw", "the weights as entered", "none"),
    ("rho0", "the density at the origin becomes the bulk density", "none"),
    ("mass", "the field mass becomes the target", "none"),
    ("bulk density", "the density that rho0 brings the origin to", "kg/m³"),
    ("target", "the mass from tracking", "kg"),
    ("factor", "what a convention multiplies every weight by", "none"),
    ("field mass", "the integral of the density over the inside of the mesh", "kg"),
    ("mean density", "the field mass by a convention, divided by the volume", "kg/m³"),
    ("wall page", "the field mass of each place with its weight as entered", "kg, whole"),
    ("when, made", "by the world's clock", "UTC"),
];

pub fn table() -> Html {
    let mut table = Table::new("fields-table", "Every field of this page", ["field", "meaning", "unit"]);
    for (field, meaning, unit) in FIELDS {
        table.row(field, [meaning, unit].map(cell));
    }
    table.html()
}
