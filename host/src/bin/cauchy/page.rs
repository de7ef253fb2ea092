//! What the program prints.
use crate::figures::{count, counted, rounded, short, whole};
use crate::json::Value;
use crate::notes;
use cauchy::{Bill, Convention, Fit, Held, Kernel, Layers, MassReport, Mesh, PLACES, Store};
use std::fmt::Write;

/// A label, and lines beside it.
pub fn entry(label: &str, lines: &[String]) -> String {
    let labels = std::iter::once(label).chain(std::iter::repeat(""));
    labels.zip(lines).map(|(label, line)| format!("{label:<10}{line}\n")).collect()
}

/// The counts of a mesh in words.
pub fn size(vertices: u64, faces: u64) -> String {
    format!("{}, {}", counted(vertices, "vertex"), counted(faces, "face"))
}

/// How far a mesh reaches along x, y and z, m; nothing where it has no vertex.
pub fn extent(mesh: Mesh<'_>) -> Option<[f64; 3]> {
    let mut low = *mesh.vertices.first()?;
    let mut high = low;
    for vertex in mesh.vertices {
        low = [0, 1, 2].map(|axis| vertex[axis].min(low[axis]));
        high = [0, 1, 2].map(|axis| vertex[axis].max(high[axis]));
    }
    Some([0, 1, 2].map(|axis| high[axis] - low[axis]))
}

/// The mesh's size in words.
pub fn mesh(store: &Store) -> Vec<String> {
    let extent = extent(store.mesh()).map(|extent| {
        let [x, y, z] = extent.map(|x| rounded(x / 1000.0, 4));
        format!("extent {x} × {y} × {z} km")
    });
    let mut lines = vec![size(store.vertices().into(), store.faces().into())];
    lines.extend(extent);
    lines.push(format!("radius {} km", rounded(store.radius() / 1000.0, 4)));
    lines
}

/// The filled places in words: each with its pieces, its exponent and how its fit ended.
pub fn places(store: &Store) -> Vec<String> {
    let line = |place| {
        let held = store.held(place)?;
        let pieces = counted(u64::from(held.pieces), "piece");
        let exponent = short(held.kernel.alpha);
        let layer = match held.layer {
            0 => String::new(),
            layer => format!(", in layer {layer}"),
        };
        Some(format!("place {place:<4}{pieces:<12}exponent {exponent}{}{layer}", fit(&held, store.radius())))
    };
    (0..PLACES).filter_map(line).collect()
}

/// How a place's fit ended.
fn fit(held: &Held, radius: f64) -> String {
    let error = format!("with an error of {} of its peak", rounded(held.error, 2));
    match notes::how_it_ended(held, radius) {
        Some(Fit::Kept) => ", kept".into(),
        Some(Fit::NoExponent) => ": no exponent, so no piece".into(),
        Some(Fit::Fitted { pivot }) => format!(", fitted {error}, smallest pivot {}", rounded(pivot, 2)),
        Some(Fit::Fallback { column }) => format!(", by the fallback {error}: flat pivot in column {column}"),
        None => format!(", fitted by an earlier version {error}"),
    }
}

/// A bill in words; so many of the kernels are to be fitted.
pub fn bill(bill: Bill, kernels: usize, fitted: usize) -> Vec<String> {
    let (steps, floats) = (counted(bill.steps, "step"), counted(bill.floats, "float"));
    let bytes = counted(8 * bill.floats, "byte");
    let assumed = "13 or 16 pieces are assumed for each kernel to be fitted";
    let (most, why) = match fitted {
        0 => ("exactly", "exact: no kernel is to be fitted".to_string()),
        _ => ("at most", format!("an upper bound: {assumed} ({fitted} of {kernels})")),
    };
    vec![format!("{most} {steps}, and a list of {most} {floats} ({bytes})"), why]
}

/// The steps that were done and those left.
pub fn steps(done: u64, left: u64) -> String {
    match left {
        0 => format!("{} done, none left", counted(done, "step")),
        _ => format!("{} done, {} left", counted(done, "step"), count(left)),
    }
}

/// The convention in words.
pub fn convention(convention: Convention) -> String {
    match convention {
        Convention::Raw => "weights as entered".to_string(),
        Convention::Rho0 { bulk } => format!("density at the origin brought to {} kg/m³", short(bulk)),
        Convention::Mass { target, .. } => format!("field mass brought to {} kg", short(target)),
    }
}

/// What is said of the store of a snapshot of the form before layers.
pub const CARRIED: &str =
    "carried over from the form before layers: every kernel in layer 0, pieces and work done as they were";

/// What is said of a mass on a mesh that is not closed.
pub const NOT_CLOSED: &str = "the mesh is NOT closed: field mass means nothing on a shell with a hole";

/// What a planner must not overlook.
pub fn cautions(by: Convention, mass: &MassReport, origin: f64, closed: bool) -> Vec<&'static str> {
    let mut said = Vec::new();
    if !closed {
        said.push(NOT_CLOSED);
    }
    let tiny = |x: f64| !x.is_finite() || x.abs() <= 1e-30;
    let falls_back = mass.target_mass > 0.0 && tiny(mass.raw_mass);
    if falls_back {
        said.push(
            "the mass as entered is tiny or not finite: the target is NOT met, the scale is that of rho0",
        );
    }
    if tiny(origin) && (falls_back || matches!(by, Convention::Rho0 { .. })) {
        said.push("the density at the origin is tiny or not finite: it is NOT brought to the bulk density");
    }
    if mass.applied_scale < 0.0 {
        said.push("the factor is below 0: every weight changes its sign");
    }
    if mass.volume <= 0.0 {
        said.push("the mesh encloses no volume: no mass means anything on it");
    }
    if !mass.applied_mass.is_finite() {
        said.push("the mass by this convention is not a finite number");
    }
    said
}

/// A kernel as members of a JSON object.
pub fn members_of(kernel: &Kernel) -> [(&'static str, Value); 6] {
    let [x, y, z] = kernel.c;
    [
        ("x_m", x.into()),
        ("y_m", y.into()),
        ("z_m", z.into()),
        ("sigma_per_m", kernel.sigma.into()),
        ("weight_kg_m3", kernel.w.into()),
        ("exponent", kernel.alpha.into()),
    ]
}

/// The rescaled list, whole, as a table.
pub fn list_csv(places: &[u32], pieces: &[Kernel]) -> String {
    let mut text = String::from("place,x_m,y_m,z_m,sigma_per_m,weight_kg_m3,exponent\n");
    for (place, piece) in places.iter().zip(pieces) {
        let [x, y, z] = piece.c;
        let fields = [x, y, z, piece.sigma, piece.w, piece.alpha].map(whole);
        let _ = writeln!(text, "{place},{}", fields.join(","));
    }
    text
}

/// The place of each piece of these layers, in the list's order.
pub fn places_of(store: &Store, layers: Layers) -> Vec<u32> {
    let read = |place| store.held(place).filter(|held| layers.has(held.layer));
    let pieces = |place| read(place).map_or(0, |held| held.pieces as usize);
    (0..PLACES).flat_map(|place| std::iter::repeat_n(place, pieces(place))).collect()
}
