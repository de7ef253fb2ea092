use oracle::cases::{self, one};
use oracle::inputs::{self, Rng};
use oracle::meshes::{self, Draw, Mesh};
use oracle::original::{native, source};
use oracle::tally::{Plan, Tally};
use oracle::volumes::{self, Kernels, Value};
use oracle::{cauchy_radial_g, pattern};

pub fn run() {
    let plan = Plan::read("compare_volumes");
    let mut total = Tally::new();
    for (i, (name, draw)) in meshes::MESHES.iter().enumerate() {
        total.add(family(name, *draw, plan.count(100, 4_000), plan.rng(i)));
    }
    total.add(family("refused, or nearly", meshes::faulty, plan.count(500, 12_000), plan.rng(100)));
    total.add(radial_factors(plan.count(100_000, 2_000_000), plan.rng(150)));
    total.add(limits(plan.count(0, 1) == 1, plan.rng(200)));
    total.end();
}

/// `radial_g`, held to both texts.
fn radial_factors(count: u64, mut r: Rng) -> Tally {
    let mut tally = Tally::new();
    for _ in 0..count {
        let t = match r.below(5) {
            0 => inputs::any(&mut r),
            1 => cases::odd(&mut r),
            2 => r.within(-0.2, 0.2),
            3 => cases::near(&mut r, 0.1, 1000),
            _ => r.spread(-30, 30),
        };
        let told = pattern(cauchy_radial_g(t));
        tally.count(told != pattern(native::radial_g(t)) || told != pattern(source::radial(t)), || format!("{t:?}"));
    }
    tally.line("radial", "native and source", "");
    tally
}

/// A sigma with which some vertex has t about 0.1 or 1, where the paths of `radial_g` part.
fn bordering(r: &mut Rng, mesh: &Mesh, c: [f64; 3]) -> f64 {
    let vertices = mesh.xyz.len() as u64 / 3;
    let at = 3 * r.below(vertices.max(1)) as usize;
    let square: f64 = mesh.xyz.iter().skip(at).zip(c).map(|(x, c)| (x - c) * (x - c)).sum();
    one(r, &[0.1, 1.0]) / square.sqrt()
}

/// The arguments of one call of each function.
struct Case {
    mesh: Mesh,
    c: [f64; 3],
    sigma: f64,
    kernels: Vec<f64>,
    point: [f64; 3],
    bulk: f64,
    total: f64,
    mean: f64,
    given: u32,
    out: Vec<f64>,
}

impl Case {
    fn draw(r: &mut Rng, mesh: Mesh, faults: bool) -> Case {
        let c = [(); 3].map(|()| cases::value(r, 300.0));
        let sigma = match r.below(4) {
            0 | 1 => r.spread(-16, 4),
            2 => bordering(r, &mesh, c),
            _ => cases::length(r, 0.004),
        };
        let sigma = if r.below(4) == 0 { -sigma } else { sigma };
        let unit = r.below(3) > 0;
        let mut kernels = meshes::kernels(r, unit);
        if faults && r.below(3) == 0 {
            kernels.extend((0..1 + r.below(5)).map(|_| 1.0));
        }
        let point = if r.below(8) == 0 { c } else { [(); 3].map(|()| cases::value(r, 500.0)) };
        let room = match r.below(if faults { 3 } else { 8 }) {
            0 => kernels.len() + r.below(9) as usize,
            1 if faults => r.below(kernels.len() as u64 + 1) as usize,
            _ => kernels.len(),
        };
        let (bulk, total, mean) = (meshes::target(r), meshes::target(r), meshes::target(r));
        let given = one(r, &[0, 0, 1, u32::MAX]);
        let out = cases::garbage(r, room);
        Case { mesh, c, sigma, kernels, point, bulk, total, mean, given, out }
    }

    fn told(&self, function: &str) -> String {
        let bits = |xs: &[f64]| xs.iter().map(|x| format!("{:016x}", x.to_bits())).collect::<Vec<_>>().join(" ");
        let (xyz, faces, kernels) = (bits(&self.mesh.xyz), &self.mesh.faces, bits(&self.kernels));
        let Case { c, sigma, point, bulk, total, mean, given, .. } = self;
        format!(
            "{function}: c {c:?}, sigma {sigma:?}, point {point:?}, bulk {bulk:?}, total {total:?}, mean {mean:?} given {given}, room for {}, kernels {kernels}, faces {faces:?}, coordinates {xyz}",
            self.out.len()
        )
    }
}

/// What is seen of a family's cases, for its line.
#[derive(Default)]
struct Seen {
    refused: [u64; 13],
    nans: u64,
    scaled: u64,
}

fn family(name: &str, draw: Draw, count: u64, mut r: Rng) -> Tally {
    let mut tally = Tally::new();
    let mut seen = Seen::default();
    for _ in 0..count {
        let mesh = draw(&mut r);
        let faults = meshes::refusal(&mesh) != 0 || name.starts_with("refused");
        let case = Case::draw(&mut r, mesh, faults);
        judge(&case, &mut tally, &mut seen);
    }
    let refused = [1, 2, 3, 9, 12].map(|no| format!("{} as {no}", seen.refused[no])).join(", ");
    tally.line("mesh", name, &format!("{} NaN volumes, {} lists scaled, refused {refused}", seen.nans, seen.scaled));
    tally
}

/// Each function once, held to the text.
fn judge(case: &Case, tally: &mut Tally, seen: &mut Seen) {
    let Case { mesh, c, sigma, kernels, point, bulk, .. } = case;
    let (xyz, faces) = (&mesh.xyz[..], &mesh.faces[..]);
    let text = native::Mesh { xyz: mesh.xyz.clone(), faces: mesh.faces.clone() };
    let list: Vec<native::KernelSi> = kernels.chunks_exact(6).map(kernel).collect();
    let bad_mesh = meshes::refusal(mesh);
    let bad_list = if kernels.len() % 6 == 0 { 0 } else { 9 };
    let bad_field = if bad_mesh != 0 { bad_mesh } else { bad_list };
    let mut count = |name: &str, differs: bool| tally.count(differs, || case.told(name));

    let volume = volumes::kernel_volume(xyz, faces, *c, *sigma);
    count("kernel_volume", value_differs(volume, bad_mesh, || native::kernel_volume(&text, *c, *sigma)));
    seen.nans += u64::from(volume.value.is_nan());
    count("body_volume", value_differs(volumes::body_volume(xyz, faces), bad_mesh, || native::body_volume(&text)));
    let centroid = volumes::volume_centroid(xyz, faces);
    let at = [centroid.at.x, centroid.at.y, centroid.at.z];
    count("volume_centroid", differs(centroid.no, &at, bad_mesh, || native::volume_centroid(&text).to_vec()));
    let mass = volumes::field_mass(xyz, faces, kernels);
    count("field_mass", value_differs(mass, bad_field, || native::kernel_field_mass(&text, &list)));
    let density = volumes::densitize(kernels, *point);
    count("densitize", value_differs(density, bad_list, || native::densitize(&list, point)));
    let report = volumes::homogeneous(*bulk, xyz, faces);
    count("homogeneous", differs(report.no, &fields(report), bad_mesh, || text_fields(&native::Density::homogeneous(*bulk, &text).mass)));

    let volume = volumes::source_kernel_volume(xyz, faces, *c, *sigma);
    count("source_kernel_volume", value_differs(volume, bad_mesh, || source::volume(xyz, faces, *c, *sigma)));
    let enclosed = volumes::source_enclosed_volume(xyz, faces);
    count("source_enclosed_volume", value_differs(enclosed, bad_mesh, || source::enclosed(xyz, faces)));
    let density = volumes::source_density_at(kernels, *point);
    count("source_density_at", value_differs(density, bad_list, || source::density(kernels, *point)));
    let (wrong, no) = normalize_differs(case, bad_field);
    count("source_normalize", wrong);
    seen.refused[no as usize] += 1;
    seen.scaled += u64::from(no == 0 && !list.is_empty());
    let (wrong, no) = calibrate_differs(case, bad_field);
    count("source_calibrate", wrong);
    seen.refused[no as usize] += 1;
}

fn kernel(k: &[f64]) -> native::KernelSi {
    native::KernelSi { c: [k[0], k[1], k[2]], sigma: k[3], w: k[4], alpha: k[5] }
}

/// 01's number and the values; those of a refused call are +0.
fn differs(no: u32, values: &[f64], refusal: u32, text: impl FnOnce() -> Vec<f64>) -> bool {
    if refusal != 0 {
        return no != refusal || values.iter().any(|x| x.to_bits() != 0);
    }
    no != 0 || values.iter().zip(text()).any(|(x, y)| pattern(*x) != pattern(y))
}

fn value_differs(told: Value, refusal: u32, text: impl FnOnce() -> f64) -> bool {
    differs(told.no, &[told.value], refusal, || vec![text()])
}

fn fields(r: volumes::Report) -> [f64; 7] {
    let m = r.report;
    [m.raw_mass, m.rho0_scale, m.rho0_mass, m.applied_scale, m.applied_mass, m.target_mass, m.volume]
}

fn text_fields(m: &native::MassReport) -> Vec<f64> {
    vec![m.raw_mass, m.rho0_scale, m.rho0_mass, m.applied_scale, m.applied_mass, m.target_mass, m.volume]
}

fn normalize_differs(case: &Case, bad_field: u32) -> (bool, u32) {
    let Case { mesh, kernels, total, .. } = case;
    let mut out = case.out.clone();
    let told = volumes::source_normalize(&mesh.xyz, &mesh.faces, kernels, *total, &mut out);
    written_differs(case, bad_field, told, &out, || source::normalize(&mesh.xyz, &mesh.faces, kernels, *total))
}

fn calibrate_differs(case: &Case, bad_field: u32) -> (bool, u32) {
    let Case { mesh, kernels, total, mean, given, .. } = case;
    let mut out = case.out.clone();
    let told = volumes::source_calibrate(&mesh.xyz, &mesh.faces, kernels, *total, *mean, *given, &mut out);
    let text = || source::calibrate(&mesh.xyz, &mesh.faces, kernels, *total, (*given != 0).then_some(*mean));
    written_differs(case, bad_field, told, &out, text)
}

/// What a call tells that writes kernels, what it writes and what it leaves; the lowest refusal that applies is answered alone.
fn written_differs(case: &Case, bad_field: u32, told: Kernels, out: &[f64], text: impl FnOnce() -> Option<Vec<f64>>) -> (bool, u32) {
    let short = case.out.len() < case.kernels.len();
    let (no, written) = match bad_field {
        0 if short => (9, Vec::new()),
        0 => text().map_or((12, Vec::new()), |list| (0, list)),
        no => (no, Vec::new()),
    };
    let wrong = told.no != no
        || told.kernels != written.len() as u64 / 6
        || written.iter().zip(out).any(|(x, y)| pattern(*x) != pattern(*y))
        || out.iter().zip(&case.out).skip(written.len()).any(|(x, y)| x.to_bits() != y.to_bits());
    (wrong, no)
}

/// Meshes at the limits of V and F and just above, alone and with faults of a lower or a higher number; at F's limit only the long form
/// works all its faces.
fn limits(long: bool, mut r: Rng) -> Tally {
    const V: usize = 1_048_576;
    const F: usize = 2_097_152;
    let mut tally = Tally::new();
    let mut seen = Seen::default();
    let mut sizes = vec![(3 * V, 3), (3 * V + 3, 3), (3 * V + 4, 3), (3 * V + 3, 0), (9, 3 * F + 3), (9, 3 * F + 4)];
    if long {
        sizes.push((9, 3 * F));
    }
    for (coordinates, corners) in sizes {
        let xyz = (0..coordinates).map(|_| r.within(-1.0, 1.0)).collect();
        let mut faces: Vec<u32> = (0..corners).map(|i| i as u32 % 3).collect();
        if corners > 3 && r.below(2) == 0 {
            faces[1] = 3;
        }
        if corners == 3 {
            faces[2] = (coordinates / 3 - 1) as u32;
        }
        let case = Case::draw(&mut r, Mesh { xyz, faces }, false);
        judge(&case, &mut tally, &mut seen);
    }
    tally.line("mesh", "at the limits of V and F", &format!("refused {} as 1, {} as 2", seen.refused[1], seen.refused[2]));
    tally
}
