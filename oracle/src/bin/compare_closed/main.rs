//! Compares the archive's check of closed meshes with 02's words, counted edge by edge: small meshes of any corners, solids that are whole
//! or changed in one place, meshes above what the check holds at once, and the largest. `compare_closed` takes a few seconds,
//! `compare_closed --long` twenty times as many meshes; `--seed N` draws others. Each answer and each fault must have been met.
//! The last line counts what differs; the exit status is 1 if anything does.
mod seen;

use oracle::cases::{self, one};
use oracle::closed::closed;
use oracle::inputs::{self, Rng};
use oracle::meshes::Mesh;
use oracle::solids::{self, CHANGES, Solid};
use oracle::tally::{Plan, Tally};
use seen::Seen;

/// 01's limits.
const VERTS: usize = 1_048_576;
const FACES: usize = 2_097_152;

fn main() {
    let plan = Plan::read("compare_closed");
    let (mut total, mut seen) = (Tally::new(), Seen::default());
    total.add(small(plan.count(100_000, 2_000_000), plan.rng(0), &mut seen));
    total.add(changed(plan.count(1_000, 20_000), plan.rng(1), &mut seen));
    total.add(large(plan.count(1, 20), plan.rng(2), &mut seen));
    total.add(largest(plan.rng(3), &mut seen));
    total.add(seen.all_met());
    total.end();
}

/// Up to 12 faces on up to 6 vertices: any corners, or shells that may meet, one face of which may be changed. Some are ragged, some have
/// a loose corner.
fn small_mesh(r: &mut Rng) -> Mesh {
    let verts = one(r, &[0, 1, 2, 3, 3, 4, 4, 5, 5, 6, 6]);
    let mut faces: Vec<u32> = match r.below(3) {
        0 => (0..3 * r.below(13)).map(|_| r.below(verts.max(1).into()) as u32).collect(),
        _ => shells(r, verts).concat(),
    };
    let at = r.below(faces.len().max(1) as u64) as usize;
    if r.below(4) == 0 && !faces.is_empty() {
        faces[at] = one(r, &[0, 1, verts.saturating_sub(1), verts, verts + 1, u32::MAX]);
    }
    let mut xyz: Vec<f64> = (0..3 * verts).map(|_| inputs::any(r)).collect();
    match r.below(16) {
        0 => faces.extend((0..1 + r.below(2)).map(|_| 0)),
        1 => xyz.extend((0..1 + r.below(2)).map(|_| 0.0)),
        _ => {}
    }
    Mesh { xyz, faces }
}

/// Leaves and tetrahedra on any of these vertices, 12 faces at most; seldom one face is missing.
fn shells(r: &mut Rng, verts: u32) -> Vec<[u32; 3]> {
    let mut faces = Vec::new();
    for _ in 0..one(r, &[0, 1, 1, 2, 2, 3, 4, 5]) {
        let shell = one(r, &[solids::leaf, solids::tetrahedron])();
        if shell.verts <= verts && faces.len() + shell.faces.len() <= 12 {
            let names = Solid { verts, faces: shell.faces }.shuffled(r);
            faces.extend(names.faces);
        }
    }
    if r.below(6) == 0 {
        faces.pop();
    }
    faces
}

fn small(count: u64, mut r: Rng, all: &mut Seen) -> Tally {
    let (mut tally, mut seen) = (Tally::new(), Seen::default());
    for _ in 0..count {
        seen.judge(&small_mesh(&mut r), &mut tally, |mesh| format!("{} coordinates, {:?}", mesh.xyz.len(), mesh.faces));
    }
    tally.line("closed", "small meshes", &seen.text());
    all.add(&seen);
    tally
}

/// A solid of one shell or several, apart or with vertices in common.
fn solid(r: &mut Rng) -> Solid {
    let shell = |r: &mut Rng| match r.below(5) {
        0 => solids::leaf(),
        1 => solids::tetrahedron(),
        2 => solids::cube(),
        3 => solids::bipyramid(3 + r.below(8) as u32),
        _ => solids::torus(3 + r.below(4) as u32, 3 + r.below(4) as u32),
    };
    let mut solid = shell(r);
    for _ in 0..r.below(4) {
        let common = one(r, &[0, 0, 0, 1, 2]);
        solid = solid.with(shell(r), common);
    }
    if r.below(2) == 0 { solid.shuffled(r) } else { solid }
}

/// Solids, each with every change.
fn changed(count: u64, mut r: Rng, all: &mut Seen) -> Tally {
    let mut total = Tally::new();
    for (name, change) in CHANGES {
        let (mut tally, mut seen) = (Tally::new(), Seen::default());
        for _ in 0..count {
            let mut solid = solid(&mut r);
            change(&mut r, &mut solid);
            let mesh = solid.mesh(|_| cases::odd(&mut r));
            seen.judge(&mesh, &mut tally, |mesh| format!("{name}: {:?}", mesh.faces));
        }
        tally.line("closed", &format!("solids, {name}"), &seen.text());
        all.add(&seen);
        total.add(tally);
    }
    total
}

/// More faces than the check holds at once: in mesh order and in none, with every change.
fn large(count: u64, mut r: Rng, all: &mut Seen) -> Tally {
    let (mut tally, mut seen) = (Tally::new(), Seen::default());
    for _ in 0..count {
        let (rings, around) = (100 + r.below(50) as u32, 110 + r.below(50) as u32);
        for solid in [solids::torus(rings, around), solids::bipyramid(rings * around)] {
            for solid in [solid.clone(), solid.shuffled(&mut r)] {
                for (name, change) in CHANGES {
                    let mut solid = solid.clone();
                    change(&mut r, &mut solid);
                    seen.judge(&solid.mesh(|_| 0.5), &mut tally, |mesh| format!("{name}, {} corners", mesh.faces.len()));
                }
            }
        }
    }
    tally.line("closed", "22,000 to 47,382 faces", &seen.text());
    all.add(&seen);
    tally
}

/// The largest counts: a torus of exactly so many vertices and faces, and one fault more each time, so that what is asked is known without
/// a count.
fn largest(mut r: Rng, all: &mut Seen) -> Tally {
    let (mut tally, mut seen) = (Tally::new(), Seen::default());
    let whole = solids::torus(1_024, 1_024);
    assert_eq!((whole.verts as usize, whole.faces.len()), (VERTS, FACES));
    let mut mesh = whole.clone().shuffled(&mut r).mesh(|_| f64::NAN);
    let mut asked = |what: &str, mesh: &Mesh, no: u32| {
        let told = closed(mesh);
        seen.number(no);
        tally.count(told != no, || format!("{what}: {told}, not {no}"));
    };
    asked("in no order", &mesh, 0);
    mesh.faces = whole.faces.concat();
    asked("in mesh order", &mesh, 0);
    let last = mesh.faces.len() - 1;
    mesh.faces.swap(last, last - 1);
    asked("the last face turned", &mesh, 22);
    mesh.faces[last] = VERTS as u32;
    asked("and a loose corner", &mesh, 3);
    mesh.xyz.extend([0.0; 3]);
    asked("and a vertex more", &mesh, 2);
    mesh.faces.push(0);
    asked("and a corner more", &mesh, 1);
    mesh.xyz.truncate(3 * VERTS);
    mesh.faces.extend([1, 2]);
    asked("a face more", &mesh, 2);
    tally.line("closed", "the largest counts", &seen.text());
    all.add(&seen);
    tally
}
