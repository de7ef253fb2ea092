//! The bill before the work, and an estimate of the time that the work takes on this machine.
use super::Told;
use crate::failure::{Failure, Result, name};
use crate::figures::{counted, rounded};
use crate::json::Value;
use crate::notes::{self, Note};
use crate::options::Files;
use crate::{input, kernels, opening, page, work};
use cauchy::{Kernel, Mesh, OpenError, PLACES, Refusal, Store};
use std::time::{Duration, Instant};

/// How long steps are tried for an estimate.
const TRIAL_TIME: Duration = Duration::from_millis(200);

/// The bill of a kernel list on a mesh.
pub struct Due {
    bill: cauchy::Bill,
    kernels: usize,
    /// The kernels to be fitted, whose pieces are not known before.
    fitted: usize,
}

impl Due {
    pub fn of(kernels: &[Kernel], mesh: Mesh<'_>) -> std::result::Result<Due, Refusal> {
        let bill = cauchy::bill(kernels, mesh.vertices.len(), mesh.faces.len())?;
        let mut fitted = 0;
        for kernel in kernels {
            // On one face a step is a piece, and only kernels that are fitted are billed more than one.
            let alone = cauchy::bill(&[*kernel], 3, 1)?;
            fitted += usize::from(alone.steps > 1);
        }
        Ok(Due { bill, kernels: kernels.len(), fitted })
    }

    /// That of the kernels of a store, all their work to do.
    pub fn of_store(store: &Store) -> std::result::Result<Due, Refusal> {
        Due::of(&kernels_of(store), store.mesh())
    }

    /// In words.
    pub fn lines(&self) -> Vec<String> {
        page::bill(self.bill, self.kernels, self.fitted)
    }
}

/// The kernels of a store's places, in order.
fn kernels_of(store: &Store) -> Vec<Kernel> {
    (0..PLACES).filter_map(|place| store.held(place)).map(|held| held.kernel).collect()
}

/// The bill of a mesh and kernels, with an estimate of the time. Nothing is kept.
pub struct Bill {
    /// Where the mesh and the kernels come from, in words.
    mesh: Vec<String>,
    kernels: Vec<String>,
    vertices: u64,
    faces: u64,
    due: Due,
    /// The steps that are left, in a store that keeps its work.
    steps_left: Option<u64>,
    /// The seconds that a step takes here; nothing where there is no step.
    step_time: Option<f64>,
    notes: Vec<Note>,
}

/// The bill of a store's kernels, all their work to do. Its mesh is told of in these words; where the store keeps its
/// work, the steps left are told too.
pub fn bill(store: &Store, mesh: String, keeps_work: bool) -> std::result::Result<Bill, OpenError> {
    let kernels = kernels_of(store);
    let due = Due::of(&kernels, store.mesh())?;
    let left = || (0..PLACES).map(|place| store.left_at(place)).sum();
    let trial = kernels.first().filter(|_| due.bill.steps > 0);
    Ok(Bill {
        mesh: vec![mesh],
        kernels: Vec::new(),
        vertices: store.vertices().into(),
        faces: store.faces().into(),
        due,
        steps_left: keeps_work.then(left),
        step_time: trial.map(|kernel| step_time(store.mesh(), *kernel)).transpose()?,
        notes: notes::of_store(store),
    })
}

/// The bill of a mesh and a kernel list.
pub fn bill_of_files(files: &Files) -> Result<Bill> {
    let mesh = input::mesh(&files.mesh, files.unit)?;
    let list = kernels::read(&files.kernels, files.loading)?;
    let mesh = Mesh { vertices: &mesh.vertices, faces: &mesh.faces };
    let due = Due::of(&list.kernels, mesh).map_err(|refusal| Failure::of_file(&files.mesh, refusal))?;
    let time = list.kernels.first().map(|kernel| step_time(mesh, *kernel)).transpose();
    Ok(Bill {
        mesh: vec![name(&files.mesh)],
        kernels: list.said,
        vertices: mesh.vertices.len() as u64,
        faces: mesh.faces.len() as u64,
        due,
        steps_left: None,
        step_time: time.map_err(|fault| Failure::of_file(&files.mesh, fault))?,
        notes: notes::of_mesh(mesh),
    })
}

impl Told for Bill {
    fn text(&self) -> String {
        let mut mesh = self.mesh.clone();
        mesh.push(page::size(self.vertices, self.faces));
        let left = self.steps_left.map(|left| counted(left, "step"));
        let time = self.step_time.map(|step| estimate(step, self.due.bill.steps));
        let entries = [
            ("mesh", mesh),
            ("kernels", self.kernels.clone()),
            ("bill", self.due.lines()),
            ("left", left.into_iter().collect()),
            ("time", time.into_iter().collect()),
        ];
        entries.map(|(label, lines)| page::entry(label, &lines)).concat()
    }

    fn members(&self) -> Vec<(&'static str, Value)> {
        let Due { bill, kernels, fitted } = &self.due;
        vec![
            ("reading", "bill".into()),
            ("vertices", self.vertices.into()),
            ("faces", self.faces.into()),
            ("kernels", (*kernels as u64).into()),
            ("kernels_to_be_fitted", (*fitted as u64).into()),
            ("exact", (*fitted == 0).into()),
            ("steps_at_most", bill.steps.into()),
            ("floats_at_most", bill.floats.into()),
            ("bytes_at_most", (8 * bill.floats).into()),
            ("steps_left", self.steps_left.into()),
            ("step_time_s", self.step_time.into()),
            ("time_s", self.step_time.map(|step| step * bill.steps as f64).into()),
        ]
    }

    fn notes(&self) -> &[Note] {
        &self.notes
    }
}

/// The seconds that a step takes: the work on a kernel is done over and over for a fifth of a second, and once at
/// least. The kernel's exponent is taken as 1, so that nothing is fitted.
fn step_time(mesh: Mesh<'_>, kernel: Kernel) -> std::result::Result<f64, OpenError> {
    let mut store = Store::open(opening::farthest(mesh.vertices), mesh)?;
    let begun = Instant::now();
    let (mut steps, mut took) = (0, Duration::ZERO);
    loop {
        store.put(0, Kernel { alpha: 1.0, ..kernel })?;
        let portion = Instant::now();
        steps += store.advance(u64::MAX)?.done;
        took += portion.elapsed();
        if begun.elapsed() >= TRIAL_TIME {
            return Ok(took.as_secs_f64() / steps as f64);
        }
    }
}

/// The time of so many steps, in words.
fn estimate(step: f64, steps: u64) -> String {
    let seconds = step * steps as f64;
    let time = if seconds < 60.0 { format!("{} s", rounded(seconds, 2)) } else { work::time(seconds) };
    let step = rounded(step * 1e9, 3);
    format!("about {time} for these steps on this machine: an estimate, from a short run at {step} ns a step")
}

#[cfg(test)]
mod tests {
    use super::*;

    #[test]
    fn an_estimate_is_the_time_of_all_steps() {
        let rest = "for these steps on this machine: an estimate, from a short run at";
        assert_eq!(estimate(150e-9, 21_600), format!("about 0.0032 s {rest} 150 ns a step"));
        assert_eq!(estimate(200e-9, 1 << 30), format!("about 3 min 35 s {rest} 200 ns a step"));
    }

    #[test]
    fn a_step_takes_some_time() {
        let mesh =
            Mesh { vertices: &[[0.0, 0.0, 1.0], [1.0, 0.0, 0.0], [0.0, 1.0, 0.0]], faces: &[[0, 1, 2]] };
        let steep = Kernel { c: [0.0; 3], sigma: 0.5, w: 1.0, alpha: 2.0 };
        let step = step_time(mesh, steep).unwrap();
        assert!(step > 0.0 && step < 1.0, "{step}");
    }

    #[test]
    fn kernels_that_are_fitted_are_counted() {
        let mesh = Mesh { vertices: &[], faces: &[] };
        let kernel = |alpha| Kernel { c: [0.0; 3], sigma: 0.5, w: 1.0, alpha };
        let fitted = |alphas: &[f64]| {
            let kernels: Vec<_> = alphas.iter().copied().map(kernel).collect();
            Due::of(&kernels, mesh).unwrap().fitted
        };
        assert_eq!(fitted(&[1.0, f64::NAN, 1.0 + 0.5e-9]), 0);
        assert_eq!(fitted(&[2.0, 1.0, 0.0, f64::INFINITY, f64::NAN, -7.0, 1.001]), 5);
    }
}
