//! Meshes as large as they come: what reading them takes.
use crate::damage::{Body, KINDS};
use crate::input::{self, METRES_IN_KM};
use std::path::Path;
use std::process::Command;
use std::time::Instant;

/// Names the file to a process that reads nothing else.
const FILE: &str = "CAUCHY_LARGE_MESH";

/// Tells the time and the memory that reading takes, of 1,000,002 vertices and 2,000,000 faces of every kind, or of the
/// file that CAUCHY_LARGE_MESH names. Each file has a process of its own, since memory is told of a whole process.
#[test]
#[ignore = "a minute: host/test --long"]
fn a_large_mesh_takes_little_more_memory_than_its_vectors() {
    if let Some(file) = std::env::var_os(FILE) {
        return measure(Path::new(&file));
    }
    let body = Body::globe(1000, 1000);
    for kind in KINDS.into_iter().filter(|kind| kind.is_mesh()) {
        let path = std::env::temp_dir().join(format!("cauchy-large-{}-{}", std::process::id(), kind.name()));
        std::fs::write(&path, kind.bytes(&body)).unwrap();
        let test = "large::a_large_mesh_takes_little_more_memory_than_its_vectors";
        let mut command = Command::new(std::env::current_exe().unwrap());
        let told = command.args([test, "--exact", "--ignored", "--nocapture"]).env(FILE, &path).output();
        std::fs::remove_file(&path).unwrap();
        let told = told.unwrap();
        let text = String::from_utf8_lossy(&told.stdout);
        assert!(told.status.success() && text.contains(" bytes resident"), "{kind:?}: {told:?}");
        text.lines()
            .filter(|line| line.contains(" bytes resident"))
            .for_each(|line| println!("{kind:?}: {line}"));
    }
}

fn measure(path: &Path) {
    let begun = Instant::now();
    let mesh = input::mesh(path, METRES_IN_KM).unwrap();
    let took = begun.elapsed().as_secs_f64();
    let status = std::fs::read_to_string("/proc/self/status").unwrap();
    let line = status.lines().find(|line| line.starts_with("VmHWM:")).unwrap();
    let resident = 1024 * line.split_whitespace().nth(1).unwrap().parse::<usize>().unwrap();
    let vectors = size_of_val(&mesh.vertices[..]) + size_of_val(&mesh.faces[..]);
    println!("{took:.2} s, {resident} bytes resident, {vectors} of them in vectors");
    assert!(resident < 2 * vectors, "{resident} bytes resident");
}
