//! The work of one store by many hands: threads, and processes of the program.
use cauchy::{Kernel, Mesh, PLACES, Store};
use std::fs;
use std::path::PathBuf;
use std::process::{Child, Command, Stdio};
use std::time::{Duration, Instant};

/// Numbers at random.
struct Rng(u64);

impl Rng {
    fn below(&mut self, n: u64) -> u64 {
        self.0 = self.0.wrapping_mul(0x5851_f42d_4c95_7f2d).wrapping_add(0x1405_7b7e_f767_814f);
        (self.0 >> 33) % n
    }

    fn float(&mut self) -> f64 {
        self.below(2001) as f64 - 1000.0
    }

    /// A store of up to 40 faces with kernels in some places, the work done in part.
    fn store(&mut self) -> Store {
        let vertices: Vec<[f64; 3]> = (0..12).map(|_| [self.float(), self.float(), self.float()]).collect();
        let faces: Vec<[u32; 3]> =
            (0..self.below(41)).map(|_| [0; 3].map(|_: u32| self.below(12) as u32)).collect();
        let mut store = Store::open(900.0, Mesh { vertices: &vertices, faces: &faces }).unwrap();
        for _ in 0..self.below(12) {
            let c = [self.float(), self.float(), self.float()];
            let alpha = [1.0, 1.5, 2.5, f64::NAN][self.below(4) as usize];
            let kernel = Kernel { c, sigma: self.float() / 1e5, w: self.float(), alpha };
            store.put_in(self.below(PLACES.into()) as u32, kernel, self.below(16) as u32).unwrap();
            let budget = self.below(100);
            store.advance(budget).unwrap();
        }
        store
    }
}

#[test]
fn threads_leave_the_very_store_of_a_plain_advance() {
    let mut rng = Rng(34);
    let mut split = 0;
    for round in 0..100 {
        let store = rng.store();
        let mut alone = store.clone();
        let wanted = alone.advance(u64::MAX).unwrap();
        for threads in 0..=5 {
            let mut many = store.clone();
            assert_eq!(many.advance_with(threads), Ok(wanted), "round {round}, {threads} threads");
            assert!(many.to_bytes() == alone.to_bytes(), "round {round}, {threads} threads");
        }
        split += usize::from(store.shares(2).len() == 2);
    }
    // many of these stores do have work for two
    assert!(split > 40, "{split}");
}

#[test]
fn places_that_are_done_or_have_no_face_are_in_no_share() {
    let kernel = Kernel { c: [1.0; 3], sigma: 0.01, w: 5.0, alpha: 1.0 };
    let mut bare = Store::open(900.0, Mesh { vertices: &[[0.0; 3]; 3], faces: &[] }).unwrap();
    bare.put(3, kernel).unwrap();
    assert!(bare.shares(4).is_empty());
    assert_eq!(bare.advance_with(4).map(|steps| (steps.done, steps.left)), Ok((0, 0)));
    let mut store = Store::open(900.0, Mesh { vertices: &[[0.0; 3]; 3], faces: &[[0, 1, 2]; 6] }).unwrap();
    for place in [0, 5, 31] {
        store.put(place, kernel).unwrap();
    }
    store.advance(8).unwrap();
    assert_eq!(store.shares(5), [[31], [5]]);
    assert_eq!((store.shares(0), store.shares(1)), (vec![vec![31, 5]], vec![vec![31, 5]]));
}

#[test]
fn shares_have_every_place_with_work_once_and_are_even() {
    let mut rng = Rng(7);
    for _ in 0..100 {
        let store = rng.store();
        for workers in 1..6 {
            let shares = store.shares(workers);
            let mut all = shares.concat();
            all.sort_unstable();
            let due: Vec<u32> = (0..PLACES).filter(|place| store.left_at(*place) > 0).collect();
            assert_eq!((all, shares.len()), (due.clone(), workers.min(due.len())));
            let load = |share: &Vec<u32>| share.iter().map(|place| store.left_at(*place)).sum::<u64>();
            let loads: Vec<u64> = shares.iter().map(load).collect();
            // moving any place from the fullest share to the emptiest would not even them out
            let (least, most) = (loads.iter().min().unwrap_or(&0), loads.iter().max().unwrap_or(&0));
            let greatest = due.iter().map(|place| store.left_at(*place)).max().unwrap_or(0);
            assert!(most - least <= greatest, "{loads:?}");
        }
    }
}

// ---- The program ----

/// A folder of a test's own, with a body of some faces and a store with kernels in its places 0 to 3.
struct Folder(PathBuf);

impl Folder {
    fn new(name: &str, columns: u32) -> Folder {
        let path = std::env::temp_dir().join(format!("cauchy-hands-{name}-{}", std::process::id()));
        let _ = fs::remove_dir_all(&path);
        fs::create_dir(&path).unwrap();
        fs::write(path.join("a.obj"), tube(columns)).unwrap();
        let kernels =
            "0.1 0.15 0.05 2 1200 2\n0.05 0.02 0.09 10 -300 1 3\n0 0.1 0 1 5 1.5\n-0.1 0 0.1 3 7 2.5\n";
        fs::write(path.join("k.txt"), format!("default 2\n{kernels}")).unwrap();
        let folder = Folder(path);
        folder.goes("init s a.obj --mesh-unit m");
        folder.goes("put s k.txt");
        folder
    }

    fn command(&self, line: &str) -> Command {
        let mut command = Command::new(env!("CARGO_BIN_EXE_cauchy"));
        command.current_dir(&self.0).args(line.split_whitespace());
        command
    }

    fn goes(&self, line: &str) -> String {
        let output = self.command(line).output().unwrap();
        assert!(output.status.success(), "{line}: {output:?}");
        String::from_utf8(output.stdout).unwrap()
    }

    fn fails(&self, line: &str, said: &str) {
        let output = self.command(line).output().unwrap();
        let text = String::from_utf8_lossy(&output.stderr);
        assert_eq!(output.status.code(), Some(1), "{line}: {text}");
        assert!(text.contains(said) && !text.contains("panicked"), "{line}: {text}");
    }

    /// A copy of the store as it is.
    fn copy(&self, name: &str) {
        fs::create_dir(self.0.join(name)).unwrap();
        for entry in fs::read_dir(self.0.join("s")).unwrap().flatten() {
            fs::copy(entry.path(), self.0.join(name).join(entry.file_name())).unwrap();
        }
    }

    /// The runs of a store before its mesh, as its head has them.
    fn runs(&self, store: &str) -> Vec<u8> {
        fs::read(self.0.join(store).join("head")).unwrap()[56..14_664].to_vec()
    }

    /// The names of the files of a store.
    fn names(&self, store: &str) -> Vec<String> {
        let entries = fs::read_dir(self.0.join(store)).unwrap().flatten();
        let mut names: Vec<String> = entries.map(|entry| entry.file_name().into_string().unwrap()).collect();
        names.sort();
        names
    }

    /// The calls of a store's log.
    fn calls(&self, store: &str) -> Vec<String> {
        let text = fs::read_to_string(self.0.join(store).join("log")).unwrap();
        text.lines().filter_map(|line| line.split('\t').nth(3)).map(str::to_string).collect()
    }

    /// The worker processes on this folder, by what the system says of each.
    fn workers(&self) -> Vec<u32> {
        let path = self.0.display().to_string();
        let is_worker = |process: &u32| {
            let words = fs::read(format!("/proc/{process}/cmdline")).unwrap_or_default();
            let words: Vec<_> = words.split(|byte| *byte == 0).map(String::from_utf8_lossy).collect();
            let here = fs::read_link(format!("/proc/{process}/cwd")).unwrap_or_default();
            words.get(1).is_some_and(|word| word == "work") && here.display().to_string() == path
        };
        let processes = fs::read_dir("/proc").unwrap().flatten();
        let numbers = processes.filter_map(|entry| entry.file_name().to_str()?.parse().ok());
        numbers.filter(is_worker).collect()
    }
}

impl Drop for Folder {
    fn drop(&mut self) {
        let _ = fs::remove_dir_all(&self.0);
    }
}

/// A tube of two faces a column and row, in metres.
fn tube(columns: u32) -> String {
    let rows = 20;
    let vertex = |i: u32| {
        let (angle, z) = (f64::from(i % columns) * std::f64::consts::TAU / f64::from(columns), i / columns);
        format!("v {} {} {}\n", 300.0 * angle.cos(), 200.0 * angle.sin(), 20 * z)
    };
    let face = |i: u32| {
        let next = if i % columns + 1 == columns { i + 1 - columns } else { i + 1 };
        let [a, b, c, d] = [i, next, i + columns, next + columns].map(|i| i + 1);
        format!("f {a} {b} {d}\nf {a} {d} {c}\n")
    };
    let vertices: String = (0..(rows + 1) * columns).map(vertex).collect();
    vertices + &(0..rows * columns).map(face).collect::<String>()
}

#[test]
fn parts_come_back_in_any_order_twice_or_not_at_all() {
    let folder = Folder::new("parts", 30);
    folder.goes("advance s --steps 1000");
    folder.copy("alone");
    folder.goes("advance alone");
    for place in 0..4 {
        folder.goes(&format!("work s --places {place} --out part-{place}"));
    }
    assert_eq!(folder.names("s"), ["head", "lock", "log", "mesh-1"]);
    // one part is lost: its places stay as they were, and the plain advance does the rest
    folder.copy("lost");
    let said = folder.goes("adopt lost part-3 part-0 part-2 part-0");
    assert!(said.contains("part-0: place 0: 13 pieces, none left"), "{said}");
    assert!(
        said.contains("part-0: place 0: nothing new") && said.contains(" steps left, line 9 of"),
        "{said}"
    );
    folder.goes("verify lost");
    folder.goes("advance lost");
    assert!(folder.runs("lost") == folder.runs("alone"));
    let said = folder.goes("adopt s part-3 part-1 part-2 part-1 part-0 part-3");
    assert!(said.contains("no step left"), "{said}");
    assert!(folder.runs("s") == folder.runs("alone"));
    folder.goes("verify s");
    let log = folder.goes("log s");
    assert!(log.contains("adopt 1 at 1,200 steps: 1 piece, none left"), "{log}");
    assert!(folder.goes("at s 8 status").contains("log       8 lines"));
}

#[test]
fn a_part_that_does_not_fit_changes_nothing_and_the_others_are_taken() {
    let (folder, other) = (Folder::new("other", 10), Folder::new("body", 11));
    folder.goes("work s --places 0,1 --out p");
    folder.goes("work s --places 9 --out none");
    other.goes(&format!("work s --places 0,1 --out {}", folder.0.join("q").display()));
    fs::write(folder.0.join("bad"), &fs::read(folder.0.join("p")).unwrap()[..9000]).unwrap();
    folder.goes("reweigh s 1 77");
    let before = folder.runs("s");
    folder
        .fails("adopt s q", "cauchy: q: another body: its radius, counts or mesh are not those of the store");
    folder.fails("adopt s bad", "cauchy: bad: bytes are missing, or there are too many");
    folder.fails("adopt s missing", "cauchy: missing: no such file or folder");
    folder.fails("adopt s s/head", "cauchy: s/head: not a part of a store's work");
    assert!(folder.runs("s") == before);
    let output = folder.command("adopt s q none p bad").output().unwrap();
    let (said, faults) = (String::from_utf8_lossy(&output.stdout), String::from_utf8_lossy(&output.stderr));
    assert_eq!(output.status.code(), Some(1), "{faults}");
    assert!(faults.contains("cauchy: q: another body") && faults.contains("\ncauchy: bad: "), "{faults}");
    assert!(said.contains("p: place 0: 13 pieces, none left"), "{said}");
    assert!(said.contains("Note: p: place 1 is empty or holds another kernel by now"), "{said}");
    folder.goes("verify s");
    folder.fails("work s --places 2 --out s/p", "s/p: is in the store's folder; keep parts elsewhere");
    folder.fails("work s --places 2 --out p", "p: is there already; --overwrite replaces it");
    folder.goes("work s --places 2 --out p --overwrite");
}

#[test]
fn processes_leave_the_very_store_of_a_plain_advance() {
    let folder = Folder::new("jobs", 200);
    folder.goes("advance s --steps 3001");
    folder.copy("alone");
    folder.goes("advance alone --jobs 1");
    assert!(folder.calls("alone").iter().all(|call| !call.starts_with("(adopt")));
    for jobs in [2, 3, 9] {
        let name = format!("by-{jobs}");
        folder.copy(&name);
        let said = folder.goes(&format!("advance {name} --jobs {jobs}"));
        assert!(said.contains("none left") && !said.contains("worker"), "{said}");
        assert!(folder.runs(&name) == folder.runs("alone"), "{jobs}");
        assert_eq!(folder.names(&name), ["head", "lock", "log", "mesh-1"]);
        assert!(folder.calls(&name).iter().any(|call| call.starts_with("(adopt")));
        folder.goes(&format!("verify {name}"));
    }
}

/// A store whose work takes two processes some seconds.
fn with_much_work(name: &str) -> Folder {
    let folder = Folder::new(name, 6000);
    let kernels: String = (0..16).map(|i| format!("0.1 0.0{i} 0.05 2 120 2\n")).collect();
    fs::write(folder.0.join("many.txt"), format!("default 2\n{kernels}")).unwrap();
    folder.goes("put s many.txt");
    folder
}

/// The work of such a store by two processes, and its workers when each has written a part.
fn at_work(folder: &Folder) -> (Child, Vec<u32>) {
    let mut command = folder.command("advance s --jobs 2");
    let mut child = command.stdout(Stdio::piped()).stderr(Stdio::piped()).spawn().unwrap();
    let begun = Instant::now();
    loop {
        let workers = folder.workers();
        let parts = folder.names("s").iter().filter(|name| name.ends_with(".part")).count();
        if workers.len() == 2 && parts == 2 {
            return (child, workers);
        }
        let is_at_work = child.try_wait().unwrap().is_none();
        assert!(is_at_work && begun.elapsed() < Duration::from_secs(120), "{workers:?}");
        std::thread::sleep(Duration::from_millis(5));
    }
}

fn signal(name: &str, process: u32) {
    assert!(Command::new("kill").args([name, &process.to_string()]).status().unwrap().success());
}

#[test]
fn a_worker_that_dies_costs_its_portion_alone() {
    let folder = with_much_work("dies");
    folder.copy("alone");
    let (child, workers) = at_work(&folder);
    signal("-9", workers[0]);
    let output = child.wait_with_output().unwrap();
    let said = String::from_utf8_lossy(&output.stdout);
    assert!(output.status.success(), "{output:?}");
    assert!(said.contains("ended early, signal: 9 (SIGKILL); its rest is done here"), "{said}");
    assert_eq!(folder.names("s"), ["head", "lock", "log", "mesh-1"]);
    folder.goes("advance alone --jobs 1");
    assert!(folder.runs("s") == folder.runs("alone"));
}

/// An interrupt of the first process alone, a kill of it, and then the rest.
#[test]
fn an_interrupt_keeps_what_is_done_and_a_kill_leaves_no_worker() {
    let folder = with_much_work("ends");
    folder.copy("alone");
    let (child, _) = at_work(&folder);
    signal("-INT", child.id());
    let output = child.wait_with_output().unwrap();
    let said = String::from_utf8_lossy(&output.stdout);
    assert_eq!(output.status.code(), Some(130), "{output:?}");
    assert!(said.contains("The rest: cauchy advance s\n"), "{said}");
    assert!(folder.calls("s").iter().any(|call| call.starts_with("(adopt")), "{said}");
    assert_eq!(folder.workers(), []);
    let (mut child, _) = at_work(&folder);
    child.kill().unwrap();
    child.wait().unwrap();
    let begun = Instant::now();
    while !folder.workers().is_empty() {
        assert!(begun.elapsed() < Duration::from_secs(60));
        std::thread::sleep(Duration::from_millis(20));
    }
    folder.goes("advance s --jobs 2");
    folder.goes("advance alone --jobs 1");
    assert!(folder.runs("s") == folder.runs("alone"));
    assert_eq!(folder.names("s"), ["head", "lock", "log", "mesh-1"]);
}
