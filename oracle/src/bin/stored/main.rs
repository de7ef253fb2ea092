//! Answers of the original's text, stored for Rattle programs that replay them without Rust. The text works with 01's roots and powers by
//! the second transcription, so nothing of the proved code is asked.
//!   stored pieces               the expected output of the program `test_pieces` (crates/test_pieces)
//!   stored pieces --table       its tables of arguments
//!   stored pieces --held FILE   whether FILE is that output: the exit status is 1 if it is not
//!   stored volumes ..           the same for `test_volumes` (crates/test_volumes; its tables are in crates/test_arguments)
//!   stored history [--held FILE]   the same for the program `test_store` (crates/test_store), by 01's machine
#[cfg(original)]
mod history;
#[cfg(original)]
mod kernels;
#[cfg(original)]
mod pieces;
#[cfg(original)]
mod systems;
#[cfg(original)]
mod tables;
#[cfg(original)]
mod topics;
#[cfg(original)]
mod volumes;

fn main() {
    oracle::by_original!(work());
}

#[cfg(original)]
fn work() {
    let words: Vec<String> = std::env::args().skip(1).collect();
    match words.iter().map(String::as_str).collect::<Vec<_>>()[..] {
        ["pieces"] => print!("{}", of_pieces()),
        ["pieces", "--table"] => print!("{}", pieces_tables()),
        ["pieces", "--held", file] => held(file, &of_pieces()),
        ["volumes"] => print!("{}", volumes::answers()),
        ["volumes", "--table"] => print!("{}", volumes::tables()),
        ["volumes", "--held", file] => held(file, &volumes::answers()),
        ["history"] => print!("{}", history::answers()),
        ["history", "--held", file] => held(file, &history::answers()),
        _ => {
            eprintln!("usage: stored pieces | volumes [--table | --held FILE], stored history [--held FILE]");
            std::process::exit(2);
        }
    }
}

/// The lines of the program `test_pieces`.
#[cfg(original)]
fn of_pieces() -> String {
    pieces::answers() + &systems::answers() + &kernels::answers()
}

/// The tables of its arguments.
#[cfg(original)]
fn pieces_tables() -> String {
    let head = "// The arguments of the stored calls, as oracle/ writes them.\n\n";
    let text = head.to_string() + &pieces::table() + &systems::tables() + &kernels::tables();
    text.trim_end().to_string() + "\n"
}

#[cfg(original)]
fn held(file: &str, answers: &str) {
    let same = std::fs::read_to_string(file).is_ok_and(|text| text == answers);
    println!(
        "{file}: {} lines, {}",
        answers.lines().count(),
        if same { "as the original's text answers" } else { "not what the original's text answers" }
    );
    if !same {
        std::process::exit(1);
    }
}
