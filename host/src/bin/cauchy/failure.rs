//! What the program says when it does not go on.
use crate::excerpt;
use std::fmt::Display;
use std::io;
use std::path::Path;

/// Why the program ends early.
#[derive(Debug, PartialEq)]
pub enum Failure {
    /// The command line is not understood.
    Usage(String),
    /// Something was refused or could not be done.
    Work(String),
    /// An interrupt; what is to be said has been said.
    Interrupted,
}

pub type Result<T> = std::result::Result<T, Failure>;

impl Failure {
    pub fn usage<T>(what: impl Into<String>) -> Result<T> {
        Err(Failure::Usage(what.into()))
    }

    pub fn work<T>(what: impl Into<String>) -> Result<T> {
        Err(Failure::Work(what.into()))
    }

    /// A fault of a whole file.
    pub fn of_file(path: &Path, what: impl Display) -> Failure {
        Failure::Work(format!("{}: {what}", name(path)))
    }

    /// A fault in a line of a file, counted from 1.
    pub fn of_line(path: &Path, line: usize, what: impl Display) -> Failure {
        Failure::Work(format!("{}, line {line}: {what}", name(path)))
    }

    /// A fault at a byte of a line, which is shown with a mark below it.
    pub fn of_text(path: &Path, line: usize, text: &[u8], at: usize, what: impl Display) -> Failure {
        let column = excerpt::column(text, at);
        let rows = excerpt::rows(text, at);
        Failure::Work(format!("{}, line {line}, column {column}: {what}\n{rows}", name(path)))
    }

    /// A fault at a byte of a file that is no text, counted from 0.
    pub fn of_byte(path: &Path, byte: u64, what: impl Display) -> Failure {
        Failure::Work(format!("{}, byte {byte}: {what}", name(path)))
    }

    /// A fault that the system told.
    pub fn of_system(path: &Path, fault: &io::Error) -> Failure {
        let what = match fault.kind() {
            io::ErrorKind::NotFound => "no such file or folder".to_string(),
            io::ErrorKind::PermissionDenied => "not allowed".to_string(),
            io::ErrorKind::IsADirectory => "is a folder".to_string(),
            _ => fault.to_string(),
        };
        Failure::of_file(path, what)
    }
}

/// Whether a path stands for standard input.
pub fn is_standard(path: &Path) -> bool {
    path.as_os_str() == "-"
}

/// What an input is called in messages.
pub fn name(path: &Path) -> String {
    if is_standard(path) { "standard input".to_string() } else { path.display().to_string() }
}
