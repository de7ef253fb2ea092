//! The lock of a folder: one writer at a time. It is the system's lock on the file `lock` (flock), which ends with the
//! process that holds it, however that ends; the file says who that is.
use super::{user, when};
use crate::failure::{Failure, Result};
use std::fs::{File, TryLockError};
use std::io::{Read, Seek, Write};
use std::path::Path;

/// The name of its file.
pub const NAME: &str = "lock";

/// The right to write, as long as it lives.
#[derive(Debug)]
pub struct Lock {
    file: File,
}

impl Lock {
    /// Takes the lock for a command, or says who holds it.
    pub fn take(folder: &Path, command: &str) -> Result<Lock> {
        let path = folder.join(NAME);
        let fault = |fault: std::io::Error| Failure::of_system(&path, &fault);
        let mut file =
            File::options().read(true).write(true).create(true).truncate(false).open(&path).map_err(fault)?;
        match file.try_lock() {
            Ok(()) => {}
            Err(TryLockError::WouldBlock) => {
                return Err(Failure::of_file(folder, format!("busy: {} writes it", holder(&mut file))));
            }
            Err(TryLockError::Error(system)) => return Err(fault(system)),
        }
        let text = format!(
            "process {} of {}, cauchy {command}, since {}",
            std::process::id(),
            user::name(),
            when::text(when::now())
        );
        // that this line is there is a help for people, and no part of the lock
        let _ = file.set_len(0).and_then(|()| file.write_all(text.as_bytes()));
        Ok(Lock { file })
    }
}

impl Drop for Lock {
    fn drop(&mut self) {
        let _ = self.file.set_len(0);
    }
}

/// Who holds the lock, as far as that is said.
fn holder(file: &mut File) -> String {
    let mut text = String::new();
    let read = file.rewind().and_then(|()| file.take(200).read_to_string(&mut text));
    match read {
        Ok(_) if !text.is_empty() => text.chars().filter(|c| !c.is_control()).collect(),
        _ => "another process".to_string(),
    }
}

#[cfg(test)]
mod tests {
    use super::*;

    #[test]
    fn one_at_a_time_holds_it() {
        let folder = std::env::temp_dir().join(format!("cauchy-lock-{}", std::process::id()));
        std::fs::create_dir_all(&folder).unwrap();
        let first = Lock::take(&folder, "advance").unwrap();
        let Failure::Work(said) = Lock::take(&folder, "put").unwrap_err() else { panic!() };
        let who =
            format!(": busy: process {} of {}, cauchy advance, since ", std::process::id(), user::name());
        assert!(said.contains(&who) && said.ends_with("Z writes it"), "{said}");
        drop(first);
        assert_eq!(std::fs::read(folder.join(NAME)).unwrap(), b"");
        drop(Lock::take(&folder, "put").unwrap());
        std::fs::remove_dir_all(&folder).unwrap();
    }
}
