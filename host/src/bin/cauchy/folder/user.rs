//! The name by which the system knows the user.
use std::ffi::CStr;
use std::ffi::c_char;

/// The beginning of C's `struct passwd`: the name comes first on every system.
#[repr(C)]
struct Account {
    name: *const c_char,
}

unsafe extern "C" {
    safe fn getuid() -> u32;
    fn getpwuid(user: u32) -> *const Account;
}

/// The user's name; by the number where the system knows none, as in a container.
pub fn name() -> String {
    let user = getuid();
    let known = known(user).map(|name| printable(&name)).filter(|name| !name.is_empty());
    known.unwrap_or_else(|| format!("user-{user}"))
}

fn known(user: u32) -> Option<String> {
    // SAFETY: the program has one thread when it asks, and the answer is copied before anything else is asked. It is
    // null, or an account whose name is null or ends in a zero.
    unsafe {
        let account = getpwuid(user).as_ref()?;
        let name = account.name.as_ref()?;
        Some(CStr::from_ptr(name).to_string_lossy().into_owned())
    }
}

/// A name that stands in a field of the log: without spaces and what else would break a line.
fn printable(name: &str) -> String {
    name.chars().map(|c| if c.is_control() || c.is_whitespace() { '?' } else { c }).take(64).collect()
}

#[cfg(test)]
mod tests {
    use super::*;

    #[test]
    fn a_name_is_one_word() {
        assert!(!name().is_empty() && name() == printable(&name()));
        assert_eq!(printable("a b\tc\nd\u{2028}e\u{7f}"), "a?b?c?d?e?");
        assert_eq!(known(4_000_000_001), None);
    }
}
