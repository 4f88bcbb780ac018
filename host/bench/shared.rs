//! Readers in shared objects.

use std::ffi::{c_void, CString};
use std::os::raw::c_char;

extern "C" {
    fn dlopen(file: *const c_char, flags: i32) -> *mut c_void;
    fn dlsym(library: *mut c_void, name: *const c_char) -> *mut c_void;
}

/// The functions with these names in the file that the variable names; nothing if it is not set.
pub fn functions<const N: usize>(variable: &str, names: [&str; N]) -> Option<[*mut c_void; N]> {
    let file = CString::new(std::env::var(variable).ok()?).unwrap();
    const NOW: i32 = 2;
    // Safety: the strings end with NUL. What is loaded was compiled by `run`.
    let library = unsafe { dlopen(file.as_ptr(), NOW) };
    assert!(!library.is_null(), "{file:?} cannot be loaded");
    Some(names.map(|name| {
        let c_name = CString::new(name).unwrap();
        let symbol = unsafe { dlsym(library, c_name.as_ptr()) };
        assert!(!symbol.is_null(), "{file:?} has no {name}");
        symbol
    }))
}
