//! Where the standard output of a program is closed, what it writes is refused.
//!
//! Before `main`, Rust's runtime would open the null device in its place, which takes everything.
#![allow(unsafe_code)]
#![cfg(target_os = "linux")]

use std::ffi::{c_char, c_int};

const STANDARD_OUTPUT: c_int = 1;
// What the C library calls F_GETFD and O_WRONLY.
const GET_FLAGS: c_int = 1;
const FOR_WRITING: c_int = 1;

unsafe extern "C" {
    fn dup2(file: c_int, number: c_int) -> c_int;
    fn fcntl(file: c_int, command: c_int, ...) -> c_int;
    fn open(path: *const c_char, flags: c_int, ...) -> c_int;
}

#[used]
#[unsafe(link_section = ".init_array")]
static BEFORE_MAIN: extern "C" fn() = open_full_device;

/// Opens a device that takes nothing as the standard output, if that is closed.
extern "C" fn open_full_device() {
    // SAFETY: these calls only change which files are open, and the path ends with a zero byte.
    unsafe {
        if fcntl(STANDARD_OUTPUT, GET_FLAGS) == -1 {
            dup2(open(c"/dev/full".as_ptr(), FOR_WRITING), STANDARD_OUTPUT);
        }
    }
}
