//! Whether standard output was closed when the program started.
//!
//! Rust's runtime opens /dev/null in place of a closed standard stream before `main`, so that each write seems to succeed. On
//! Unix a function that the loader calls earlier checks the stream; on other systems this is unknown.
#![cfg_attr(unix, allow(unsafe_code))]
use std::sync::atomic::{AtomicBool, Ordering};

static CLOSED: AtomicBool = AtomicBool::new(false);

/// Whether standard output was closed when the program started.
pub fn is_closed() -> bool {
    CLOSED.load(Ordering::Relaxed)
}

#[cfg(unix)]
mod before_main {
    use std::ffi::c_int;

    /// F_GETFD, whose number is the same on each Unix.
    const F_GETFD: c_int = 1;

    unsafe extern "C" {
        fn fcntl(descriptor: c_int, command: c_int, ...) -> c_int;
    }

    extern "C" fn look() {
        // Safety: F_GETFD takes no further argument, and changes nothing. An invalid descriptor is a refusal.
        let flags = unsafe { fcntl(1, F_GETFD) };
        super::CLOSED.store(flags == -1, super::Ordering::Relaxed);
    }

    // Safety: the section is a list of functions of this type, called once each before `main`. `look` uses nothing that Rust's
    // runtime has yet to set up.
    #[used]
    #[cfg_attr(
        target_vendor = "apple",
        unsafe(link_section = "__DATA,__mod_init_func")
    )]
    #[cfg_attr(not(target_vendor = "apple"), unsafe(link_section = ".init_array"))]
    static LOOK: extern "C" fn() = look;
}
