//! The functions of include/gen1.h over the plain sources. `generated` holds them; C passes a slice as a pointer and a length.
#![cfg_attr(not(feature = "std"), no_std)]

#[allow(unused_imports, unused_variables, dead_code, unreachable_pub, clippy::all)]
#[rustfmt::skip]
mod generated;
mod slices;
#[cfg(test)]
mod tests;

// Added to the sources (docs/PLAIN.md, "What is added"): gen1_build of include/gen1.h, and the panic handler of a library without std. The
// sources are proved not to panic, but rustc cannot know that and requires a handler.

/// The tools that build the library set the variable (tools/c_library.py); plain cargo doesn't know the sources.
const BUILD: &str = match option_env!("GEN1_BUILD") {
    Some(text) => text,
    None => "plain, rustc unknown, sources sha256 unknown",
};

/// The text with a NUL at its end.
static TEXT: [u8; BUILD.len() + 1] = {
    let (mut text, mut at) = ([0; BUILD.len() + 1], 0);
    while at < BUILD.len() {
        text[at] = BUILD.as_bytes()[at];
        at += 1;
    }
    text
};

/// Returns the origin of this library: a NUL-terminated string that begins with "plain".
#[unsafe(no_mangle)]
pub extern "C" fn gen1_build() -> *const core::ffi::c_char {
    TEXT.as_ptr().cast()
}

#[cfg(all(feature = "panic_handler", not(target_family = "wasm")))]
unsafe extern "C" {
    safe fn abort() -> !;
}

#[cfg(feature = "panic_handler")]
#[panic_handler]
fn panic(_: &core::panic::PanicInfo<'_>) -> ! {
    #[cfg(target_arch = "wasm32")]
    core::arch::wasm32::unreachable();
    // The instruction that stops a module with a 64-bit memory is not stable.
    #[cfg(target_arch = "wasm64")]
    #[allow(clippy::empty_loop)]
    loop {}
    #[cfg(not(target_family = "wasm"))]
    abort()
}
