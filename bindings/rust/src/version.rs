//! The version of the library.

extern "C" {
    fn um_version() -> u32;
}

/// The version of the library that is linked: major, minor and patch. The crate's own is that of its manifest.
#[must_use]
pub fn version() -> (u32, u32, u32) {
    let number = unsafe { um_version() };
    (number / 1_000_000, number / 1_000 % 1_000, number % 1_000)
}
