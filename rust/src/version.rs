//! Which archive was linked.

use crate::sys;

/// The number of the archive's structs and calls. [`sys::VERSION`] is the one that this crate was
/// written for; with another its calls must not be made.
///
/// ```
/// assert_eq!(wispbundle::version(), wispbundle::sys::VERSION);
/// ```
pub fn version() -> u32 {
    // SAFETY: it is lent nothing.
    unsafe { sys::wb_version() }
}
