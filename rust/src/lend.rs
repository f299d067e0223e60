//! Slices lent to the archive. A macro names its function in [`crate::sys`] and no other, so what that
//! module asks of a caller is seen to here, once.

/// A call of `sys` that writes to `out`.
macro_rules! lend_out {
    ($call:ident, $given:expr, $out:expr) => {{
        let (given, out): (_, &mut [u8]) = ($given, $out);
        // SAFETY: the pointer and the count are those of a slice that is borrowed alone.
        unsafe { crate::sys::$call(given, out.as_mut_ptr(), out.len()) }
    }};
}

/// A call of `sys` that reads `bytes` and writes to `out`.
macro_rules! lend {
    ($call:ident, $given:expr, $bytes:expr, $out:expr) => {{
        let (given, bytes, out): (_, &[u8], &mut [u8]) = ($given, $bytes, $out);
        let (from, count) = (bytes.as_ptr(), bytes.len());
        // SAFETY: both pointers and counts are those of slices, and `out` is borrowed alone.
        unsafe { crate::sys::$call(given, from, count, out.as_mut_ptr(), out.len()) }
    }};
}

pub(crate) use {lend, lend_out};
