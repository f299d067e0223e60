//! Stand-in for the crate bytemuck: the two traits, their derives and `bytes_of`, nothing else.

pub use bytemuck_derive::{Pod, Zeroable};

/// A type of which all bytes zero is a value.
///
/// # Safety
///
/// That must be so.
pub unsafe trait Zeroable: Sized {}

/// A type of plain bytes: every pattern of bits is a value, and no byte is padding.
///
/// # Safety
///
/// That must be so.
pub unsafe trait Pod: Zeroable + Copy + 'static {}

/// The bytes of a value, in the order in which they lie in memory.
pub fn bytes_of<T: Pod>(t: &T) -> &[u8] {
    // SAFETY: T is plain bytes, so all size_of::<T>() bytes from its address on can be read.
    unsafe { core::slice::from_raw_parts((t as *const T).cast(), size_of::<T>()) }
}
