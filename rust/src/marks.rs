//! What packets are marked with.

pub use crate::sys::Marks;

impl Default for Marks {
    /// The marks of a new flow: a TOS of 0 and a TTL of 64.
    fn default() -> Self {
        Self { tos: 0, ttl: 64 }
    }
}
