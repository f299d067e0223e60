//! The checksum.

use crate::{Refusal, sys};

/// The checksum of RFC 1071. Bytes whose own checksum is among them have the checksum 0 if they
/// verify. Refuses by 1.
///
/// ```
/// assert_eq!(wispbundle::ip_csum(&[0x01]), Ok(0xfeff));
/// ```
pub fn ip_csum(bytes: &[u8]) -> Result<u16, Refusal> {
    // SAFETY: the pointer and the count are those of a slice.
    let answer = unsafe { sys::wb_ip_csum(bytes.as_ptr(), bytes.len()) };
    Refusal::unless_accepted(answer.status).map(|()| answer.sum)
}
