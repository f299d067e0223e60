//! The check of a finished packet.

use crate::{Refusal, sys};

/// What a packet that is not refused is.
#[derive(Copy, Clone, Debug, PartialEq, Eq)]
pub enum Good {
    /// Every checksum verifies.
    Checked,
    /// UDP with a checksum field of 0; the rest is in order.
    WithoutChecksum,
}

/// Checks a packet. Options of its IPv4 header, any bytes, are summed with it and passed over. Bytes
/// after its total length do not count. Refuses by 4, 5, 6, 4, 7, 18, 13, 12, 14, 15.
///
/// ```
/// use wispbundle::{Good, IcmpFlow, Refusal, check};
///
/// let mut packet = [0; 32];
/// IcmpFlow::new([10, 0, 0, 1].into(), [10, 0, 0, 2].into()).echo(b"lap!", &mut packet).unwrap();
/// assert_eq!(check(&packet), Ok(Good::Checked));
/// packet[31] ^= 1;
/// assert_eq!(check(&packet), Err(Refusal::BadSum));
/// ```
pub fn check(packet: &[u8]) -> Result<Good, Refusal> {
    // SAFETY: the pointer and the count are those of a slice.
    let answer = unsafe { sys::wb_check(packet.as_ptr(), packet.len()) };
    Refusal::unless_accepted(answer.status).map(|()| match answer.no_checksum {
        false => Good::Checked,
        true => Good::WithoutChecksum,
    })
}
