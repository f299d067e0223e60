//! The numbered refusals.

use crate::sys;
use std::error::Error;
use std::fmt;

macro_rules! refusals {
    ($($name:ident = $number:literal: $words:literal,)+) => {
        /// Why a call was refused, by the number of document 01 or 02. Where several apply, the
        /// first in the order of that call is given.
        #[derive(Copy, Clone, Debug, PartialEq, Eq, PartialOrd, Ord, Hash)]
        #[repr(u8)]
        pub enum Refusal {
            $(#[doc = $words] $name = $number,)+
        }

        impl Refusal {
            /// Every refusal, by number.
            pub const ALL: [Self; 19] = [$(Self::$name),+];

            /// When it is given, in the words of documents 01 and 02.
            pub fn words(self) -> &'static str {
                match self {
                    $(Self::$name => $words,)+
                }
            }
        }
    };
}

refusals! {
    TooLong = 1: "payload above 65,495 (TCP), 65,507 (UDP, ICMP), 65,515 (IPv4 payload); more than 65,535 bytes to sum or to put in one capture record",
    BadOffset = 2: "piece offset above 8,191",
    NoRoom = 3: "the lent output is shorter than what is to be written",
    Short = 4: "fewer than 20 bytes, or fewer than the total length",
    NotIpv4 = 5: "version is not 4, or header length is under 5 words",
    BadTotal = 6: "total length is under the header length",
    BadHeader = 7: "IPv4 header checksum does not verify",
    WrongKey = 8: "key differs from the assembly's",
    NotBlocks = 9: "MF set and data length no multiple of 8",
    TooFar = 10: "end above 65,515",
    BadAssembly = 11: "buffer sizes wrong, or total above 65,515 or floor above 65,513",
    OtherProtocol = 12: "protocol is not 1, 6 or 17",
    Piece = 13: "offset not 0, or MF set",
    Cut = 14: "transport part under 20 (TCP) or 8 bytes; TCP data offset byte not 0x50; UDP length not the IPv4 payload's",
    BadSum = 15: "transport checksum does not verify",
    BadPart = 16: "headroom record with headroom > end, end > buffer or end (also the new one) > 1,048,576; a part not within the packet; lowering by more than the headroom; returning from another place or more than the packet",
    BadTime = 17: "microseconds above 999,999",
    Reserved = 18: "reserved bit of the IPv4 header set",
    NoChecksum = 22: "UDP datagram with no checksum asked for",
}

impl Refusal {
    /// Its number in documents 01 and 02: 1 to 18, or 22.
    pub fn number(self) -> u8 {
        self as u8
    }

    /// The refusal of that number, where there is one.
    pub fn of_number(number: u8) -> Option<Self> {
        Self::ALL.into_iter().find(|r| r.number() == number)
    }

    /// What a status of the archive says: 0 is no refusal.
    pub(crate) fn unless_accepted(status: u8) -> Result<(), Self> {
        match status {
            0 => Ok(()),
            n => Err(Self::of_number(n).expect("a status is proved to be one of these")),
        }
    }

    pub(crate) fn or_length(answer: sys::Length) -> Result<usize, Self> {
        Self::unless_accepted(answer.status).map(|()| answer.length)
    }
}

/// The number and its document's words, as in `refusal 2: piece offset above 8,191`.
impl fmt::Display for Refusal {
    fn fmt(&self, f: &mut fmt::Formatter<'_>) -> fmt::Result {
        write!(f, "refusal {}: {}", self.number(), self.words())
    }
}

impl Error for Refusal {}

/// Why a call over a list was refused. Number 2 is for one request, and the others are for the whole
/// call.
#[derive(Copy, Clone, Debug, PartialEq, Eq)]
pub struct ListRefusal {
    pub refusal: Refusal,
    /// Where one request is refused, the index of the first such.
    pub index: Option<usize>,
}

impl ListRefusal {
    /// Its number in documents 01 and 02.
    pub fn number(self) -> u8 {
        self.refusal.number()
    }

    pub(crate) fn or_length(answer: sys::Listed) -> Result<usize, Self> {
        let refused = |refusal| Self {
            refusal,
            index: (refusal == Refusal::BadOffset).then_some(answer.index),
        };
        let accepted = Refusal::unless_accepted(answer.status);
        accepted.map(|()| answer.length).map_err(refused)
    }
}

/// As [`Refusal`], with the index behind the number: `refusal 2 at index 5: piece offset above 8,191`.
impl fmt::Display for ListRefusal {
    fn fmt(&self, f: &mut fmt::Formatter<'_>) -> fmt::Result {
        match self.index {
            None => self.refusal.fmt(f),
            Some(index) => {
                let (number, words) = (self.number(), self.refusal.words());
                write!(f, "refusal {number} at index {index}: {words}")
            }
        }
    }
}

impl Error for ListRefusal {}

/// Without the index.
impl From<ListRefusal> for Refusal {
    fn from(refused: ListRefusal) -> Self {
        refused.refusal
    }
}
