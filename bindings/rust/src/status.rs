//! Why a call is refused.

use std::error::Error;
use std::fmt::{Display, Formatter, Result};

/// Why a call is refused, by the numbers of `include/tuhvondi.h`. A refused call leaves all as it was.
///
/// ```
/// use std::num::NonZeroU16;
/// use tuhvondi::{Router, Status};
///
/// let mut router = Router::new(&[NonZeroU16::MIN], &[], 16)?;
/// assert_eq!(router.link_down(0), Err(Status::IsDown));
/// assert_eq!(Status::IsDown.to_string(), "the link is down");
/// assert_eq!(Status::IsDown.number(), 14);
/// # Ok::<(), Status>(())
/// ```
#[derive(Clone, Copy, Debug, PartialEq, Eq, Hash)]
#[non_exhaustive]
pub enum Status {
    /// A list has another length than the call can use.
    BadCount,
    /// Readers hold the image too.
    Shared,
    /// The router has no such port.
    UnknownPort,
    /// The link is up.
    AlreadyUp,
    /// The link is down.
    IsDown,
    /// Memory was refused.
    NoMemory,
    /// A router has at most 32 ports.
    TooManyPorts,
    /// The router knows as many prefixes as it may.
    TooManyPrefixes,
    /// The router has not heard of the prefix.
    UnknownPrefix,
    /// The router is not attached to the prefix.
    NotAttached,
    /// A message is of another session than its port, or a link comes up in no later session.
    OtherSession,
    /// The router has published 2^64 - 1 times.
    GenerationsSpent,
    /// A reply to no query.
    Unasked,
    /// A query to whose sender the router still owes the reply to the one before.
    AskedTwice,
    /// Something is still known of the prefix.
    StillUsed,
    /// A number that no call of this crate should be answered with: the library is another version's.
    Other(u32),
}

/// Each status with its number and its words, but for [`Status::Other`].
const STATUSES: [(Status, u32, &str); 15] = [
    (
        Status::BadCount,
        8,
        "a list has another length than the call can use",
    ),
    (Status::Shared, 9, "readers hold the image too"),
    (Status::UnknownPort, 11, "the router has no such port"),
    (Status::AlreadyUp, 13, "the link is up"),
    (Status::IsDown, 14, "the link is down"),
    (Status::NoMemory, 20, "memory was refused"),
    (Status::TooManyPorts, 26, "a router has at most 32 ports"),
    (
        Status::TooManyPrefixes,
        27,
        "the router knows as many prefixes as it may",
    ),
    (
        Status::UnknownPrefix,
        28,
        "the router has not heard of the prefix",
    ),
    (
        Status::NotAttached,
        29,
        "the router is not attached to the prefix",
    ),
    (Status::OtherSession, 36, "the session is another"),
    (
        Status::GenerationsSpent,
        37,
        "the router has published as often as can be counted",
    ),
    (Status::Unasked, 38, "it answers what nobody asked"),
    (
        Status::AskedTwice,
        39,
        "it asks again before it is answered",
    ),
    (
        Status::StillUsed,
        44,
        "something is still known of the prefix",
    ),
];

impl Status {
    /// The number by which C knows the status.
    ///
    /// ```
    /// # use tuhvondi::*;
    /// # let net: Prefix = "10.0.0.0/8".parse()?;
    /// assert_eq!(Status::NoMemory.number(), 20);
    /// # Ok::<(), Box<dyn std::error::Error>>(())
    /// ```
    pub fn number(self) -> u32 {
        match self {
            Status::Other(number) => number,
            status => STATUSES.iter().find(|s| s.0 == status).map_or(0, |s| s.1),
        }
    }

    /// What the answer of a call says.
    pub(crate) fn check(number: u32) -> std::result::Result<(), Status> {
        if number == 0 {
            return Ok(());
        }
        let known = STATUSES.iter().find(|s| s.1 == number);
        Err(known.map_or(Status::Other(number), |s| s.0))
    }
}

impl Display for Status {
    fn fmt(&self, f: &mut Formatter<'_>) -> Result {
        match self {
            Status::Other(number) => write!(f, "status {number} of the library"),
            status => {
                let known = STATUSES.iter().find(|s| s.0 == *status);
                f.write_str(known.map_or("", |s| s.2))
            }
        }
    }
}

impl Error for Status {}
