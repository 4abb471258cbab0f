//! Prefixes of IPv4 addresses.

use crate::sys;
use std::error::Error;
use std::fmt::{Display, Formatter, Result};
use std::net::Ipv4Addr;
use std::str::FromStr;

/// A prefix: the first `len` bits of an address, 0 to 32, and no bit set after them.
///
/// ```
/// use tuhvondi::{BadPrefix, Prefix};
///
/// let net: Prefix = "192.0.2.0/24".parse()?;
/// assert_eq!(net, Prefix::new([192, 0, 2, 0].into(), 24)?);
/// assert_eq!(net.to_string(), "192.0.2.0/24");
/// assert_eq!("192.0.2.1/24".parse::<Prefix>(), Err(BadPrefix));
/// # Ok::<(), BadPrefix>(())
/// ```
// As C has it; the order is by address, and then by length.
#[repr(transparent)]
#[derive(Clone, Copy, Debug, PartialEq, Eq, PartialOrd, Ord, Hash)]
pub struct Prefix(sys::Prefix);

/// A text or a pair of numbers is no prefix: a length above 32, or bits after it.
///
/// ```
/// assert_eq!(tuhvondi::BadPrefix.to_string(), "no prefix of IPv4");
/// ```
#[derive(Clone, Copy, Debug, PartialEq, Eq)]
pub struct BadPrefix;

impl Prefix {
    /// The prefix of an address's first `len` bits. Refused where `len` is above 32, or a bit is set after
    /// them.
    ///
    /// ```
    /// # use tuhvondi::*;
    /// # let net: Prefix = "10.0.0.0/8".parse()?;
    /// assert_eq!(Prefix::new([10, 0, 0, 0].into(), 8)?, net);
    /// assert_eq!(Prefix::new([10, 0, 0, 1].into(), 8), Err(BadPrefix));
    /// # Ok::<(), Box<dyn std::error::Error>>(())
    /// ```
    pub fn new(addr: Ipv4Addr, len: u8) -> std::result::Result<Prefix, BadPrefix> {
        let addr = u32::from(addr);
        if len > 32 || addr & !mask(len) != 0 {
            return Err(BadPrefix);
        }
        Ok(Prefix::given(addr, len))
    }

    /// Its address.
    ///
    /// ```
    /// # use tuhvondi::*;
    /// # let net: Prefix = "10.0.0.0/8".parse()?;
    /// assert_eq!(net.addr(), std::net::Ipv4Addr::new(10, 0, 0, 0));
    /// # Ok::<(), Box<dyn std::error::Error>>(())
    /// ```
    pub fn addr(self) -> Ipv4Addr {
        self.0.addr.into()
    }

    /// How many bits it has.
    ///
    /// ```
    /// # use tuhvondi::*;
    /// # let net: Prefix = "10.0.0.0/8".parse()?;
    /// assert_eq!(net.len(), 8);
    /// # Ok::<(), Box<dyn std::error::Error>>(())
    /// ```
    #[allow(clippy::len_without_is_empty)]
    pub fn len(self) -> u8 {
        self.0.len
    }

    /// Whether an address has the prefix's bits.
    ///
    /// ```
    /// # use tuhvondi::*;
    /// # let net: Prefix = "10.0.0.0/8".parse()?;
    /// assert!(net.covers([10, 1, 2, 3].into()));
    /// assert!(!net.covers([11, 0, 0, 0].into()));
    /// # Ok::<(), Box<dyn std::error::Error>>(())
    /// ```
    pub fn covers(self, addr: Ipv4Addr) -> bool {
        u32::from(addr) & mask(self.0.len) == self.0.addr
    }

    pub(crate) fn bits(self) -> u32 {
        self.0.addr
    }

    /// A prefix that a library gave.
    pub(crate) fn given(addr: u32, len: u8) -> Prefix {
        Prefix(sys::Prefix { addr, len })
    }
}

/// The first `len` bits of 32, at most all.
fn mask(len: u8) -> u32 {
    u32::MAX
        .checked_shl(32 - u32::from(len.min(32)))
        .unwrap_or(0)
}

impl FromStr for Prefix {
    type Err = BadPrefix;

    fn from_str(text: &str) -> std::result::Result<Prefix, BadPrefix> {
        let (addr, len) = text.split_once('/').ok_or(BadPrefix)?;
        let addr = addr.parse().map_err(|_| BadPrefix)?;
        Prefix::new(addr, len.parse().map_err(|_| BadPrefix)?)
    }
}

impl Display for Prefix {
    fn fmt(&self, f: &mut Formatter<'_>) -> Result {
        write!(f, "{}/{}", self.addr(), self.0.len)
    }
}

impl Display for BadPrefix {
    fn fmt(&self, f: &mut Formatter<'_>) -> Result {
        f.write_str("no prefix of IPv4")
    }
}

impl Error for BadPrefix {}
