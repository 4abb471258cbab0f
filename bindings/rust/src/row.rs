//! Rows of forwarding tables.

use crate::{Prefix, sys};
use std::fmt::{Display, Formatter, Result};

/// Where packets go that a row's prefix matches.
///
/// ```
/// use tuhvondi::{Row, Target};
///
/// let row = Row::new("10.0.0.0/8".parse()?, Target::Via { port: 3, session: 1 });
/// assert_eq!(row.target(), Target::Via { port: 3, session: 1 });
/// # Ok::<(), tuhvondi::BadPrefix>(())
/// ```
#[derive(Clone, Copy, Debug, PartialEq, Eq, Hash)]
pub enum Target {
    /// To this router itself.
    Local,
    /// To the neighbour at a port, while its link is up in this session.
    Via {
        /// The port, from 0 on.
        port: u8,
        /// The session of its link.
        session: u16,
    },
    /// Nowhere.
    Unreachable,
}

/// A row: a prefix, and where packets go that it matches.
///
/// ```
/// use tuhvondi::{Row, Target};
///
/// let row = Row::new("10.0.0.0/8".parse()?, Target::Unreachable);
/// assert_eq!(row.prefix().to_string(), "10.0.0.0/8");
/// assert_eq!(row.to_string(), "10.0.0.0/8 unreachable");
/// # Ok::<(), tuhvondi::BadPrefix>(())
/// ```
// As C has it; its prefix is one, and its kind is below 3.
#[repr(transparent)]
#[derive(Clone, Copy, PartialEq, Eq, Hash)]
pub struct Row(pub(crate) sys::Row);

impl Row {
    /// The row of a prefix.
    ///
    /// ```
    /// # use tuhvondi::*;
    /// # let net: Prefix = "10.0.0.0/8".parse()?;
    /// assert_eq!(Row::new(net, Target::Local).to_string(), "10.0.0.0/8 local");
    /// # Ok::<(), Box<dyn std::error::Error>>(())
    /// ```
    pub fn new(prefix: Prefix, target: Target) -> Row {
        let (kind, port, session) = match target {
            Target::Local => (0, 0, 0),
            Target::Via { port, session } => (1, port, session),
            Target::Unreachable => (2, 0, 0),
        };
        Row(sys::Row {
            addr: prefix.bits(),
            len: prefix.len(),
            kind,
            port,
            session,
        })
    }

    /// Its prefix.
    ///
    /// ```
    /// # use tuhvondi::*;
    /// # let net: Prefix = "10.0.0.0/8".parse()?;
    /// assert_eq!(Row::new(net, Target::Local).prefix(), net);
    /// # Ok::<(), Box<dyn std::error::Error>>(())
    /// ```
    pub fn prefix(self) -> Prefix {
        Prefix::given(self.0.addr, self.0.len)
    }

    /// Where packets go that it matches.
    ///
    /// ```
    /// # use tuhvondi::*;
    /// # let net: Prefix = "10.0.0.0/8".parse()?;
    /// assert_eq!(Row::new(net, Target::Local).target(), Target::Local);
    /// # Ok::<(), Box<dyn std::error::Error>>(())
    /// ```
    pub fn target(self) -> Target {
        match self.0.kind {
            0 => Target::Local,
            1 => Target::Via {
                port: self.0.port,
                session: self.0.session,
            },
            _ => Target::Unreachable,
        }
    }

    /// Whether a library has written a row here: kind 3 is none.
    pub(crate) fn is_one(self) -> bool {
        self.0.kind < 3
    }

    /// No row, as a library writes it.
    pub(crate) const NONE: Row = Row(sys::Row {
        addr: 0,
        len: 0,
        kind: 3,
        port: 0,
        session: 0,
    });
}

impl Display for Row {
    fn fmt(&self, f: &mut Formatter<'_>) -> Result {
        match self.target() {
            Target::Local => write!(f, "{} local", self.prefix()),
            Target::Via { port, session } => write!(f, "{} via {port} {session}", self.prefix()),
            Target::Unreachable => write!(f, "{} unreachable", self.prefix()),
        }
    }
}

impl std::fmt::Debug for Row {
    fn fmt(&self, f: &mut Formatter<'_>) -> Result {
        write!(f, "Row({self})")
    }
}
