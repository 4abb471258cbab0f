//! Safe types over Tuhvondi's two proved static libraries: [`Image`], a forwarding table that answers with
//! the longest match (RFC 1812, section 5.2.4.3), and [`Router`], one router of a network that routes by DUAL.
//!
//! What the libraries prove holds for every call that keeps to the rules of their headers; here each rule is
//! kept by a type or tested by the function. A router is told what its links bring, publishes, and then gives
//! the messages that may leave:
//!
//! ```
//! use std::num::NonZeroU16;
//! use tuhvondi::{Distance, Image, Message, MessageKind, Prefix, Router};
//!
//! let cost = NonZeroU16::new(5).unwrap();
//! let net: Prefix = "10.0.0.0/8".parse()?;
//! let mut router = Router::new(&[cost], &[], 4096)?;
//! let mut image = Image::new(&[])?;
//! router.link_up(0, 1, cost)?;
//! router.message(&Message { kind: MessageKind::Update, prefix: net, value: Distance(7), port: 0, session: 1 })?;
//! if let Some(publication) = router.publish()? {
//!     image.apply(publication.generation(), publication.rows())?;
//! }
//! let told = router.release().unwrap();
//! assert_eq!(told.value, Distance(12));
//! let row = image.lookup("10.1.2.3".parse()?).unwrap();
//! assert_eq!(row.to_string(), "10.0.0.0/8 via 0 1");
//! # Ok::<(), Box<dyn std::error::Error>>(())
//! ```

mod image;
mod prefix;
mod router;
mod row;
mod status;
mod table;

pub use image::{Answer, Image, NO_WORD, Reader, Rows};
pub use prefix::{BadPrefix, Prefix};
pub use router::{Counts, Distance, Message, MessageKind, PrefixState, Publication, Router};
pub use row::{Row, Target};
pub use status::Status;
pub use table::{TableReader, TableWriter};

use tuhvondi_sys as sys;

#[cfg(doctest)]
#[doc = include_str!("../README.md")]
struct Readme;
