//! One router.

use crate::{Answer, Prefix, Row, Status, sys};
use std::fmt::{Display, Formatter};
use std::marker::PhantomData;
use std::num::NonZeroU16;

/// A distance to a prefix: a sum of costs, or [`Distance::INFINITY`].
///
/// ```
/// use tuhvondi::Distance;
///
/// assert!(Distance(7) < Distance::INFINITY);
/// assert_eq!(Distance(7).to_string(), "7");
/// assert_eq!(Distance::INFINITY.to_string(), "inf");
/// ```
#[derive(Clone, Copy, Debug, PartialEq, Eq, PartialOrd, Ord, Hash)]
pub struct Distance(pub u32);

impl Distance {
    /// That of a destination that cannot be reached.
    pub const INFINITY: Distance = Distance(u32::MAX);
}

impl Display for Distance {
    fn fmt(&self, f: &mut Formatter<'_>) -> std::fmt::Result {
        match *self {
            Distance::INFINITY => f.write_str("inf"),
            Distance(value) => value.fmt(f),
        }
    }
}

/// What a message is.
///
/// ```
/// use tuhvondi::MessageKind;
///
/// assert_ne!(MessageKind::Query, MessageKind::Reply);
/// ```
#[derive(Clone, Copy, Debug, PartialEq, Eq, Hash)]
pub enum MessageKind {
    /// News that wants no answer.
    Update,
    /// A question: the receiver owes a reply.
    Query,
    /// The answer to a query.
    Reply,
}

/// A message, with the port by which it leaves or came, and the session of the link in which it was sent.
///
/// ```
/// use tuhvondi::{Distance, Message, MessageKind};
///
/// let prefix = "10.0.0.0/8".parse()?;
/// let message = Message { kind: MessageKind::Update, prefix, value: Distance(7), port: 0, session: 1 };
/// assert_eq!(message.value, Distance(7));
/// # Ok::<(), tuhvondi::BadPrefix>(())
/// ```
#[derive(Clone, Copy, Debug, PartialEq, Eq, Hash)]
pub struct Message {
    /// What it is.
    pub kind: MessageKind,
    /// The prefix that it is about.
    pub prefix: Prefix,
    /// The sender's distance to it.
    pub value: Distance,
    /// The port, from 0 on.
    pub port: u8,
    /// The session of its link.
    pub session: u16,
}

/// What a router has.
///
/// ```
/// use std::num::NonZeroU16;
///
/// let mut router = tuhvondi::Router::new(&[NonZeroU16::MIN], &[], 16)?;
/// assert_eq!(router.counts(), tuhvondi::Counts::default());
/// # Ok::<(), tuhvondi::Status>(())
/// ```
#[derive(Clone, Copy, Debug, Default, PartialEq, Eq)]
pub struct Counts {
    /// How many prefixes it has heard of.
    pub prefixes: usize,
    /// How many rows a publication would put in force.
    pub changed: usize,
    /// How many messages it holds.
    pub held: usize,
    /// How many of them may leave.
    pub ripe: usize,
    /// How often it has published.
    pub generation: u64,
    /// Whether a publication is due.
    pub is_due: bool,
}

/// What a router knows of a prefix.
///
/// ```
/// use std::num::NonZeroU16;
/// use tuhvondi::{Distance, Router};
///
/// let net = "10.0.0.0/8".parse()?;
/// let mut router = Router::new(&[], &[(net, NonZeroU16::MIN)], 16)?;
/// let state = router.state(net).unwrap();
/// assert_eq!((state.distance, state.is_active), (Distance(1), false));
/// # Ok::<(), Box<dyn std::error::Error>>(())
/// ```
#[derive(Clone, Debug, PartialEq, Eq)]
pub struct PrefixState {
    /// Its distance as it tells its neighbours.
    pub distance: Distance,
    /// Its feasible distance.
    pub feasible: Distance,
    /// The cost of its own attachment, if it has one.
    pub attached: Option<NonZeroU16>,
    /// The row that it chose.
    pub chosen: Option<Row>,
    /// The row that it published.
    pub published: Option<Row>,
    /// Whether a diffusing computation is under way.
    pub is_active: bool,
    /// The port to which that owes a reply.
    pub owed: Option<u8>,
    /// The ports whose replies it awaits.
    pub awaited: Vec<u8>,
}

/// A publication: the rows that are in force from now on and were not. While it lasts the router releases no
/// message: put the rows in force first ([`crate::Image::apply`]), and then let it go.
///
/// ```compile_fail
/// # let mut router = tuhvondi::Router::new(&[], &[], 16)?;
/// let publication = router.publish()?;
/// let message = router.release(); // the rows are not yet in force
/// drop(publication);
/// # Ok::<(), tuhvondi::Status>(())
/// ```
#[derive(Debug)]
pub struct Publication<'a> {
    rows: Vec<Answer>,
    more: bool,
    generation: u64,
    router: PhantomData<&'a mut Router>,
}

impl Publication<'_> {
    /// The rows, in the order of their prefixes.
    ///
    /// ```
    /// # use std::num::NonZeroU16;
    /// # use tuhvondi::*;
    /// # let cost = NonZeroU16::new(5).unwrap();
    /// # let net: Prefix = "10.0.0.0/8".parse()?;
    /// # let mut router = Router::new(&[cost], &[], 16)?;
    /// router.attach(net, cost)?;
    /// let publication = router.publish()?.unwrap();
    /// assert_eq!(publication.rows(), [Row::new(net, Target::Local)]);
    /// # Ok::<(), Box<dyn std::error::Error>>(())
    /// ```
    pub fn rows(&self) -> &[Row] {
        Answer::rows(&self.rows)
    }

    /// Whether there was no room for all rows ([`Router::publish_some`]). These are in force then, but the router
    /// has not published yet: put them in force, and publish again.
    ///
    /// ```
    /// # use std::num::NonZeroU16;
    /// # use tuhvondi::*;
    /// # let cost = NonZeroU16::new(5).unwrap();
    /// # let net: Prefix = "10.0.0.0/8".parse()?;
    /// # let mut router = Router::new(&[cost], &[], 16)?;
    /// router.attach(net, cost)?;
    /// router.attach("192.0.2.0/24".parse()?, cost)?;
    /// assert!(router.publish_some(1)?.unwrap().more());
    /// assert!(!router.publish_some(1)?.unwrap().more());
    /// # Ok::<(), Box<dyn std::error::Error>>(())
    /// ```
    pub fn more(&self) -> bool {
        self.more
    }

    /// How often the router has published.
    ///
    /// ```
    /// # use std::num::NonZeroU16;
    /// # use tuhvondi::*;
    /// # let cost = NonZeroU16::new(5).unwrap();
    /// # let net: Prefix = "10.0.0.0/8".parse()?;
    /// # let mut router = Router::new(&[cost], &[], 16)?;
    /// router.attach(net, cost)?;
    /// assert_eq!(router.publish()?.unwrap().generation(), 1);
    /// # Ok::<(), Box<dyn std::error::Error>>(())
    /// ```
    pub fn generation(&self) -> u64 {
        self.generation
    }
}

/// One router of a network whose other routers are elsewhere.
///
/// ```
/// use std::num::NonZeroU16;
/// use tuhvondi::{Distance, Router};
///
/// let cost = NonZeroU16::new(5).unwrap();
/// let net = "192.0.2.0/24".parse()?;
/// let mut router = Router::new(&[cost], &[(net, NonZeroU16::MIN)], 16)?;
/// router.link_up(0, 1, cost)?;
/// drop(router.publish()?);
/// // What it is attached to it tells its new neighbour.
/// let told = router.release().unwrap();
/// assert_eq!((told.prefix, told.value, told.port, told.session), (net, Distance(1), 0, 1));
/// # Ok::<(), Box<dyn std::error::Error>>(())
/// ```
pub struct Router {
    handle: sys::Handle,
}

// As for `Image`.
unsafe impl Send for Router {}

impl std::fmt::Debug for Router {
    fn fmt(&self, f: &mut Formatter<'_>) -> std::fmt::Result {
        f.debug_struct("Router").finish_non_exhaustive()
    }
}

impl Router {
    /// A router with a port for each of these costs, that of the port's link from here, and with these
    /// attachments. All links are down, and the attachments are published. It may know so many prefixes: one
    /// that it has heard of counts until it is forgotten ([`Router::forget`]).
    ///
    /// ```
    /// # use std::num::NonZeroU16;
    /// # use tuhvondi::*;
    /// # let cost = NonZeroU16::new(5).unwrap();
    /// # let net: Prefix = "10.0.0.0/8".parse()?;
    /// # let mut router = Router::new(&[cost], &[], 16)?;
    /// let router = Router::new(&[cost, cost], &[(net, cost)], 1)?;
    /// assert_eq!(Router::new(&[cost; 33], &[], 1).unwrap_err(), Status::TooManyPorts);
    /// assert_eq!(Router::new(&[cost], &[(net, cost)], 0).unwrap_err(), Status::TooManyPrefixes);
    /// # Ok::<(), Box<dyn std::error::Error>>(())
    /// ```
    ///
    /// # Errors
    ///
    /// [`Status::TooManyPorts`], [`Status::TooManyPrefixes`], [`Status::NoMemory`].
    pub fn new(
        costs: &[NonZeroU16],
        attachments: &[(Prefix, NonZeroU16)],
        most_prefixes: usize,
    ) -> Result<Router, Status> {
        let costs = collect(costs.iter().map(|&cost| number(cost)))?;
        let attachments = collect(attachments.iter().map(|&(prefix, cost)| sys::Attachment {
            addr: prefix.bits(),
            cost: number(cost),
            len: prefix.len(),
        }))?;
        let mut router = Router {
            handle: sys::Handle::EMPTY,
        };
        // SAFETY: pointers of vectors are not null, and the handle is empty.
        Status::check(unsafe {
            sys::tuhvondi_router_new(
                costs.as_ptr(),
                costs.len(),
                attachments.as_ptr(),
                attachments.len(),
                most_prefixes,
                &mut router.handle,
            )
        })?;
        Ok(router)
    }

    /// The link of the port came up, in a session later than each that it had, the same at both ends.
    ///
    /// ```
    /// # use std::num::NonZeroU16;
    /// # use tuhvondi::*;
    /// # let cost = NonZeroU16::new(5).unwrap();
    /// # let net: Prefix = "10.0.0.0/8".parse()?;
    /// # let mut router = Router::new(&[cost], &[], 16)?;
    /// router.link_up(0, 1, cost)?;
    /// assert_eq!(router.link_up(0, 2, cost), Err(Status::AlreadyUp));
    /// # Ok::<(), Box<dyn std::error::Error>>(())
    /// ```
    ///
    /// # Errors
    ///
    /// [`Status::UnknownPort`], [`Status::AlreadyUp`], [`Status::OtherSession`], [`Status::NoMemory`].
    pub fn link_up(&mut self, port: u8, session: u16, cost: NonZeroU16) -> Result<(), Status> {
        // SAFETY: the handle is held by nobody else; so it is in each call below.
        Status::check(unsafe {
            sys::tuhvondi_router_link_up(&mut self.handle, port, session, number(cost))
        })
    }

    /// The link of the port went down, with all that was on its way.
    ///
    /// ```
    /// # use std::num::NonZeroU16;
    /// # use tuhvondi::*;
    /// # let cost = NonZeroU16::new(5).unwrap();
    /// # let net: Prefix = "10.0.0.0/8".parse()?;
    /// # let mut router = Router::new(&[cost], &[], 16)?;
    /// router.link_up(0, 1, cost)?;
    /// router.link_down(0)?;
    /// assert_eq!(router.link_up(0, 1, cost), Err(Status::OtherSession));
    /// # Ok::<(), Box<dyn std::error::Error>>(())
    /// ```
    ///
    /// # Errors
    ///
    /// [`Status::UnknownPort`], [`Status::IsDown`], [`Status::NoMemory`].
    pub fn link_down(&mut self, port: u8) -> Result<(), Status> {
        Status::check(unsafe { sys::tuhvondi_router_link_down(&mut self.handle, port) })
    }

    /// The cost from here of the port's link, which is up, is now this.
    ///
    /// ```
    /// # use std::num::NonZeroU16;
    /// # use tuhvondi::*;
    /// # let cost = NonZeroU16::new(5).unwrap();
    /// # let net: Prefix = "10.0.0.0/8".parse()?;
    /// # let mut router = Router::new(&[cost], &[], 16)?;
    /// router.link_up(0, 1, cost)?;
    /// router.link_cost(0, NonZeroU16::MAX)?;
    /// # Ok::<(), Box<dyn std::error::Error>>(())
    /// ```
    ///
    /// # Errors
    ///
    /// As for [`Router::link_down`].
    pub fn link_cost(&mut self, port: u8, cost: NonZeroU16) -> Result<(), Status> {
        Status::check(unsafe {
            sys::tuhvondi_router_link_cost(&mut self.handle, port, number(cost))
        })
    }

    /// The message came to its port. If it is refused, but for want of memory, it is lost: end the session of
    /// its link, because the two ends no longer know the same. One of a session that has ended is only dropped.
    ///
    /// ```
    /// # use std::num::NonZeroU16;
    /// # use tuhvondi::*;
    /// # let cost = NonZeroU16::new(5).unwrap();
    /// # let net: Prefix = "10.0.0.0/8".parse()?;
    /// # let mut router = Router::new(&[cost], &[], 16)?;
    /// router.link_up(0, 1, cost)?;
    /// let kind = MessageKind::Update;
    /// router.message(&Message { kind, prefix: net, value: Distance(7), port: 0, session: 1 })?;
    /// let stale = Message { kind, prefix: net, value: Distance(7), port: 0, session: 2 };
    /// assert_eq!(router.message(&stale), Err(Status::OtherSession));
    /// let reply = MessageKind::Reply;
    /// let unasked = Message { kind: reply, prefix: net, value: Distance(7), port: 0, session: 1 };
    /// assert_eq!(router.message(&unasked), Err(Status::Unasked));
    /// # Ok::<(), Box<dyn std::error::Error>>(())
    /// ```
    ///
    /// # Errors
    ///
    /// [`Status::UnknownPort`], [`Status::IsDown`], [`Status::OtherSession`], [`Status::Unasked`],
    /// [`Status::AskedTwice`], [`Status::TooManyPrefixes`], [`Status::NoMemory`].
    pub fn message(&mut self, message: &Message) -> Result<(), Status> {
        let frame = sys::Frame {
            addr: message.prefix.bits(),
            value: message.value.0,
            session: message.session,
            len: message.prefix.len(),
            kind: match message.kind {
                MessageKind::Update => 0,
                MessageKind::Query => 1,
                MessageKind::Reply => 2,
            },
            port: message.port,
        };
        Status::check(unsafe { sys::tuhvondi_router_message(&mut self.handle, &frame) })
    }

    /// The router itself is attached to the prefix at this cost from now on.
    ///
    /// ```
    /// # use std::num::NonZeroU16;
    /// # use tuhvondi::*;
    /// # let cost = NonZeroU16::new(5).unwrap();
    /// # let net: Prefix = "10.0.0.0/8".parse()?;
    /// # let mut router = Router::new(&[cost], &[], 16)?;
    /// router.attach(net, cost)?;
    /// assert_eq!(router.rows()?[0].target(), Target::Local);
    /// # Ok::<(), Box<dyn std::error::Error>>(())
    /// ```
    ///
    /// # Errors
    ///
    /// [`Status::TooManyPrefixes`], [`Status::NoMemory`].
    pub fn attach(&mut self, prefix: Prefix, cost: NonZeroU16) -> Result<(), Status> {
        Status::check(unsafe {
            sys::tuhvondi_router_attached(
                &mut self.handle,
                prefix.bits(),
                prefix.len(),
                number(cost),
            )
        })
    }

    /// The router is attached to the prefix no more.
    ///
    /// ```
    /// # use std::num::NonZeroU16;
    /// # use tuhvondi::*;
    /// # let cost = NonZeroU16::new(5).unwrap();
    /// # let net: Prefix = "10.0.0.0/8".parse()?;
    /// # let mut router = Router::new(&[cost], &[], 16)?;
    /// router.attach(net, cost)?;
    /// router.detach(net)?;
    /// assert_eq!(router.detach(net), Err(Status::NotAttached));
    /// # Ok::<(), Box<dyn std::error::Error>>(())
    /// ```
    ///
    /// # Errors
    ///
    /// [`Status::NotAttached`], [`Status::NoMemory`].
    pub fn detach(&mut self, prefix: Prefix) -> Result<(), Status> {
        Status::check(unsafe {
            sys::tuhvondi_router_detached(&mut self.handle, prefix.bits(), prefix.len())
        })
    }

    /// What the router has.
    ///
    /// ```
    /// # use std::num::NonZeroU16;
    /// # use tuhvondi::*;
    /// # let cost = NonZeroU16::new(5).unwrap();
    /// # let net: Prefix = "10.0.0.0/8".parse()?;
    /// # let mut router = Router::new(&[cost], &[], 16)?;
    /// router.attach(net, cost)?;
    /// let counts = router.counts();
    /// assert_eq!((counts.prefixes, counts.changed, counts.is_due), (1, 1, true));
    /// # Ok::<(), Box<dyn std::error::Error>>(())
    /// ```
    pub fn counts(&mut self) -> Counts {
        let mut counts = sys::Counts::default();
        unsafe { sys::tuhvondi_router_counts(&mut self.handle, &mut counts) };
        Counts {
            prefixes: counts.prefixes,
            changed: counts.changed,
            held: counts.held,
            ripe: counts.ripe,
            generation: counts.generation,
            is_due: counts.due == 1,
        }
    }

    /// Publishes, where that is due: the rows are in force from now on, and all that the router holds may
    /// leave.
    ///
    /// ```
    /// # use std::num::NonZeroU16;
    /// # use tuhvondi::*;
    /// # let cost = NonZeroU16::new(5).unwrap();
    /// # let net: Prefix = "10.0.0.0/8".parse()?;
    /// # let mut router = Router::new(&[cost], &[], 16)?;
    /// router.attach(net, cost)?;
    /// let publication = router.publish()?.unwrap();
    /// assert_eq!((publication.generation(), publication.rows().len()), (1, 1));
    /// drop(publication);
    /// assert!(router.publish()?.is_none());
    /// # Ok::<(), Box<dyn std::error::Error>>(())
    /// ```
    ///
    /// # Errors
    ///
    /// [`Status::NoMemory`], [`Status::GenerationsSpent`].
    pub fn publish(&mut self) -> Result<Option<Publication<'_>>, Status> {
        self.publish_some(usize::MAX)
    }

    /// As [`Router::publish`], with so many rows at most: the first ones, and the others the next times. Nothing
    /// may leave before the last of them is given.
    ///
    /// ```
    /// # use std::num::NonZeroU16;
    /// # use tuhvondi::*;
    /// # let cost = NonZeroU16::new(5).unwrap();
    /// # let net: Prefix = "10.0.0.0/8".parse()?;
    /// # let mut router = Router::new(&[cost], &[], 16)?;
    /// let mut image = Image::new(&[])?;
    /// router.attach(net, cost)?;
    /// router.attach("192.0.2.0/24".parse()?, cost)?;
    /// while let Some(publication) = router.publish_some(1)? {
    ///     image.apply(publication.generation(), publication.rows())?;
    /// }
    /// assert_eq!((image.row_count(), image.generation()), (2, 1));
    /// # Ok::<(), Box<dyn std::error::Error>>(())
    /// ```
    ///
    /// # Errors
    ///
    /// [`Status::BadCount`] where there are rows and `room` is 0, [`Status::NoMemory`],
    /// [`Status::GenerationsSpent`].
    pub fn publish_some(&mut self, room: usize) -> Result<Option<Publication<'_>>, Status> {
        let counts = self.counts();
        if !counts.is_due {
            return Ok(None);
        }
        let mut rows = collect((0..counts.changed.min(room)).map(|_| Answer::default()))?;
        let (mut written, mut more, mut generation) = (0, 0, 0);
        Status::check(unsafe {
            sys::tuhvondi_router_publish(
                &mut self.handle,
                rows.as_mut_ptr().cast(),
                rows.len(),
                &mut written,
                &mut more,
                &mut generation,
            )
        })?;
        rows.truncate(written);
        Ok(Some(Publication {
            rows,
            more: more == 1,
            generation,
            router: PhantomData,
        }))
    }

    /// Takes the oldest message that may leave. It is for the link of its port in its session alone: where
    /// that has ended, it is to be dropped.
    ///
    /// ```
    /// # use std::num::NonZeroU16;
    /// # use tuhvondi::*;
    /// # let cost = NonZeroU16::new(5).unwrap();
    /// # let net: Prefix = "10.0.0.0/8".parse()?;
    /// # let mut router = Router::new(&[cost], &[], 16)?;
    /// router.attach(net, cost)?;
    /// router.link_up(0, 1, cost)?;
    /// assert!(router.release().is_none());
    /// drop(router.publish()?);
    /// assert_eq!(router.release().unwrap().value, Distance(5));
    /// # Ok::<(), Box<dyn std::error::Error>>(())
    /// ```
    pub fn release(&mut self) -> Option<Message> {
        let mut frame = sys::Frame::default();
        let status = unsafe { sys::tuhvondi_router_release(&mut self.handle, &mut frame) };
        let kind = match frame.kind {
            0 => MessageKind::Update,
            1 => MessageKind::Query,
            _ => MessageKind::Reply,
        };
        (status == 0).then(|| Message {
            kind,
            prefix: Prefix::given(frame.addr, frame.len),
            value: Distance(frame.value),
            port: frame.port,
            session: frame.session,
        })
    }

    /// What the router knows of a prefix, if it has heard of it.
    ///
    /// ```
    /// # use std::num::NonZeroU16;
    /// # use tuhvondi::*;
    /// # let cost = NonZeroU16::new(5).unwrap();
    /// # let net: Prefix = "10.0.0.0/8".parse()?;
    /// # let mut router = Router::new(&[cost], &[], 16)?;
    /// assert!(router.state(net).is_none());
    /// router.attach(net, cost)?;
    /// assert_eq!(router.state(net).unwrap().distance, Distance(5));
    /// # Ok::<(), Box<dyn std::error::Error>>(())
    /// ```
    pub fn state(&mut self, prefix: Prefix) -> Option<PrefixState> {
        let mut state = sys::State {
            rd: 0,
            fd: 0,
            attached: 0,
            chosen: Row::NONE.0,
            published: Row::NONE.0,
            active: 0,
            owed: 0,
            awaited: [0; 32],
        };
        let status = unsafe {
            sys::tuhvondi_router_state(&mut self.handle, prefix.bits(), prefix.len(), &mut state)
        };
        (status == 0).then(|| PrefixState {
            distance: Distance(state.rd),
            feasible: Distance(state.fd),
            attached: u16::try_from(state.attached).ok().and_then(NonZeroU16::new),
            chosen: Some(Row(state.chosen)).filter(|row| row.is_one()),
            published: Some(Row(state.published)).filter(|row| row.is_one()),
            is_active: state.active == 1,
            owed: (state.owed < 32).then_some(state.owed),
            awaited: (0..32)
                .filter(|&port| state.awaited[usize::from(port)] == 1)
                .collect(),
        })
    }

    /// The row that the router chose for each prefix that it has heard of, in the order of the prefixes.
    ///
    /// ```
    /// # use std::num::NonZeroU16;
    /// # use tuhvondi::*;
    /// # let cost = NonZeroU16::new(5).unwrap();
    /// # let net: Prefix = "10.0.0.0/8".parse()?;
    /// # let mut router = Router::new(&[cost], &[], 16)?;
    /// router.attach(net, cost)?;
    /// assert_eq!(router.rows()?, [Row::new(net, Target::Local)]);
    /// # Ok::<(), Box<dyn std::error::Error>>(())
    /// ```
    ///
    /// # Errors
    ///
    /// [`Status::NoMemory`].
    pub fn rows(&mut self) -> Result<Vec<Row>, Status> {
        let mut rows = collect((0..self.counts().prefixes).map(|_| Answer::default()))?;
        let mut written = 0;
        Status::check(unsafe {
            sys::tuhvondi_router_rows(
                &mut self.handle,
                rows.as_mut_ptr().cast(),
                rows.len(),
                &mut written,
            )
        })?;
        rows.truncate(written);
        collect(Answer::rows(&rows).iter().copied())
    }

    /// Forgets a prefix of which the router knows nothing any more: it is not attached to it, no computation is
    /// under way, no neighbour whose link is up has reported a distance, and its row, which is unreachable, is
    /// in force. Take the row out of the table then ([`crate::Image::remove`]): an address that it answered is
    /// answered by the row with the next shorter prefix.
    ///
    /// ```
    /// # use std::num::NonZeroU16;
    /// # use tuhvondi::*;
    /// # let cost = NonZeroU16::new(5).unwrap();
    /// # let net: Prefix = "10.0.0.0/8".parse()?;
    /// # let mut router = Router::new(&[cost], &[], 16)?;
    /// router.attach(net, cost)?;
    /// assert_eq!(router.forget(net), Err(Status::StillUsed));
    /// router.detach(net)?;
    /// drop(router.publish()?);
    /// router.forget(net)?;
    /// assert_eq!(router.forget(net), Err(Status::UnknownPrefix));
    /// # Ok::<(), Box<dyn std::error::Error>>(())
    /// ```
    ///
    /// # Errors
    ///
    /// [`Status::UnknownPrefix`], [`Status::StillUsed`].
    pub fn forget(&mut self, prefix: Prefix) -> Result<(), Status> {
        Status::check(unsafe {
            sys::tuhvondi_router_forget(&mut self.handle, prefix.bits(), prefix.len())
        })
    }

    /// Forgets each prefix that may be forgotten, and gives them: their rows are to be taken out of the table.
    ///
    /// ```
    /// # use std::num::NonZeroU16;
    /// # use tuhvondi::*;
    /// # let cost = NonZeroU16::new(5).unwrap();
    /// # let net: Prefix = "10.0.0.0/8".parse()?;
    /// # let mut router = Router::new(&[cost], &[], 16)?;
    /// let mut image = Image::new(&[])?;
    /// router.attach(net, cost)?;
    /// router.detach(net)?;
    /// let publication = router.publish()?.unwrap();
    /// image.apply(publication.generation(), publication.rows())?;
    /// let forgotten = router.forget_all()?;
    /// image.remove(1, &forgotten)?;
    /// assert_eq!((forgotten, image.row_count()), (vec![net], 0));
    /// # Ok::<(), Box<dyn std::error::Error>>(())
    /// ```
    ///
    /// # Errors
    ///
    /// [`Status::NoMemory`]; nothing is then forgotten.
    pub fn forget_all(&mut self) -> Result<Vec<Prefix>, Status> {
        let rows = self.rows()?;
        let mut prefixes = collect(rows.iter().map(|row| row.prefix()))?;
        prefixes.retain(|&prefix| self.forget(prefix).is_ok());
        Ok(prefixes)
    }
}

impl Drop for Router {
    fn drop(&mut self) {
        unsafe { sys::tuhvondi_router_free(&mut self.handle) };
    }
}

fn number(cost: NonZeroU16) -> u32 {
    cost.get().into()
}

/// A vector of these, or [`Status::NoMemory`].
fn collect<T>(items: impl ExactSizeIterator<Item = T>) -> Result<Vec<T>, Status> {
    let mut all = Vec::new();
    all.try_reserve_exact(items.len())
        .map_err(|_| Status::NoMemory)?;
    all.extend(items);
    Ok(all)
}
