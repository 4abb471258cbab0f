//! Forwarding images.

use crate::{Prefix, Row, Status, sys};
use std::net::Ipv4Addr;

/// The word of a row that was given without one. A look-up of words answers it, too, if no row covers the
/// address.
///
/// ```
/// # use tuhvondi::*;
/// assert_eq!(NO_WORD, u32::MAX);
/// ```
pub const NO_WORD: u32 = u32::MAX;

/// What an image answers for an address: a row, or none.
///
/// ```
/// use tuhvondi::{Answer, Image, Row, Target};
///
/// let mut image = Image::new(&[Row::new("10.0.0.0/8".parse()?, Target::Local)])?;
/// let mut answers = [Answer::default(); 2];
/// image.lookup_all(&[0x0a01_0203, 0x0808_0808], &mut answers)?;
/// assert_eq!(answers[0].row().unwrap().target(), Target::Local);
/// assert_eq!(answers[1].row(), None);
/// # Ok::<(), Box<dyn std::error::Error>>(())
/// ```
#[repr(transparent)]
#[derive(Clone, Copy, Debug, PartialEq, Eq)]
pub struct Answer(Row);

impl Answer {
    /// The row with the longest prefix that covers the address, if any does.
    ///
    /// ```
    /// # use tuhvondi::*;
    /// # let net: Prefix = "10.0.0.0/8".parse()?;
    /// # let mut image = Image::new(&[Row::new(net, Target::Local)])?;
    /// assert_eq!(Answer::default().row(), None);
    /// # Ok::<(), Box<dyn std::error::Error>>(())
    /// ```
    pub fn row(self) -> Option<Row> {
        self.0.is_one().then_some(self.0)
    }

    /// Answers that a library wrote rows into, each of them a row.
    pub(crate) fn rows(answers: &[Answer]) -> &[Row] {
        debug_assert!(answers.iter().all(|answer| answer.0.is_one()));
        // SAFETY: an answer is a row, transparently.
        unsafe { std::slice::from_raw_parts(answers.as_ptr().cast(), answers.len()) }
    }
}

impl Default for Answer {
    /// No row.
    fn default() -> Answer {
        Answer(Row::NONE)
    }
}

/// A forwarding image: rows, of which the one with the longest prefix that covers an address answers it.
///
/// ```
/// use tuhvondi::{Image, Row, Target};
///
/// let via = |port| Target::Via { port, session: 1 };
/// let mut image = Image::new(&[Row::new("10.0.0.0/8".parse()?, via(1))])?;
/// image.apply(2, &[Row::new("10.1.0.0/16".parse()?, via(3))])?;
/// assert_eq!(image.lookup([10, 1, 2, 3].into()).unwrap().target(), via(3));
/// assert_eq!(image.lookup([10, 2, 2, 3].into()).unwrap().target(), via(1));
/// assert_eq!(image.generation(), 2);
/// # Ok::<(), Box<dyn std::error::Error>>(())
/// ```
pub struct Image {
    handle: sys::Handle,
}

/// A reader of an image, for another thread. While there is one, the image does not change.
///
/// ```
/// use tuhvondi::{Image, Row, Status, Target};
///
/// let mut image = Image::new(&[Row::new("0.0.0.0/0".parse()?, Target::Unreachable)])?;
/// let mut reader = image.reader()?;
/// let found = std::thread::spawn(move || reader.lookup([8, 8, 8, 8].into())).join().unwrap();
/// assert_eq!(found, image.lookup([8, 8, 8, 8].into()));
/// // The reader is gone with its thread: the image may change again.
/// image.apply(1, &[])?;
/// let _reader = image.reader()?;
/// assert_eq!(image.apply(2, &[]), Err(Status::Shared));
/// # Ok::<(), Box<dyn std::error::Error>>(())
/// ```
pub struct Reader {
    image: Image,
}

// A handle goes to another thread whole; the libraries' proofs have that of its type. Rust orders its way.
unsafe impl Send for Image {}

impl Image {
    /// An image of generation 0 of these rows, set in order: of rows with one prefix the last stays.
    ///
    /// ```
    /// # use tuhvondi::*;
    /// # let net: Prefix = "10.0.0.0/8".parse()?;
    /// # let mut image = Image::new(&[Row::new(net, Target::Local)])?;
    /// let mut empty = Image::new(&[])?;
    /// assert_eq!(empty.lookup(net.addr()), None);
    /// # Ok::<(), Box<dyn std::error::Error>>(())
    /// ```
    ///
    /// # Errors
    ///
    /// [`Status::NoMemory`].
    pub fn new(rows: &[Row]) -> Result<Image, Status> {
        let mut image = Image {
            handle: sys::Handle::EMPTY,
        };
        // SAFETY: a slice's pointer is not null, and the handle is empty.
        let status =
            unsafe { sys::tuhvondi_image_new(rows.as_ptr().cast(), rows.len(), &mut image.handle) };
        Status::check(status)?;
        Ok(image)
    }

    /// As [`Image::new`], with a word of your own for each row, for example the index of a next hop.
    ///
    /// ```
    /// # use tuhvondi::*;
    /// # let net: Prefix = "10.0.0.0/8".parse()?;
    /// let mut image = Image::with_words(&[Row::new(net, Target::Local)], &[700])?;
    /// assert_eq!(image.lookup_word(net.addr()), 700);
    /// assert_eq!(image.lookup_word([8, 8, 8, 8].into()), NO_WORD);
    /// # Ok::<(), Box<dyn std::error::Error>>(())
    /// ```
    ///
    /// # Errors
    ///
    /// [`Status::BadCount`] if there are not as many words as rows; [`Status::NoMemory`], also for more than
    /// 16,777,214 rows.
    pub fn with_words(rows: &[Row], words: &[u32]) -> Result<Image, Status> {
        let mut image = Image {
            handle: sys::Handle::EMPTY,
        };
        // SAFETY: as in `new`.
        Status::check(unsafe {
            sys::tuhvondi_image_new_words(
                rows.as_ptr().cast(),
                rows.len(),
                words.as_ptr(),
                words.len(),
                &mut image.handle,
            )
        })?;
        Ok(image)
    }

    /// Sets rows over those of the image, in order, and its generation.
    ///
    /// ```
    /// # use tuhvondi::*;
    /// # let net: Prefix = "10.0.0.0/8".parse()?;
    /// # let mut image = Image::new(&[Row::new(net, Target::Local)])?;
    /// image.apply(1, &[Row::new(net, Target::Unreachable)])?;
    /// assert_eq!(image.lookup(net.addr()).unwrap().target(), Target::Unreachable);
    /// # Ok::<(), Box<dyn std::error::Error>>(())
    /// ```
    ///
    /// # Errors
    ///
    /// [`Status::Shared`] while there is a reader, [`Status::NoMemory`]; the image is then as it was.
    pub fn apply(&mut self, generation: u64, rows: &[Row]) -> Result<(), Status> {
        // SAFETY: as in `new`; the handle is held by nobody else, and holds an image.
        Status::check(unsafe {
            sys::tuhvondi_image_apply(
                &mut self.handle,
                generation,
                rows.as_ptr().cast(),
                rows.len(),
            )
        })
    }

    /// As [`Image::apply`], with a word for each row. An image that has no words yet is made anew.
    ///
    /// ```
    /// # use tuhvondi::*;
    /// # let net: Prefix = "10.0.0.0/8".parse()?;
    /// # let mut image = Image::new(&[Row::new(net, Target::Local)])?;
    /// assert_eq!(image.lookup_word(net.addr()), NO_WORD);
    /// image.apply_words(1, &[Row::new(net, Target::Local)], &[12])?;
    /// assert_eq!(image.lookup_word(net.addr()), 12);
    /// # Ok::<(), Box<dyn std::error::Error>>(())
    /// ```
    ///
    /// # Errors
    ///
    /// [`Status::BadCount`] if there are not as many words as rows; [`Status::Shared`] while there is a
    /// reader; [`Status::NoMemory`], also for more than 16,777,214 rows. The image is then as it was.
    pub fn apply_words(
        &mut self,
        generation: u64,
        rows: &[Row],
        words: &[u32],
    ) -> Result<(), Status> {
        // SAFETY: as in `apply`.
        Status::check(unsafe {
            sys::tuhvondi_image_apply_words(
                &mut self.handle,
                generation,
                rows.as_ptr().cast(),
                rows.len(),
                words.as_ptr(),
                words.len(),
            )
        })
    }

    /// Takes the rows of prefixes out of the image, where it has them, and sets its generation. It takes no
    /// memory.
    ///
    /// ```
    /// # use tuhvondi::*;
    /// # let net: Prefix = "10.0.0.0/8".parse()?;
    /// # let mut image = Image::new(&[Row::new(net, Target::Local)])?;
    /// image.apply(1, &[Row::new("10.1.0.0/16".parse()?, Target::Unreachable)])?;
    /// image.remove(2, &["10.1.0.0/16".parse()?])?;
    /// assert_eq!(image.lookup([10, 1, 2, 3].into()), Some(Row::new(net, Target::Local)));
    /// # Ok::<(), Box<dyn std::error::Error>>(())
    /// ```
    ///
    /// # Errors
    ///
    /// [`Status::Shared`] while there is a reader; the image is then as it was.
    pub fn remove(&mut self, generation: u64, prefixes: &[Prefix]) -> Result<(), Status> {
        // SAFETY: as in `apply`.
        Status::check(unsafe {
            sys::tuhvondi_image_remove(
                &mut self.handle,
                generation,
                prefixes.as_ptr().cast(),
                prefixes.len(),
            )
        })
    }

    /// The rows, in the order of their prefixes: by address, and then by length.
    ///
    /// ```
    /// # use tuhvondi::*;
    /// # let net: Prefix = "10.0.0.0/8".parse()?;
    /// # let mut image = Image::new(&[Row::new(net, Target::Local)])?;
    /// image.apply(1, &[Row::new("10.0.0.0/7".parse()?, Target::Unreachable)])?;
    /// let rows: Vec<String> = image.rows().map(|row| row.to_string()).collect();
    /// assert_eq!(rows, ["10.0.0.0/7 unreachable", "10.0.0.0/8 local"]);
    /// # Ok::<(), Box<dyn std::error::Error>>(())
    /// ```
    pub fn rows(&mut self) -> Rows<'_> {
        self.rows_below(Prefix::given(0, 0))
    }

    /// The rows whose prefixes lie in this one, itself among them, in the order of their prefixes.
    ///
    /// ```
    /// # use tuhvondi::*;
    /// # let net: Prefix = "10.0.0.0/8".parse()?;
    /// # let mut image = Image::new(&[Row::new(net, Target::Local)])?;
    /// image.apply(1, &[Row::new("11.0.0.0/8".parse()?, Target::Unreachable)])?;
    /// assert_eq!(image.rows_below("10.0.0.0/8".parse()?).count(), 1);
    /// assert_eq!(image.rows_below("10.0.0.0/7".parse()?).count(), 2);
    /// assert_eq!(image.rows_below("10.0.0.0/9".parse()?).count(), 0);
    /// # Ok::<(), Box<dyn std::error::Error>>(())
    /// ```
    pub fn rows_below(&mut self, prefix: Prefix) -> Rows<'_> {
        Rows {
            image: self,
            below: prefix,
            from: sys::Cursor {
                addr: prefix.bits(),
                len: prefix.len(),
            },
            rows: [Answer::default(); LISTED],
            words: [NO_WORD; LISTED],
            next: LISTED,
            count: LISTED,
        }
    }

    /// How many rows there are: it goes through all of them.
    ///
    /// ```
    /// # use tuhvondi::*;
    /// # let net: Prefix = "10.0.0.0/8".parse()?;
    /// # let mut image = Image::new(&[Row::new(net, Target::Local)])?;
    /// assert_eq!(image.row_count(), 1);
    /// # Ok::<(), Box<dyn std::error::Error>>(())
    /// ```
    pub fn row_count(&mut self) -> usize {
        let mut count = 0;
        // SAFETY: as in `apply`.
        unsafe { sys::tuhvondi_image_row_count(&mut self.handle, &mut count) };
        count
    }

    /// How many bytes the image takes, with the room that is set aside for more rows.
    ///
    /// ```
    /// # use tuhvondi::*;
    /// # let net: Prefix = "10.0.0.0/8".parse()?;
    /// # let mut image = Image::new(&[Row::new(net, Target::Local)])?;
    /// assert!(image.bytes() >= 3 * 16 + 8);
    /// # Ok::<(), Box<dyn std::error::Error>>(())
    /// ```
    pub fn bytes(&mut self) -> usize {
        let mut bytes = 0;
        // SAFETY: as in `apply`.
        unsafe { sys::tuhvondi_image_bytes(&mut self.handle, &mut bytes) };
        bytes
    }

    /// One more holder of the image, to look up at the same time in another thread.
    ///
    /// ```
    /// # use tuhvondi::*;
    /// # let net: Prefix = "10.0.0.0/8".parse()?;
    /// # let mut image = Image::new(&[Row::new(net, Target::Local)])?;
    /// let mut reader = image.reader()?;
    /// assert_eq!(reader.lookup(net.addr()), image.lookup(net.addr()));
    /// # Ok::<(), Box<dyn std::error::Error>>(())
    /// ```
    ///
    /// # Errors
    ///
    /// [`Status::NoMemory`].
    pub fn reader(&mut self) -> Result<Reader, Status> {
        let mut image = Image {
            handle: sys::Handle::EMPTY,
        };
        // SAFETY: two handles, each held by nobody else.
        Status::check(unsafe { sys::tuhvondi_image_share(&mut self.handle, &mut image.handle) })?;
        Ok(Reader { image })
    }

    /// An image of its own with the same rows and generation: one can change while the other is read.
    ///
    /// ```
    /// # use tuhvondi::*;
    /// # let net: Prefix = "10.0.0.0/8".parse()?;
    /// # let mut image = Image::new(&[Row::new(net, Target::Local)])?;
    /// let mut copy = image.copy()?;
    /// copy.apply(1, &[Row::new(net, Target::Unreachable)])?;
    /// assert_ne!(copy.lookup(net.addr()), image.lookup(net.addr()));
    /// # Ok::<(), Box<dyn std::error::Error>>(())
    /// ```
    ///
    /// # Errors
    ///
    /// [`Status::NoMemory`].
    pub fn copy(&mut self) -> Result<Image, Status> {
        let mut image = Image {
            handle: sys::Handle::EMPTY,
        };
        // SAFETY: as in `reader`.
        Status::check(unsafe { sys::tuhvondi_image_copy(&mut self.handle, &mut image.handle) })?;
        Ok(image)
    }

    /// The row with the longest prefix that covers an address, if any does. It takes no memory.
    ///
    /// ```
    /// # use tuhvondi::*;
    /// # let net: Prefix = "10.0.0.0/8".parse()?;
    /// # let mut image = Image::new(&[Row::new(net, Target::Local)])?;
    /// assert_eq!(image.lookup([10, 1, 2, 3].into()), Some(Row::new(net, Target::Local)));
    /// assert_eq!(image.lookup([8, 8, 8, 8].into()), None);
    /// # Ok::<(), Box<dyn std::error::Error>>(())
    /// ```
    pub fn lookup(&mut self, addr: Ipv4Addr) -> Option<Row> {
        let mut answers = [Answer::default()];
        let done = self.lookup_all(&[addr.into()], &mut answers);
        debug_assert_eq!(done, Ok(()));
        answers[0].row()
    }

    /// Answers addresses, each a number whose high byte is the first of the address.
    ///
    /// ```
    /// # use tuhvondi::*;
    /// # let net: Prefix = "10.0.0.0/8".parse()?;
    /// # let mut image = Image::new(&[Row::new(net, Target::Local)])?;
    /// let mut answers = [Answer::default()];
    /// image.lookup_all(&[0x0a01_0203], &mut answers)?;
    /// assert_eq!(answers[0].row(), Some(Row::new(net, Target::Local)));
    /// assert_eq!(image.lookup_all(&[], &mut answers), Err(Status::BadCount));
    /// # Ok::<(), Box<dyn std::error::Error>>(())
    /// ```
    ///
    /// # Errors
    ///
    /// [`Status::BadCount`] where there are not as many answers as addresses; nothing is then written.
    pub fn lookup_all(&mut self, addrs: &[u32], answers: &mut [Answer]) -> Result<(), Status> {
        // SAFETY: as in `apply`; the two slices do not overlap, since one of them is exclusive.
        Status::check(unsafe {
            sys::tuhvondi_image_lookup(
                &mut self.handle,
                addrs.as_ptr(),
                addrs.len(),
                answers.as_mut_ptr().cast(),
                answers.len(),
            )
        })
    }

    /// The word of the row that answers an address, or [`NO_WORD`]. It takes no memory.
    ///
    /// ```
    /// # use tuhvondi::*;
    /// # let net: Prefix = "10.0.0.0/8".parse()?;
    /// let mut image = Image::with_words(&[Row::new(net, Target::Local)], &[700])?;
    /// assert_eq!(image.lookup_word([10, 1, 2, 3].into()), 700);
    /// # Ok::<(), Box<dyn std::error::Error>>(())
    /// ```
    pub fn lookup_word(&mut self, addr: Ipv4Addr) -> u32 {
        let mut words = [NO_WORD];
        let done = self.lookup_words(&[addr.into()], &mut words);
        debug_assert_eq!(done, Ok(()));
        words[0]
    }

    /// Answers addresses by the words of their rows alone, each [`NO_WORD`] if no row covers the address.
    ///
    /// ```
    /// # use tuhvondi::*;
    /// # let net: Prefix = "10.0.0.0/8".parse()?;
    /// let mut image = Image::with_words(&[Row::new(net, Target::Local)], &[700])?;
    /// let mut words = [0; 2];
    /// image.lookup_words(&[0x0a01_0203, 0x0808_0808], &mut words)?;
    /// assert_eq!(words, [700, NO_WORD]);
    /// # Ok::<(), Box<dyn std::error::Error>>(())
    /// ```
    ///
    /// # Errors
    ///
    /// [`Status::BadCount`] if there are not as many words as addresses; nothing is then written.
    pub fn lookup_words(&mut self, addrs: &[u32], words: &mut [u32]) -> Result<(), Status> {
        // SAFETY: as in `lookup_all`.
        Status::check(unsafe {
            sys::tuhvondi_image_lookup_words(
                &mut self.handle,
                addrs.as_ptr(),
                addrs.len(),
                words.as_mut_ptr(),
                words.len(),
            )
        })
    }

    pub(crate) fn handle(&mut self) -> &mut sys::Handle {
        &mut self.handle
    }

    /// Which publication of its router the image is; 0 for a new one.
    ///
    /// ```
    /// # use tuhvondi::*;
    /// # let net: Prefix = "10.0.0.0/8".parse()?;
    /// # let mut image = Image::new(&[Row::new(net, Target::Local)])?;
    /// image.apply(7, &[])?;
    /// assert_eq!(image.generation(), 7);
    /// # Ok::<(), Box<dyn std::error::Error>>(())
    /// ```
    pub fn generation(&mut self) -> u64 {
        let mut generation = 0;
        // SAFETY: as in `apply`.
        unsafe { sys::tuhvondi_image_generation(&mut self.handle, &mut generation) };
        generation
    }
}

/// How many rows are asked for at once.
const LISTED: usize = 64;

/// The rows of an image, or those below a prefix, in the order of their prefixes: of [`Image::rows`] and
/// [`Image::rows_below`]. It takes no memory.
///
/// ```
/// # use tuhvondi::*;
/// # let net: Prefix = "10.0.0.0/8".parse()?;
/// # let mut image = Image::new(&[Row::new(net, Target::Local)])?;
/// let mut rows = image.rows();
/// assert_eq!(rows.next(), Some(Row::new(net, Target::Local)));
/// assert_eq!(rows.next(), None);
/// # Ok::<(), Box<dyn std::error::Error>>(())
/// ```
pub struct Rows<'a> {
    image: &'a mut Image,
    below: Prefix,
    from: sys::Cursor,
    rows: [Answer; LISTED],
    words: [u32; LISTED],
    next: usize,
    count: usize,
}

impl Rows<'_> {
    /// The same rows, each with its word, or [`NO_WORD`] if it was given without one.
    ///
    /// ```
    /// # use tuhvondi::*;
    /// # let net: Prefix = "10.0.0.0/8".parse()?;
    /// let row = Row::new(net, Target::Local);
    /// let mut image = Image::with_words(&[row], &[700])?;
    /// assert_eq!(image.rows().with_words().collect::<Vec<_>>(), [(row, 700)]);
    /// # Ok::<(), Box<dyn std::error::Error>>(())
    /// ```
    pub fn with_words(self) -> impl Iterator<Item = (Row, u32)> {
        let mut rows = self;
        std::iter::from_fn(move || rows.next().map(|row| (row, rows.words[rows.next - 1])))
    }
}

impl Iterator for Rows<'_> {
    type Item = Row;

    fn next(&mut self) -> Option<Row> {
        if self.next == self.count && self.count == LISTED {
            self.next = 0;
            // SAFETY: as in `apply`; the cursor is a prefix, or what the library made of it.
            unsafe {
                sys::tuhvondi_image_rows_words(
                    &mut self.image.handle,
                    &mut self.from,
                    self.rows.as_mut_ptr().cast(),
                    LISTED,
                    self.words.as_mut_ptr(),
                    LISTED,
                    &mut self.count,
                )
            };
        }
        let row = self.rows[..self.count].get(self.next)?.row()?;
        if !self.below.covers(row.prefix().addr()) {
            return None;
        }
        self.next += 1;
        Some(row)
    }
}

impl Drop for Image {
    fn drop(&mut self) {
        // SAFETY: the handle is held by nobody else, and goes.
        unsafe { sys::tuhvondi_image_free(&mut self.handle) };
    }
}

impl Reader {
    /// As [`Image::lookup`].
    pub fn lookup(&mut self, addr: Ipv4Addr) -> Option<Row> {
        self.image.lookup(addr)
    }

    /// As [`Image::lookup_all`].
    ///
    /// # Errors
    ///
    /// [`Status::BadCount`].
    pub fn lookup_all(&mut self, addrs: &[u32], answers: &mut [Answer]) -> Result<(), Status> {
        self.image.lookup_all(addrs, answers)
    }

    /// As [`Image::lookup_words`].
    ///
    /// # Errors
    ///
    /// [`Status::BadCount`].
    pub fn lookup_words(&mut self, addrs: &[u32], words: &mut [u32]) -> Result<(), Status> {
        self.image.lookup_words(addrs, words)
    }

    /// As [`Image::generation`].
    pub fn generation(&mut self) -> u64 {
        self.image.generation()
    }

    /// One more reader of the same image.
    ///
    /// ```
    /// # use tuhvondi::*;
    /// # let net: Prefix = "10.0.0.0/8".parse()?;
    /// # let mut image = Image::new(&[Row::new(net, Target::Local)])?;
    /// let mut reader = image.reader()?;
    /// let mut other = reader.again()?;
    /// assert_eq!(other.generation(), reader.generation());
    /// # Ok::<(), Box<dyn std::error::Error>>(())
    /// ```
    ///
    /// # Errors
    ///
    /// [`Status::NoMemory`].
    pub fn again(&mut self) -> Result<Reader, Status> {
        self.image.reader()
    }
}
