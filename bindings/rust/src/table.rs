//! A table that changes while it forwards.

use crate::{Answer, Image, Prefix, Row, Status, sys};
use std::net::Ipv4Addr;

/// Publishes images, while readers look up under no lock: it holds two copies of an image, changes the hidden
/// one, and then shows that.
///
/// ```
/// use tuhvondi::{Image, Row, Status, TableWriter, Target};
///
/// let net = "10.0.0.0/8".parse()?;
/// let via = move |port| [Row::new(net, Target::Via { port, session: 1 })];
/// let mut writer = TableWriter::new(&mut Image::new(&via(1))?, 2)?;
/// let mut reader = writer.reader()?;
/// let thread = std::thread::spawn(move || {
///     while reader.lookup(net.addr()) != Some(via(3)[0]) {}
/// });
/// for port in 2..=3 {
///     // Refused while a look-up goes on in the hidden copy: then it is tried again.
///     while writer.publish(u64::from(port), &via(port), &[]) == Err(Status::Shared) {
///         std::thread::yield_now();
///     }
/// }
/// thread.join().unwrap();
/// # Ok::<(), Box<dyn std::error::Error>>(())
/// ```
pub struct TableWriter {
    handle: sys::Handle,
}

/// A reader of what a [`TableWriter`] publishes. It takes no lock, waits for nobody, and sees only images that
/// were published, none older than one that it saw before.
pub struct TableReader {
    handle: sys::Handle,
}

// As an `Image`.
unsafe impl Send for TableWriter {}

// As an `Image`.
unsafe impl Send for TableReader {}

impl TableWriter {
    /// A writer of two copies of an image, which stays as it is, with room for so many readers.
    ///
    /// ```
    /// # use tuhvondi::*;
    /// let mut image = Image::new(&[])?;
    /// assert!(TableWriter::new(&mut image, 1).is_ok());
    /// assert_eq!(TableWriter::new(&mut image, 1025).err(), Some(Status::BadCount));
    /// # Ok::<(), Status>(())
    /// ```
    ///
    /// # Errors
    ///
    /// [`Status::BadCount`] for more than 1,024 readers, [`Status::NoMemory`].
    pub fn new(image: &mut Image, readers: usize) -> Result<TableWriter, Status> {
        let mut writer = TableWriter {
            handle: sys::Handle::EMPTY,
        };
        // SAFETY: two handles, each held by nobody else.
        Status::check(unsafe {
            sys::tuhvondi_writer_new(image.handle(), readers, &mut writer.handle)
        })?;
        Ok(writer)
    }

    /// Sets rows over those of the image, in order, takes the rows of prefixes out, sets its generation, and
    /// shows it: all or nothing.
    ///
    /// ```
    /// # use tuhvondi::*;
    /// # let net: Prefix = "10.0.0.0/8".parse()?;
    /// let mut writer = TableWriter::new(&mut Image::new(&[Row::new(net, Target::Local)])?, 1)?;
    /// let mut reader = writer.reader()?;
    /// let wider = Row::new("0.0.0.0/0".parse()?, Target::Unreachable);
    /// writer.publish(1, &[wider], &[net])?;
    /// assert_eq!(reader.lookup(net.addr()), Some(wider));
    /// # Ok::<(), Box<dyn std::error::Error>>(())
    /// ```
    ///
    /// # Errors
    ///
    /// [`Status::Shared`] while a look-up goes on that began before the last publication;
    /// [`Status::NoMemory`]. Nothing is then published.
    pub fn publish(
        &mut self,
        generation: u64,
        rows: &[Row],
        prefixes: &[Prefix],
    ) -> Result<(), Status> {
        // SAFETY: a slice's pointer is not null; the handle is held by nobody else, and holds a writer.
        Status::check(unsafe {
            sys::tuhvondi_writer_publish(
                &mut self.handle,
                generation,
                rows.as_ptr().cast(),
                rows.len(),
                prefixes.as_ptr().cast(),
                prefixes.len(),
            )
        })
    }

    /// As [`TableWriter::publish`], with a word for each row.
    ///
    /// ```
    /// # use tuhvondi::*;
    /// # let net: Prefix = "10.0.0.0/8".parse()?;
    /// let mut writer = TableWriter::new(&mut Image::new(&[])?, 1)?;
    /// let mut reader = writer.reader()?;
    /// writer.publish_words(1, &[Row::new(net, Target::Local)], &[700], &[])?;
    /// let mut words = [0; 2];
    /// assert_eq!(reader.lookup_words(&[0x0a01_0203, 0x0808_0808], &mut words), Ok(1));
    /// assert_eq!(words, [700, NO_WORD]);
    /// # Ok::<(), Box<dyn std::error::Error>>(())
    /// ```
    ///
    /// # Errors
    ///
    /// [`Status::BadCount`] if there are not as many words as rows; otherwise those of `publish`, and
    /// [`Status::NoMemory`] for more than 16,777,214 rows. Nothing is then published.
    pub fn publish_words(
        &mut self,
        generation: u64,
        rows: &[Row],
        words: &[u32],
        prefixes: &[Prefix],
    ) -> Result<(), Status> {
        // SAFETY: as in `publish`.
        Status::check(unsafe {
            sys::tuhvondi_writer_publish_words(
                &mut self.handle,
                generation,
                rows.as_ptr().cast(),
                rows.len(),
                words.as_ptr(),
                words.len(),
                prefixes.as_ptr().cast(),
                prefixes.len(),
            )
        })
    }

    /// How many images were published, the first the one that the writer was made of. A thread that is told this
    /// number can have its reader learn it ([`TableReader::learn`]).
    ///
    /// ```
    /// # use tuhvondi::*;
    /// let mut writer = TableWriter::new(&mut Image::new(&[])?, 1)?;
    /// writer.publish(1, &[], &[])?;
    /// assert_eq!(writer.published(), 2);
    /// # Ok::<(), Status>(())
    /// ```
    pub fn published(&mut self) -> u64 {
        let mut published = 0;
        // SAFETY: as in `publish`. It is not refused, because the handle holds a writer.
        unsafe { sys::tuhvondi_writer_published(&mut self.handle, &mut published) };
        published
    }

    /// A reader, for one thread. When it is dropped, another may be made in its place.
    ///
    /// ```
    /// # use tuhvondi::*;
    /// let mut writer = TableWriter::new(&mut Image::new(&[])?, 1)?;
    /// let reader = writer.reader()?;
    /// assert_eq!(writer.reader().err(), Some(Status::BadCount));
    /// drop(reader);
    /// assert!(writer.reader().is_ok());
    /// # Ok::<(), Status>(())
    /// ```
    ///
    /// # Errors
    ///
    /// [`Status::BadCount`] where all readers are there, [`Status::NoMemory`].
    pub fn reader(&mut self) -> Result<TableReader, Status> {
        let mut reader = TableReader {
            handle: sys::Handle::EMPTY,
        };
        // SAFETY: as in `new`.
        Status::check(unsafe {
            sys::tuhvondi_writer_reader(&mut self.handle, &mut reader.handle)
        })?;
        Ok(reader)
    }
}

impl Drop for TableWriter {
    fn drop(&mut self) {
        // SAFETY: the handle is held by nobody else, and goes.
        unsafe { sys::tuhvondi_writer_free(&mut self.handle) };
    }
}

impl TableReader {
    /// The row with the longest prefix that covers an address, if any does, in the image that is published.
    ///
    /// ```
    /// # use tuhvondi::*;
    /// # let net: Prefix = "10.0.0.0/8".parse()?;
    /// let row = Row::new(net, Target::Local);
    /// let mut writer = TableWriter::new(&mut Image::new(&[row])?, 1)?;
    /// assert_eq!(writer.reader()?.lookup(net.addr()), Some(row));
    /// # Ok::<(), Box<dyn std::error::Error>>(())
    /// ```
    pub fn lookup(&mut self, addr: Ipv4Addr) -> Option<Row> {
        let mut answers = [Answer::default()];
        while self.lookup_all(&[addr.into()], &mut answers).is_err() {}
        answers[0].row()
    }

    /// Learns that so many images were published: from now on no answer comes from one that is older than the
    /// last of these.
    ///
    /// ```
    /// # use tuhvondi::*;
    /// let mut writer = TableWriter::new(&mut Image::new(&[])?, 1)?;
    /// let mut reader = writer.reader()?;
    /// writer.publish(1, &[], &[])?;
    /// assert_eq!(reader.learn(writer.published()), Ok(()));
    /// assert_eq!(reader.learn(3), Err(Status::BadCount));
    /// # Ok::<(), Status>(())
    /// ```
    ///
    /// # Errors
    ///
    /// [`Status::BadCount`] if fewer were published; [`Status::Shared`] if the writer published a thousand times
    /// during the call.
    pub fn learn(&mut self, published: u64) -> Result<(), Status> {
        // SAFETY: the handle is held by nobody else, and holds a reader.
        Status::check(unsafe { sys::tuhvondi_reader_learn(&mut self.handle, published) })
    }

    /// Answers addresses, each a number whose high byte is the first of the address, by one image, and says
    /// the generation of that.
    ///
    /// ```
    /// # use tuhvondi::*;
    /// let mut writer = TableWriter::new(&mut Image::new(&[])?, 1)?;
    /// let mut reader = writer.reader()?;
    /// writer.publish(5, &[], &[])?;
    /// let mut answers = [Answer::default(); 2];
    /// assert_eq!(reader.lookup_all(&[1, 2], &mut answers), Ok(5));
    /// assert_eq!(reader.lookup_all(&[1], &mut answers), Err(Status::BadCount));
    /// # Ok::<(), Status>(())
    /// ```
    ///
    /// # Errors
    ///
    /// [`Status::BadCount`] where there are not as many answers as addresses; [`Status::Shared`] where the
    /// writer published a thousand times during the call. Nothing is then written.
    pub fn lookup_all(&mut self, addrs: &[u32], answers: &mut [Answer]) -> Result<u64, Status> {
        let mut generation = 0;
        // SAFETY: as in `publish`; the two slices do not overlap, since one of them is exclusive.
        Status::check(unsafe {
            sys::tuhvondi_reader_lookup(
                &mut self.handle,
                addrs.as_ptr(),
                addrs.len(),
                answers.as_mut_ptr().cast(),
                answers.len(),
                &mut generation,
            )
        })?;
        Ok(generation)
    }

    /// As [`TableReader::lookup_all`], with the words of the rows that answer, each [`NO_WORD`](crate::NO_WORD)
    /// if no row covers the address. [`TableWriter::publish_words`] has an example.
    ///
    /// # Errors
    ///
    /// Those of `lookup_all`.
    pub fn lookup_words(&mut self, addrs: &[u32], words: &mut [u32]) -> Result<u64, Status> {
        let mut generation = 0;
        // SAFETY: as in `lookup_all`.
        Status::check(unsafe {
            sys::tuhvondi_reader_lookup_words(
                &mut self.handle,
                addrs.as_ptr(),
                addrs.len(),
                words.as_mut_ptr(),
                words.len(),
                &mut generation,
            )
        })?;
        Ok(generation)
    }
}

impl Drop for TableReader {
    fn drop(&mut self) {
        // SAFETY: the handle is held by nobody else, and goes.
        unsafe { sys::tuhvondi_reader_free(&mut self.handle) };
    }
}
