//! The operation log: records in bytes, written and read one at a time.
//!
//! A record is a length of two bytes, which counts what follows it, a kind of two, which is the
//! operation's number, and the operation's arguments, of four bytes each, the value of a write of
//! eight; the lowest byte of each number comes first.

use crate::ffi;
use crate::numbers::{LogRefusal, ROW_NUMBERS};
use crate::structs::Row;
use core::fmt;
use core::iter::FusedIterator;

/// Why a record of a log cannot be read, and where it begins.
#[derive(Clone, Copy, Debug, PartialEq, Eq, Hash)]
pub struct LogError {
    /// Why.
    pub refusal: LogRefusal,
    /// The offset of the record's first byte in the log.
    pub offset: usize,
}

impl fmt::Display for LogError {
    fn fmt(&self, out: &mut fmt::Formatter<'_>) -> fmt::Result {
        write!(out, "{}, at byte {}", self.refusal, self.offset)
    }
}

impl core::error::Error for LogError {}

impl From<LogError> for LogRefusal {
    fn from(error: LogError) -> LogRefusal {
        error.refusal
    }
}

/// How far [`Lent::replay`](crate::Lent::replay) came.
#[derive(Clone, Copy, Debug, PartialEq, Eq)]
pub struct Replayed {
    /// How many records were carried out, refused operations among them.
    pub taken: usize,
    /// Where the next record begins.
    pub place: usize,
    /// Why the record there cannot be read, if that is what ended it; none where as many records as
    /// were asked for are taken, or the log has ended.
    pub stopped: Option<LogRefusal>,
}

impl Replayed {
    /// How many records were carried out, or why the one at the place cannot be read.
    pub fn readable(self) -> Result<usize, LogError> {
        match self.stopped {
            None => Ok(self.taken),
            Some(refusal) => Err(LogError { refusal, offset: self.place }),
        }
    }
}

/// A log that is lent and a place in it: an iterator over the rows of its records, in which a number
/// that is none of the operation's arguments is 0. A record that cannot be read gives a [`LogError`],
/// and nothing follows it.
///
/// ```
/// use tiligormis::*;
/// let log = [6, 0, 1, 0, 1, 0, 0, 0, 2, 0, 25, 0, 9, 0];
/// let mut reader = LogReader::new(&log);
/// assert_eq!(reader.next(), Some(Ok(rows::add_vm(1))));
/// assert_eq!(reader.place(), 8);
/// assert_eq!(reader.next(), Some(Ok(rows::data_barrier())));
/// let cut = LogError { refusal: LogRefusal::CutShort, offset: 12 };
/// assert_eq!(reader.next(), Some(Err(cut)));
/// assert_eq!((reader.next(), reader.place()), (None, 12));
/// ```
#[derive(Clone, Debug)]
pub struct LogReader<'a> {
    log: &'a [u8],
    place: usize,
    stopped: bool,
}

impl<'a> LogReader<'a> {
    /// Reads a log from its first record on.
    pub const fn new(log: &'a [u8]) -> LogReader<'a> {
        LogReader::at(log, 0)
    }

    /// Reads a log from a place on. At its end, or past it, there is no record.
    pub const fn at(log: &'a [u8], place: usize) -> LogReader<'a> {
        LogReader { log, place, stopped: false }
    }

    /// Where the next record begins; after an error where the one that cannot be read does.
    pub const fn place(&self) -> usize {
        self.place
    }
}

impl Iterator for LogReader<'_> {
    type Item = Result<Row, LogError>;

    fn next(&mut self) -> Option<Result<Row, LogError>> {
        if self.stopped {
            return None;
        }
        let (mut place, mut row) = (self.place as u64, [0; ROW_NUMBERS]);
        // SAFETY: pointers and lengths are those of a slice, of a number and of a row of our own.
        let number = unsafe {
            ffi::tiligormis_log_read(
                self.log.as_ptr(),
                self.log.len(),
                &mut place,
                1,
                row.as_mut_ptr(),
                ROW_NUMBERS,
            )
        };
        if let Err(refusal) = LogRefusal::accepted(number) {
            self.stopped = true;
            return Some(Err(LogError { refusal, offset: self.place }));
        }
        self.place = place as usize;
        // at the end of the log the row is all 0, and no operation has that number
        (row[0] != 0).then_some(Ok(row))
    }
}

impl FusedIterator for LogReader<'_> {}

/// A buffer that is lent and the place in it where the next record goes.
///
/// ```
/// use tiligormis::*;
/// let mut buffer = [0; 20];
/// let mut log = LogWriter::new(&mut buffer);
/// log.write(&rows::add_vm(1))?;
/// assert_eq!(log.written(), [6, 0, 1, 0, 1, 0, 0, 0]);
/// assert_eq!(log.write(&row([KINDS + 1])), Err(LogRefusal::UnknownKind));
/// assert_eq!(log.write(&rows::assign_page(1, 1 << 32)), Err(LogRefusal::DoesNotFit));
/// log.write(&rows::assign_page(1, 5))?;
/// assert_eq!(log.write(&rows::data_barrier()), Err(LogRefusal::DoesNotFit));
/// assert_eq!(log.place(), 20);
/// # Ok::<(), LogRefusal>(())
/// ```
#[derive(Debug)]
pub struct LogWriter<'a> {
    log: &'a mut [u8],
    place: usize,
}

impl<'a> LogWriter<'a> {
    /// Writes a log from the buffer's first byte on.
    pub fn new(log: &'a mut [u8]) -> LogWriter<'a> {
        LogWriter::at(log, 0)
    }

    /// Goes on with the log that ends at a place of the buffer.
    pub fn at(log: &'a mut [u8], place: usize) -> LogWriter<'a> {
        LogWriter { log, place }
    }

    /// Writes the row's record; numbers beyond the operation's arguments are left out.
    ///
    /// Refused, the buffer stays as it was: with [`LogRefusal::UnknownKind`] where the row's first
    /// number is no operation's, with [`LogRefusal::DoesNotFit`] where an argument is over four bytes
    /// or the buffer has too little room left.
    pub fn write(&mut self, row: &Row) -> Result<(), LogRefusal> {
        let mut place = self.place as u64;
        // SAFETY: pointers and lengths are those of a row, of a slice that is lent to be changed, and
        // of a number of our own.
        LogRefusal::accepted(unsafe {
            ffi::tiligormis_log_write(
                row.as_ptr(),
                ROW_NUMBERS,
                self.log.as_mut_ptr(),
                self.log.len(),
                &mut place,
                1,
            )
        })?;
        self.place = place as usize;
        Ok(())
    }

    /// Where the next record goes.
    pub const fn place(&self) -> usize {
        self.place
    }

    /// The log so far: the buffer up to the place.
    pub fn written(&self) -> &[u8] {
        &self.log[..self.place.min(self.log.len())]
    }
}
