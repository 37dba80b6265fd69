//! The log of operations: records one after the other, each a length, a kind
//! and a body. The length covers kind and body, the kind is the operation's
//! number, the body holds its arguments; the low byte of a number comes first.

use std::iter;

use crate::machine::{Machine, OPERATIONS};
use crate::operate::{Answer, Row};
use crate::valid;

/// Refusals of the reader, in the order in which it judges.
pub const CUT_SHORT: u64 = 20;
pub const UNKNOWN_KIND: u64 = 21;
pub const WRONG_LENGTH: u64 = 22;

/// The writer's refusal after `UNKNOWN_KIND`.
pub const DOES_NOT_FIT: u64 = 23;

/// How many bytes the fields of a record have.
const LENGTH: usize = 2;
const KIND: usize = 2;
const ARGUMENT: usize = 4;
const VALUE: usize = 8;

/// Bytes of the body, by kind from 1 on.
#[rustfmt::skip]
pub const BODIES: [usize; OPERATIONS as usize] = [
    4, 4, 8, 8, 12, 12, // VMs, pages, pairs
    20, 20, 8, 8, // mappings
    20, 20, 20, 20, // regions
    8, 8, 8, 8, 4, 4, // ports, fills, slots
    12, 12, 20, 20, // reads, writes
    0, 0, // barriers
    4, // a VM retired
];

/// The bytes of a kind's body; `None` for an unknown kind.
pub fn body(kind: u64) -> Option<usize> {
    let place = usize::try_from(kind.checked_sub(1)?).ok()?;
    BODIES.get(place).copied()
}

/// The bytes of each argument of a kind, in order; nothing for an unknown kind.
/// Only a value that is to be written is wider than the others.
pub fn widths(kind: u64) -> impl Iterator<Item = usize> {
    let value = if kind == 23 || kind == 24 { VALUE } else { 0 };
    let others = (body(kind).unwrap_or(value) - value) / ARGUMENT;
    iter::repeat_n(ARGUMENT, others).chain((value > 0).then_some(value))
}

/// What a refusal of reader or writer says.
pub fn meaning(number: u64) -> &'static str {
    match number {
        CUT_SHORT => "cut short",
        UNKNOWN_KIND => "unknown kind",
        WRONG_LENGTH => "wrong length",
        _ => "does not fit",
    }
}

/// The record of a row. Numbers past the operation's arguments are ignored.
pub fn record(row: &Row) -> Result<Vec<u8>, u64> {
    let kind = row[0];
    let length = KIND + body(kind).ok_or(UNKNOWN_KIND)?;
    let mut bytes = Vec::from((length as u64).to_le_bytes()[..LENGTH].as_ref());
    bytes.extend_from_slice(&kind.to_le_bytes()[..KIND]);
    for (number, width) in row[1..].iter().zip(widths(kind)) {
        let all = number.to_le_bytes();
        let (low, high) = all.split_at(width);
        if high.iter().any(|&byte| byte != 0) {
            return Err(DOES_NOT_FIT);
        }
        bytes.extend_from_slice(low);
    }
    Ok(bytes)
}

/// Puts the record of a row at a place of the buffer and gives the place after
/// it. Refused, the buffer keeps what it has.
pub fn write(row: &Row, buffer: &mut [u8], place: usize) -> Result<usize, u64> {
    let record = record(row)?;
    let room = buffer.get_mut(place..).and_then(|rest| rest.get_mut(..record.len()));
    room.ok_or(DOES_NOT_FIT)?.copy_from_slice(&record);
    Ok(place + record.len())
}

/// The number whose low byte comes first.
fn number(bytes: &[u8]) -> u64 {
    bytes.iter().rev().fold(0, |high, &byte| high << 8 | u64::from(byte))
}

/// A log and the place in it at which the next record begins.
#[derive(Clone, Copy, PartialEq, Eq, Debug)]
pub struct Reader<'a> {
    pub log: &'a [u8],
    pub place: usize,
}

impl<'a> Reader<'a> {
    pub fn new(log: &'a [u8]) -> Self {
        Reader { log, place: 0 }
    }

    /// Reads a record and steps past it; `None` at the end or past it. Refused,
    /// the reader stays at the record.
    pub fn read(&mut self) -> Result<Option<Row>, u64> {
        let left = self.log.get(self.place..).unwrap_or_default();
        if left.is_empty() {
            return Ok(None);
        }
        if left.len() < LENGTH + KIND {
            return Err(CUT_SHORT);
        }
        let (length, counted) = left.split_at(LENGTH);
        let length = number(length) as usize;
        if counted.len() < length {
            return Err(CUT_SHORT);
        }
        // The kind is looked at even where the length doesn't reach over it.
        let (kind, mut rest) = counted.split_at(KIND);
        let kind = number(kind);
        let body = body(kind).ok_or(UNKNOWN_KIND)?;
        if length != KIND + body {
            return Err(WRONG_LENGTH);
        }
        let mut row = Row::default();
        row[0] = kind;
        for (argument, width) in row[1..].iter_mut().zip(widths(kind)) {
            let (own, after) = rest.split_at(width);
            (*argument, rest) = (number(own), after);
        }
        self.place += LENGTH + length;
        Ok(Some(row))
    }
}

/// What a replay did: the rows it carried out, refused ones among them, each
/// with its answer, and the number with which it ended.
#[derive(Clone, PartialEq, Eq, Debug)]
pub struct Replay {
    pub number: u64,
    pub taken: Vec<(Row, Answer)>,
}

/// Carries out at most so many records. A machine that isn't valid is refused
/// with 1; a record that can't be read gives its refusal, and the reader stays
/// at it. Enough records or the end of the log give 0.
pub fn replay(machine: &mut Machine, reader: &mut Reader, most: u64) -> Replay {
    let mut taken = Vec::new();
    if !valid::is_valid(machine) {
        return Replay { number: 1, taken };
    }
    while (taken.len() as u64) < most {
        match reader.read() {
            Ok(Some(row)) => taken.push((row, machine.apply(&row))),
            Ok(None) => break,
            Err(number) => return Replay { number, taken },
        }
    }
    Replay { number: 0, taken }
}
