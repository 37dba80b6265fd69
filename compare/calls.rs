//! The three functions over a log: as C calls them, with rooms of any length, through the Rust
//! crate, and by the second program under what include/tiligormis.h says of rooms.

use second::log::{self, Reader, Replay};
use second::machine::{Machine, ANSWER_NUMBERS, ROW_NUMBERS};
use second::operate::Row;
use tiligormis::{
    Answer, LogReader, LogRefusal, LogWriter, Owned, Refusal, Slot, MACHINE_NUMBERS,
    STATE_NOT_VALID,
};

/// What a replay is lent beside box and log.
#[derive(Clone, PartialEq, Eq, Debug)]
pub struct Rooms {
    pub place: Vec<u64>,
    pub answers: Vec<u64>,
    /// Only so many numbers of `answers` are lent; those behind them are looked at.
    pub lent: usize,
    pub taken: Vec<u64>,
}

/// The library's, or in the self-test one of them wrong.
#[derive(Clone, Copy)]
pub struct Functions {
    pub name: &'static str,
    pub write: fn(row: &[u64], log: &mut [u8], place: &mut [u64]) -> u64,
    pub read: fn(log: &[u8], place: &mut [u64], row: &mut [u64]) -> u64,
    pub replay: fn(owned: &mut Owned, log: &[u8], most: u64, rooms: &mut Rooms) -> u64,
}

/// As the header declares them.
pub const C: Functions = Functions { name: "c", write: c_write, read: c_read, replay: c_replay };

/// As the Rust crate gives them; of rooms that it always gives their right length, as C does.
pub const RUST: Functions =
    Functions { name: "rust", write: rust_write, read: rust_read, replay: rust_replay };

#[rustfmt::skip]
extern "C" {
    fn tiligormis_log_write(
        row: *const u64, row_length: usize,
        log: *mut u8, log_length: usize,
        place: *mut u64, place_length: usize,
    ) -> u64;
    fn tiligormis_log_read(
        log: *const u8, log_length: usize,
        place: *mut u64, place_length: usize,
        row: *mut u64, row_length: usize,
    ) -> u64;
    fn tiligormis_replay(
        machine: *mut tiligormis::Machine, machine_numbers: usize,
        sets: *mut u64, sets_length: usize,
        pairs: *mut u64, pairs_length: usize,
        cpu_map: *mut u64, cpu_map_length: usize,
        cpu_walker: *mut u64, cpu_walker_length: usize,
        cpu_cache: *mut Slot, cpu_cache_length: usize,
        dma_map: *mut u64, dma_map_length: usize,
        dma_walker: *mut u64, dma_walker_length: usize,
        dma_cache: *mut Slot, dma_cache_length: usize,
        memory: *mut u64, memory_length: usize,
        log: *const u8, log_length: usize,
        place: *mut u64, place_length: usize,
        most: u64,
        answers: *mut u64, answers_numbers: usize,
        taken: *mut u64, taken_length: usize,
    ) -> u64;
}

fn c_write(row: &[u64], log: &mut [u8], place: &mut [u64]) -> u64 {
    let (log_at, place_at) = (log.as_mut_ptr(), place.as_mut_ptr());
    // SAFETY: pointers and lengths are those of slices, of which the changed ones overlap nothing.
    unsafe {
        tiligormis_log_write(row.as_ptr(), row.len(), log_at, log.len(), place_at, place.len())
    }
}

fn c_read(log: &[u8], place: &mut [u64], row: &mut [u64]) -> u64 {
    let (place_at, row_at) = (place.as_mut_ptr(), row.as_mut_ptr());
    // SAFETY: as above.
    unsafe {
        tiligormis_log_read(log.as_ptr(), log.len(), place_at, place.len(), row_at, row.len())
    }
}

#[rustfmt::skip]
fn c_replay(owned: &mut Owned, log: &[u8], most: u64, rooms: &mut Rooms) -> u64 {
    let Rooms { place, answers, lent, taken } = rooms;
    let answers = &mut answers[..*lent];
    // SAFETY: as above; all of them are vectors of their own.
    unsafe {
        tiligormis_replay(
            &mut *owned.machine, MACHINE_NUMBERS,
            owned.sets.as_mut_ptr(), owned.sets.len(),
            owned.pairs.as_mut_ptr(), owned.pairs.len(),
            owned.cpu_map.as_mut_ptr(), owned.cpu_map.len(),
            owned.cpu_walker.as_mut_ptr(), owned.cpu_walker.len(),
            owned.cpu_cache.as_mut_ptr(), owned.cpu_cache.len(),
            owned.dma_map.as_mut_ptr(), owned.dma_map.len(),
            owned.dma_walker.as_mut_ptr(), owned.dma_walker.len(),
            owned.dma_cache.as_mut_ptr(), owned.dma_cache.len(),
            owned.memory.as_mut_ptr(), owned.memory.len(),
            log.as_ptr(), log.len(),
            place.as_mut_ptr(), place.len(),
            most,
            answers.as_mut_ptr(), answers.len(),
            taken.as_mut_ptr(), taken.len(),
        )
    }
}

fn rust_write(row: &[u64], log: &mut [u8], place: &mut [u64]) -> u64 {
    let (Ok(row), [at]) = (<&Row>::try_from(row), &mut *place) else {
        return c_write(row, log, place);
    };
    let mut writer = LogWriter::at(log, *at as usize);
    let number = writer.write(row).err().map_or(0, LogRefusal::number);
    *at = writer.place() as u64;
    number
}

fn rust_read(log: &[u8], place: &mut [u64], row: &mut [u64]) -> u64 {
    if place.len() != 1 || row.len() != ROW_NUMBERS {
        return c_read(log, place, row);
    }
    let mut reader = LogReader::at(log, place[0] as usize);
    match reader.next() {
        Some(Err(error)) => {
            place[0] = error.offset as u64;
            return error.refusal.number();
        }
        Some(Ok(read)) => row.copy_from_slice(&read),
        None => row.fill(0),
    }
    place[0] = reader.place() as u64;
    0
}

fn rust_replay(owned: &mut Owned, log: &[u8], most: u64, rooms: &mut Rooms) -> u64 {
    let whole = rooms.lent % ANSWER_NUMBERS == 0;
    let ([place], [taken], true) = (&mut rooms.place[..], &mut rooms.taken[..], whole) else {
        return c_replay(owned, log, most, rooms);
    };
    let numbers = &mut rooms.answers[..rooms.lent];
    let answer = |numbers: &[u64]| Answer {
        number: numbers[0],
        index: numbers[1],
        dropped: numbers[2],
        word: numbers[3],
    };
    let mut answers: Vec<Answer> = numbers.chunks_exact(ANSWER_NUMBERS).map(answer).collect();
    let replayed = owned.lent().replay(log, *place as usize, most as usize, &mut answers);
    for (room, answer) in numbers.chunks_exact_mut(ANSWER_NUMBERS).zip(answers) {
        room.copy_from_slice(&[answer.number, answer.index, answer.dropped, answer.word]);
    }
    // A refusal says no more than that none was taken.
    let replayed = match replayed {
        Ok(replayed) => replayed,
        Err(refusal) => {
            *taken = 0;
            return Refusal::number(refusal);
        }
    };
    (*place, *taken) = (replayed.place as u64, replayed.taken as u64);
    replayed.stopped.map_or(0, LogRefusal::number)
}

/// What a write must give.
pub fn second_write(row: &[u64], log: &mut [u8], place: &mut [u64]) -> u64 {
    let (Ok(row), [at]) = (<&Row>::try_from(row), place) else { return STATE_NOT_VALID };
    match log::write(row, log, *at as usize) {
        Ok(next) => {
            *at = next as u64;
            0
        }
        Err(number) => number,
    }
}

/// What a read must give.
pub fn second_read(log: &[u8], place: &mut [u64], row: &mut [u64]) -> u64 {
    let (ROW_NUMBERS, [at]) = (row.len(), place) else { return STATE_NOT_VALID };
    let mut reader = Reader { log, place: *at as usize };
    match reader.read() {
        Ok(read) => {
            row.copy_from_slice(&read.unwrap_or_default());
            *at = reader.place as u64;
            0
        }
        Err(number) => number,
    }
}

/// What a replay must give, and what it carries out.
pub fn second_replay(machine: &mut Machine, log: &[u8], most: u64, rooms: &mut Rooms) -> Replay {
    let ([place], [taken]) = (&mut rooms.place[..], &mut rooms.taken[..]) else {
        return Replay { number: STATE_NOT_VALID, taken: Vec::new() };
    };
    let mut reader = Reader { log, place: *place as usize };
    let replay = log::replay(machine, &mut reader, most);
    (*place, *taken) = (reader.place as u64, replay.taken.len() as u64);
    let answers = rooms.answers[..rooms.lent].chunks_exact_mut(ANSWER_NUMBERS);
    for (room, (_, answer)) in answers.zip(&replay.taken) {
        room.copy_from_slice(&answer.numbers());
    }
    replay
}
