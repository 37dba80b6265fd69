//! Functions over a log that are wrong in one place each, to see that the comparison says so.

use second::machine::OPERATIONS;
use tiligormis::{
    Owned, Slot, CUT_SHORT, DATA_BARRIER, DMA_READ, DMA_WRITE, DOES_NOT_FIT, STATE_NOT_VALID,
    UNKNOWN_KIND, WRONG_LENGTH,
};

use crate::calls::{Functions, Rooms, C};

/// A flaw: its name, the check that must find it, the part to be named, and the functions.
pub type LogFlaw = (&'static str, &'static str, &'static str, Functions);

type Write = fn(&[u64], &mut [u8], &mut [u64]) -> u64;
type Read = fn(&[u8], &mut [u64], &mut [u64]) -> u64;
type Replay = fn(&mut Owned, &[u8], u64, &mut Rooms) -> u64;

const fn write(write: Write) -> Functions {
    Functions { write, ..C }
}

const fn read(read: Read) -> Functions {
    Functions { read, ..C }
}

const fn replay(replay: Replay) -> Functions {
    Functions { replay, ..C }
}

pub const WRITERS: &[LogFlaw] = &[
    ("kind_cut_off", "rows_at_every_limit", "write's number", write(kind_cut_off)),
    ("argument_cut_off", "rows_at_every_limit", "write's number", write(argument_cut_off)),
    ("wide_value", "rows_at_every_limit", "write's number", write(wide_value)),
    ("past_the_arguments", "rows_at_every_limit", "write's number", write(past_the_arguments)),
    ("place_comes_round", "every_place_of_a_buffer", "write's number", write(place_comes_round)),
    ("one_byte_short", "every_place_of_a_buffer", "write's number", write(one_byte_short)),
    ("room_before_kind", "every_place_of_a_buffer", "write's number", write(room_before_kind)),
    ("byte_behind", "every_place_of_a_buffer", "written bytes", write(byte_behind)),
    ("refused_writes", "every_place_of_a_buffer", "written bytes", write(refused_writes)),
    ("refused_moves", "every_place_of_a_buffer", "write's place", write(refused_moves)),
    ("stays", "rows_at_every_limit", "write's place", write(stays)),
    ("long_row", "rooms_of_other_lengths", "write's number", write(long_row)),
];

fn kind_cut_off(row: &[u64], log: &mut [u8], place: &mut [u64]) -> u64 {
    let mut row = row.to_vec();
    row.iter_mut().take(1).for_each(|kind| *kind &= 0xFFFF);
    (C.write)(&row, log, place)
}

fn argument_cut_off(row: &[u64], log: &mut [u8], place: &mut [u64]) -> u64 {
    let mut row = row.to_vec();
    row.iter_mut().skip(1).take(3).for_each(|argument| *argument &= 0xFFFF_FFFF);
    (C.write)(&row, log, place)
}

fn wide_value(row: &[u64], log: &mut [u8], place: &mut [u64]) -> u64 {
    match row {
        [DMA_WRITE, _, _, _, value, ..] if value >> 32 != 0 => DOES_NOT_FIT,
        _ => (C.write)(row, log, place),
    }
}

fn past_the_arguments(row: &[u64], log: &mut [u8], place: &mut [u64]) -> u64 {
    match (C.write)(row, log, place) {
        0 if row[7] >> 32 != 0 => DOES_NOT_FIT,
        number => number,
    }
}

/// The sum of place and record is taken for its low half.
fn place_comes_round(row: &[u64], log: &mut [u8], place: &mut [u64]) -> u64 {
    match (C.write)(row, log, place) {
        DOES_NOT_FIT if place[0] == u64::MAX && row[0] == DATA_BARRIER => 0,
        number => number,
    }
}

fn one_byte_short(row: &[u64], log: &mut [u8], place: &mut [u64]) -> u64 {
    let end = log.len().saturating_sub(1);
    (C.write)(row, &mut log[..end], place)
}

/// A buffer without room is seen before the kind.
fn room_before_kind(row: &[u64], log: &mut [u8], place: &mut [u64]) -> u64 {
    match (C.write)(row, log, place) {
        UNKNOWN_KIND if log.is_empty() => DOES_NOT_FIT,
        number => number,
    }
}

fn byte_behind(row: &[u64], log: &mut [u8], place: &mut [u64]) -> u64 {
    let number = (C.write)(row, log, place);
    if let (0, Some(byte)) = (number, log.get_mut(place[0] as usize)) {
        *byte = 0;
    }
    number
}

/// The length is written before it is known that the record has no room.
fn refused_writes(row: &[u64], log: &mut [u8], place: &mut [u64]) -> u64 {
    let number = (C.write)(row, log, place);
    if let (DOES_NOT_FIT, Some(byte)) = (number, log.get_mut(place[0] as usize)) {
        *byte = 2;
    }
    number
}

fn refused_moves(row: &[u64], log: &mut [u8], place: &mut [u64]) -> u64 {
    let number = (C.write)(row, log, place);
    if number == DOES_NOT_FIT {
        place[0] = place[0].wrapping_add(4);
    }
    number
}

fn stays(row: &[u64], log: &mut [u8], place: &mut [u64]) -> u64 {
    (C.write)(row, log, &mut place.to_vec())
}

fn long_row(row: &[u64], log: &mut [u8], place: &mut [u64]) -> u64 {
    (C.write)(&row[..row.len().min(8)], log, place)
}

pub const READERS: &[LogFlaw] = &[
    ("kind_before_end", "every_header", "read's number", read(kind_before_end)),
    ("length_before_kind", "every_header", "read's number", read(length_before_kind)),
    ("three_bytes_left", "every_header", "read's number", read(three_bytes_left)),
    ("refused_writes", "every_header", "row", read(refused_row)),
    ("refused_moves", "every_header", "read's place", read(refused_step)),
    ("old_numbers_stay", "as_made", "row", read(old_numbers_stay)),
    ("wide_argument", "one_byte_changed", "row", read(wide_argument)),
    ("row_at_the_end", "as_made", "row", read(row_at_the_end)),
    ("back_to_the_end", "as_made", "read's place", read(back_to_the_end)),
    ("end_is_cut_short", "cut", "read's number", read(end_is_cut_short)),
    ("goes_on_inside", "lengthened", "read's number", read(goes_on_inside)),
    ("two_places", "rooms_of_other_lengths", "read's number", read(two_places)),
];

/// Whether the bytes from the place on begin with a record of a kind that there is.
fn known(log: &[u8], place: u64) -> bool {
    let header = log.get(place as usize..).unwrap_or_default();
    matches!(header, &[_, _, kind, 0, ..] if (1..=OPERATIONS).contains(&kind.into()))
}

fn kind_before_end(log: &[u8], place: &mut [u64], row: &mut [u64]) -> u64 {
    match (C.read)(log, place, row) {
        CUT_SHORT if log.len() as u64 >= place[0] + 4 && !known(log, place[0]) => UNKNOWN_KIND,
        number => number,
    }
}

/// A length of 0 or 1 is seen before the kind.
fn length_before_kind(log: &[u8], place: &mut [u64], row: &mut [u64]) -> u64 {
    match (C.read)(log, place, row) {
        UNKNOWN_KIND if log[place[0] as usize] < 2 => WRONG_LENGTH,
        number => number,
    }
}

fn three_bytes_left(log: &[u8], place: &mut [u64], row: &mut [u64]) -> u64 {
    match (C.read)(log, place, row) {
        CUT_SHORT if log.len() as u64 == place[0] + 3 => WRONG_LENGTH,
        number => number,
    }
}

fn refused_row(log: &[u8], place: &mut [u64], row: &mut [u64]) -> u64 {
    let number = (C.read)(log, place, row);
    if number == WRONG_LENGTH {
        row[0] = 1;
    }
    number
}

fn refused_step(log: &[u8], place: &mut [u64], row: &mut [u64]) -> u64 {
    let number = (C.read)(log, place, row);
    place[0] += 4 * u64::from(number == UNKNOWN_KIND);
    number
}

fn old_numbers_stay(log: &[u8], place: &mut [u64], row: &mut [u64]) -> u64 {
    let old = row[7];
    let number = (C.read)(log, place, row);
    row[7] = old;
    number
}

/// The last argument of a DMA read is read with its sign.
fn wide_argument(log: &[u8], place: &mut [u64], row: &mut [u64]) -> u64 {
    let number = (C.read)(log, place, row);
    if (number, row[0]) == (0, DMA_READ) {
        row[3] = row[3] as i32 as u64;
    }
    number
}

fn row_at_the_end(log: &[u8], place: &mut [u64], row: &mut [u64]) -> u64 {
    match place[0] as usize == log.len() {
        true => 0,
        false => (C.read)(log, place, row),
    }
}

fn back_to_the_end(log: &[u8], place: &mut [u64], row: &mut [u64]) -> u64 {
    place[0] = place[0].min(log.len() as u64);
    (C.read)(log, place, row)
}

fn end_is_cut_short(log: &[u8], place: &mut [u64], row: &mut [u64]) -> u64 {
    match (C.read)(log, place, row) {
        0 if row[0] == 0 => CUT_SHORT,
        number => number,
    }
}

/// A record of no kind is stepped over by its header.
fn goes_on_inside(log: &[u8], place: &mut [u64], row: &mut [u64]) -> u64 {
    match (C.read)(log, place, row) {
        UNKNOWN_KIND => {
            place[0] += 4;
            (C.read)(log, place, row)
        }
        number => number,
    }
}

fn two_places(log: &[u8], place: &mut [u64], row: &mut [u64]) -> u64 {
    let one = place.len().min(1);
    (C.read)(log, &mut place[..one], row)
}

pub const REPLAYS: &[LogFlaw] = &[
    ("accepted_ones_counted", "replay", "records taken", replay(accepted_ones_counted)),
    ("number_of_the_next", "replay", "replay's number", replay(number_of_the_next)),
    ("steps_past", "replay", "replay's place", replay(steps_past)),
    ("answer_lost", "replay", "replay's answers", replay(answer_lost)),
    ("memory", "replay", "memory", replay(memory)),
    ("another_order", "replay", "replay and sequence", replay(another_order)),
    ("order_of_one_call", "replay_in_pieces", "box after pieces", replay(order_of_one_call)),
    ("part_of_an_answer", "replay_room_for_answers", "replay's answers", replay(part_of_an_answer)),
    ("answer_behind", "replay_room_for_answers", "replay's answers", replay(answer_behind)),
    ("room_is_asked_for", "replay_room_for_answers", "replay's number", replay(room_is_asked_for)),
    ("any_count", "replay_rooms_of_other_lengths", "records taken", replay(any_count)),
    ("accepts", "replay_on_changed_states", "replay's number", replay(accepts)),
    ("refused_count", "replay_on_changed_states", "records taken", replay(refused_count)),
    ("refused_place", "replay_on_changed_states", "replay's place", replay(refused_place)),
    ("refused_answers", "replay_on_changed_states", "replay's answers", replay(refused_answers)),
    ("refused_box", "replay_on_changed_states", "refused box", replay(refused_box)),
    ("slot_lost", "replay_before_an_unreadable_record", "CPU cache", replay(slot_lost)),
    ("all_taken_back", "replay_before_an_unreadable_record", "CPU cache", replay(all_taken_back)),
];

/// Refused operations are not counted.
fn accepted_ones_counted(owned: &mut Owned, log: &[u8], most: u64, rooms: &mut Rooms) -> u64 {
    let number = (C.replay)(owned, log, most, rooms);
    let answers = rooms.answers.chunks(4).take(rooms.taken[0] as usize);
    rooms.taken[0] = answers.filter(|answer| answer[0] == 0).count() as u64;
    number
}

/// The record behind the last one asked for is read too.
fn number_of_the_next(owned: &mut Owned, log: &[u8], most: u64, rooms: &mut Rooms) -> u64 {
    let number = (C.replay)(owned, log, most, rooms);
    match number {
        0 => (C.read)(log, &mut rooms.place.clone(), &mut [0; 8]),
        _ => number,
    }
}

fn steps_past(owned: &mut Owned, log: &[u8], most: u64, rooms: &mut Rooms) -> u64 {
    let number = (C.replay)(owned, log, most, rooms);
    rooms.place[0] += 4 * u64::from(number == WRONG_LENGTH);
    number
}

/// The last answer that there is room for.
fn answer_lost(owned: &mut Owned, log: &[u8], most: u64, rooms: &mut Rooms) -> u64 {
    let before = rooms.answers.clone();
    let number = (C.replay)(owned, log, most, rooms);
    let end = 4 * rooms.taken[0] as usize;
    if (4..=rooms.lent).contains(&end) {
        rooms.answers[end - 4..end].copy_from_slice(&before[end - 4..end]);
    }
    number
}

fn memory(owned: &mut Owned, log: &[u8], most: u64, rooms: &mut Rooms) -> u64 {
    let number = (C.replay)(owned, log, most, rooms);
    if let (CUT_SHORT, Some(word)) = (number, owned.memory.last_mut()) {
        *word ^= 1;
    }
    number
}

/// A map's words in places that no operation has put them in.
fn another_order(owned: &mut Owned, log: &[u8], most: u64, rooms: &mut Rooms) -> u64 {
    let number = (C.replay)(owned, log, most, rooms);
    owned.cpu_map.reverse();
    number
}

fn order_of_one_call(owned: &mut Owned, log: &[u8], most: u64, rooms: &mut Rooms) -> u64 {
    match most {
        u64::MAX => another_order(owned, log, most, rooms),
        _ => (C.replay)(owned, log, most, rooms),
    }
}

/// As much of an answer as there is room for.
fn part_of_an_answer(owned: &mut Owned, log: &[u8], most: u64, rooms: &mut Rooms) -> u64 {
    let number = (C.replay)(owned, log, most, rooms);
    let whole = rooms.lent / 4;
    if whole < rooms.taken[0] as usize {
        rooms.answers[4 * whole..rooms.lent].fill(0);
    }
    number
}

fn answer_behind(owned: &mut Owned, log: &[u8], most: u64, rooms: &mut Rooms) -> u64 {
    rooms.lent += 4;
    let number = (C.replay)(owned, log, most, rooms);
    rooms.lent -= 4;
    number
}

/// As a sequence refuses too little room.
fn room_is_asked_for(owned: &mut Owned, log: &[u8], most: u64, rooms: &mut Rooms) -> u64 {
    let number = (C.replay)(owned, log, most, rooms);
    match rooms.lent < 4 * rooms.taken[0] as usize {
        true => 2,
        false => number,
    }
}

fn any_count(owned: &mut Owned, log: &[u8], most: u64, rooms: &mut Rooms) -> u64 {
    let number = (C.replay)(owned, log, most, rooms);
    if number == STATE_NOT_VALID {
        rooms.taken.fill(0);
    }
    number
}

fn accepts(owned: &mut Owned, log: &[u8], most: u64, rooms: &mut Rooms) -> u64 {
    (C.replay)(owned, log, most, rooms) & !STATE_NOT_VALID
}

fn refused_count(owned: &mut Owned, log: &[u8], most: u64, rooms: &mut Rooms) -> u64 {
    let before = rooms.taken.clone();
    let number = (C.replay)(owned, log, most, rooms);
    if number == STATE_NOT_VALID {
        rooms.taken = before;
    }
    number
}

fn refused_place(owned: &mut Owned, log: &[u8], most: u64, rooms: &mut Rooms) -> u64 {
    let number = (C.replay)(owned, log, most, rooms);
    if number == STATE_NOT_VALID {
        rooms.place[0] = rooms.place[0].min(log.len() as u64);
    }
    number
}

/// A refused operation's answer for a state that is refused.
fn refused_answers(owned: &mut Owned, log: &[u8], most: u64, rooms: &mut Rooms) -> u64 {
    let number = (C.replay)(owned, log, most, rooms);
    if number == STATE_NOT_VALID && rooms.lent >= 4 {
        rooms.answers[..4].copy_from_slice(&[number, 0, 0, 0]);
    }
    number
}

fn refused_box(owned: &mut Owned, log: &[u8], most: u64, rooms: &mut Rooms) -> u64 {
    let number = (C.replay)(owned, log, most, rooms);
    owned.machine.cpu_hand ^= u64::from(number == STATE_NOT_VALID);
    number
}

/// The slot that was filled last, where the next record can't be read.
fn slot_lost(owned: &mut Owned, log: &[u8], most: u64, rooms: &mut Rooms) -> u64 {
    let number = (C.replay)(owned, log, most, rooms);
    let full = owned.cpu_cache.iter_mut().rfind(|slot| **slot != Slot::default());
    if let (UNKNOWN_KIND | WRONG_LENGTH, Some(slot)) = (number, full) {
        *slot = Slot::default();
    }
    number
}

/// An unreadable record undoes what came before it, in the caches alone.
fn all_taken_back(owned: &mut Owned, log: &[u8], most: u64, rooms: &mut Rooms) -> u64 {
    let before = owned.cpu_cache.clone();
    let number = (C.replay)(owned, log, most, rooms);
    if number != 0 {
        owned.cpu_cache = before;
    }
    number
}
