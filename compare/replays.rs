//! Replays of a log on a box of both programs: the number, the records taken, the place, every
//! answer and the whole state after it.

use second::author::Rng;
use second::log::{Reader, Replay};
use second::machine::{Machine, Side, ANSWER_NUMBERS, PORTS};
use second::operate::Row;
use tiligormis::{
    row, Answer, Owned, BIND_DEVICE, CPU_FILL, DMA_FILL, STATE_NOT_VALID, SWITCH_CPU,
};

use crate::calls::{second_replay, Functions, Rooms};
use crate::cases::cases;
use crate::couple::UNWRITTEN;
use crate::differ::{same, state};
use crate::log::Run;
use crate::logs::{any_change, bad_record, begins, following, log_of, Made};
use crate::pack::{pack, Difference};
use crate::records::LOGS;
use crate::spoil::scatter;
use crate::subject::{answer, used_box, Library, Subject};
use crate::supply::Supply;

/// Rows of a log, each with its turn, and sizes of the pieces in which one is replayed.
const LENGTHS: [u64; 7] = [40, 2, 150, 12, 400, 0, 80];
const PIECES: [u64; 9] = [0, 1, 1, 2, 3, 7, 20, 64, 200];
/// From case to case of a changed state, so that few turns see all kinds of them.
const STRIDE: usize = 83;
/// Stands in rooms that nobody may write, or that a replay must overwrite.
const UNTOLD: u64 = UNWRITTEN.number;

/// A box in both programs.
#[derive(Clone)]
struct Twins {
    owned: Owned,
    second: Machine,
}

/// What a replay that both did alike left.
struct After {
    twins: Twins,
    rooms: Rooms,
    replay: Replay,
}

/// Rooms for a replay from a place on, `lent` numbers for answers, and two answers behind them.
fn rooms(place: u64, lent: usize) -> Rooms {
    let answers = vec![UNTOLD; lent + 2 * ANSWER_NUMBERS];
    Rooms { place: vec![place], answers, lent, taken: vec![UNTOLD] }
}

/// One replay by both.
fn attempt(
    functions: &Functions,
    before: &Twins,
    log: &[u8],
    most: u64,
    rooms: &Rooms,
) -> Result<After, Difference> {
    let (mut twins, mut library, mut rooms) = (before.clone(), rooms.clone(), rooms.clone());
    let number = (functions.replay)(&mut twins.owned, log, most, &mut library);
    let replay = second_replay(&mut twins.second, log, most, &mut rooms);
    same("replay's number", number, replay.number)?;
    same("records taken", &library.taken, &rooms.taken)?;
    same("replay's place", &library.place, &rooms.place)?;
    let [chunks, right] = [&library, &rooms].map(|rooms| rooms.answers.chunks(ANSWER_NUMBERS));
    for (place, (library, second)) in chunks.zip(right).enumerate() {
        same("replay's answers", (place, library), (place, second))?;
    }
    match number {
        STATE_NOT_VALID if twins.owned == before.owned => {}
        STATE_NOT_VALID => return Err(Difference::new("refused box", "it changed")),
        _ => state(&twins.owned, &twins.second, &before.owned.machine.units, None)?,
    }
    Ok(After { twins, rooms, replay })
}

/// The same with what was seen, or the fewest records with which the two differ.
fn replay(
    run: &mut Run,
    before: &Twins,
    log: &[u8],
    most: u64,
    rooms: &Rooms,
) -> Result<After, Difference> {
    let after = attempt(run.functions, before, log, most, rooms).map_err(|difference| {
        let found = least(run.functions, before, log, most, rooms);
        let (most, difference) = found.unwrap_or((most, difference));
        let place = rooms.place.first().copied().unwrap_or(0);
        let mut reader = Reader { log, place: place as usize };
        let row = (0..most.min(log.len() as u64)).map_while(|_| reader.read().ok()?).last();
        let length = log.len();
        difference
            .at(format_args!("at most {most} records from {place} of {length} bytes, last {row:?}"))
    })?;
    run.seen.call(after.replay.number);
    run.seen.thing("records carried out", after.replay.taken.len());
    for (row, answer) in &after.replay.taken {
        run.seen.replayed.answer(row[0], answer.number);
    }
    Ok(after)
}

fn least(
    functions: &Functions,
    before: &Twins,
    log: &[u8],
    most: u64,
    rooms: &Rooms,
) -> Option<(u64, Difference)> {
    let records = (log.len() as u64).min(most);
    (0..=records).find_map(|most| {
        let difference = attempt(functions, before, log, most, rooms).err()?;
        Some((most, difference))
    })
}

/// Boxes with a log for each: started ones in turn with states that random rows reach.
struct Source {
    supply: Supply,
    seed: u64,
    turn: u64,
}

impl Source {
    fn new(seed: u64) -> Self {
        Source { supply: Supply::new(seed), seed, turn: 0 }
    }

    fn next(&mut self, rng: &mut Rng) -> (Twins, Vec<u8>) {
        self.turn += 1;
        let seed = self.seed.wrapping_add(self.turn << 32);
        let rows = LENGTHS[self.turn as usize % LENGTHS.len()];
        if self.turn % 3 == 0 {
            let made = Made::new(seed, rows);
            return (started(&made), log_of(&made.rows));
        }
        self.supply.advance(rng);
        let twins = reached(&self.supply.machine, rng);
        match self.turn % 3 {
            1 => (twins, log_of(&self.supply.coming(rows as usize))),
            _ => (twins, log_of(&following(seed, rows, &self.supply.machine))),
        }
    }
}

/// A box that both have started.
fn started(made: &Made) -> Twins {
    let mut library = Library { owned: used_box(made.setup.pages) };
    let (number, second) = made.setup.start();
    assert_eq!((number, library.start(&made.setup)), (0, 0), "a generated box starts");
    Twins { owned: library.owned, second }
}

/// A box in the state of a machine, its tables in any order.
fn reached(machine: &Machine, rng: &mut Rng) -> Twins {
    let mut owned = pack(machine).expect("a machine that rows reach has a box");
    scatter(&mut owned, rng);
    Twins { owned, second: machine.clone() }
}

/// Logs, changed or not, with none to more records asked for than there are; from other places, and
/// from past the end.
pub fn whole(run: &mut Run) -> Result<(), Difference> {
    let mut source = Source::new(run.seed);
    for _ in 0..run.count {
        let (twins, log) = source.next(&mut run.rng);
        let log = any_change(log, &mut run.rng);
        let begins = begins(&log);
        let all = begins.len() as u64 - 1;
        let room = (all as usize + 1) * ANSWER_NUMBERS;
        let some = run.rng.below(all + 1);
        for most in [0, 1, some, all, all + 1, 1 << 32, u64::MAX] {
            let after = replay(run, &twins, &log, most, &rooms(0, room))?;
            if most == some {
                as_a_sequence(run, &twins, &after)?;
            }
        }
        let begin = run.rng.pick(&begins).unwrap_or(0) as u64;
        let end = log.len() as u64;
        let any = run.rng.below(end + 1);
        for place in [begin, any, end, end + 1, (1 << 32) + begin, u64::MAX] {
            let most = run.rng.pick(&[0, 1, u64::MAX]).unwrap_or(0);
            replay(run, &twins, &log, most, &rooms(place, room))?;
        }
        run.seen.thing("boxes", 1);
    }
    Ok(())
}

/// The rows of the records as a sequence leave the very same box, with the same answers.
fn as_a_sequence(run: &mut Run, before: &Twins, after: &After) -> Result<(), Difference> {
    let rows: Vec<Row> = after.replay.taken.iter().map(|(row, _)| *row).collect();
    let second: Vec<Answer> = after.replay.taken.iter().map(|taken| answer(taken.1)).collect();
    let mut library = Library { owned: before.owned.clone() };
    let mut answers = vec![UNWRITTEN; rows.len()];
    same("sequence's number", library.sequence(&rows, &mut answers), 0)?;
    same("sequence's answers", answers, second)?;
    if library.owned != after.twins.owned {
        return Err(Difference::new("replay and sequence", "they leave different boxes"));
    }
    run.seen.thing("compared with a sequence", 1);
    Ok(())
}

/// Logs in pieces of random sizes leave what one call leaves, the first of them a long one.
pub fn pieces(run: &mut Run) -> Result<(), Difference> {
    let made = Made::long(run.seed);
    in_pieces(run, started(&made), &log_of(&made.rows))?;
    let mut source = Source::new(run.seed);
    for _ in 0..run.count {
        let (twins, log) = source.next(&mut run.rng);
        let log = any_change(log, &mut run.rng);
        in_pieces(run, twins, &log)?;
    }
    Ok(())
}

/// Number, place, answers and the very box of one call.
fn in_pieces(run: &mut Run, twins: Twins, log: &[u8]) -> Result<(), Difference> {
    let room = begins(log).len() * ANSWER_NUMBERS;
    let one = replay(run, &twins, log, u64::MAX, &rooms(0, room))?;
    let (mut now, mut place, mut answers) = (twins, 0, Vec::new());
    let number = loop {
        let most = run.rng.pick(&PIECES).unwrap_or(1);
        let after = replay(run, &now, log, most, &rooms(place, room))?;
        let taken = after.replay.taken.len();
        answers.extend_from_slice(&after.rooms.answers[..taken * ANSWER_NUMBERS]);
        (now, place) = (after.twins, after.rooms.place[0]);
        run.seen.thing("pieces", 1);
        if after.replay.number != 0 || (taken as u64) < most {
            break after.replay.number;
        }
    };
    same("number after pieces", number, one.replay.number)?;
    same("place after pieces", place, one.rooms.place[0])?;
    same("answers of pieces", &answers[..], &one.rooms.answers[..answers.len()])?;
    match now.owned == one.twins.owned {
        true => Ok(()),
        false => Err(Difference::new("box after pieces", "it is not that of one call")),
    }
}

/// Rooms for answers that are empty, of no whole answer, too short, exact, too long.
pub fn answers(run: &mut Run) -> Result<(), Difference> {
    let mut source = Source::new(run.seed);
    for _ in 0..run.count {
        let (twins, log) = source.next(&mut run.rng);
        let log = any_change(log, &mut run.rng);
        let all = begins(&log).len() - 1;
        let exact = all * ANSWER_NUMBERS;
        let short = run.rng.below(exact as u64 + 1) as usize;
        let near = [exact.saturating_sub(4), exact.saturating_sub(1), exact, exact + 1];
        for lent in [0, 3, 4, 5, short, exact + 37].into_iter().chain(near) {
            replay(run, &twins, &log, u64::MAX, &rooms(0, lent))?;
        }
        let fewer = run.rng.below(all as u64 + 1);
        replay(run, &twins, &log, fewer, &rooms(0, exact))?;
        run.seen.thing("boxes", 1);
    }
    Ok(())
}

/// Places and counts of other lengths, on a box and on none: 1, and nothing at all is written.
pub fn lengths(run: &mut Run) -> Result<(), Difference> {
    let (twins, _) = Source::new(run.seed).next(&mut run.rng);
    let none = Twins { owned: Owned::new(8), second: Machine::empty() };
    let lengths = [(0, 1), (2, 1), (1, 0), (1, 2), (0, 0), (2, 2), (7, 8)];
    for (given, log, (place, taken)) in [&twins, &none]
        .into_iter()
        .flat_map(|twins| LOGS.into_iter().map(move |log| (twins, log)))
        .flat_map(|(twins, log)| lengths.map(|lengths| (twins, log, lengths)))
    {
        let rooms = Rooms { place: vec![0; place], taken: vec![UNTOLD; taken], ..rooms(0, 8) };
        for most in [0, 1, u64::MAX] {
            replay(run, given, log, most, &rooms)?;
        }
    }
    Ok(())
}

/// Changed states: one that is not valid is refused with 1, no record is taken, and all stays, even
/// where there is nothing to take, no room, or a log that can't be read; others go on alike.
pub fn changed(run: &mut Run) -> Result<(), Difference> {
    let mut supply = Supply::new(run.seed);
    let cases = cases();
    for turn in 0..run.count as usize {
        let case = &cases[turn * STRIDE % cases.len()];
        let Some(changed) = case.of_some_state(&mut supply, &mut run.rng) else { continue };
        let log = log_of(&supply.coming(8));
        let second = changed.second.unwrap_or_else(Machine::empty);
        let twins = Twins { owned: changed.owned, second };
        let calls: [(&[u8], u64, u64, usize); 5] = [
            (&log, 0, u64::MAX, 40),
            (&log, 0, 0, 3),
            (&[2, 0], 0, 1, 0),
            (&[], 0, 1, 4),
            (&log, u64::MAX, 1, 4),
        ];
        for (log, place, most, lent) in calls {
            let after = replay(run, &twins, log, most, &rooms(place, lent));
            let after = after.map_err(|difference| difference.at(&case.name))?;
            same("validity", after.replay.number != STATE_NOT_VALID, changed.valid)?;
        }
        let thing = if changed.valid { "states still valid" } else { "states not valid" };
        run.seen.thing(thing, 1);
    }
    Ok(())
}

/// Logs that end in a record that can't be read, right behind one that has filled a slot.
pub fn unreadable(run: &mut Run) -> Result<(), Difference> {
    let mut source = Source::new(run.seed);
    let mut filled = 0;
    for turn in 0..run.count {
        let side = if turn % 2 == 0 { Side::Cpu } else { Side::Dma };
        let (twins, mut log) = source.next(&mut run.rng);
        let Some(fill) = filling(&twins.second, &log, side, &mut run.rng) else { continue };
        log.extend(fill);
        let records = begins(&log).len() as u64 - 1;
        let room = rooms(0, records as usize * ANSWER_NUMBERS);
        for bad in bad_ends(&mut run.rng, &log) {
            let ended = [&log[..], &bad].concat();
            for most in [records - run.rng.below(2), records + 1] {
                let after = replay(run, &twins, &ended, most, &room)?;
                same("unreadable end", after.replay.number != 0, most > records)?;
            }
        }
        filled += 1;
    }
    run.seen.thing("slots filled just before", filled);
    match filled {
        0 => Err(Difference::new("unreadable end", "no slot was filled before it")),
        _ => Ok(()),
    }
}

/// Two records that fill a slot of the machine after a log: a port is given a VM, then it walks.
/// Nothing where nothing is mapped, or the slot was there.
fn filling(machine: &Machine, log: &[u8], side: Side, rng: &mut Rng) -> Option<Vec<u8>> {
    let mut machine = machine.clone();
    second_replay(&mut machine, log, u64::MAX, &mut rooms(0, 0));
    let keys: Vec<_> = machine.half(side).walker.keys().copied().collect();
    let ((vm, guest), port) = (rng.pick(&keys)?, rng.below(PORTS as u64));
    let [switch, fill] = match side {
        Side::Cpu => [SWITCH_CPU, CPU_FILL],
        Side::Dma => [BIND_DEVICE, DMA_FILL],
    };
    let rows = [row([switch, port, vm]), row([fill, port, guest])];
    let slots = |machine: &Machine| machine.half(side).cache.slots.iter().flatten().count();
    let before = slots(&machine);
    let accepted = rows.iter().all(|row| machine.apply(row).number == 0);
    (accepted && slots(&machine) != before).then(|| log_of(&rows))
}

/// Ends that can't be read: a record cut short, one that claims more than there is, whole ones of
/// no kind or of a wrong length, with good records behind them and without.
fn bad_ends(rng: &mut Rng, good: &[u8]) -> Vec<Vec<u8>> {
    let last = rng.pick(&begins(good)[1..]).unwrap_or(0);
    let record = [&[6, 0, 1, 0, 9, 0, 0, 0][..], &good[last..]].concat();
    let cut = 1 + rng.below(7) as usize;
    let mut ends = vec![record[..cut].to_vec(), [&[255, 255, 1, 0][..], good].concat()];
    ends.push([&bad_record(rng, good)[..], good].concat());
    ends.push(bad_record(rng, good));
    ends
}
