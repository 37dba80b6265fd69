//! Libraries that are wrong in one place each, to see that the comparison says so.

use second::machine::{Entry, Free, Machine, Side};
use second::operate::Row;
use second::script::Setup;
use tiligormis::{
    Answer, Owned, ACCEPTED, DATA_BARRIER, ENTRIES, PORTS, RETIRE_VM, SLOTS, STATE_NOT_VALID, UNITS,
};

use crate::couple::Check;
use crate::damaged::Asked;
use crate::pack::{map_word, pair_word, pool_pages, set_of, ACCESS, FILLED, POOL};
use crate::subject::{Library, Subject};

/// Where a flaw shows, and what it makes of the right result.
#[derive(Clone, Copy)]
pub enum Place {
    Start(fn(&mut Owned, &mut u64)),
    /// After each row, by either entry.
    Row(fn(&mut Owned, &Row, &mut Answer)),
    /// The answer of each data barrier.
    Answer(fn(&mut Answer)),
    /// The box after each data barrier.
    Table(fn(&mut Owned)),
    /// After each VM that was retired.
    Retired(fn(&mut Owned, &mut Answer)),
    /// The box after each call of the one-operation entry.
    Operation(fn(&mut Owned)),
    /// After each sequence.
    Sequence(fn(&mut Owned, &mut [Answer], &mut u64)),
    /// After each sequence of more than one row.
    Batch(fn(&mut Owned, &mut [Answer], &mut u64)),
    /// The answer of the free query.
    Free(fn(&Owned, &mut Free)),
    Valid(fn(bool) -> bool),
}

/// The library, but for one flaw.
pub struct Flawed {
    pub library: Library,
    pub place: Place,
}

impl Flawed {
    fn after_row(&mut self, row: &Row, answer: &mut Answer) {
        match self.place {
            Place::Row(flaw) => flaw(&mut self.library.owned, row, answer),
            Place::Answer(flaw) if row[0] == DATA_BARRIER => flaw(answer),
            Place::Table(flaw) if row[0] == DATA_BARRIER => flaw(&mut self.library.owned),
            Place::Retired(flaw) if row[0] == RETIRE_VM && answer.number == ACCEPTED => {
                flaw(&mut self.library.owned, answer)
            }
            _ => {}
        }
    }
}

impl Subject for Flawed {
    fn start(&mut self, setup: &Setup) -> u64 {
        let mut number = self.library.start(setup);
        if let Place::Start(flaw) = self.place {
            flaw(&mut self.library.owned, &mut number);
        }
        number
    }

    fn operation(&mut self, row: &Row) -> Answer {
        let mut answer = self.library.operation(row);
        self.after_row(row, &mut answer);
        if let Place::Operation(flaw) = self.place {
            flaw(&mut self.library.owned);
        }
        answer
    }

    fn sequence(&mut self, rows: &[Row], answers: &mut [Answer]) -> u64 {
        let mut number = self.library.sequence(rows, answers);
        if number == 0 {
            rows.iter().zip(&mut *answers).for_each(|(row, answer)| self.after_row(row, answer));
        }
        let owned = &mut self.library.owned;
        match self.place {
            Place::Sequence(flaw) => flaw(owned, answers, &mut number),
            Place::Batch(flaw) if rows.len() > 1 => flaw(owned, answers, &mut number),
            _ => {}
        }
        number
    }

    fn free(&self) -> Free {
        let mut free = self.library.free();
        if let Place::Free(flaw) = self.place {
            flaw(&self.library.owned, &mut free);
        }
        free
    }

    fn valid(&self) -> bool {
        let valid = self.library.valid();
        match self.place {
            Place::Valid(flaw) => flaw(valid),
            _ => valid,
        }
    }

    fn owned(&self) -> &Owned {
        &self.library.owned
    }
}

/// A flaw, the check that must find it, and the part that it must name.
pub type Flaw<C> = (&'static str, C, &'static str, Place);

/// Flaws of answers, queries and starts.
pub const ANSWERS: &[Flaw<Check>] = &[
    ("number", Check::Row, "answer's number", Place::Answer(|a| a.number = 2)),
    ("index", Check::Row, "answer's index", Place::Answer(|a| a.index = 1)),
    ("dropped", Check::Row, "answer's dropped slots", Place::Answer(|a| a.dropped = 1)),
    ("word", Check::Row, "answer's word", Place::Answer(|a| a.word = 1 << 63)),
    ("room_beyond", Check::Row, "room beyond the answers", Place::Sequence(room_beyond)),
    ("batch_number", Check::Batch, "sequence's number", Place::Batch(|_, _, number| *number = 1)),
    ("batch_answer", Check::Batch, "sequence's answers", Place::Batch(|_, a, _| a[0].word += 1)),
    ("batch_state", Check::Batch, "known VMs", Place::Batch(|o, _, _| o.machine.known ^= 1 << 9)),
    ("short_room", Check::Batch, "short room's number", Place::Batch(never_2)),
    ("refused_box", Check::Row, "refused box", Place::Row(change_if_refused)),
    ("free_count", Check::Free, "free query", Place::Free(|_, free| free.count += 1)),
    ("free_lowest", Check::Free, "free query", Place::Free(|_, free| free.lowest = None)),
    ("free_count_held", Check::Free, "free query", Place::Free(counts_held)),
    ("free_lowest_held", Check::Free, "free query", Place::Free(lowest_held)),
    ("validity", Check::Validity, "validity", Place::Valid(|_| false)),
    ("start_number", Check::Start, "start's number", Place::Start(|_, number| *number = 3)),
    ("start_memory", Check::Start, "memory", Place::Start(|o, _| o.memory[600] = 1)),
    (
        "start_spare_unit",
        Check::Start,
        "units",
        Place::Start(|o, _| o.machine.units[UNITS - 1].mark = 0),
    ),
];

fn room_beyond(_: &mut Owned, answers: &mut [Answer], _: &mut u64) {
    if let [_, beyond] = answers {
        beyond.number = 0;
    }
}

/// Every page of the pool counts, also one held for DMA.
fn counts_held(owned: &Owned, free: &mut Free) {
    if free.number == ACCEPTED {
        free.count = pool_pages(owned).count() as u64;
    }
}

/// The lowest is that of the pool, also one held for DMA.
fn lowest_held(owned: &Owned, free: &mut Free) {
    if free.number == ACCEPTED {
        free.lowest = pool_pages(owned).next();
    }
}

fn never_2(_: &mut Owned, _: &mut [Answer], number: &mut u64) {
    *number %= 2;
}

fn change_if_refused(owned: &mut Owned, _: &Row, answer: &mut Answer) {
    owned.machine.cpu_hand ^= u64::from(answer.number == STATE_NOT_VALID);
}

/// A part of the box that changes by itself during a barrier, and the part to be named.
pub const TABLES: &[(&str, &str, fn(&mut Owned))] = &[
    ("pages", "lengths", |owned| owned.machine.pages -= 1),
    ("shared_span", "shared set", |owned| owned.machine.shared_base -= 1),
    ("units", "units", |owned| owned.machine.units[1].mark = 3),
    ("known", "known VMs", |owned| owned.machine.known ^= 1 << 9),
    ("cpu_hand", "CPU hand", |owned| owned.machine.cpu_hand ^= 1),
    ("dma_hand", "DMA hand", |owned| owned.machine.dma_hand ^= 1),
    ("cpus", "CPUs", |owned| owned.machine.cpus[PORTS - 1] = 1),
    ("devices", "devices", |owned| owned.machine.devices[PORTS - 1] = 1),
    ("pool", "pool", |owned| turn_page(owned, POOL)),
    ("cpu_pages", "CPU pages", |owned| turn_page(owned, set_of(Side::Cpu, 1))),
    ("dma_pages", "DMA pages", |owned| turn_page(owned, set_of(Side::Dma, 1))),
    ("pages_of_an_unknown_vm", "CPU pages", |owned| turn_page(owned, set_of(Side::Cpu, 9))),
    ("pair_gone", "pairs", |owned| owned.pairs[0] = 0),
    ("pair_twice", "pairs", |owned| owned.pairs[99] = pair_word(2, 1, 0).unwrap_or(0)),
    ("cpu_map_generation", "CPU map", |owned| owned.cpu_map[0] ^= 1),
    ("cpu_walker_access", "CPU walker", |owned| owned.cpu_walker[0] ^= 1 << ACCESS.0),
    ("dma_map_more", "DMA map", |owned| owned.dma_map[ENTRIES - 1] = 1 << FILLED.0),
    ("dma_walker_twice", "DMA walker", |owned| owned.dma_walker[ENTRIES - 1] = owned.dma_walker[0]),
    ("cpu_slot_elsewhere", "CPU cache", |owned| owned.cpu_cache.swap(0, SLOTS - 1)),
    ("dma_slot_port", "DMA cache", |owned| owned.dma_cache[0].port = 3),
    ("memory", "memory", |owned| owned.memory[700] ^= 1),
];

/// A page of the pool goes in or out.
fn turn_page(owned: &mut Owned, set: usize) {
    owned.sets[set * tiligormis::SET_WORDS] ^= 1 << 3;
}

/// Flaws of a retire. The script's drops two CPU slots and a DMA slot; VM 2 had page 0 of the VM at
/// guest page 40, and page 2, with 7 in its first word, was held for DMA alone.
pub const RETIRED: &[Flaw<Check>] = &[
    ("counts_one_cache", Check::Row, "answer's dropped slots", Place::Retired(counts_one_cache)),
    ("keeps_borrowed", Check::Row, "CPU walker", Place::Retired(keeps_borrowed)),
    ("keeps_words", Check::Row, "memory", Place::Retired(keeps_words)),
];

fn counts_one_cache(_: &mut Owned, answer: &mut Answer) {
    answer.dropped = 2;
}

/// A mapping of a borrower stays in the walker.
fn keeps_borrowed(owned: &mut Owned, _: &mut Answer) {
    let entry = Entry { page: 0, access: 1, generation: 9 };
    owned.cpu_walker[ENTRIES - 1] = map_word((2, 40), &entry).unwrap_or(0);
}

/// A page that was held for DMA alone is not cleared.
fn keeps_words(owned: &mut Owned, _: &mut Answer) {
    owned.memory[Machine::address(2, 0)] = 7;
}

/// Flaws that only a changed state brings to light.
pub const DAMAGED: &[Flaw<Asked>] = &[
    ("says_valid", Asked::Validity, "validity", Place::Valid(|_| true)),
    ("says_not_valid", Asked::Validity, "validity", Place::Valid(|_| false)),
    ("accepts", Asked::Operation, "answer", Place::Row(|_, _, answer| answer.number = 0)),
    ("gives_an_index", Asked::Operation, "answer", Place::Row(|_, _, answer| answer.index = 1)),
    ("changes", Asked::Operation, "refused box", Place::Row(change_if_refused)),
    ("sequence_accepts", Asked::Sequence, "sequence's number", Place::Sequence(|_, _, n| *n = 0)),
    ("sequence_says_2", Asked::Sequence, "sequence's number", Place::Sequence(|_, _, n| *n *= 2)),
    ("sequence_answers", Asked::Sequence, "room of a refused sequence", Place::Sequence(answers)),
    ("sequence_changes", Asked::Sequence, "refused box", Place::Sequence(changes)),
    ("free_accepts", Asked::Free, "free query", Place::Free(|_, free| free.number = 0)),
    ("start_of_any_length", Asked::Start, "start's number", Place::Start(|_, n| *n = 0)),
    ("start_writes", Asked::Start, "refused start", Place::Start(|o, _| o.memory.push(0))),
    ("start_gives_pages", Asked::Start, "pages of a refused start", Place::Start(gives_pages)),
];

fn answers(_: &mut Owned, answers: &mut [Answer], number: &mut u64) {
    answers.iter_mut().for_each(|answer| answer.word += *number);
}

fn changes(owned: &mut Owned, _: &mut [Answer], number: &mut u64) {
    owned.machine.known ^= *number;
}

fn gives_pages(owned: &mut Owned, number: &mut u64) {
    owned.machine.pages += *number;
}
