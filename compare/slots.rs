//! The three functions over the slots of one cache, against the second program's slots.

use std::process::ExitCode;

use second::author::Rng;
use second::machine::{Entry, Slot, ACCESSES, GENERATIONS, GUESTS, PAGES, PORTS, SLOTS, VMS};
use tiligormis::{Refusal, Translation};

use crate::differ::same;
use crate::pack::{packed_slot, Difference};
use crate::report::Report;

/// The library's, or in the self-test one of them wrong.
#[derive(Clone, Copy)]
pub struct Functions {
    pub find: fn(&[tiligormis::Slot], u64, u64, u64) -> Option<usize>,
    pub fill: fn(&mut [tiligormis::Slot], usize, Translation) -> Result<(), Refusal>,
    pub empty: fn(&mut [tiligormis::Slot], usize) -> Result<(), Refusal>,
}

pub const LIBRARY: Functions = Functions {
    find: tiligormis::find_slot,
    fill: tiligormis::fill_slot,
    empty: tiligormis::empty_slot,
};

/// Lengths of the slices that are lent; all but SLOTS are refused by fill and empty.
const LENGTHS: [usize; 6] = [SLOTS, SLOTS, SLOTS, SLOTS - 1, SLOTS + 1, 0];
/// Calls on one slice.
const CALLS: u64 = 500;

/// What a call is told: small numbers that meet again, now and then the last in range, the first
/// beyond, or one that only looks small when it is cut off.
fn number(rng: &mut Rng, limit: u64) -> u64 {
    match rng.below(60) {
        0 => limit,
        1 => (1 << 32) + rng.below(4),
        2 => u64::MAX,
        3 => limit - 1,
        _ => rng.below(limit.min(4)),
    }
}

struct Cache {
    second: Vec<Option<Slot>>,
    library: Vec<tiligormis::Slot>,
}

impl Cache {
    fn find(&self, functions: &Functions, rng: &mut Rng) -> Result<(), Difference> {
        let key = (number(rng, PORTS as u64), number(rng, VMS), number(rng, GUESTS));
        let holds = |slot: &Option<Slot>| slot.is_some_and(|slot| slot.key() == key);
        let place = self.second.iter().take(SLOTS).position(holds);
        same("found slot", (functions.find)(&self.library, key.0, key.1, key.2), place)
    }

    fn fill(&mut self, functions: &Functions, rng: &mut Rng) -> Result<(), Difference> {
        let limits = [PORTS as u64, VMS, GUESTS, PAGES, ACCESSES, GENERATIONS];
        let numbers = limits.map(|limit| number(rng, limit));
        let [port, vm, guest, page, access, generation] = numbers;
        let in_range = numbers.iter().zip(limits).all(|(number, limit)| *number < limit);
        let slot = Slot { port, vm, guest, entry: Entry { page, access, generation } };
        let place = rng.below(SLOTS as u64 + 1) as usize;
        let result = self.put(place, in_range, Some(slot));
        let held = Translation { port, vm, guest, page, access, generation };
        same("fill's number", (functions.fill)(&mut self.library, place, held), result)
    }

    fn empty(&mut self, functions: &Functions, rng: &mut Rng) -> Result<(), Difference> {
        let place = rng.below(SLOTS as u64 + 1) as usize;
        let result = self.put(place, true, None);
        same("empty's number", (functions.empty)(&mut self.library, place), result)
    }

    /// What the header says of a slot to be put in a place.
    fn put(&mut self, place: usize, in_range: bool, slot: Option<Slot>) -> Result<(), Refusal> {
        if self.second.len() != SLOTS {
            return Err(Refusal::StateNotValid);
        }
        if place >= SLOTS || !in_range {
            return Err(Refusal::OutOfRange);
        }
        self.second[place] = slot;
        Ok(())
    }

    fn alike(&self) -> Result<(), Difference> {
        let second: Option<Vec<_>> = self.second.iter().map(packed_slot).collect();
        same("slots", Some(&self.library), second.as_ref())
    }
}

/// Calls on slices of many lengths, with the slots after each.
pub fn all(seed: u64, calls: u64, functions: &Functions) -> Result<(), Difference> {
    let mut rng = Rng::new(seed);
    for turn in 0..calls.div_ceil(CALLS) {
        let mut cache = Cache { second: vec![None; SLOTS], library: Vec::new() };
        cache.library.resize(SLOTS, tiligormis::Slot::default());
        let length = LENGTHS[turn as usize % LENGTHS.len()];
        for call in 0..CALLS {
            if call == CALLS / 2 {
                cache.second.resize(length, None);
                cache.library.resize(length, tiligormis::Slot::default());
            }
            match rng.below(8) {
                0 => cache.empty(functions, &mut rng)?,
                1..=4 => cache.fill(functions, &mut rng)?,
                _ => cache.find(functions, &mut rng)?,
            }
            cache.alike()?;
        }
    }
    Ok(())
}

pub fn report(seed: u64, calls: u64) -> ExitCode {
    let mut report = Report::new();
    println!("{calls} calls of the functions over slots");
    let outcome = all(seed, calls, &LIBRARY);
    report.check("slots_find_fill_empty", outcome.map_err(|difference| format!("{difference:?}")));
    report.finish()
}
