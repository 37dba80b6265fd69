//! Damage that the second program's types can't express, made on the box, each with what the paper
//! says of it: whether the box is still valid.

use std::ops::Range;

use second::author::Rng;
use second::machine::PAGES;
use tiligormis::{Owned, Slot, IDLE, PORTS, SETS, SET_WORDS, SLOTS, UNITS, VMS};

use crate::damage::any;
use crate::pack::{pool_pages, take, Field, ACCESS, GENERATION, LEFT, PORT, RIGHT, SHARED, VM};

/// Changes a part of a box; nothing where it has not got what the change is about.
pub type Spoil<T> = fn(&mut T, &mut Rng) -> Option<()>;
/// Its name, and whether a valid box stays so.
pub type Named<T> = (&'static str, bool, Spoil<T>);

/// The bit that says filled, which stands above the rest of an entry.
const FILLED_AT: u32 = crate::pack::FILLED.0;
const FILLED: u64 = 1 << FILLED_AT;

/// The four maps.
pub const MAPS: [(&str, fn(&mut Owned) -> &mut Vec<u64>); 4] = [
    ("CPU map", |owned| &mut owned.cpu_map),
    ("CPU walker", |owned| &mut owned.cpu_walker),
    ("DMA map", |owned| &mut owned.dma_map),
    ("DMA walker", |owned| &mut owned.dma_walker),
];

pub const CACHES: [(&str, fn(&mut Owned) -> &mut Vec<Slot>); 2] =
    [("CPU cache", |owned| &mut owned.cpu_cache), ("DMA cache", |owned| &mut owned.dma_cache)];

/// Of a table of words, maps and pairs alike.
pub const WORDS: &[Named<Vec<u64>>] = &[
    ("words in another order", true, |words, rng| Some(shuffle(words, rng))),
    ("a port in a word", false, |words, rng| add_bit(words, bits(PORT), rng)),
    ("a word not marked filled", false, |words, rng| {
        let place = any(rng, (0..words.len()).filter(|&place| words[place] & !FILLED != 0))?;
        Some(words[place] &= !FILLED)
    }),
    ("a bit in an empty place", false, |words, rng| {
        let bit = any(rng, (0..64).filter(|bit| 1 << bit != FILLED))?;
        let place = empty(words, rng)?;
        Some(words[place] = 1 << bit)
    }),
    ("a word twice", false, |words, rng| {
        let (from, to) = (filled(words, rng)?, empty(words, rng)?);
        Some(words[to] = words[from])
    }),
    ("a place more", false, |words, _| Some(words.push(0))),
    ("a place less", false, |words, _| words.pop().map(|_| ())),
    ("no place", false, |words, _| Some(words.clear())),
];

/// Of a map alone.
pub const MAP_WORDS: &[Named<Vec<u64>>] = &[("a key twice", false, |words, rng| {
    let (from, to) = (filled(words, rng)?, empty(words, rng)?);
    Some(words[to] = words[from] ^ (1 << rng.below(FILLED_AT.into())))
})];

/// Of the pairs alone.
pub const PAIR_WORDS: &[Named<Vec<u64>>] = &[
    ("an access in a pair", false, |words, rng| add_bit(words, bits(ACCESS), rng)),
    ("a generation in a pair", false, |words, rng| add_bit(words, bits(GENERATION), rng)),
    ("a right end wider than a VM", false, |words, rng| {
        let Range { start, end } = bits(RIGHT);
        add_bit(words, start + VM.1..end, rng)
    }),
    ("a pair twice, its ends turned", false, |words, rng| {
        let (from, to) = (filled(words, rng)?, empty(words, rng)?);
        Some(words[to] = turned(words[from]))
    }),
    ("a pair with its ends turned", true, |words, rng| {
        let place = filled(words, rng)?;
        Some(words[place] = turned(words[place]))
    }),
];

pub const SLOTS_OF_A_CACHE: &[Named<Vec<Slot>>] = &[
    ("a slot not marked filled", false, |slots, rng| {
        let place = any(rng, (0..slots.len()).filter(|&place| slots[place].entry != 0))?;
        slots[place].entry &= !(FILLED as u32);
        (slots[place] != Slot::default()).then_some(())
    }),
    ("a port in an empty slot", false, |slots, rng| Some(empty_slot(slots, rng)?.port = 1)),
    ("a VM in an empty slot", false, |slots, rng| Some(empty_slot(slots, rng)?.vm = 1)),
    ("a guest page in an empty slot", false, |slots, rng| Some(empty_slot(slots, rng)?.guest = 1)),
    ("a bit of an entry in an empty slot", false, |slots, rng| {
        let bit = 1 << rng.below(FILLED_AT.into());
        Some(empty_slot(slots, rng)?.entry = bit)
    }),
    ("a place more", false, |slots, _| Some(slots.push(Slot::default()))),
    ("a place less", false, |slots, _| slots.pop().map(|_| ())),
    ("no place", false, |slots, _| Some(slots.clear())),
];

pub const SETS_AND_HEADER: &[Named<Owned>] = &[
    ("a page at N or above in a set", false, |owned, rng| {
        let page = any(rng, owned.machine.pages..PAGES)?;
        let set = rng.below(SETS as u64) as usize;
        Some(*word_of(owned, set, page) |= 1 << (page % 64))
    }),
    ("a page at N or above in the shared set", false, |owned, rng| {
        let page = any(rng, owned.machine.pages..PAGES)?;
        Some(*word_of(owned, SHARED, page) |= 1 << (page % 64))
    }),
    ("the shared set lacks a page", false, |owned, rng| {
        let page = owned.machine.shared_base + any(rng, 0..owned.machine.shared_count)?;
        Some(*word_of(owned, SHARED, page) &= !(1 << (page % 64)))
    }),
    ("a page of the pool in the shared set", false, |owned, rng| {
        let page = any(rng, pool_pages(owned))?;
        Some(*word_of(owned, SHARED, page) |= 1 << (page % 64))
    }),
    ("a shared span shorter than its set", false, |owned, _| {
        owned.machine.shared_count = owned.machine.shared_count.checked_sub(1)?;
        Some(())
    }),
    ("a shared span that is not its set", false, |owned, _| {
        let header = &mut owned.machine;
        let past = header.shared_base + header.shared_count == header.pages;
        (header.shared_count > 0 && !past).then(|| header.shared_base += 1)
    }),
    ("a word twice in map and walker", false, |owned, rng| {
        twice(&mut owned.cpu_map, &mut owned.cpu_walker, rng)
    }),
    ("a word twice in DMA map and walker", false, |owned, rng| {
        twice(&mut owned.dma_map, &mut owned.dma_walker, rng)
    }),
    ("page sets a word more", false, |owned, _| Some(owned.sets.push(0))),
    ("page sets a word less", false, |owned, _| owned.sets.pop().map(|_| ())),
    ("no page sets", false, |owned, _| Some(owned.sets.clear())),
    ("a known bit past the last VM", false, |owned, rng| {
        Some(owned.machine.known |= 1 << (VMS + rng.below(64 - VMS)))
    }),
    ("a CPU's number out of range", false, |owned, rng| {
        Some(owned.machine.cpus[rng.below(PORTS as u64) as usize] = out_of_range(rng)?)
    }),
    ("a device's number out of range", false, |owned, rng| {
        Some(owned.machine.devices[rng.below(PORTS as u64) as usize] = out_of_range(rng)?)
    }),
    ("a unit too many", false, |owned, _| Some(owned.machine.unit_count = UNITS as u64 + 1)),
    ("a count of units far out", false, |owned, _| Some(owned.machine.unit_count = u64::MAX)),
    ("mark 0", false, |owned, rng| mark(owned, 0, rng)),
    ("mark 4", false, |owned, rng| mark(owned, 4, rng)),
    ("a mark far out", false, |owned, rng| mark(owned, (1 << 32) + 1, rng)),
    ("spare units with any content", true, |owned, rng| {
        for unit in &mut owned.machine.units[owned.machine.unit_count as usize..] {
            (unit.vm, unit.count, unit.mark) = (rng.next(), rng.next(), rng.next());
        }
        Some(())
    }),
];

fn shuffle(words: &mut [u64], rng: &mut Rng) {
    for place in 1..words.len() {
        words.swap(place, rng.below(place as u64 + 1) as usize);
    }
}

/// All tables in another order, pairs with their ends turned here and there.
pub fn scatter(owned: &mut Owned, rng: &mut Rng) {
    for (_, map) in MAPS {
        shuffle(map(owned), rng);
    }
    shuffle(&mut owned.pairs, rng);
    for word in owned.pairs.iter_mut().filter(|word| **word != 0) {
        *word = if rng.chance(50) { turned(*word) } else { *word };
    }
}

fn filled(words: &[u64], rng: &mut Rng) -> Option<usize> {
    any(rng, (0..words.len()).filter(|&place| words[place] != 0))
}

fn empty(words: &[u64], rng: &mut Rng) -> Option<usize> {
    any(rng, (0..words.len()).filter(|&place| words[place] == 0))
}

fn bits((low, count): Field) -> Range<u32> {
    low..low + count
}

/// One of these bits in a filled word.
fn add_bit(words: &mut [u64], bits: Range<u32>, rng: &mut Rng) -> Option<()> {
    let (place, bit) = (filled(words, rng)?, any(rng, bits)?);
    Some(words[place] |= 1 << bit)
}

/// One word a second time in both tables, so that as maps they still agree.
fn twice(map: &mut [u64], walker: &mut [u64], rng: &mut Rng) -> Option<()> {
    let word = map[filled(map, rng)?];
    let (in_map, in_walker) = (empty(map, rng)?, empty(walker, rng)?);
    (map[in_map], walker[in_walker]) = (word, word);
    Some(())
}

/// A pair's word with left and right in each other's place.
fn turned(word: u64) -> u64 {
    let (left, right, low) = (LEFT.0, RIGHT.0, (1 << RIGHT.0) - 1);
    take(word, RIGHT) << left | (word >> left) << right | word & low
}

fn empty_slot<'a>(slots: &'a mut [Slot], rng: &mut Rng) -> Option<&'a mut Slot> {
    let place = any(rng, (0..SLOTS).filter(|&place| slots[place] == Slot::default()))?;
    Some(&mut slots[place])
}

fn word_of(owned: &mut Owned, set: usize, page: u64) -> &mut u64 {
    &mut owned.sets[set * SET_WORDS + page as usize / 64]
}

fn out_of_range(rng: &mut Rng) -> Option<u64> {
    any(rng, [VMS, IDLE - 1, IDLE + 1, 1 << 32, u64::MAX])
}

fn mark(owned: &mut Owned, mark: u64, rng: &mut Rng) -> Option<()> {
    let unit = any(rng, 0..owned.machine.unit_count)? as usize;
    Some(owned.machine.units[unit].mark = mark)
}
