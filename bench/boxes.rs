//! Boxes made of an input, every word of them written directly, and damage to them.

use face::{bits, Side, ACCESS_AT, FILLED_AT, GUEST_AT, PAGE_AT, PORT_AT, VM_AT};
use second::author::Rng;
use tiligormis::*;

use crate::inputs::{Held, Input, Keys, Low, Onto, Places, Walker, CLASSES, PLACES, VARIANTS};
use crate::quadratic::word;

// ---- The machine: all of PAGES. Each VM owns some, and holds half of these and some of the pool for
// DMA.

const OWNED: u64 = PAGES / 8 * 7 / VMS;
const DMA_HELD: u64 = OWNED / 2;
const POOL: u64 = VMS * OWNED;
const SHARED: u64 = PAGES / 16 * 15;
const DMA_POOL: u64 = (SHARED - POOL) / VMS;
const SHARED_COUNT: u64 = PAGES - SHARED;
const ACCESS: u64 = READ + WRITE;

fn header() -> Machine {
    let unit = |k: usize| {
        let (vm, mark) = (k as u64 % VMS, [MARK_CPU, MARK_DMA][k / VMS as usize]);
        Unit { vm, guest: 2 * OWNED, page: vm * OWNED, count: OWNED, access: ACCESS, mark }
    };
    let ports = std::array::from_fn(|port| if port == 0 { IDLE } else { port as u64 });
    Machine {
        pages: PAGES,
        shared_base: SHARED,
        shared_count: SHARED_COUNT,
        unit_count: UNITS as u64,
        known: (1 << VMS) - 1,
        cpu_hand: 5,
        dma_hand: 6,
        cpus: ports,
        devices: ports,
        units: std::array::from_fn(unit),
    }
}

fn page_sets() -> Vec<u64> {
    let mut sets = vec![0; SETS * SET_WORDS];
    let mut add = |row: u64, page: u64| {
        sets[row as usize * SET_WORDS + page as usize / 64] |= 1 << (page % 64);
    };
    for vm in 0..VMS {
        (0..OWNED).for_each(|k| add(2 + 2 * vm, vm * OWNED + k));
        (0..DMA_HELD).for_each(|k| add(3 + 2 * vm, vm * OWNED + k));
        (0..DMA_POOL).for_each(|k| add(3 + 2 * vm, POOL + vm * DMA_POOL + k));
    }
    (POOL..SHARED).for_each(|page| add(0, page));
    (SHARED..PAGES).for_each(|page| add(1, page));
    sets
}

/// VM after VM lends a page to the next, the owner left and right by turns.
fn pairs(count: usize) -> Vec<u64> {
    let pair = |k: u64| {
        let (owner, next) = (k % VMS, (k + 1) % VMS);
        let [left, right] = if k % 2 == 0 { [owner, next] } else { [next, owner] };
        let page = owner * OWNED + k / VMS;
        left << VM_AT | right << GUEST_AT | 1 << FILLED_AT | page << PAGE_AT
    };
    (0..PAIRS).map(|k| if k < count { pair(k as u64) } else { 0 }).collect()
}

fn shuffle<T>(all: &mut [T], random: &mut Rng) {
    for last in (1..all.len()).rev() {
        all.swap(last, random.below(last as u64 + 1) as usize);
    }
}

fn slot(word: u64) -> Slot {
    let [port, vm] = [word >> PORT_AT, word >> VM_AT].map(|byte| byte as u8);
    Slot { port, vm, guest: (word >> GUEST_AT) as u16, entry: word as u32 }
}

// ---- Maps and caches.

impl Input {
    /// VM and guest page of each entry, as one number.
    fn keys(&self, random: &mut Rng) -> Vec<u64> {
        let mut classes: Vec<u64> = (0..CLASSES).collect();
        shuffle(&mut classes, random);
        match self.keys {
            Keys::Guests => classes = (0..8).map(|vm| vm * (CLASSES / VMS)).collect(),
            Keys::Blocks(n) | Keys::InTurn(n) | Keys::AtRandom(n) => classes.truncate(n as usize),
        }
        // Odd steps come to every place of a class before they come to one again.
        let (first, step, skew) = match self.low {
            Low::Consecutive => (0, 1, 0),
            Low::Mixed => {
                (random.below(PLACES), random.below(PLACES) | 1, random.below(PLACES) | 1)
            }
        };
        let mut used = vec![0; classes.len()];
        let mut key = |k: usize| {
            let class = match self.keys {
                Keys::Guests | Keys::Blocks(_) => k * classes.len() / self.filled,
                Keys::InTurn(_) => k % classes.len(),
                Keys::AtRandom(_) => random.below(classes.len() as u64) as usize,
            };
            let low = (first + used[class] * step + class as u64 * skew) % PLACES;
            used[class] += 1;
            classes[class] * PLACES + low
        };
        (0..self.filled).map(&mut key).collect()
    }

    fn page(&self, side: Side, vm: u64, k: u64) -> u64 {
        let each_lends = (self.pairs() as u64 / VMS).max(1);
        match (self.onto, side) {
            (Onto::Own, Side::Cpu) => vm * OWNED + k % OWNED,
            (Onto::Own, Side::Dma) => vm * OWNED + k % DMA_HELD,
            (Onto::Lent, Side::Cpu) => (vm + VMS - 1) % VMS * OWNED + k % each_lends,
            (Onto::Lent, Side::Dma) => SHARED + k % SHARED_COUNT,
        }
    }

    fn pairs(&self) -> usize {
        self.filled / 4
    }

    fn map(&self, side: Side, random: &mut Rng) -> Vec<u64> {
        let keys = self.keys(random);
        let mut places: Vec<bool> = (0..ENTRIES).map(|place| place < self.filled).collect();
        if let Places::Scattered = self.places {
            shuffle(&mut places, random);
        }
        let mut entries = keys.iter().zip(0..).map(|(key, k)| {
            let page = self.page(side, key >> (VM_AT - GUEST_AT), k);
            key << GUEST_AT | 1 << FILLED_AT | page << PAGE_AT | ACCESS << ACCESS_AT | k
        });
        let mut place = |filled: bool| if filled { entries.next().unwrap_or(0) } else { 0 };
        places.into_iter().map(&mut place).collect()
    }

    fn walker(&self, map: &[u64], random: &mut Rng) -> Vec<u64> {
        let mut walker = map.to_vec();
        match self.walker {
            Walker::Same => {}
            Walker::Reversed => walker.reverse(),
            Walker::Shuffled => shuffle(&mut walker, random),
        }
        walker
    }

    fn cache(&self, walker: &[u64]) -> Vec<Slot> {
        let entries: Vec<u64> = walker.iter().copied().filter(|&word| word != 0).collect();
        let count = self.filled * SLOTS / ENTRIES;
        let held = |k: usize| {
            let entry = match self.held {
                Held::First => entries[k],
                Held::Last => entries[entries.len() - count + k],
                Held::EightPorts => entries[k / PORTS],
                Held::Nothing => return Slot::default(),
            };
            slot(entry | (k as u64 % PORTS as u64) << PORT_AT)
        };
        (0..SLOTS).map(|k| if k < count { held(k) } else { Slot::default() }).collect()
    }

    pub fn made(&self, variant: u64) -> Owned {
        let random = &mut Rng::new(self.seed * VARIANTS + variant);
        let mut owned = Owned::new(PAGES as usize);
        *owned.machine = header();
        owned.sets = page_sets();
        owned.pairs = pairs(self.pairs());
        owned.cpu_map = self.map(Side::Cpu, random);
        owned.cpu_walker = self.walker(&owned.cpu_map, random);
        owned.cpu_cache = self.cache(&owned.cpu_walker);
        owned.dma_map = self.map(Side::Dma, random);
        owned.dma_walker = self.walker(&owned.dma_map, random);
        owned.dma_cache = self.cache(&owned.dma_walker);
        owned
    }

    pub fn all(&self) -> Vec<Owned> {
        (0..VARIANTS).map(|variant| self.made(variant)).collect()
    }
}

// ---- Damage.

/// Another word in one place: none, that of another place, or one with a bit turned.
fn change(words: &mut [u64], random: &mut Rng) {
    let [place, other] = [0; 2].map(|_| random.below(words.len() as u64) as usize);
    words[place] = match random.below(4) {
        0 => 0,
        1 => words[other],
        _ => words[place] ^ 1 << random.below(64),
    };
}

/// The same, or a page into a set or out of it, of pool and shared span as often as of all the others.
fn change_sets(sets: &mut [u64], random: &mut Rng) {
    if random.chance(25) {
        return change(sets, random);
    }
    let rows = [2, SETS][random.below(2) as usize];
    let (row, page) = (random.below(rows as u64) as usize, random.below(PAGES) as usize);
    sets[row * SET_WORDS + page / 64] ^= 1 << (page % 64);
}

/// The same, or another place's pair with its ends in the other order or one end twice.
fn change_pair(pairs: &mut [u64], random: &mut Rng) {
    let [place, other] = [0; 2].map(|_| random.below(pairs.len() as u64) as usize);
    let (left, right) = (pairs[other] >> VM_AT, bits(pairs[other], GUEST_AT, VM_AT));
    let [left, right] = match random.below(4) {
        0 => [right, left],
        1 => [left, left],
        _ => return change(pairs, random),
    };
    pairs[place] = left << VM_AT | right << GUEST_AT | bits(pairs[other], 0, GUEST_AT);
}

fn change_slot(cache: &mut [Slot], random: &mut Rng) {
    let mut words: Vec<u64> = cache.iter().map(|&slot| word(slot)).collect();
    change(&mut words, random);
    for (room, word) in cache.iter_mut().zip(words) {
        *room = slot(word);
    }
}

/// In one number of the header: none, another small one, or one with a bit turned.
fn change_header(m: &mut Machine, random: &mut Rng) {
    let mut numbers = vec![&mut m.pages, &mut m.shared_base, &mut m.shared_count];
    numbers.extend([&mut m.unit_count, &mut m.known, &mut m.cpu_hand, &mut m.dma_hand]);
    numbers.extend(m.cpus.iter_mut().chain(&mut m.devices));
    for Unit { vm, guest, page, count, access, mark } in &mut m.units[..2] {
        numbers.extend([vm, guest, page, count, access, mark]);
    }
    let at = random.below(numbers.len() as u64) as usize;
    match random.below(3) {
        0 => *numbers[at] = 0,
        1 => *numbers[at] = random.below(100),
        _ => *numbers[at] ^= 1 << random.below(64),
    }
}

/// One of the two maps, or both alike where they are in one order.
fn change_maps(map: &mut Vec<u64>, walker: &mut Vec<u64>, random: &mut Rng) {
    let same = map == walker;
    match random.below(3) {
        0 => change(map, random),
        1 => change(walker, random),
        _ => {
            change(map, random);
            if same {
                walker.clone_from(map);
            }
        }
    }
}

/// Changes one word of a table, one slot or one number of the header, or takes a word of memory.
pub fn damage(owned: &mut Owned, random: &mut Rng) {
    match random.below(16) {
        0 | 1 => change_sets(&mut owned.sets, random),
        2 | 3 => change_pair(&mut owned.pairs, random),
        4 | 5 => change_maps(&mut owned.cpu_map, &mut owned.cpu_walker, random),
        6 | 7 => change_maps(&mut owned.dma_map, &mut owned.dma_walker, random),
        8 | 9 => change_slot(&mut owned.cpu_cache, random),
        10 | 11 => change_slot(&mut owned.dma_cache, random),
        12 | 13 => change_header(&mut owned.machine, random),
        14 => owned.machine.known ^= 1 << random.below(VMS),
        _ => drop(owned.memory.pop()),
    }
}
