//! The test for validity as one writes it at first: every rule of docs/MACHINE.md, section 4, in
//! ordinary safe Rust, a table searched from its front wherever a key or a word is looked for. So it
//! goes by the square of what is filled. Page sets are tested by whole words, as in the library.

use face::{bits, span_fits, Side, FILLED_AT, GUEST_AT, PAGE_AT, PORT_AT, VM_AT};
use tiligormis::*;

const POOL: usize = 0;
const SHARED: usize = 1;

pub fn valid(lent: LentRef) -> bool {
    lengths(&lent)
        && setup(lent.machine)
        && lent.machine.known < 1 << VMS
        && (0..SET_WORDS).all(|column| page_sets(&lent, column))
        && pairs(&lent)
        && route(&lent, Side::Cpu)
        && route(&lent, Side::Dma)
        && lent.memory.len() == PAGE_WORDS * lent.machine.pages as usize
}

// ---- Words, as section 3 packs them.

fn port(word: u64) -> u64 {
    word >> PORT_AT
}

/// The left end of a pair too.
fn vm(word: u64) -> u64 {
    bits(word, VM_AT, PORT_AT)
}

/// The right end of a pair too.
fn guest(word: u64) -> u64 {
    bits(word, GUEST_AT, VM_AT)
}

fn is_filled(word: u64) -> bool {
    bits(word, FILLED_AT, GUEST_AT) == 1
}

fn page(word: u64) -> u64 {
    bits(word, PAGE_AT, FILLED_AT)
}

fn access_and_generation(word: u64) -> u64 {
    bits(word, 0, PAGE_AT)
}

/// Port, VM, guest page and the filled bit.
fn key(word: u64) -> u64 {
    word >> FILLED_AT
}

fn without_port(word: u64) -> u64 {
    bits(word, 0, PORT_AT)
}

/// The word that a slot is.
pub fn word(slot: Slot) -> u64 {
    let [port, vm, guest] = [slot.port as u64, slot.vm as u64, slot.guest as u64];
    port << PORT_AT | vm << VM_AT | guest << GUEST_AT | slot.entry as u64
}

fn filled(words: &[u64]) -> impl Iterator<Item = u64> + '_ {
    words.iter().copied().filter(|&word| word != 0)
}

/// Whether no filled place has the key of one before it.
fn once(words: &[u64]) -> bool {
    words.iter().enumerate().all(|(place, &word)| {
        word == 0 || !words[..place].iter().any(|&before| key(before) == key(word))
    })
}

// ---- 1 to 3: lengths, setup, known VMs.

fn lengths(lent: &LentRef) -> bool {
    let maps = [lent.cpu_map, lent.cpu_walker, lent.dma_map, lent.dma_walker];
    lent.sets.len() == SETS * SET_WORDS
        && lent.pairs.len() == PAIRS
        && maps.iter().all(|map| map.len() == ENTRIES)
        && [lent.cpu_cache, lent.dma_cache].iter().all(|cache| cache.len() == SLOTS)
}

fn setup(m: &Machine) -> bool {
    (1..=PAGES).contains(&m.pages)
        && span_fits(m.shared_base as usize, m.shared_count as usize, m.pages as usize)
        && m.unit_count <= UNITS as u64
        && m.units[..m.unit_count as usize].iter().all(|unit| unit_good(unit, m.pages))
}

/// The mark is what makes the header a header, section 13.
fn unit_good(unit: &Unit, pages: u64) -> bool {
    let count = unit.count as usize;
    unit.vm < VMS
        && unit.access < ACCESSES
        && (MARK_CPU..=MARK_BOTH).contains(&unit.mark)
        && count > 0
        && span_fits(unit.guest as usize, count, GUEST_PAGES as usize)
        && span_fits(unit.page as usize, count, pages as usize)
}

fn knows(m: &Machine, vm: u64) -> bool {
    vm < VMS && m.known >> vm & 1 == 1
}

// ---- 4: page sets.

fn row_of(side: Side, vm: u64) -> usize {
    let row = 2 + 2 * vm as usize;
    match side {
        Side::Cpu => row,
        Side::Dma => row + 1,
    }
}

fn holds(lent: &LentRef, row: usize, page: u64) -> bool {
    lent.sets[row * SET_WORDS + page as usize / 64] >> (page % 64) & 1 == 1
}

/// A bit for each page below `count`, of the 64 in the column.
fn below(count: u64, column: usize) -> u64 {
    match count.saturating_sub(column as u64 * 64) {
        some @ 0..64 => (1 << some) - 1,
        _ => !0,
    }
}

fn page_sets(lent: &LentRef, column: usize) -> bool {
    let m = lent.machine;
    let row = |row: usize| lent.sets[row * SET_WORDS + column];
    let span = below(m.shared_base + m.shared_count, column) ^ below(m.shared_base, column);
    let (mut homes, mut dma_held) = (row(POOL) | row(SHARED), 0);
    if row(SHARED) != span || row(POOL) & row(SHARED) != 0 {
        return false;
    }
    for vm in 0..VMS {
        let [cpu, dma] = [Side::Cpu, Side::Dma].map(|side| row(row_of(side, vm)));
        let at_home = dma & !(cpu | row(POOL)) == 0;
        let allowed = knows(m, vm) || cpu | dma == 0;
        if homes & cpu != 0 || dma_held & dma != 0 || !at_home || !allowed {
            return false;
        }
        homes |= cpu;
        dma_held |= dma;
    }
    homes == below(m.pages, column)
}

// ---- 5: pairs.

fn pair_good(lent: &LentRef, pair: u64) -> bool {
    let (m, left, right) = (lent.machine, vm(pair), guest(pair));
    port(pair) == 0
        && is_filled(pair)
        && access_and_generation(pair) == 0
        && left != right
        && [left, right].iter().all(|&end| knows(m, end))
        && page(pair) < m.pages
        && [left, right].iter().any(|&end| holds(lent, row_of(Side::Cpu, end), page(pair)))
}

/// In whichever order of their ends. An empty place has one end twice, so it is no good pair's like.
fn same_pair(one: u64, other: u64) -> bool {
    let ends = [vm(other), guest(other)];
    page(one) == page(other) && (ends == [vm(one), guest(one)] || ends == [guest(one), vm(one)])
}

fn pairs(lent: &LentRef) -> bool {
    let pairs = lent.pairs;
    filled(pairs).all(|pair| pair_good(lent, pair))
        && pairs.iter().enumerate().all(|(place, &pair)| {
            pair == 0 || !pairs[..place].iter().any(|&before| same_pair(before, pair))
        })
}

// ---- 6 to 8: maps, cache, ports and hand of a side.

fn lends(lent: &LentRef, to: u64, which: u64) -> bool {
    filled(lent.pairs).any(|pair| page(pair) == which && (vm(pair) == to || guest(pair) == to))
}

fn may_map(lent: &LentRef, side: Side, entry: u64) -> bool {
    let (vm, page) = (vm(entry), page(entry));
    holds(lent, row_of(side, vm), page)
        || match side {
            Side::Cpu => lends(lent, vm, page),
            Side::Dma => holds(lent, SHARED, page),
        }
}

fn entry_good(lent: &LentRef, side: Side, entry: u64) -> bool {
    port(entry) == 0
        && is_filled(entry)
        && knows(lent.machine, vm(entry))
        && page(entry) < lent.machine.pages
        && may_map(lent, side, entry)
}

/// No key twice in either; then the two are the same map where one has as many words as the other
/// and each of them.
fn same_maps(map: &[u64], walker: &[u64]) -> bool {
    once(map)
        && once(walker)
        && filled(map).count() == filled(walker).count()
        && filled(walker).all(|entry| map.contains(&entry))
}

fn slot_good(walker: &[u64], slot: u64) -> bool {
    is_filled(slot) && port(slot) < PORTS as u64 && walker.contains(&without_port(slot))
}

fn route(lent: &LentRef, side: Side) -> bool {
    let m = lent.machine;
    let (map, walker, cache, ports, hand) = match side {
        Side::Cpu => (lent.cpu_map, lent.cpu_walker, lent.cpu_cache, m.cpus, m.cpu_hand),
        Side::Dma => (lent.dma_map, lent.dma_walker, lent.dma_cache, m.devices, m.dma_hand),
    };
    let slots: [u64; SLOTS] = std::array::from_fn(|place| word(cache[place]));
    filled(map).chain(filled(walker)).all(|entry| entry_good(lent, side, entry))
        && same_maps(map, walker)
        && filled(&slots).all(|slot| slot_good(walker, slot))
        && once(&slots)
        && ports.iter().all(|&vm| vm == IDLE || knows(m, vm))
        && hand < SLOTS as u64
}
