//! The second program's machine as the library's box, and back, by the text of
//! include/tiligormis.h and the manual's table of bits.

use std::collections::{BTreeMap, BTreeSet};
use std::fmt;

use second::machine::*;
use tiligormis::{LentRef, Owned, SETS, SET_WORDS};

/// What is wrong with a part of a box, or how it differs.
#[derive(Clone, PartialEq, Eq, Debug)]
pub struct Difference {
    pub part: &'static str,
    pub detail: String,
}

impl Difference {
    pub fn new(part: &'static str, detail: impl fmt::Display) -> Self {
        Difference { part, detail: detail.to_string() }
    }

    /// The same, and where it was seen.
    pub fn at(self, place: impl fmt::Display) -> Self {
        Difference { detail: format!("{place}: {}", self.detail), ..self }
    }
}

/// Fields of a word: the lowest bit and how many there are.
pub type Field = (u32, u32);
pub const GENERATION: Field = (0, 16);
pub const ACCESS: Field = (16, 3);
const PAGE: Field = (19, 12);
pub const FILLED: Field = (31, 1);
const GUEST: Field = (32, 16);
pub const RIGHT: Field = GUEST;
pub const VM: Field = (48, 8);
pub const LEFT: Field = VM;
pub const PORT: Field = (56, 8);

pub fn take(word: u64, (low, bits): Field) -> u64 {
    word >> low & ((1 << bits) - 1)
}

/// A number in its place; nothing where it is wider than the field.
fn put(number: u64, (low, bits): Field) -> Option<u64> {
    (number >> bits == 0).then_some(number << low)
}

fn entry_word(entry: &Entry) -> Option<u64> {
    let Entry { page, access, generation } = *entry;
    Some(put(page, PAGE)? | put(access, ACCESS)? | put(generation, GENERATION)? | put(1, FILLED)?)
}

pub fn map_word((vm, guest): (Vm, Guest), entry: &Entry) -> Option<u64> {
    Some(put(vm, VM)? | put(guest, GUEST)? | entry_word(entry)?)
}

pub fn pair_word(left: Vm, right: Vm, page: Page) -> Option<u64> {
    Some(put(left, LEFT)? | put(right, RIGHT)? | put(page, PAGE)? | put(1, FILLED)?)
}

pub fn packed_slot(slot: &Option<Slot>) -> Option<tiligormis::Slot> {
    let Some(slot) = slot else { return Some(tiligormis::Slot::default()) };
    Some(tiligormis::Slot {
        port: slot.port.try_into().ok()?,
        vm: slot.vm.try_into().ok()?,
        guest: slot.guest.try_into().ok()?,
        entry: entry_word(&slot.entry)?.try_into().ok()?,
    })
}

/// Where the page sets stand.
pub const POOL: usize = 0;
pub const SHARED: usize = 1;

pub fn set_of(side: Side, vm: Vm) -> usize {
    2 + 2 * vm as usize + usize::from(side == Side::Dma)
}

/// The pages in the pool of a box.
pub fn pool_pages(owned: &Owned) -> impl Iterator<Item = Page> + '_ {
    let pool = &owned.sets[POOL * SET_WORDS..];
    (0..PAGES).filter(|&page| pool[page as usize / 64] >> (page % 64) & 1 == 1)
}

/// Words into the lowest places of a table of `places`, the rest empty.
fn table(words: impl Iterator<Item = Option<u64>>, places: usize) -> Option<Vec<u64>> {
    let mut table: Vec<u64> = words.collect::<Option<_>>()?;
    if table.len() > places {
        return None;
    }
    table.resize(places, 0);
    Some(table)
}

fn packed_map(map: &Map) -> Option<Vec<u64>> {
    table(map.iter().map(|(&key, entry)| map_word(key, entry)), ENTRIES)
}

fn add_pages(sets: &mut [u64], set: usize, pages: impl IntoIterator<Item = Page>) -> Option<()> {
    for page in pages {
        if page >= PAGES {
            return None;
        }
        sets[set * SET_WORDS + page as usize / 64] |= 1 << (page % 64);
    }
    Some(())
}

fn packed_sets(m: &Machine) -> Option<Vec<u64>> {
    let mut sets = vec![0; SETS * SET_WORDS];
    add_pages(&mut sets, POOL, m.pool.iter().copied())?;
    add_pages(&mut sets, SHARED, (0..PAGES).filter(|&page| m.shared.contains(page)))?;
    for side in [Side::Cpu, Side::Dma] {
        for (&vm, pages) in m.half(side).owned.iter().filter(|(_, pages)| !pages.is_empty()) {
            if vm >= VMS {
                return None;
            }
            add_pages(&mut sets, set_of(side, vm), pages.iter().copied())?;
        }
    }
    Some(sets)
}

fn packed_unit(unit: &Unit) -> tiligormis::Unit {
    let Region { vm, guest, page, count, access } = unit.region;
    let mark = match unit.mark {
        Mark::Cpu => tiligormis::MARK_CPU,
        Mark::Dma => tiligormis::MARK_DMA,
        Mark::Both => tiligormis::MARK_BOTH,
    };
    tiligormis::Unit { vm, guest, page, count, access, mark }
}

/// What start writes where there is no unit.
pub const SPARE_UNIT: tiligormis::Unit =
    tiligormis::Unit { vm: 0, guest: 0, page: 0, count: 0, access: 0, mark: tiligormis::MARK_CPU };

fn packed_header(m: &Machine) -> Option<tiligormis::Machine> {
    let known = m.known.iter().map(|&vm| (vm < 64).then(|| 1u64 << vm));
    let ports = |half: &Half| half.ports.map(|vm| vm.unwrap_or(tiligormis::IDLE));
    let mut units = [SPARE_UNIT; UNITS];
    for (place, unit) in m.units.iter().enumerate() {
        *units.get_mut(place)? = packed_unit(unit);
    }
    Some(tiligormis::Machine {
        pages: m.pages,
        shared_base: m.shared.base,
        shared_count: m.shared.count,
        unit_count: m.units.len() as u64,
        known: known.sum::<Option<u64>>()?,
        cpu_hand: m.cpu.cache.hand as u64,
        dma_hand: m.dma.cache.hand as u64,
        cpus: ports(&m.cpu),
        devices: ports(&m.dma),
        units,
    })
}

/// The box of a machine, valid or not; nothing where a number is too wide for its field.
pub fn pack(m: &Machine) -> Option<Owned> {
    let cache = |half: &Half| half.cache.slots.iter().map(packed_slot).collect::<Option<Vec<_>>>();
    let pairs = m.pairs.iter().map(|&(low, high, page)| pair_word(low, high, page));
    Some(Owned {
        machine: Box::new(packed_header(m)?),
        sets: packed_sets(m)?,
        pairs: table(pairs, PAIRS)?,
        cpu_map: packed_map(&m.cpu.software)?,
        cpu_walker: packed_map(&m.cpu.walker)?,
        cpu_cache: cache(&m.cpu)?,
        dma_map: packed_map(&m.dma.software)?,
        dma_walker: packed_map(&m.dma.walker)?,
        dma_cache: cache(&m.dma)?,
        memory: m.memory.clone(),
    })
}

/// The machine of a box, with no memory: that is compared where it lies. Whatever is not a number
/// in range, stands twice or has the wrong length is an error; spare units are not looked at.
pub fn unpack(lent: LentRef) -> Result<Machine, Difference> {
    lengths(lent)?;
    let header = lent.machine;
    let pages = header.pages;
    let shared = Span { base: header.shared_base, count: header.shared_count };
    let known = unpacked_known(header.known)?;
    if !pages_of(lent.sets, SHARED, pages, "shared set")?.into_iter().eq(span_pages(shared, pages))
    {
        return Err(Difference::new("shared set", "it is not the shared span"));
    }
    Ok(Machine {
        pages,
        shared,
        units: unpacked_units(header)?,
        pool: pages_of(lent.sets, POOL, pages, "pool")?,
        pairs: unpacked_pairs(lent.pairs, pages)?,
        cpu: Half {
            owned: unpacked_owned(lent.sets, Side::Cpu, &known, pages, "CPU pages")?,
            software: unpacked_map(lent.cpu_map, pages, "CPU map")?,
            walker: unpacked_map(lent.cpu_walker, pages, "CPU walker")?,
            cache: unpacked_cache(lent.cpu_cache, header.cpu_hand, pages, "CPU cache")?,
            ports: unpacked_ports(&header.cpus, "CPUs")?,
        },
        dma: Half {
            owned: unpacked_owned(lent.sets, Side::Dma, &known, pages, "DMA pages")?,
            software: unpacked_map(lent.dma_map, pages, "DMA map")?,
            walker: unpacked_map(lent.dma_walker, pages, "DMA walker")?,
            cache: unpacked_cache(lent.dma_cache, header.dma_hand, pages, "DMA cache")?,
            ports: unpacked_ports(&header.devices, "devices")?,
        },
        known,
        memory: Vec::new(),
    })
}

fn lengths(lent: LentRef) -> Result<(), Difference> {
    let lengths = [
        lent.sets.len() == SETS * SET_WORDS,
        lent.pairs.len() == PAIRS,
        [lent.cpu_map, lent.cpu_walker, lent.dma_map, lent.dma_walker]
            .iter()
            .all(|map| map.len() == ENTRIES),
        lent.cpu_cache.len() == SLOTS && lent.dma_cache.len() == SLOTS,
        Some(lent.memory.len() as u64) == lent.machine.pages.checked_mul(WORDS),
    ];
    match lengths.iter().position(|right| !right) {
        Some(place) => Err(Difference::new("lengths", format!("length {place} is wrong"))),
        None => Ok(()),
    }
}

fn unpacked_known(bits: u64) -> Result<BTreeSet<Vm>, Difference> {
    if bits >> VMS != 0 {
        return Err(Difference::new("known VMs", format!("bits {bits:#x}")));
    }
    Ok((0..VMS).filter(|vm| bits >> vm & 1 == 1).collect())
}

fn span_pages(span: Span, pages: u64) -> impl Iterator<Item = Page> {
    (0..pages).filter(move |&page| span.contains(page))
}

fn pages_of(
    sets: &[u64],
    set: usize,
    pages: u64,
    part: &'static str,
) -> Result<BTreeSet<Page>, Difference> {
    let words = &sets[set * SET_WORDS..(set + 1) * SET_WORDS];
    // A word less its lowest bit, again and again.
    let rest = |&word: &u64| Some(word & word.wrapping_sub(1));
    let bits = |(place, &word): (usize, &u64)| {
        let words = std::iter::successors(Some(word), rest).take_while(|&word| word != 0);
        words.map(move |word| place as u64 * 64 + u64::from(word.trailing_zeros()))
    };
    let found: BTreeSet<Page> = words.iter().enumerate().flat_map(bits).collect();
    match found.last() {
        Some(last) if *last >= pages => {
            Err(Difference::new(part, format!("page {last} of {pages}")))
        }
        _ => Ok(found),
    }
}

/// The pages of every known VM; another that holds any is an error.
fn unpacked_owned(
    sets: &[u64],
    side: Side,
    known: &BTreeSet<Vm>,
    pages: u64,
    part: &'static str,
) -> Result<BTreeMap<Vm, BTreeSet<Page>>, Difference> {
    let mut owned = BTreeMap::new();
    for vm in 0..VMS {
        let held = pages_of(sets, set_of(side, vm), pages, part)?;
        if known.contains(&vm) {
            owned.insert(vm, held);
        } else if !held.is_empty() {
            return Err(Difference::new(part, format!("of VM {vm}, which isn't known: {held:?}")));
        }
    }
    Ok(owned)
}

fn unpacked_units(header: &tiligormis::Machine) -> Result<Vec<Unit>, Difference> {
    let wrong = |detail: String| Difference::new("units", detail);
    let units = header.units.get(..header.unit_count as usize);
    let units = units.ok_or_else(|| wrong(format!("{} units", header.unit_count)))?;
    let unpacked = |unit: &tiligormis::Unit| {
        let tiligormis::Unit { vm, guest, page, count, access, mark } = *unit;
        let mark = match mark {
            tiligormis::MARK_CPU => Mark::Cpu,
            tiligormis::MARK_DMA => Mark::Dma,
            tiligormis::MARK_BOTH => Mark::Both,
            _ => return Err(wrong(format!("mark {mark}"))),
        };
        Ok(Unit { region: Region { vm, guest, page, count, access }, mark })
    };
    units.iter().map(unpacked).collect()
}

/// The filled words, read, by their keys. A word that can't be read or a key that stands twice is
/// an error.
fn unpacked_table<K: Ord, V>(
    words: &[u64],
    part: &'static str,
    read: impl Fn(u64) -> Option<(K, V)>,
) -> Result<BTreeMap<K, V>, Difference> {
    let unread = |word| Difference::new(part, format!("word {word:#018x} can't be read"));
    let mut filled: Vec<u64> = words.iter().copied().filter(|&word| word != 0).collect();
    // Words in order have their keys in order, from which a map is made faster.
    filled.sort_unstable();
    let read = |&word: &u64| read(word).ok_or_else(|| unread(word));
    let table: BTreeMap<K, V> = filled.iter().map(read).collect::<Result<_, _>>()?;
    if table.len() != filled.len() {
        return Err(Difference::new(part, "a key stands twice"));
    }
    Ok(table)
}

fn unpacked_entry(word: u64, pages: u64) -> Option<Entry> {
    let (page, access) = (take(word, PAGE), take(word, ACCESS));
    let entry = Entry { page, access, generation: take(word, GENERATION) };
    (take(word, FILLED) == 1 && page < pages).then_some(entry)
}

fn unpacked_map(words: &[u64], pages: u64, part: &'static str) -> Result<Map, Difference> {
    unpacked_table(words, part, |word| {
        let key = (take(word, VM), take(word, GUEST));
        let in_range = key.0 < VMS && take(word, PORT) == 0;
        in_range.then_some((key, unpacked_entry(word, pages)?))
    })
}

fn unpacked_pairs(words: &[u64], pages: u64) -> Result<BTreeSet<Pair>, Difference> {
    let pairs = unpacked_table(words, "pairs", |word| {
        let (left, right, page) = (take(word, LEFT), take(word, RIGHT), take(word, PAGE));
        let in_range = left < VMS && right < VMS && page < pages;
        // The word has no other field: it is again what its three numbers give.
        let whole = pair_word(left, right, page) == Some(word);
        (in_range && whole).then_some((pair(left, right, page), ()))
    })?;
    Ok(pairs.into_keys().collect())
}

fn unpacked_slot(slot: &tiligormis::Slot, pages: u64) -> Option<Option<Slot>> {
    if *slot == tiligormis::Slot::default() {
        return Some(None);
    }
    let entry = unpacked_entry(slot.entry.into(), pages)?;
    let (port, vm) = (u64::from(slot.port), u64::from(slot.vm));
    let in_range = port < PORTS as u64 && vm < VMS;
    in_range.then_some(Some(Slot { port, vm, guest: slot.guest.into(), entry }))
}

fn unpacked_cache(
    slots: &[tiligormis::Slot],
    hand: u64,
    pages: u64,
    part: &'static str,
) -> Result<Cache, Difference> {
    let mut cache = Cache { slots: [None; SLOTS], hand: hand as usize };
    for (place, slot) in slots.iter().enumerate() {
        let unread = || Difference::new(part, format!("slot {place} can't be read: {slot:?}"));
        cache.slots[place] = unpacked_slot(slot, pages).ok_or_else(unread)?;
    }
    let keys: BTreeSet<_> = cache.slots.iter().flatten().map(Slot::key).collect();
    if keys.len() != cache.slots.iter().flatten().count() {
        return Err(Difference::new(part, "a key stands twice"));
    }
    if cache.hand >= SLOTS {
        return Err(Difference::new(part, format!("hand {hand}")));
    }
    Ok(cache)
}

fn unpacked_ports(
    numbers: &[u64; PORTS],
    part: &'static str,
) -> Result<[Option<Vm>; PORTS], Difference> {
    let mut ports = [None; PORTS];
    for (port, &number) in ports.iter_mut().zip(numbers) {
        *port = match number {
            tiligormis::IDLE => None,
            vm if vm < VMS => Some(vm),
            _ => return Err(Difference::new(part, format!("VM {number}"))),
        };
    }
    Ok(ports)
}
