//! The test for validity, clause by clause. It uses no operation; it shares
//! with them only the helpers that say what a VM may map and what fits.
//!
//! Some clauses can't be broken in these forms: caches have SLOTS slots by type,
//! a map has no key twice, a set no pair twice, a mark is one of three, and
//! the set of shared pages is the span itself.

use std::collections::BTreeSet;

use crate::machine::*;

type Clause = (&'static str, fn(&Machine) -> bool);

/// Every clause with its name, in the order in which they are tested.
pub const CLAUSES: [Clause; 26] = [
    ("page count in range", |m| (1..=PAGES).contains(&m.pages)),
    ("memory of WORDS words a page", |m| m.memory.len() as u64 == m.pages * WORDS),
    ("at most UNITS units", |m| m.units.len() <= UNITS),
    ("unit fields in range", unit_fields),
    ("unit spans fit", |m| m.units.iter().all(|unit| unit.region.fits(m.pages))),
    ("shared span fits", |m| m.shared.fits(m.pages)),
    ("known VMs in range", |m| m.known.iter().all(|&vm| vm < VMS)),
    ("only known VMs hold pages", |m| halves(m).all(|half| only_known_hold(m, half))),
    ("ownership covers the known VMs", |m| halves(m).all(|half| ownership_covers(m, half))),
    ("no page at N or above", pages_below_n),
    ("every page in exactly one place", pages_in_one_place),
    ("at most ENTRIES entries a map", |m| maps(m).all(|map| map.len() <= ENTRIES)),
    ("map numbers in range", |m| maps(m).all(|map| map_in_range(m, map))),
    ("walker equals software", |m| halves(m).all(|half| half.walker == half.software)),
    ("mapped VMs known", |m| maps(m).flatten().all(|(key, _)| m.known.contains(&key.0))),
    ("entries target what their VM may map", entry_targets),
    ("at most PAIRS pairs", |m| m.pairs.len() <= PAIRS),
    ("pairs join two different known VMs", pair_ends),
    ("pair pages owned by an end", pair_pages),
    ("DMA pages held by one VM", dma_pages_of_one),
    ("DMA pages own CPU pages or in the pool", dma_pages_at_home),
    ("hands in range", |m| halves(m).all(|half| half.cache.hand < SLOTS)),
    ("slot numbers in range", |m| slots(m).all(|slot| slot_in_range(m, slot))),
    ("no key twice in a cache", |m| halves(m).all(keys_once)),
    ("slots hold the walker's entry", |m| halves(m).all(slots_match)),
    ("ports on known VMs or idle", |m| halves(m).all(|half| ports_known(m, half))),
];

/// The name of the first clause that the machine breaks.
pub fn broken(machine: &Machine) -> Option<&'static str> {
    CLAUSES.iter().find(|(_, holds)| !holds(machine)).map(|&(name, _)| name)
}

pub fn is_valid(machine: &Machine) -> bool {
    broken(machine).is_none()
}

fn halves(m: &Machine) -> impl Iterator<Item = &Half> {
    [&m.cpu, &m.dma].into_iter()
}

fn maps(m: &Machine) -> impl Iterator<Item = &Map> {
    halves(m).flat_map(|half| [&half.software, &half.walker])
}

fn slots(m: &Machine) -> impl Iterator<Item = &Slot> {
    halves(m).flat_map(|half| half.cache.slots.iter().flatten())
}

fn unit_fields(m: &Machine) -> bool {
    m.units.iter().all(|unit| unit.region.vm < VMS && unit.region.access < ACCESSES)
}

fn only_known_hold(m: &Machine, half: &Half) -> bool {
    half.owned.iter().all(|(vm, pages)| m.known.contains(vm) || pages.is_empty())
}

/// The domain of each ownership map is exactly the set of known VMs.
fn ownership_covers(m: &Machine, half: &Half) -> bool {
    half.owned.keys().eq(m.known.iter())
}

fn pages_below_n(m: &Machine) -> bool {
    let owned = halves(m).flat_map(|half| half.owned.values());
    owned.chain([&m.pool]).flatten().all(|&page| page < m.pages)
}

/// Pool, CPU pages of each VM and shared span split all pages. This holds the
/// disjointness clauses of both ownership predicates upstream as well.
fn pages_in_one_place(m: &Machine) -> bool {
    let mut places = vec![0u32; m.pages as usize];
    let shared = m.shared.base..m.shared.base + m.shared.count;
    let held = m.cpu.owned.values().flatten().chain(&m.pool).copied();
    for page in held.chain(shared) {
        places[page as usize] += 1;
    }
    places.iter().all(|&count| count == 1)
}

fn entry_in_range(m: &Machine, entry: &Entry) -> bool {
    entry.page < m.pages && entry.access < ACCESSES && entry.generation < GENERATIONS
}

fn map_in_range(m: &Machine, map: &Map) -> bool {
    map.iter().all(|(&(vm, guest), entry)| vm < VMS && guest < GUESTS && entry_in_range(m, entry))
}

fn entry_targets(m: &Machine) -> bool {
    let allowed = |side| {
        let maps = [&m.half(side).software, &m.half(side).walker];
        maps.into_iter().flatten().all(|(key, entry)| m.may_map(side, key.0, entry.page))
    };
    allowed(Side::Cpu) && allowed(Side::Dma)
}

/// The lower end comes first, so that no pair is kept in both orders.
fn pair_ends(m: &Machine) -> bool {
    m.pairs
        .iter()
        .all(|(low, high, _)| low < high && m.known.contains(low) && m.known.contains(high))
}

fn pair_pages(m: &Machine) -> bool {
    m.pairs.iter().all(|&(low, high, page)| m.cpu.holds(low, page) || m.cpu.holds(high, page))
}

fn dma_pages_of_one(m: &Machine) -> bool {
    let mut seen = BTreeSet::new();
    m.dma.owned.values().flatten().all(|page| seen.insert(page))
}

fn dma_pages_at_home(m: &Machine) -> bool {
    m.dma.owned.iter().all(|(&vm, pages)| {
        pages.iter().all(|&page| m.cpu.holds(vm, page) || m.pool.contains(&page))
    })
}

fn slot_in_range(m: &Machine, slot: &Slot) -> bool {
    slot.port < PORTS as u64
        && slot.vm < VMS
        && slot.guest < GUESTS
        && entry_in_range(m, &slot.entry)
}

fn keys_once(half: &Half) -> bool {
    let mut seen = BTreeSet::new();
    half.cache.slots.iter().flatten().all(|slot| seen.insert(slot.key()))
}

fn slots_match(half: &Half) -> bool {
    let mut slots = half.cache.slots.iter().flatten();
    slots.all(|slot| half.walker.get(&(slot.vm, slot.guest)) == Some(&slot.entry))
}

fn ports_known(m: &Machine, half: &Half) -> bool {
    half.ports.iter().flatten().all(|vm| m.known.contains(vm))
}
