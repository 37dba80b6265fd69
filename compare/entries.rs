//! Damage to maps and caches: changes of entries, made in the software map, in the walker's or in
//! both, and changes of slots.

use second::author::Rng;
use second::machine::*;

use crate::damage::{any, known, unknown, SideDamage};
use crate::pack::{GENERATION, PORT, VM};

/// How many bits these fields of a word have.
const GENERATION_BITS: u64 = GENERATION.1 as u64;
const VM_BITS: u32 = VM.1;
const PORT_BITS: u32 = PORT.1;

type Key = (Vm, Guest);
/// What stands under some keys from now on.
pub type Edits = Vec<(Key, Option<Entry>)>;
pub type MapDamage = fn(&Machine, Side, &mut Rng) -> Option<Edits>;

pub const ENTRY_CHANGES: &[(&str, MapDamage)] = &[
    ("an entry gone", |m, side, rng| Some(vec![(filled(m, side, rng)?.0, None)])),
    ("an entry more", |m, side, rng| {
        let vm = known(m, rng)?;
        let page = any(rng, (0..m.pages).filter(|&page| m.may_map(side, vm, page)))?;
        put(free_key(m, side, vm, rng)?, Entry { page, access: 1, generation: 7 })
    }),
    ("an entry onto any page", |m, side, rng| {
        let (key, entry) = filled(m, side, rng)?;
        let page = rng.below(m.pages);
        (page != entry.page).then_some(())?;
        put(key, Entry { page, ..entry })
    }),
    ("an entry onto a page at N or above", |m, side, rng| {
        let (key, entry) = filled(m, side, rng)?;
        put(key, Entry { page: m.pages + rng.below(PAGES), ..entry })
    }),
    ("an entry of another access", |m, side, rng| {
        let (key, entry) = filled(m, side, rng)?;
        put(key, Entry { access: entry.access ^ (1 + rng.below(ACCESSES - 1)), ..entry })
    }),
    ("an entry of another generation", |m, side, rng| {
        let (key, entry) = filled(m, side, rng)?;
        put(
            key,
            Entry { generation: entry.generation ^ (1 << rng.below(GENERATION_BITS)), ..entry },
        )
    }),
    ("an entry at another guest page", |m, side, rng| {
        let (key, entry) = filled(m, side, rng)?;
        Some(vec![(key, None), (free_key(m, side, key.0, rng)?, Some(entry))])
    }),
    ("an entry of another VM", |m, side, rng| {
        let (key, entry) = filled(m, side, rng)?;
        let vm = any(rng, m.known.iter().copied().filter(|&vm| vm != key.0))?;
        Some(vec![(key, None), (free_key(m, side, vm, rng)?, Some(entry))])
    }),
    ("an entry of a VM not known", |m, side, rng| {
        let ((_, entry), vm) = (filled(m, side, rng)?, unknown(m, rng)?);
        put((vm, rng.below(GUESTS)), entry)
    }),
    ("an entry of a VM past the last", |m, side, rng| {
        let (_, entry) = filled(m, side, rng)?;
        put((VMS + rng.below((1 << VM_BITS) - VMS), rng.below(GUESTS)), entry)
    }),
];

fn put(key: Key, entry: Entry) -> Option<Edits> {
    Some(vec![(key, Some(entry))])
}

fn filled(m: &Machine, side: Side, rng: &mut Rng) -> Option<(Key, Entry)> {
    any(rng, m.half(side).software.iter().map(|(&key, &entry)| (key, entry)))
}

fn free_key(m: &Machine, side: Side, vm: Vm, rng: &mut Rng) -> Option<Key> {
    let key = (vm, rng.below(GUESTS));
    (!m.half(side).software.contains_key(&key)).then_some(key)
}

/// The maps in which an edit is made.
pub const MAPS: [(&str, fn(&mut Half) -> Vec<&mut Map>); 3] = [
    ("map", |half| vec![&mut half.software]),
    ("walker", |half| vec![&mut half.walker]),
    ("both maps", |half| vec![&mut half.software, &mut half.walker]),
];

pub fn edit(map: &mut Map, edits: &Edits) {
    for &(key, entry) in edits {
        match entry {
            Some(entry) => map.insert(key, entry),
            None => map.remove(&key),
        };
    }
}

pub const SLOT_CHANGES: &[(&str, SideDamage)] = &[
    ("a slot emptied", |m, side, rng| {
        let (place, _) = held(m, side, rng)?;
        fill(m, side, place, None)
    }),
    ("a slot elsewhere", |m, side, rng| {
        let ((place, slot), other) = (held(m, side, rng)?, empty(m, side, rng)?);
        fill(m, side, place, None);
        fill(m, side, other, Some(slot))
    }),
    ("a slot twice", |m, side, rng| {
        let ((_, slot), other) = (held(m, side, rng)?, empty(m, side, rng)?);
        fill(m, side, other, Some(slot))
    }),
    ("a slot for another port too", |m, side, rng| {
        let ((_, slot), other) = (held(m, side, rng)?, empty(m, side, rng)?);
        fill(m, side, other, Some(Slot { port: rng.below(PORTS as u64), ..slot }))
    }),
    ("a slot more", |m, side, rng| {
        let ((key, entry), place) = (filled(m, side, rng)?, empty(m, side, rng)?);
        let port = rng.below(PORTS as u64);
        fill(m, side, place, Some(Slot { port, vm: key.0, guest: key.1, entry }))
    }),
    ("a slot of a port past the last", |m, side, rng| {
        let ports = PORTS as u64;
        let port = ports + rng.below((1 << PORT_BITS) - ports);
        change(m, side, rng, |slot| slot.port = port)
    }),
    ("a slot of a VM not known", |m, side, rng| {
        let vm = unknown(m, rng)?;
        change(m, side, rng, |slot| slot.vm = vm)
    }),
    ("a slot of a VM past the last", |m, side, rng| {
        let vm = VMS + rng.below((1 << VM_BITS) - VMS);
        change(m, side, rng, |slot| slot.vm = vm)
    }),
    ("a slot of another VM", |m, side, rng| {
        let vm = known(m, rng)?;
        change(m, side, rng, |slot| slot.vm = vm)
    }),
    ("a slot of another guest page", |m, side, rng| {
        let guest = rng.below(GUESTS);
        change(m, side, rng, |slot| slot.guest = guest)
    }),
    ("a slot onto another page", |m, side, rng| {
        let page = rng.below(m.pages);
        change(m, side, rng, |slot| slot.entry.page = page)
    }),
    ("a slot onto a page at N or above", |m, side, rng| {
        let page = m.pages + rng.below(PAGES);
        change(m, side, rng, |slot| slot.entry.page = page)
    }),
    ("a slot of another access", |m, side, rng| {
        let flipped = 1 + rng.below(ACCESSES - 1);
        change(m, side, rng, |slot| slot.entry.access ^= flipped)
    }),
    ("a slot of another generation", |m, side, rng| {
        let flipped = 1 << rng.below(GENERATION_BITS);
        change(m, side, rng, |slot| slot.entry.generation ^= flipped)
    }),
];

fn held(m: &Machine, side: Side, rng: &mut Rng) -> Option<(usize, Slot)> {
    let slots = m.half(side).cache.slots.iter().enumerate();
    any(rng, slots.filter_map(|(place, slot)| slot.map(|slot| (place, slot))))
}

fn empty(m: &Machine, side: Side, rng: &mut Rng) -> Option<usize> {
    let slots = &m.half(side).cache.slots;
    any(rng, (0..SLOTS).filter(|&place| slots[place].is_none()))
}

fn fill(m: &mut Machine, side: Side, place: usize, slot: Option<Slot>) -> Option<()> {
    m.half_mut(side).cache.slots[place] = slot;
    Some(())
}

/// Changes a filled slot; nothing where it stays the same.
fn change(m: &mut Machine, side: Side, rng: &mut Rng, edit: impl Fn(&mut Slot)) -> Option<()> {
    let (place, before) = held(m, side, rng)?;
    let mut slot = before;
    edit(&mut slot);
    (slot != before).then_some(())?;
    fill(m, side, place, Some(slot))
}
