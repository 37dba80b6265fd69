//! Every bit of a header and of tables, to be turned one by one.

use tiligormis::{
    Owned, Slot, Unit, ENTRIES, MACHINE_NUMBERS, PAIRS, PORTS, SETS, SET_WORDS, SLOTS, UNIT_NUMBERS,
};

/// A part of a box: its name, how many words it has, and how to turn a bit of one.
pub type Part = (&'static str, usize, fn(&mut Owned, usize, u32));

pub const PARTS: [Part; 9] = [
    ("header", MACHINE_NUMBERS, |owned, place, bit| *header_number(owned, place) ^= 1 << bit),
    ("sets", SETS * SET_WORDS, |owned, place, bit| owned.sets[place] ^= 1 << bit),
    ("pairs", PAIRS, |owned, place, bit| owned.pairs[place] ^= 1 << bit),
    ("CPU map", ENTRIES, |owned, place, bit| owned.cpu_map[place] ^= 1 << bit),
    ("CPU walker", ENTRIES, |owned, place, bit| owned.cpu_walker[place] ^= 1 << bit),
    ("CPU cache", SLOTS, |owned, place, bit| turn_in_slot(&mut owned.cpu_cache[place], bit)),
    ("DMA map", ENTRIES, |owned, place, bit| owned.dma_map[place] ^= 1 << bit),
    ("DMA walker", ENTRIES, |owned, place, bit| owned.dma_walker[place] ^= 1 << bit),
    ("DMA cache", SLOTS, |owned, place, bit| turn_in_slot(&mut owned.dma_cache[place], bit)),
];

/// Where in a header the CPUs begin, the devices and the units.
const CPUS_AT: usize = 7;
const DEVICES_AT: usize = CPUS_AT + PORTS;
const UNITS_AT: usize = DEVICES_AT + PORTS;

/// A number of the header, counted as its fields stand.
fn header_number(owned: &mut Owned, place: usize) -> &mut u64 {
    let header = &mut *owned.machine;
    match place {
        0 => &mut header.pages,
        1 => &mut header.shared_base,
        2 => &mut header.shared_count,
        3 => &mut header.unit_count,
        4 => &mut header.known,
        5 => &mut header.cpu_hand,
        6 => &mut header.dma_hand,
        CPUS_AT..DEVICES_AT => &mut header.cpus[place - CPUS_AT],
        DEVICES_AT..UNITS_AT => &mut header.devices[place - DEVICES_AT],
        _ => {
            let place = place - UNITS_AT;
            unit_number(&mut header.units[place / UNIT_NUMBERS], place % UNIT_NUMBERS)
        }
    }
}

fn unit_number(unit: &mut Unit, place: usize) -> &mut u64 {
    match place {
        0 => &mut unit.vm,
        1 => &mut unit.guest,
        2 => &mut unit.page,
        3 => &mut unit.count,
        4 => &mut unit.access,
        _ => &mut unit.mark,
    }
}

fn turn_in_slot(slot: &mut Slot, bit: u32) {
    match bit {
        0..=7 => slot.port ^= 1 << bit,
        8..=15 => slot.vm ^= 1 << (bit - 8),
        16..=31 => slot.guest ^= 1 << (bit - 16),
        _ => slot.entry ^= 1 << (bit - 32),
    }
}
