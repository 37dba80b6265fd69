//! The directed part of the suite: scenarios written by hand, each row with
//! the answer that the machine's paper gives it.

use crate::author::Author;
use crate::machine::*;
use crate::operate::{arguments, Kind};

const HUGE: u64 = u64::MAX;

/// Limits of which a row has numbers.
const PORT_COUNT: u64 = PORTS as u64;
const ENTRY_COUNT: u64 = ENTRIES as u64;
const SLOT_COUNT: u64 = SLOTS as u64;

/// The last word of a page.
const LAST_WORD: u64 = WORDS - 1;

/// Every scenario with its name.
pub const SCENARIOS: [(&str, fn(&mut Author)); 27] = [
    ("starts that are refused", refused_starts),
    ("starts at the edge", edge_starts),
    ("numbers out of range", ranges),
    ("the last numbers in range", limits),
    ("life of a VM", vm_life),
    ("CPUs and devices", running),
    ("assign and reclaim", pages),
    ("share and unshare", sharing),
    ("pairs to the brim", pairs_full),
    ("CPU maps", cpu_maps),
    ("DMA maps", dma_maps),
    ("maps to the brim", maps_full),
    ("region spans and units", region_units),
    ("CPU regions", cpu_regions),
    ("DMA regions", dma_regions),
    ("regions in full maps", regions_full),
    ("caches", caches),
    ("dropped slots", drops),
    ("guest accesses", accesses),
    ("clearing", clearing),
    ("free pages", free_pages),
    ("a VM retired", retire),
    ("a VM that can't be retired", retire_refused),
    ("a VM retired with one thing", retire_one),
    ("all that goes with a retired VM", retire_all),
    ("caches after a VM is retired", retire_caches),
    ("sizes", sizes),
];

/// Opens a box whose start must be accepted.
fn open(a: &mut Author, pages: u64, base: u64, count: u64, units: &[UnitNumbers]) {
    assert_eq!(a.open(pages, base, count, units), 0);
}

/// Opens a box whose start must be refused, and shows that nothing works in it.
fn refused(a: &mut Author, number: u64, size: [u64; 3], units: &[UnitNumbers]) {
    assert_eq!(a.open(size[0], size[1], size[2], units), number, "{size:?} {units:?}");
    for row in [[1, 1, 0], [15, 0, IDLE], [25, 0, 0], [0, 0, 0], [7, HUGE, HUGE]] {
        a.expect(1, &row);
    }
    a.free();
}

/// Asks for the free pages, of which the count and the lowest are known.
fn free(a: &mut Author, count: u64, lowest: Option<Page>) {
    a.free();
    assert_eq!(a.machine.free(), Free { number: 0, count, lowest }, "the end of\n{}", a.text);
}

/// Adds VMs.
fn add(a: &mut Author, vms: &[u64]) {
    for &vm in vms {
        a.expect(0, &[1, vm]);
    }
}

fn refused_starts(a: &mut Author) {
    let unit = [1, 16, 0, 3, 3, 3];
    for pages in [0, PAGES + 1, 1 << 55, HUGE] {
        refused(a, 1, [pages, 0, 0], &[unit]);
    }
    refused(a, 1, [0, 9, 1], &[[VMS, 16, 0, 3, 3, 3]]);
    refused(a, 2, [8, 7, 1], &[unit; UNITS + 1]);
    refused(a, 2, [8, 7, 1], &[unit; UNITS + 8]);
    for bad in [[VMS, 16, 0, 3, 3, 3], [IDLE, 16, 0, 3, 3, 3], [1, 16, 0, 3, ACCESSES, 3]] {
        refused(a, 2, [8, 7, 1], &[unit, bad]);
    }
    for mark in [0, 4, HUGE] {
        refused(a, 2, [8, 7, 1], &[[1, 16, 0, 3, 3, mark]]);
    }
    refused(a, 2, [8, 9, 1], &[[1, 16, 0, 0, 3, 3], [1, 16, 0, 3, 3, 4]]);
    let spans = [
        [1, 16, 0, 0, 3, 3],
        [1, GUESTS - 1, 0, 2, 3, 3],
        [1, GUESTS, 0, 1, 3, 3],
        [1, HUGE, 0, 1, 3, 3],
        [1, 16, 6, 3, 3, 3],
        [1, 16, 8, 1, 3, 3],
        [1, 16, HUGE, 2, 3, 3],
        [1, 16, 1, HUGE, 3, 3],
    ];
    for bad in spans {
        refused(a, 3, [8, 7, 1], &[unit, bad]);
    }
    for [base, count] in [[7, 2], [8, 1], [0, 9], [9, 0], [HUGE, 0], [HUGE, 1], [1, HUGE]] {
        refused(a, 3, [8, base, count], &[unit]);
    }
    // Every row of a refused box answers 1, whatever its operation.
    refused(a, 3, [8, 0, 9], &[]);
    for operation in 1..=OPERATIONS {
        a.expect(1, &[operation, 1, 16, 0, 3, 3]);
    }
}

fn edge_starts(a: &mut Author) {
    a.note("an empty shared span may lie at N");
    open(a, 8, 8, 0, &[]);
    a.free();
    a.note("every page shared: none is free");
    open(a, 8, 0, 8, &[[1, 0, 0, 8, 7, 3]]);
    a.free();
    add(a, &[1]);
    a.expect(6, &[3, 1, 0]);
    a.expect_at(6, 0, &[11, 1, 0, 0, 8, 7]);
    a.expect_at(7, 0, &[13, 1, 0, 0, 8, 7]);
    a.note("units at the very end, repeated, and some that differ only in mark");
    let (vm, access) = (VMS - 1, ACCESSES - 1);
    let last = [vm, GUESTS - 2, 6, 2, access, 3];
    let mut units = vec![last, last];
    let more = (0..VMS).flat_map(|vm| [[vm, 0, vm % 8, 1, 1, 1], [vm, 0, vm % 8, 1, 1, 2]]);
    units.extend(more.take(UNITS - 2));
    open(a, 8, 0, 0, &units);
    add(a, &[vm, 3]);
    a.expect(0, &[11, vm, GUESTS - 2, 6, 2, access]);
    a.expect(0, &[13, vm, GUESTS - 2, 6, 2, access]);
    a.expect(0, &[11, 3, 0, 3, 1, 1]);
    a.expect(0, &[13, 3, 0, 3, 1, 1]);
    a.expect(0, &[12, 3, 0, 3, 1, 1]);
    a.expect(0, &[14, 3, 0, 3, 1, 1]);
    a.note("one page, and it can be taken");
    open(a, 1, 1, 0, &[]);
    add(a, &[0]);
    a.expect(0, &[3, 0, 0]);
    a.free();
    a.expect(2, &[3, 0, 1]);
}

/// Each argument of each operation alone out of range, at its limit and far above.
fn ranges(a: &mut Author) {
    for pages in [8, PAGES] {
        open(a, pages, 7, 1, &[[1, 16, 0, 3, 3, 3]]);
        add(a, &[0, 1]);
        for operation in 1..=OPERATIONS {
            let kinds = arguments(operation).expect("a known operation");
            for (place, kind) in kinds.iter().enumerate() {
                let Some(limit) = kind.limit(pages) else { continue };
                for bad in [limit, limit + 1, IDLE, IDLE + 1, 1 << 48, HUGE] {
                    let mut row = [operation, 0, 0, 0, 0, 0];
                    row[place + 1] = bad;
                    let idle = *kind == Kind::Target && bad == IDLE;
                    a.expect(if idle { 0 } else { 2 }, &row);
                }
            }
        }
        a.note("2 comes before all else; a region's spans are never judged by it");
        a.expect(2, &[11, VMS, HUGE, HUGE, 0, 0]);
        a.expect(2, &[11, 9, HUGE, HUGE, 0, ACCESSES]);
        a.expect(3, &[11, 9, HUGE, HUGE, 0, ACCESSES - 1]);
        a.expect(2, &[5, 9, 9, pages]);
        let past = OPERATIONS + 1;
        for operation in [0, past, past + 1, 255, 256 + 1, IDLE, 1 << 32, (1 << 32) + 1, HUGE] {
            a.expect(2, &[operation, 1]);
        }
        a.note("numbers past the arguments are ignored");
        a.expect(0, &[1, 2, HUGE, HUGE, HUGE, HUGE, HUGE, HUGE]);
        a.expect(0, &[25, HUGE, HUGE, HUGE, HUGE, HUGE, HUGE, HUGE]);
        a.expect(0, &[26, HUGE]);
        a.expect(0, &[27, 2, HUGE, HUGE, HUGE, HUGE, HUGE, HUGE]);
    }
}

/// The last number in range and the first out of it, for each kind of argument.
fn limits(a: &mut Author) {
    let (vm, guest, access, generation) = (VMS - 1, GUESTS - 1, ACCESSES - 1, GENERATIONS - 1);
    let (port, below) = (PORT_COUNT - 1, guest - 1);
    open(a, 8, 7, 1, &[[vm, 0, 0, 1, access, 3]]);
    let rows: [[&[u64]; 2]; 11] = [
        [&[1, vm], &[1, VMS]],
        [&[3, vm, 6], &[3, vm, 8]],
        [&[7, vm, guest, 6, access, generation], &[7, vm, GUESTS, 6, access, generation]],
        [&[8, vm, guest, 7, access, generation], &[8, vm, guest, 8, access, generation]],
        [&[7, vm, below, 6, access, generation], &[7, vm, below, 6, ACCESSES, generation]],
        [&[8, vm, below, 7, access, generation], &[8, vm, below, 7, access, GENERATIONS]],
        [&[11, vm, 0, 0, 1, access], &[11, vm, 0, 0, 1, ACCESSES]],
        [&[15, port, vm], &[15, PORT_COUNT, vm]],
        [&[17, port, guest], &[17, port, GUESTS]],
        [&[19, SLOT_COUNT - 1], &[19, SLOT_COUNT]],
        [&[23, port, guest, LAST_WORD, HUGE], &[23, port, guest, WORDS, HUGE]],
    ];
    for [last, over] in rows {
        a.expect(0, last);
        a.expect(2, over);
    }
}

fn vm_life(a: &mut Author) {
    open(a, 8, 7, 1, &[[1, 16, 0, 3, 3, 3]]);
    a.expect(4, &[2, 1]);
    add(a, &[1, 2, 15, 0]);
    a.expect(5, &[1, 1]);
    a.expect(0, &[2, 15]);
    a.expect(4, &[2, 15]);
    a.note("13 by each reason alone");
    a.expect(0, &[3, 1, 0]);
    a.expect(13, &[2, 1]);
    a.expect(0, &[5, 1, 2, 0]);
    a.expect(13, &[2, 2]);
    a.expect(0, &[7, 2, 9, 0, 1]);
    a.expect(13, &[2, 2]);
    a.expect(0, &[9, 2, 9]);
    a.expect(13, &[2, 2]);
    a.expect(0, &[6, 2, 1, 0]);
    a.expect(0, &[2, 2]);
    a.expect(0, &[4, 1, 0]);
    a.expect(0, &[15, 7, 1]);
    a.expect(13, &[2, 1]);
    a.expect(0, &[15, 7, IDLE]);
    a.expect(0, &[16, 7, 1]);
    a.expect(13, &[2, 1]);
    a.expect(0, &[16, 7, IDLE]);
    a.expect(0, &[8, 1, 9, 7, 1]);
    a.expect(13, &[2, 1]);
    a.expect(0, &[10, 1, 9]);
    a.expect(0, &[13, 1, 16, 0, 3, 3]);
    a.expect(13, &[2, 1]);
    for guest in 16..19 {
        a.expect(0, &[10, 1, guest]);
    }
    a.note("an unmap ends no claim: the DMA pages stay");
    a.expect(13, &[2, 1]);
}

/// CPUs and devices go to known VMs and to idle.
fn running(a: &mut Author) {
    open(a, 8, 7, 1, &[]);
    add(a, &[1]);
    a.expect(4, &[15, 0, 0]);
    a.expect(4, &[16, 0, 0]);
    add(a, &[0]);
    a.expect(0, &[15, 0, 0]);
    a.expect(0, &[15, 0, 1]);
    a.expect(0, &[16, 0, 0]);
    a.expect(0, &[16, 0, 1]);
    a.expect(0, &[2, 0]);
    a.expect(13, &[2, 1]);
    a.note("idle is one number, and a VM's only in 15 and 16");
    for port in 0..PORT_COUNT {
        a.expect(0, &[15, port, IDLE]);
        a.expect(0, &[16, port, IDLE]);
        a.expect(2, &[15, port, IDLE - 1]);
        a.expect(2, &[16, port, IDLE + 1]);
    }
    a.expect(2, &[1, IDLE]);
    a.expect(2, &[15, IDLE, IDLE]);
    a.expect(0, &[2, 1]);
}

fn pages(a: &mut Author) {
    open(a, 8, 7, 1, &[[1, 16, 0, 3, 3, 2]]);
    a.expect(4, &[3, 1, 0]);
    a.expect(4, &[4, 1, 0]);
    add(a, &[1, 2, 3]);
    a.expect(6, &[3, 1, 7]);
    a.expect(0, &[3, 1, 6]);
    a.expect(6, &[3, 1, 6]);
    a.expect(6, &[3, 2, 6]);
    a.expect(6, &[4, 2, 6]);
    a.expect(6, &[4, 1, 5]);
    a.expect(6, &[4, 1, 7]);
    a.expect(0, &[13, 1, 16, 0, 3, 3]);
    a.note("a DMA page lies in the pool: its own VM may have it, another not");
    a.expect(7, &[3, 2, 0]);
    a.expect(0, &[3, 1, 0]);
    a.expect(6, &[3, 2, 0]);
    a.note("11 by a mapping, by an edge, by both, then neither");
    a.expect(0, &[7, 1, 5, 6, 7]);
    a.expect(11, &[4, 1, 6]);
    a.expect(0, &[5, 1, 2, 6]);
    a.expect(11, &[4, 1, 6]);
    a.expect(0, &[9, 1, 5]);
    a.expect(11, &[4, 1, 6]);
    a.expect(0, &[6, 1, 2, 6]);
    a.expect(0, &[4, 1, 6]);
    a.expect(6, &[4, 1, 6]);
    a.note("a DMA mapping does not keep a page from being reclaimed");
    a.expect(0, &[4, 1, 0]);
    a.free();
}

fn sharing(a: &mut Author) {
    open(a, 8, 7, 1, &[]);
    add(a, &[1, 2, 3]);
    a.expect(0, &[3, 1, 0]);
    a.expect(0, &[3, 2, 1]);
    for operation in [5, 6] {
        a.expect(4, &[operation, 9, 1, 0]);
        a.expect(4, &[operation, 1, 9, 0]);
        a.expect(4, &[operation, 9, 9, 0]);
        a.expect(12, &[operation, 1, 1, 0]);
    }
    a.note("12 comes before 6");
    a.expect(12, &[5, 1, 1, 5]);
    a.expect(6, &[5, 1, 2, 5]);
    a.expect(6, &[5, 1, 2, 7]);
    a.expect(6, &[5, 2, 1, 0]);
    a.expect(12, &[6, 1, 2, 0]);
    a.expect(0, &[5, 1, 2, 0]);
    a.expect(0, &[5, 1, 2, 0]);
    a.expect(6, &[5, 2, 1, 0]);
    a.expect(0, &[5, 1, 3, 0]);
    a.expect(0, &[5, 2, 1, 1]);
    a.note("a pair gives nothing to a third VM");
    a.expect(6, &[7, 3, 8, 1, 3]);
    a.expect(12, &[6, 2, 3, 0]);
    a.expect(0, &[7, 1, 8, 0, 3]);
    a.expect(0, &[7, 2, 8, 0, 3]);
    a.expect(11, &[6, 1, 2, 0]);
    a.expect(11, &[6, 2, 1, 0]);
    a.note("another borrower's mapping does not count, nor the owner's");
    a.expect(0, &[6, 1, 3, 0]);
    a.expect(12, &[6, 3, 1, 0]);
    a.expect(0, &[9, 2, 8]);
    a.expect(0, &[6, 2, 1, 0]);
    a.expect(6, &[7, 2, 8, 0, 3]);
    a.expect(0, &[6, 1, 2, 1]);
}

fn pairs_full(a: &mut Author) {
    open(a, 12, 12, 0, &[]);
    for vm in 0..VMS {
        a.expect(0, &[1, vm]);
    }
    for page in 0..10 {
        a.expect(0, &[3, page, page]);
    }
    let all = (0..9).flat_map(|page| (0..VMS).map(move |vm| (page, vm)));
    for (page, vm) in all.filter(|(page, vm)| page != vm).take(PAIRS) {
        a.expect(0, &[5, page, vm, page]);
    }
    a.note("no more pairs, but a stored one may be shared again");
    a.expect(14, &[5, 9, 1, 9]);
    a.expect(0, &[5, 0, 1, 0]);
    a.expect(0, &[5, 3, 2, 3]);
    a.expect(6, &[5, 1, 0, 0]);
    a.expect(6, &[5, 9, 1, 8]);
    a.expect(12, &[5, 9, 9, 9]);
    a.expect(0, &[6, 2, 3, 3]);
    a.expect(0, &[5, 9, 1, 9]);
    a.expect(14, &[5, 3, 2, 3]);
    a.note("VM 0 retired leaves the room of its 15 pairs and of 8 by which others lent to it");
    a.expect_drops(0, &[27, 0]);
    a.expect(0, &[3, 9, 10]);
    let room = [2, 3, 4, 5, 6, 7, 8, 10, 11, 12, 13, 14, 15].map(|vm| (vm, 9));
    let more = [1, 2, 3, 4, 5, 6, 7, 8, 10, 11].map(|vm| (vm, 10));
    for (vm, page) in room.into_iter().chain(more) {
        a.expect(0, &[5, 9, vm, page]);
    }
    a.expect(14, &[5, 9, 12, 10]);
}

fn cpu_maps(a: &mut Author) {
    open(a, 8, 7, 1, &[[1, 16, 3, 1, 3, 2]]);
    for operation in [7, 9] {
        a.expect(4, &[operation, 1, 5]);
    }
    add(a, &[1, 2]);
    a.expect(9, &[9, 1, 5]);
    a.expect(6, &[7, 1, 5, 0, 7]);
    a.expect(6, &[7, 1, 5, 7, 7]);
    a.expect(0, &[13, 1, 16, 3, 1, 3]);
    a.expect(6, &[7, 1, 5, 3, 7]);
    a.expect(0, &[3, 1, 0]);
    a.expect(6, &[7, 2, 5, 0, 7]);
    a.expect(0, &[7, 1, GUESTS - 1, 0, 7, GENERATIONS - 1]);
    a.expect(0, &[7, 1, 0, 0, 0, 0]);
    a.expect(0, &[5, 1, 2, 0]);
    a.expect(0, &[7, 2, 5, 0, 7, 1]);
    a.expect(0, &[7, 2, 5, 0, 7, 2]);
    a.expect(9, &[9, 1, 5]);
    a.expect(9, &[9, 2, 6]);
    a.expect(0, &[9, 2, 5]);
    a.expect(9, &[9, 2, 5]);
    a.note("software and device maps are apart");
    a.expect(9, &[10, 1, 0]);
    a.expect(0, &[9, 1, GUESTS - 1]);
}

fn dma_maps(a: &mut Author) {
    open(a, 8, 7, 1, &[[1, 16, 0, 2, 3, 3]]);
    for operation in [8, 10] {
        a.expect(4, &[operation, 1, 5]);
    }
    add(a, &[1, 2]);
    a.expect(9, &[10, 1, 5]);
    a.expect(6, &[8, 1, 5, 0, 7]);
    a.expect(0, &[3, 1, 3]);
    a.expect(0, &[3, 2, 4]);
    a.note("owning a page, or borrowing it, gives no DMA");
    a.expect(0, &[5, 2, 1, 4]);
    a.expect(6, &[8, 1, 5, 3, 7]);
    a.expect(6, &[8, 1, 5, 4, 7]);
    a.expect(0, &[13, 1, 16, 0, 2, 3]);
    a.expect(6, &[8, 2, 5, 0, 7]);
    a.expect(0, &[8, 1, 5, 0, 7, 9]);
    a.expect(0, &[8, 1, 5, 1, 1, GENERATIONS - 1]);
    a.expect(0, &[8, 2, 5, 7, 3]);
    a.expect(9, &[9, 2, 5]);
    a.expect(0, &[10, 1, 5]);
    a.expect(9, &[10, 1, 5]);
    a.expect(0, &[10, 2, 5]);
}

/// Both maps to their brim, one entry at a time.
fn maps_full(a: &mut Author) {
    open(a, 8, 7, 1, &[[1, 60_000, 1, 2, 3, 1], [1, 60_000, 2, 1, 3, 2]]);
    add(a, &[1, 2]);
    a.expect(0, &[3, 1, 0]);
    a.expect(0, &[5, 1, 2, 0]);
    let apart = GUESTS / ENTRY_COUNT;
    for (map, unmap, page) in [(7, 9, 0), (8, 10, 7)] {
        for entry in 0..ENTRY_COUNT {
            a.expect(0, &[map, 1 + entry % 2, entry * apart, page, 3, entry]);
        }
        a.expect(14, &[map, 1, 1, page, 3]);
        a.expect(14, &[map, 2, 0, page, 3]);
        a.note("6 comes before 14, and a replacement needs no free entry");
        a.expect(6, &[map, 1, 1, 5, 3]);
        a.expect(0, &[map, 1, 0, page, 1, 5]);
        a.expect(0, &[map, 2, (ENTRY_COUNT - 1) * apart, page, 5, 0]);
        a.note("an emptied entry counts as free");
        a.expect(0, &[unmap, 2, apart]);
        a.expect(0, &[map, 1, 1, page, 3]);
        a.expect(14, &[map, 2, apart, page, 3]);
        a.expect(0, &[unmap, 1, 1]);
    }
    a.note("one entry free in each map: two do not fit, one does");
    a.expect(14, &[11, 1, 60_000, 1, 2, 3]);
    a.expect(0, &[13, 1, 60_000, 2, 1, 3]);
    a.expect(14, &[8, 1, 1, 7, 1]);
    a.note("VM 1 retired takes all CPU entries, and of DMA its own");
    a.expect(0, &[7, 1, 1, 0, 3]);
    a.expect_drops(0, &[27, 1]);
    a.expect(9, &[9, 2, (ENTRY_COUNT - 1) * apart]);
    a.expect(0, &[10, 2, (ENTRY_COUNT - 1) * apart]);
    add(a, &[1]);
    a.expect(9, &[9, 1, 0]);
    a.expect(9, &[10, 1, 0]);
    a.expect(0, &[8, 1, 0, 7, 3]);
}

/// Refusals 3, 4 and 8 of all four region operations.
fn region_units(a: &mut Author) {
    let units = [[1, 16, 0, 3, 3, 3], [1, 32, 4, 2, 3, 1], [1, 32, 4, 2, 5, 2], [4, 8, 3, 1, 7, 3]];
    open(a, 8, 7, 1, &units);
    for operation in 11..=14 {
        a.note("3 comes before 4, and 4 before 8");
        a.expect(3, &[operation, 1, 16, 0, 0, 3]);
        a.expect(4, &[operation, 1, 16, 0, 3, 3]);
        a.expect(4, &[operation, 1, 17, 0, 3, 3]);
    }
    add(a, &[1, 2]);
    for operation in 11..=14 {
        bad_regions(a, operation);
    }
    a.note("a unit's mark must suit");
    a.expect(8, &[13, 1, 32, 4, 2, 3]);
    a.expect(8, &[14, 1, 32, 4, 2, 3]);
    a.expect(8, &[11, 1, 32, 4, 2, 5]);
    a.expect(8, &[12, 1, 32, 4, 2, 5]);
    a.expect(0, &[11, 1, 32, 4, 2, 3]);
    a.expect(0, &[13, 1, 32, 4, 2, 5]);
}

/// Spans that do not fit, and regions of which no unit has all five fields.
fn bad_regions(a: &mut Author, operation: u64) {
    let spans = [
        [GUESTS - 2, 0, 3],
        [GUESTS, 0, 1],
        [HUGE, 0, 1],
        [HUGE - 1, 0, 3],
        [16, 6, 3],
        [16, 8, 1],
        [16, HUGE, 1],
        [16, HUGE, 2],
        [16, 0, HUGE],
        [16, 1, HUGE],
        [1, 0, GUESTS],
    ];
    for [guest, page, count] in spans {
        a.expect(3, &[operation, 1, guest, page, count, 3]);
    }
    let strangers = [
        [2, 16, 0, 3, 3],
        [1, 17, 0, 3, 3],
        [1, 16, 1, 3, 3],
        [1, 16, 0, 2, 3],
        [1, 16, 0, 3, 1],
        [1, 16, 6, 2, 3],
        [1, GUESTS - 2, 6, 2, 3],
    ];
    for [vm, guest, page, count, access] in strangers {
        a.expect(8, &[operation, vm, guest, page, count, access]);
    }
    a.expect(4, &[operation, 4, 8, 3, 1, 7]);
}

fn cpu_regions(a: &mut Author) {
    let units = [[1, 16, 0, 3, 3, 3], [2, 16, 1, 3, 3, 3], [1, 40, 5, 3, 7, 1], [3, 0, 2, 1, 3, 2]];
    open(a, 8, 7, 1, &units);
    let (first, second) = ([11, 1, 16, 0, 3, 3], [11, 2, 16, 1, 3, 3]);
    add(a, &[1, 2, 3]);
    a.expect_at(6, 0, &[12, 1, 16, 0, 3, 3]);
    a.expect_at(6, 2, &[11, 1, 40, 5, 3, 7]);
    a.expect(0, &[3, 2, 1]);
    a.expect_at(6, 1, &first);
    a.expect(0, &[4, 2, 1]);
    a.note("6 is sought in the whole region before 10, and 10 before 7");
    a.expect(0, &[3, 1, 6]);
    a.expect(0, &[7, 1, 16, 6, 1]);
    a.expect(0, &[7, 1, 17, 6, 1]);
    a.expect(0, &[3, 2, 2]);
    a.expect_at(6, 2, &first);
    a.expect(0, &[4, 2, 2]);
    a.expect_at(10, 0, &first);
    a.expect(0, &[9, 1, 16]);
    a.expect_at(10, 1, &first);
    a.expect(0, &[13, 3, 0, 2, 1, 3]);
    a.expect_at(10, 1, &first);
    a.expect(0, &[9, 1, 17]);
    a.expect_at(7, 2, &first);
    a.expect_at(7, 1, &second);
    a.expect(0, &[14, 3, 0, 2, 1, 3]);
    a.expect(0, &[13, 1, 16, 0, 3, 3]);
    a.expect_at(7, 0, &second);
    a.expect(0, &first);
    a.expect_at(6, 0, &first);
    a.expect(0, &[14, 1, 16, 0, 3, 3]);
    remove_cpu_region(a);
}

/// The refusals of operation 12, with U1 of VM 1 in at guest 16, pages 0 to 2.
fn remove_cpu_region(a: &mut Author) {
    let remove = [12, 1, 16, 0, 3, 3];
    a.note("9: absent, or another page, access or generation");
    a.expect(0, &[9, 1, 18]);
    a.expect_at(9, 2, &remove);
    for entry in [[1, 3, 0], [2, 7, 0], [2, 3, 1]] {
        a.expect(0, &[7, 1, 18, entry[0], entry[1], entry[2]]);
        a.expect_at(9, 2, &remove);
    }
    a.expect(0, &[7, 1, 16, 0, 1]);
    a.expect_at(9, 0, &remove);
    a.note("6 is sought in the whole region before 9");
    a.expect(0, &[9, 1, 17]);
    a.expect(0, &[4, 1, 1]);
    a.expect_at(6, 1, &remove);
    a.expect(0, &[3, 1, 1]);
    a.expect_at(9, 0, &remove);
    for index in 0..3 {
        a.expect(0, &[7, 1, 16 + index, index, 3]);
    }
    a.note("11: another mapping, of its own or a borrower, or an edge");
    a.expect(0, &[7, 1, 100, 2, 1]);
    a.expect_at(11, 2, &remove);
    a.expect(0, &[5, 1, 2, 1]);
    a.expect_at(11, 1, &remove);
    a.expect(0, &[7, 2, 16, 1, 3]);
    a.expect_at(11, 1, &remove);
    a.expect(0, &[9, 2, 16]);
    a.expect(0, &[6, 1, 2, 1]);
    a.expect_at(11, 2, &remove);
    a.expect(0, &[9, 1, 100]);
    a.expect(0, &remove);
    a.expect_at(6, 0, &remove);
    a.free();
}

fn dma_regions(a: &mut Author) {
    let units = [
        [1, 16, 0, 3, 3, 3],
        [2, 16, 2, 3, 3, 3],
        [1, 40, 5, 3, 7, 2],
        [1, 60, 1, 1, 3, 2],
        [3, 0, 4, 1, 3, 2],
    ];
    open(a, 8, 7, 1, &units);
    let (first, second, span) = ([13, 1, 16, 0, 3, 3], [13, 2, 16, 2, 3, 3], [13, 1, 40, 5, 3, 7]);
    add(a, &[1, 2, 3]);
    a.expect_at(6, 0, &[14, 1, 16, 0, 3, 3]);
    a.note("7: the shared span, another VM's CPU page, another VM's DMA page");
    a.expect_at(7, 2, &span);
    a.expect(0, &[3, 2, 1]);
    a.expect_at(7, 1, &first);
    a.note("10 comes before 7, each sought in the whole region");
    a.expect(0, &[8, 1, 18, 7, 3]);
    a.expect_at(10, 2, &first);
    a.expect(0, &[8, 1, 16, 7, 3]);
    a.expect_at(10, 0, &first);
    a.expect(0, &[10, 1, 16]);
    a.expect(0, &[10, 1, 18]);
    a.expect_at(7, 1, &first);
    a.expect(0, &[4, 2, 1]);
    a.expect(0, &[3, 1, 1]);
    a.expect(0, &first);
    a.expect_at(10, 0, &first);
    a.expect_at(7, 0, &second);
    a.expect(0, &[13, 3, 0, 4, 1, 3]);
    a.note("a page may be granted twice to its own VM");
    a.expect(0, &[13, 1, 60, 1, 1, 3]);
    remove_dma_region(a);
    a.expect_at(7, 2, &second);
    a.expect(0, &[14, 3, 0, 4, 1, 3]);
    a.expect(0, &second);
    a.free();
}

/// The refusals of operation 14, with VM 1 holding pages 0 to 2 at guest 16,
/// and page 1 at guest 60 besides.
fn remove_dma_region(a: &mut Author) {
    let remove = [14, 1, 16, 0, 3, 3];
    a.expect_at(11, 1, &remove);
    a.note("9: absent, or another page, access or generation; it comes before 11");
    a.expect(0, &[10, 1, 18]);
    a.expect_at(9, 2, &remove);
    for entry in [[1, 3, 0], [2, 7, 0], [2, 3, 1]] {
        a.expect(0, &[8, 1, 18, entry[0], entry[1], entry[2]]);
        a.expect_at(9, 2, &remove);
    }
    a.expect(0, &[8, 1, 16, 0, 1]);
    a.expect_at(9, 0, &remove);
    a.note("6 is sought in the whole region before 9");
    a.expect_at(11, 0, &[14, 1, 60, 1, 1, 3]);
    a.expect(0, &[10, 1, 17]);
    a.expect(0, &[14, 1, 60, 1, 1, 3]);
    a.expect_at(6, 1, &remove);
    a.expect(0, &[13, 1, 60, 1, 1, 3]);
    for index in 0..3 {
        a.expect(0, &[8, 1, 16 + index, index, 3]);
    }
    a.expect_at(11, 1, &remove);
    a.note("an edge and a CPU mapping do not keep DMA pages");
    a.expect(0, &[5, 1, 2, 1]);
    a.expect(0, &[7, 2, 16, 1, 3]);
    a.expect(0, &[10, 1, 60]);
    a.expect(0, &remove);
    a.expect_at(6, 0, &remove);
}

/// Regions against the free entries of each map.
fn regions_full(a: &mut Author) {
    // A hundred entries short of the brim.
    let most = ENTRY_COUNT - 100;
    let units = [
        [1, 0, 0, most, 3, 3],
        [1, 2000, 500, 100, 3, 3],
        [2, 2000, 700, 101, 3, 3],
        [1, 0, 0, ENTRY_COUNT, 3, 3],
        [1, 0, 0, ENTRY_COUNT + 1, 3, 3],
        [1, 0, 0, PAGES, 3, 3],
        [2, 0, PAGES - 1, 1, 3, 3],
    ];
    for (insert, remove) in [(11, 12), (13, 14)] {
        open(a, PAGES, 0, 0, &units);
        add(a, &[1, 2]);
        a.expect(14, &[insert, 1, 0, 0, ENTRY_COUNT + 1, 3]);
        a.expect(14, &[insert, 1, 0, 0, PAGES, 3]);
        a.expect(0, &[insert, 1, 0, 0, ENTRY_COUNT, 3]);
        a.expect(14, &[insert, 2, 0, PAGES - 1, 1, 3]);
        a.expect(0, &[remove, 1, 0, 0, ENTRY_COUNT, 3]);
        a.expect(0, &[insert, 1, 0, 0, most, 3]);
        a.expect(14, &[insert, 2, 2000, 700, 101, 3]);
        a.expect(0, &[insert, 1, 2000, 500, 100, 3]);
        a.expect(14, &[insert, 2, 2000, 700, 101, 3]);
        a.note("the index of a late clash");
        let late = if insert == 11 { 6 } else { 10 };
        a.expect_at(late, 0, &[insert, 1, 0, 0, PAGES, 3]);
        a.free();
        a.expect(0, &[remove, 1, 0, 0, most, 3]);
        a.expect_at(late, if insert == 11 { 500 } else { 0 }, &late_region(insert));
        a.expect(0, &[insert, 2, 2000, 700, 101, 3]);
        a.expect_at(6, 0, &[remove, 1, 0, 0, most, 3]);
        a.free();
        retired_room(a, insert, most);
    }
}

/// Of VM 1 a hundred entries are in, of VM 2 one more; each retired leaves the
/// room of its own.
fn retired_room(a: &mut Author, insert: u64, most: u64) {
    a.expect(0, &[27, 1]);
    add(a, &[1]);
    a.expect(14, &[insert, 1, 0, 0, most, 3]);
    a.expect(0, &[27, 2]);
    free(a, PAGES, Some(0));
    a.expect(0, &[insert, 1, 0, 0, most, 3]);
    a.expect(0, &[insert, 1, 2000, 500, 100, 3]);
}

/// For CPU the whole box, whose page 500 is taken; for DMA a region still in.
fn late_region(insert: u64) -> [u64; 6] {
    if insert == 11 {
        [11, 1, 0, 0, PAGES, 3]
    } else {
        [13, 1, 2000, 500, 100, 3]
    }
}

/// The numbers of one side's operations.
struct Numbers {
    map: u64,
    unmap: u64,
    insert: u64,
    remove: u64,
    run: u64,
    fill: u64,
    empty: u64,
    read: u64,
    write: u64,
}

const CPU: Numbers = Numbers {
    map: 7,
    unmap: 9,
    insert: 11,
    remove: 12,
    run: 15,
    fill: 17,
    empty: 19,
    read: 21,
    write: 23,
};
const DMA: Numbers = Numbers {
    map: 8,
    unmap: 10,
    insert: 13,
    remove: 14,
    run: 16,
    fill: 18,
    empty: 20,
    read: 22,
    write: 24,
};

/// Fills more than the slots hold; the unmaps at the end tell which keys were still held.
fn caches(a: &mut Author) {
    open(a, 8, 7, 1, &[]);
    add(a, &[1]);
    a.expect(0, &[3, 1, 0]);
    for (side, page) in [(CPU, 0), (DMA, 7)] {
        for guest in 0..SLOT_COUNT + 16 {
            a.expect(0, &[side.map, 1, guest, page, 3, guest]);
        }
        for port in 0..PORT_COUNT {
            a.expect(0, &[side.run, port, 1]);
        }
        a.expect(0, &[side.empty, SLOT_COUNT - 1]);
        for guest in 0..SLOT_COUNT {
            a.expect(0, &[side.fill, 0, guest]);
        }
        a.expect(0, &[side.fill, 0, 5]);
        a.note("the hand goes from 0 round to 6");
        for guest in 0..SLOT_COUNT + 6 {
            a.expect(0, &[side.fill, 7, guest]);
        }
        a.note("emptied slots go first, the lowest of them, and the hand waits");
        for slot in [40, 3, 3, 50] {
            a.expect(0, &[side.empty, slot]);
        }
        a.expect(0, &[side.fill, 7, 60]);
        for guest in SLOT_COUNT + 6..SLOT_COUNT + 11 {
            a.expect(0, &[side.fill, 6, guest]);
        }
        show_slots(a, &side);
    }
}

/// The five guests from `late` on went into slots 3, 40, 50 and then to the
/// hand at 6 and 7: once its slot is emptied by number, an unmap drops nothing.
fn show_slots(a: &mut Author, side: &Numbers) {
    let (late, end) = (SLOT_COUNT + 6, SLOT_COUNT + 16);
    a.expect(9, &[side.fill, 6, end]);
    for (slot, guest) in [(3, late), (40, late + 1), (50, late + 2), (6, late + 3)] {
        a.expect(0, &[side.empty, slot]);
        a.expect_drops(0, &[side.unmap, 1, guest]);
    }
    a.expect_drops(1, &[side.unmap, 1, late + 4]);
    a.note("the lowest empty slot is taken also where the one at the hand is empty");
    for slot in [8, 2] {
        a.expect(0, &[side.empty, slot]);
    }
    a.expect(0, &[side.fill, 5, late + 5]);
    a.expect(0, &[side.empty, 2]);
    a.expect_drops(0, &[side.unmap, 1, late + 5]);
    a.note("what the hand did not take is still there");
    for guest in (0..late).chain(late + 6..end).rev() {
        a.expect(0, &[side.unmap, 1, guest]);
    }
    a.expect(9, &[side.fill, 0, 0]);
    for port in 0..PORT_COUNT {
        a.expect(0, &[side.run, port, IDLE]);
        a.expect(15, &[side.fill, port, 0]);
    }
}

/// Slots dropped by maps, unmaps and region removal, on all ports, of one VM.
fn drops(a: &mut Author) {
    for (side, other) in [(CPU, DMA), (DMA, CPU)] {
        open(a, 8, 7, 1, &[[1, 16, 0, 3, 3, 3], [2, 16, 3, 3, 3, 3]]);
        add(a, &[1, 2]);
        let (own, more) = ([side.map, 1, 16, 0, 3], [side.unmap, 1, 16]);
        let fills = |a: &mut Author, keys: &[[u64; 2]]| {
            for &[port, guest] in keys {
                a.expect(0, &[side.fill, port, guest]);
            }
        };
        two_regions(a, &side);
        two_regions(a, &other);
        a.expect(0, &[other.fill, 0, 16]);
        a.expect_drops(0, &own);
        fills(a, &[[0, 16], [0, 17]]);
        a.expect_drops(1, &own);
        fills(a, &[[0, 16], [1, 16], [2, 16]]);
        a.note("a slot stays when its port goes elsewhere, and counts");
        a.expect(0, &[side.run, 2, 2]);
        a.expect_drops(3, &own);
        a.expect(0, &[side.run, 2, 1]);
        fills(a, &[[1, 16]]);
        a.expect_drops(1, &more);
        a.expect_drops(0, &own);
        fills(a, &[[1, 16], [2, 16]]);
        a.expect_drops(2, &more);
        a.expect_drops(0, &own);
        a.expect_drops(1, &[side.remove, 1, 16, 0, 3, 3]);
        a.expect_drops(0, &[side.insert, 1, 16, 0, 3, 3]);
        fills(a, &[[0, 16], [1, 17], [2, 18], [0, 18]]);
        a.expect_drops(4, &[side.remove, 1, 16, 0, 3, 3]);
        a.note("neither the other VM's slot nor the other side's went");
        a.expect_drops(1, &[side.unmap, 2, 16]);
        a.expect_drops(1, &[other.unmap, 1, 16]);
        a.expect_drops(1, &[other.remove, 2, 16, 3, 3, 3]);
    }
}

/// Regions of VMs 1 and 2 at guest 16, ports 0 to 2 on VM 1, port 3 on VM 2
/// with one slot filled.
fn two_regions(a: &mut Author, side: &Numbers) {
    a.expect(0, &[side.insert, 1, 16, 0, 3, 3]);
    a.expect(0, &[side.insert, 2, 16, 3, 3, 3]);
    for (port, vm) in [(0, 1), (1, 1), (2, 1), (3, 2)] {
        a.expect(0, &[side.run, port, vm]);
    }
    a.expect(0, &[side.fill, 3, 16]);
}

fn accesses(a: &mut Author) {
    for side in [CPU, DMA] {
        open(a, 8, 7, 1, &[[1, 16, 0, 3, 7, 3], [2, 16, 3, 1, 3, 3]]);
        add(a, &[1, 2]);
        for operation in [side.fill, side.read, side.write] {
            a.note("15 comes before 9");
            a.expect(15, &[operation, 7, 16]);
        }
        a.expect(0, &[side.run, 7, 1]);
        a.expect(0, &[side.insert, 2, 16, 3, 1, 3]);
        for operation in [side.fill, side.read, side.write] {
            a.expect(9, &[operation, 7, 16]);
            a.expect(9, &[operation, 7, GUESTS - 1]);
        }
        a.expect(0, &[side.insert, 1, 16, 0, 3, 7]);
        a.expect_word(0, &[side.read, 7, 16, 0]);
        a.expect(0, &[side.write, 7, 18, LAST_WORD, HUGE]);
        a.expect(0, &[side.fill, 7, 18]);
        a.expect_word(HUGE, &[side.read, 7, 18, LAST_WORD]);
        a.expect(0, &[side.write, 7, 18, LAST_WORD, 1 << 63]);
        a.expect_word(1 << 63, &[side.read, 7, 18, LAST_WORD]);
        a.expect_word(0, &[side.read, 7, 18, LAST_WORD - 1]);
        a.expect(2, &[side.read, 7, 18, WORDS]);
        a.expect(2, &[side.write, 7, 18, WORDS, 1]);
        access_bits(a, &side);
    }
    a.note("devices of two VMs meet on the shared span");
    a.expect(0, &[8, 1, 30, 7, 3]);
    a.expect(0, &[8, 2, 31, 7, 1]);
    a.expect(0, &[24, 7, 30, 9, 77]);
    a.expect(0, &[16, 0, 2]);
    a.expect_word(77, &[22, 0, 31, 9]);
    a.expect(16, &[24, 0, 31, 9, 78]);
}

/// Read needs bit 1 and write bit 2, by the walker and then by a slot.
fn access_bits(a: &mut Author, side: &Numbers) {
    let answers = [(16, 16), (0, 16), (16, 0), (0, 0), (16, 16), (0, 16), (16, 0), (0, 0)];
    for (access, (read, write)) in (0..ACCESSES).zip(answers) {
        a.expect(0, &[side.map, 1, 16, 0, access, 3]);
        for _ in 0..2 {
            a.expect(read, &[side.read, 7, 16, LAST_WORD]);
            a.expect(write, &[side.write, 7, 16, LAST_WORD, access]);
            a.expect(0, &[side.fill, 7, 16]);
        }
    }
}

/// A page is cleared when its VM's last claim ends, and not before.
fn clearing(a: &mut Author) {
    open(a, 8, 7, 1, &[[1, 16, 0, 3, 3, 3], [1, 40, 4, 1, 3, 2]]);
    add(a, &[1, 2]);
    a.expect(0, &[15, 0, 1]);
    a.expect(0, &[16, 0, 1]);
    let region = |operation| [operation, 1, 16, 0, 3, 3];
    a.note("CPU goes first: the words stay for DMA until that goes too");
    a.expect(0, &region(11));
    a.expect(0, &region(13));
    a.expect(0, &[23, 0, 16, 0, 11]);
    a.expect(0, &[23, 0, 18, LAST_WORD, 22]);
    a.expect(0, &region(12));
    a.expect_word(11, &[22, 0, 16, 0]);
    a.expect_word(22, &[22, 0, 18, LAST_WORD]);
    a.expect(0, &region(11));
    a.expect_word(11, &[21, 0, 16, 0]);
    a.expect(0, &region(12));
    a.expect(0, &region(14));
    a.expect(0, &region(11));
    a.expect_word(0, &[21, 0, 16, 0]);
    a.expect_word(0, &[21, 0, 18, LAST_WORD]);
    a.note("DMA goes first");
    a.expect(0, &[23, 0, 17, 7, 33]);
    a.expect(0, &region(13));
    a.expect(0, &region(14));
    a.expect_word(33, &[21, 0, 17, 7]);
    a.expect(0, &region(12));
    a.expect(0, &region(11));
    a.expect_word(0, &[21, 0, 17, 7]);
    clearing_by_reclaim(a);
}

/// Page 4 by reclaim, with and without a DMA claim; pages 3 and 5 stay.
fn clearing_by_reclaim(a: &mut Author) {
    for page in 3..6 {
        a.expect(0, &[3, 1, page]);
        a.expect(0, &[7, 1, 100 + page, page, 3]);
        a.expect(0, &[23, 0, 100 + page, LAST_WORD, 40 + page]);
        a.expect(0, &[23, 0, 100 + page, 0, 50 + page]);
    }
    a.expect(0, &[13, 1, 40, 4, 1, 3]);
    a.expect(0, &[9, 1, 104]);
    a.expect(0, &[4, 1, 4]);
    a.expect_word(54, &[22, 0, 40, 0]);
    a.expect(0, &[3, 1, 4]);
    a.expect(0, &[14, 1, 40, 4, 1, 3]);
    a.expect(0, &[5, 1, 2, 4]);
    a.expect(0, &[6, 1, 2, 4]);
    a.expect(0, &[7, 1, 104, 4, 3]);
    a.expect_word(54, &[21, 0, 104, 0]);
    a.expect(0, &[9, 1, 104]);
    a.expect(0, &[4, 1, 4]);
    a.expect(0, &[3, 2, 4]);
    a.expect(0, &[7, 2, 104, 4, 1]);
    a.expect(0, &[15, 1, 2]);
    a.expect_word(0, &[21, 1, 104, 0]);
    a.expect_word(0, &[21, 1, 104, LAST_WORD]);
    a.expect_word(43, &[21, 0, 103, LAST_WORD]);
    a.expect_word(55, &[21, 0, 105, 0]);
}

/// The pool has pages that are not free: those that a VM holds for DMA.
fn free_pages(a: &mut Author) {
    a.note("a pool page held for DMA is not counted, mapped or not, until its VM gives it up");
    open(a, 8, 7, 1, &[[1, 16, 4, 1, 3, 2]]);
    add(a, &[1, 2]);
    free(a, 7, Some(0));
    a.expect(0, &[13, 1, 16, 4, 1, 3]);
    free(a, 6, Some(0));
    a.expect(7, &[3, 2, 4]);
    a.expect(0, &[10, 1, 16]);
    free(a, 6, Some(0));
    a.expect(0, &[8, 1, 16, 4, 3]);
    a.note("its own VM takes it and gives it back: not free before, between or after");
    a.expect(0, &[3, 1, 4]);
    free(a, 6, Some(0));
    a.expect(0, &[4, 1, 4]);
    free(a, 6, Some(0));
    a.expect(0, &[14, 1, 16, 4, 1, 3]);
    free(a, 7, Some(0));
    a.note("the lowest passes over pages held for DMA, and is one that can be assigned");
    for held in [3, 63, 64, 65] {
        open(a, 67, 66, 1, &[[1, 16, 0, held, 3, 3]]);
        add(a, &[1, 2]);
        for operation in [11, 13, 12] {
            a.expect(0, &[operation, 1, 16, 0, held, 3]);
        }
        free(a, 66 - held, Some(held));
        a.expect(7, &[3, 2, held - 1]);
        a.expect(0, &[3, 2, held]);
    }
    a.note("none is free though the pool has pages");
    open(a, 3, 2, 1, &[[1, 16, 0, 2, 3, 2]]);
    add(a, &[1, 2]);
    a.expect(0, &[13, 1, 16, 0, 2, 3]);
    free(a, 0, None);
    a.expect(7, &[3, 2, 0]);
    a.expect(0, &[3, 1, 0]);
    free(a, 0, None);
    a.expect(0, &[14, 1, 16, 0, 2, 3]);
    free(a, 1, Some(1));
}

/// The worked piece: a borrower's mapping goes, slots of both caches are
/// counted, and 13 holds until the device is idle.
fn retire(a: &mut Author) {
    open(a, 8, 7, 1, &[[1, 16, 0, 3, 3, 3], [2, 16, 2, 2, 3, 1]]);
    add(a, &[1, 2]);
    a.expect(0, &[11, 1, 16, 0, 3, 3]);
    a.expect(0, &[13, 1, 16, 0, 3, 3]);
    a.expect(0, &[5, 1, 2, 0]);
    a.expect(0, &[7, 2, 40, 0, 1, 0]);
    a.expect(0, &[15, 0, 2]);
    a.expect(0, &[16, 3, 1]);
    a.expect(0, &[17, 0, 40]);
    a.expect(0, &[18, 3, 16]);
    a.expect(13, &[27, 1]);
    a.expect(0, &[16, 3, IDLE]);
    a.expect_drops(2, &[27, 1]);
    free(a, 7, Some(0));
    a.expect(9, &[21, 0, 40, 0]);
    a.expect(4, &[27, 1]);
    a.expect(0, &[1, 1]);
}

/// Each refusal of operation 27 by each of its reasons.
fn retire_refused(a: &mut Author) {
    open(a, 8, 7, 1, &[]);
    a.note("2, then 4; numbers past the VM are ignored");
    for vm in [VMS, IDLE, IDLE + 1, HUGE] {
        a.expect(2, &[27, vm, 1]);
    }
    for vm in 0..VMS {
        a.expect(4, &[27, vm, HUGE]);
    }
    add(a, &[0, 1, 2, VMS - 1]);
    for vm in [0, VMS - 1] {
        a.expect_drops(0, &[27, vm, HUGE, HUGE, HUGE, HUGE, HUGE, HUGE]);
        a.expect(4, &[27, vm]);
        a.expect(2, &[27, vm + VMS]);
    }
    a.note("13 for each CPU and each device alone");
    for port in 0..PORT_COUNT {
        for side in [CPU, DMA] {
            a.expect(0, &[side.run, port, 1]);
            a.expect(13, &[27, 1]);
            a.expect(0, &[side.run, port, IDLE]);
        }
    }
    a.note("13 for both, then one; a port that goes to another VM lets go too");
    a.expect(0, &[15, 0, 1]);
    a.expect(0, &[16, 7, 1]);
    a.expect(13, &[27, 1]);
    a.expect(0, &[15, 0, IDLE]);
    a.expect(13, &[27, 1]);
    a.expect(0, &[16, 7, 2]);
    a.expect_drops(0, &[27, 1]);
    a.expect(4, &[27, 1]);
    a.expect(13, &[27, 2]);
    a.expect(4, &[15, 0, 1]);
    a.expect(4, &[16, 0, 1]);
}

/// VM 1 with nothing, or with one thing alone that would keep operation 2
/// away; added again, it has nothing.
fn retire_one(a: &mut Author) {
    open(a, 8, 7, 1, &[[1, 16, 0, 2, 3, 3]]);
    add(a, &[0, 2]);
    a.expect(0, &[3, 2, 5]);
    let things: [&[&[u64]]; 8] = [
        &[],
        &[&[3, 1, 6]],
        &[&[3, 1, 6], &[5, 1, 0, 6]],
        &[&[3, 1, 6], &[5, 1, 2, 6]],
        &[&[5, 2, 1, 5]],
        &[&[5, 2, 1, 5], &[7, 1, 9, 5, 3]],
        &[&[8, 1, 9, 7, 3]],
        &[&[13, 1, 16, 0, 2, 3], &[10, 1, 16], &[10, 1, 17]],
    ];
    for thing in things {
        add(a, &[1]);
        for row in thing {
            a.expect(0, row);
        }
        if !thing.is_empty() {
            a.expect(13, &[2, 1]);
        }
        a.expect_drops(0, &[27, 1]);
        free(a, 6, Some(0));
        add(a, &[1]);
        a.expect(0, &[2, 1]);
    }
    a.note("what VM 2 has was lent at most, and is still its own");
    a.expect(0, &[4, 2, 5]);
    a.expect(0, &[2, 2]);
}

/// VM 1 has something of every kind, and VMs 2 and 3 beside it.
fn retire_all(a: &mut Author) {
    open(a, 8, 7, 1, &[[1, 16, 0, 3, 3, 3], [1, 60, 4, 1, 3, 2], [2, 16, 3, 1, 3, 3]]);
    add(a, &[1, 2, 3]);
    three_vms(a);
    three_vms_at_work(a);
    free(a, 2, Some(5));
    a.expect(13, &[27, 1]);
    a.expect(0, &[15, 0, IDLE]);
    a.expect(13, &[27, 1]);
    a.expect(0, &[16, 0, IDLE]);
    a.note("four slots of the CPU cache, two of them borrowers', and two of the DMA cache");
    a.expect_drops(6, &[27, 1]);
    free(a, 6, Some(0));
    others_after_retire(a);
    a.note("the id is unknown; added again, it has nothing, and its units are there");
    a.expect(4, &[3, 1, 0]);
    a.expect(4, &[6, 1, 2, 1]);
    add(a, &[1]);
    a.expect(12, &[6, 1, 2, 1]);
    a.expect(12, &[6, 2, 1, 3]);
    a.expect(9, &[9, 1, 16]);
    a.expect(9, &[10, 1, 70]);
    a.expect(6, &[7, 1, 80, 3, 3]);
    a.expect(6, &[8, 1, 60, 4, 3]);
    a.expect(0, &[2, 1]);
    add(a, &[1]);
    a.expect(0, &[11, 1, 16, 0, 3, 3]);
    a.expect_drops(0, &[27, 1]);
    zeros_after_retire(a);
}

/// The pages, pairs and mappings of VM 1 and of two VMs beside it.
fn three_vms(a: &mut Author) {
    let rows: [&[u64]; 15] = [
        &[11, 1, 16, 0, 3, 3],
        &[13, 1, 16, 0, 3, 3],
        &[13, 1, 60, 4, 1, 3],
        &[11, 2, 16, 3, 1, 3],
        &[13, 2, 16, 3, 1, 3],
        &[5, 1, 2, 1],
        &[5, 1, 3, 1],
        &[5, 2, 1, 3],
        &[5, 2, 3, 3],
        &[7, 1, 80, 3, 3],
        &[7, 2, 90, 1, 3],
        &[7, 3, 91, 1, 3],
        &[7, 3, 92, 3, 1],
        &[8, 1, 70, 7, 3],
        &[8, 2, 70, 7, 1],
    ];
    for row in rows {
        a.expect(0, row);
    }
}

/// CPUs 0 to 2 on VMs 1 to 3, devices 0 and 1 on VMs 1 and 2; words in every
/// page that VM 1 has or reaches, and slots of all three.
fn three_vms_at_work(a: &mut Author) {
    for (run, port, vm) in [(15, 0, 1), (15, 1, 2), (15, 2, 3), (16, 0, 1), (16, 1, 2)] {
        a.expect(0, &[run, port, vm]);
    }
    let writes = [
        [23, 0, 16, 0, 11],
        [23, 2, 91, LAST_WORD, 22],
        [23, 0, 80, 5, 33],
        [24, 0, 60, 9, 44],
        [24, 0, 70, 1, 55],
        [24, 0, 18, 100, 66],
        [23, 1, 16, LAST_WORD, 77],
    ];
    for write in writes {
        a.expect(0, &write);
    }
    for (port, guest) in [(0, 16), (0, 80), (1, 90), (1, 16), (2, 91), (2, 92)] {
        a.expect(0, &[17, port, guest]);
    }
    for (port, guest) in [(0, 16), (0, 70), (1, 70), (1, 16)] {
        a.expect(0, &[18, port, guest]);
    }
}

/// Borrowers lost what they had of VM 1; all else of theirs is untouched.
fn others_after_retire(a: &mut Author) {
    for (port, vm, guest) in [(1, 2, 90), (2, 3, 91)] {
        a.expect(9, &[21, port, guest, LAST_WORD]);
        a.expect(9, &[23, port, guest, LAST_WORD, 1]);
        a.expect(9, &[17, port, guest]);
        a.expect(9, &[9, vm, guest]);
        a.expect(6, &[7, vm, guest, 1, 3]);
    }
    a.note("a page that was lent to VM 1 keeps its words, and so does the shared span");
    a.expect_word(33, &[21, 1, 16, 5]);
    a.expect_word(77, &[22, 1, 16, LAST_WORD]);
    a.expect_word(33, &[21, 2, 92, 5]);
    a.expect_word(55, &[22, 1, 70, 1]);
    a.expect(11, &[6, 2, 3, 3]);
    a.note("the slots of others stay");
    a.expect_drops(1, &[9, 3, 92]);
    a.expect_drops(1, &[9, 2, 16]);
    a.expect_drops(1, &[10, 2, 70]);
    a.expect_drops(1, &[10, 2, 16]);
    a.expect(0, &[6, 3, 2, 3]);
}

/// VM 3 takes the pages that VM 1 had and reads zeros where words were.
fn zeros_after_retire(a: &mut Author) {
    for (page, word) in [(0, 0), (1, LAST_WORD), (2, 100), (4, 9)] {
        a.expect(0, &[3, 3, page]);
        a.expect(0, &[7, 3, page, page, 1]);
        a.expect_word(0, &[21, 2, page, word]);
    }
    free(a, 2, Some(5));
}

/// Slots that VM 2 leaves are filled first, the lowest of them, and the hands
/// wait; all other slots stay where they are.
fn retire_caches(a: &mut Author) {
    open(a, 8, 7, 1, &[]);
    add(a, &[1]);
    a.expect(0, &[3, 1, 0]);
    for (side, pages) in [(CPU, [0, 1]), (DMA, [7, 7])] {
        add(a, &[2]);
        a.expect(0, &[3, 2, 1]);
        two_in_cache(a, &side, pages);
        a.expect(0, &[side.run, 1, IDLE]);
        a.expect_drops(6, &[27, 2]);
        for guest in SLOT_COUNT - 1..SLOT_COUNT + 6 {
            a.expect(0, &[side.fill, 0, guest]);
        }
        let late = SLOT_COUNT - 1;
        for (slot, guest) in [(10, late), (20, late + 1), (60, late + 2), (63, late + 5)] {
            a.expect(0, &[side.empty, slot]);
            a.expect_drops(0, &[side.unmap, 1, guest]);
        }
        a.note("the hand stood at 3, and its slot was taken last");
        a.expect_drops(0, &[side.unmap, 1, 3]);
        for (slot, guest) in [(3, late + 6), (4, 4), (59, 59)] {
            a.expect(0, &[side.empty, slot]);
            a.expect_drops(0, &[side.unmap, 1, guest]);
        }
        a.expect_drops(1, &[side.unmap, 1, 5]);
        a.expect(0, &[side.run, 0, IDLE]);
    }
    a.note("what is left goes with VM 1, in both caches");
    a.expect_drops(2 * (SLOT_COUNT - 8), &[27, 1]);
}

/// VM 1 fills slots 0 to 59 and VM 2 the last four, VM 1 the first three again
/// by the hand, and VM 2 slots 10 and 20 once they are empty.
fn two_in_cache(a: &mut Author, side: &Numbers, pages: [Page; 2]) {
    for guest in 0..SLOT_COUNT + 6 {
        a.expect(0, &[side.map, 1, guest, pages[0], 3]);
    }
    for guest in 0..6 {
        a.expect(0, &[side.map, 2, guest, pages[1], 3]);
    }
    a.expect(0, &[side.run, 0, 1]);
    a.expect(0, &[side.run, 1, 2]);
    let first = (0..60).map(|guest| (0, guest)).chain((0..4).map(|guest| (1, guest)));
    for (port, guest) in first.chain((60..63).map(|guest| (0, guest))) {
        a.expect(0, &[side.fill, port, guest]);
    }
    for (slot, guest) in [(10, 4), (20, 5)] {
        a.expect(0, &[side.empty, slot]);
        a.expect(0, &[side.fill, 1, guest]);
    }
}

/// Boxes of many sizes, above all those near whole 64-bit words of pages.
fn sizes(a: &mut Author) {
    let all = [
        1, 2, 3, 5, 31, 63, 64, 65, 100, 127, 128, 129, 191, 192, 193, 255, 256, 257, 319, 320,
        511, 512, 513, 700, 767, 960, 1000,
    ];
    for n in all.into_iter().chain([PAGES - 1, PAGES]) {
        let count = n.min(ENTRY_COUNT);
        open(a, n, n, 0, &[[1, 16, 0, count, 3, 3], [2, 0, n - 1, 1, 7, 3]]);
        add(a, &[1, 2]);
        a.free();
        a.expect(2, &[3, 2, n]);
        a.expect(0, &[3, 2, n - 1]);
        a.expect(0, &[7, 2, 9, n - 1, 7]);
        a.expect(0, &[15, 0, 2]);
        a.expect(0, &[23, 0, 9, LAST_WORD, n]);
        a.free();
        if count == n {
            a.expect_at(6, n - 1, &[11, 1, 16, 0, count, 3]);
        }
        a.expect_word(n, &[21, 0, 9, LAST_WORD]);
        a.expect(0, &[9, 2, 9]);
        a.expect(0, &[4, 2, n - 1]);
        for operation in [11, 13, 12, 14] {
            a.expect(0, &[operation, 1, 16, 0, count, 3]);
            a.free();
        }
        shared_middle(a, n);
    }
}

/// A shared span in the middle of a box, met by a region over the whole box.
fn shared_middle(a: &mut Author, n: u64) {
    let (base, length) = (n / 3, n.div_ceil(2));
    open(a, n, base, length, &[[1, 16, 0, n, 3, 3]]);
    add(a, &[1]);
    a.free();
    a.expect_at(6, base, &[11, 1, 16, 0, n, 3]);
    a.expect_at(7, base, &[13, 1, 16, 0, n, 3]);
    a.expect(0, &[8, 1, 0, base, 3]);
    a.expect(0, &[8, 1, 1, base + length - 1, 3]);
    a.expect(6, &[3, 1, base + length - 1]);
    if base > 0 {
        a.expect(0, &[3, 1, base - 1]);
        a.expect(6, &[8, 1, 0, base - 1, 3]);
        a.free();
    }
    if base + length < n {
        a.expect(6, &[8, 1, 0, base + length, 3]);
        a.expect(0, &[3, 1, base + length]);
    }
    a.free();
}
