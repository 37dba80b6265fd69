//! The rows by which each operation is timed, at three levels of the tables.

use std::ops::Range;

use face::Setup;
use tiligormis::*;

/// How full the tables are before the timed rows. At `Full` these rows take what is still empty.
#[derive(Clone, Copy, PartialEq, Eq)]
pub enum Level {
    Empty,
    Half,
    Full,
}

pub const LEVELS: [Level; 3] = [Level::Empty, Level::Half, Level::Full];

impl Level {
    /// Of each working VM: mappings on either side, pairs, and slots of either cache, where one more
    /// has so many.
    fn each(self, more: [u64; 3]) -> [u64; 3] {
        let (entries, pairs, slots) = (ENTRIES as u64, PAIRS as u64, SLOTS as u64);
        let all = match self {
            Level::Empty => [0, 0, 0],
            Level::Half => [entries / 2, pairs / 2, slots / 2],
            Level::Full => [entries - NEW, pairs * 3 / 4, slots],
        };
        std::array::from_fn(|k| (all[k] - more[k]) / WORKING)
    }
}

/// Rows that are timed as one sequence, and rows that undo them.
#[derive(Clone)]
pub struct Case {
    pub name: &'static str,
    /// How many rows make one figure: 2 where an operation and its inverse go by turns.
    pub rows_each: usize,
    /// Rows for this case alone, after those of the level.
    pub before: Vec<Row>,
    pub timed: Vec<Row>,
    pub undo: Vec<Row>,
}

/// A VM for each port works; the next has the regions and the new mappings; the last comes and goes.
const WORKING: u64 = PORTS as u64;
const NEWCOMER: u64 = WORKING;
const PASSING: u64 = VMS - 1;
/// Pages of each working VM, from page 0 on.
const OWNED: u64 = PAGES / 2 / WORKING;
/// Pages that nobody has.
const LOOSE: u64 = WORKING * OWNED;
const LOOSE_COUNT: u64 = PAGES / 4;
/// Pages of the units, and the shared span.
const UNIT_PAGES: u64 = LOOSE + LOOSE_COUNT;
const SHARED: u64 = PAGES - SHARED_COUNT;
const SHARED_COUNT: u64 = 16;
/// Four units of eight pages fill the maps at `Full`, and so do as many new mappings.
const REGIONS: u64 = 4;
const REGION: u64 = 8;
const NEW: u64 = REGIONS * REGION;
const READ_WRITE: u64 = READ + WRITE;
/// Guest pages of the newcomer: of its regions, and of its new mappings.
const REGION_GUESTS: u64 = 1000;
const NEW_GUESTS: u64 = 2000;
/// Rows of a batch, about.
const BATCH: usize = 480;

fn region(operation: u64, k: u64) -> Row {
    let from = k * REGION;
    row([operation, NEWCOMER, REGION_GUESTS + from, UNIT_PAGES + from, REGION, READ_WRITE])
}

/// All of PAGES, a shared span at their end, and the units that cases insert.
pub fn setup() -> Setup {
    let unit = |k| {
        let [_, vm, guest, page, count, access, ..] = region(INSERT_REGION, k);
        [vm, guest, page, count, access, MARK_BOTH]
    };
    Setup {
        pages: PAGES as usize,
        shared_base: SHARED as usize,
        shared_count: SHARED_COUNT as usize,
        units: (0..REGIONS).map(unit).collect(),
    }
}

/// The working VMs with their pages, each on a CPU and a device, and the newcomer.
fn working() -> Vec<Row> {
    let mut rows: Vec<Row> = (0..=NEWCOMER).map(|vm| row([ADD_VM, vm])).collect();
    for vm in 0..WORKING {
        rows.extend((0..OWNED).map(|k| row([ASSIGN_PAGE, vm, vm * OWNED + k])));
        rows.extend([row([SWITCH_CPU, vm, vm]), row([BIND_DEVICE, vm, vm])]);
    }
    rows
}

/// One working VM after the other for each place, so that keys of a VM are spread over the table.
fn in_turn<const ROWS: usize>(places: Range<u64>, make: fn(u64, u64) -> [Row; ROWS]) -> Vec<Row> {
    places.flat_map(|k| (0..WORKING).flat_map(move |vm| make(vm, k))).collect()
}

/// The working VMs, the tables filled to the level.
pub fn fill(level: Level) -> Vec<Row> {
    let [mappings, pairs, slots] = level.each([0; 3]);
    let tables = [in_turn(0..mappings, mapping), in_turn(0..pairs, lending)];
    [working(), tables.concat(), in_turn(0..slots, filling)].concat()
}

/// Guest page k of a VM, mapped for CPUs and for devices.
fn mapping(vm: u64, k: u64) -> [Row; 2] {
    let (own, shared) = (vm * OWNED + k % OWNED, SHARED + k % SHARED_COUNT);
    [row([CPU_MAP, vm, k, own, READ_WRITE, 0]), row([DMA_MAP, vm, k, shared, READ_WRITE, 0])]
}

/// Page k of a VM, shared with the next.
fn lending(vm: u64, k: u64) -> [Row; 1] {
    [row([SHARE_PAGE, vm, (vm + 1) % WORKING, vm * OWNED + k])]
}

/// Guest page k of the VM on a port, into a slot of either cache.
fn filling(port: u64, k: u64) -> [Row; 2] {
    [row([CPU_FILL, port, k]), row([DMA_FILL, port, k])]
}

/// What every mapped guest page of the level is named by, once each; at `Empty` there is one.
fn mapped(level: Level) -> Vec<(u64, u64)> {
    let guests = level.each([0; 3])[0].max(1);
    let vms = if level == Level::Empty { 1 } else { WORKING };
    (0..guests).flat_map(|k| (0..vms).map(move |vm| (vm, k))).collect()
}

/// As many rows as it takes to make a batch, in turn over what the level has mapped.
fn over_mapped(level: Level, make: impl Fn(u64, u64) -> Row) -> Vec<Row> {
    let keys = mapped(level);
    let times = BATCH.div_ceil(keys.len());
    let once: Vec<Row> = keys.into_iter().map(|(vm, k)| make(vm, k)).collect();
    once.repeat(times)
}

/// Rows that leave the state as it was, or as the first round of them left it.
fn steady(name: &'static str, timed: Vec<Row>) -> Case {
    Case { name, rows_each: 1, before: Vec::new(), timed, undo: Vec::new() }
}

/// Two rows, of which the second undoes the first, again and again.
fn by_turns(name: &'static str, rows: [Row; 2]) -> Case {
    Case { rows_each: 2, ..steady(name, rows.repeat(128)) }
}

/// An operation and its inverse, each timed with the other as its undoing.
fn pair(names: [&'static str; 2], before: &[Row], does: Vec<Row>, undoes: Vec<Row>) -> [Case; 2] {
    let (first, second) = (steady(names[0], does.clone()), steady(names[1], undoes.clone()));
    let done = [before, &does].concat();
    [
        Case { before: before.to_vec(), undo: undoes, ..first },
        Case { before: done, undo: does, ..second },
    ]
}

/// Operations 1 to 6.
fn ledger() -> Vec<Case> {
    let loose = |operation| (0..LOOSE_COUNT).map(|k| row([operation, 0, LOOSE + k])).collect();
    let lent = |operation, k| row([operation, 0, WORKING - 1, OWNED - 1 - k]);
    let all = |operation| (0..NEW).map(|k| lent(operation, k)).collect();
    let vms = [row([ADD_VM, PASSING]), row([REMOVE_VM, PASSING])];
    let pages = [row([ASSIGN_PAGE, 0, LOOSE]), row([RECLAIM_PAGE, 0, LOOSE])];
    let pairs = [lent(SHARE_PAGE, 0), lent(UNSHARE_PAGE, 0)];
    let mut cases = vec![by_turns("1, 2 add VM, remove VM", vms)];
    let names = ["3 assign page", "4 reclaim page"];
    cases.extend(pair(names, &[], loose(ASSIGN_PAGE), loose(RECLAIM_PAGE)));
    cases.push(by_turns("3, 4 of one page", pages));
    cases.extend(pair(["5 share", "6 unshare"], &[], all(SHARE_PAGE), all(UNSHARE_PAGE)));
    cases.push(by_turns("5, 6 of one pair", pairs));
    cases
}

/// Operations 7 and 9, or 8 and 10. New mappings are of `page` and, for CPUs, of those after it.
fn maps(level: Level, [map, unmap]: [u64; 2], names: [&'static str; 4], page: u64) -> Vec<Case> {
    let (side, step) = if map == CPU_MAP { (0, 1) } else { (1, 0) };
    let before: Vec<Row> = (0..NEW).map(|k| row([ASSIGN_PAGE, NEWCOMER, LOOSE + k])).collect();
    let does = |k| row([map, NEWCOMER, NEW_GUESTS + k, page + k * step, READ_WRITE, 0]);
    let undoes = |k| row([unmap, NEWCOMER, NEW_GUESTS + k]);
    let [new, gone, turns, replaced] = names;
    let (all, none) = ((0..NEW).map(does).collect(), (0..NEW).map(undoes).collect());
    let mut cases = Vec::from(pair([new, gone], &before, all, none));
    cases.push(Case { before, ..by_turns(turns, [does(0), undoes(0)]) });
    let again = over_mapped(level, |vm, k| mapping(vm, k)[side]);
    cases.push(seen(level, steady(replaced, again)));
    cases
}

/// Operations 11 and 12, or 13 and 14, of eight pages each.
fn regions([insert, remove]: [u64; 2], names: [&'static str; 3]) -> Vec<Case> {
    let all = |operation| (0..REGIONS).map(|k| region(operation, k)).collect();
    let [does, undoes, turns] = names;
    let mut cases = Vec::from(pair([does, undoes], &[], all(insert), all(remove)));
    cases.push(by_turns(turns, [region(insert, 0), region(remove, 0)]));
    cases
}

/// What an access needs at `Empty`: one guest page that is mapped.
fn seen(level: Level, case: Case) -> Case {
    match level {
        Level::Empty => Case { before: mapping(0, 0).to_vec(), ..case },
        _ => case,
    }
}

/// Operations 15 and 16: a port idle and back, each row one figure.
fn ports() -> Vec<Case> {
    let switch = |operation| [row([operation, 1, IDLE]), row([operation, 1, 1])].repeat(BATCH / 2);
    vec![steady("15 switch CPU", switch(SWITCH_CPU)), steady("16 bind device", switch(BIND_DEVICE))]
}

/// Operations 17 and 19, or 18 and 20.
fn slots(level: Level, [fill, empty]: [u64; 2], names: [&'static str; 3]) -> Vec<Case> {
    let fills = over_mapped(level, |vm, k| row([fill, vm, k]));
    let each: Vec<Row> = (0..SLOTS as u64).map(|slot| row([empty, slot])).collect();
    // The lowest empty slot, or at `Full` the last one, which is emptied first.
    let slot = (level.each([0; 3])[2] * WORKING).min(SLOTS as u64 - 1);
    let turn = [row([empty, slot]), row([fill, slot % WORKING, slot / WORKING])];
    let [filled, emptied, turns] = names;
    vec![
        seen(level, steady(filled, fills)),
        steady(emptied, each.repeat(8)),
        seen(level, by_turns(turns, turn)),
    ]
}

/// Operations 21 to 26.
fn accesses(level: Level) -> Vec<Case> {
    let over = |operation| over_mapped(level, |vm, k| row([operation, vm, k, k, 7]));
    vec![
        seen(level, steady("21 CPU read", over(CPU_READ))),
        seen(level, steady("22 DMA read", over(DMA_READ))),
        seen(level, steady("23 CPU write", over(CPU_WRITE))),
        seen(level, steady("24 DMA write", over(DMA_WRITE))),
        steady("25 data barrier", vec![row([DATA_BARRIER]); BATCH]),
        steady("26 instruction barrier", vec![row([INSTRUCTION_BARRIER]); BATCH]),
    ]
}

pub fn all(level: Level) -> Vec<Case> {
    let cpu = ["7 CPU map, new", "9 CPU unmap", "7, 9 of one guest page", "7 CPU map, replaced"];
    let dma = ["8 DMA map, new", "10 DMA unmap", "8, 10 of one guest page", "8 DMA map, replaced"];
    let inserts = ["11 insert region", "12 remove region", "11, 12 of one region"];
    let dma_inserts = ["13 DMA insert region", "14 DMA remove region", "13, 14 of one region"];
    let fills = ["17 CPU fill", "19 empty a CPU slot", "19, 17 of one slot"];
    let dma_fills = ["18 DMA fill", "20 empty a DMA slot", "20, 18 of one slot"];
    let groups = [
        ledger(),
        maps(level, [CPU_MAP, CPU_UNMAP], cpu, LOOSE),
        maps(level, [DMA_MAP, DMA_UNMAP], dma, SHARED),
        regions([INSERT_REGION, REMOVE_REGION], inserts),
        regions([DMA_INSERT_REGION, DMA_REMOVE_REGION], dma_inserts),
        ports(),
        slots(level, [CPU_FILL, EMPTY_CPU_SLOT], fills),
        slots(level, [DMA_FILL, EMPTY_DMA_SLOT], dma_fills),
        accesses(level),
    ];
    groups.into_iter().flatten().collect()
}

/// A page given and taken back by turns: with nothing else claimed, so that each taking clears it;
/// and with the VM's claim for DMA kept, so that none does. The difference is what clearing costs.
pub fn clearing() -> [Case; 2] {
    let page = |operation| row([operation, NEWCOMER, UNIT_PAGES]);
    let turns = |name| by_turns(name, [page(ASSIGN_PAGE), page(RECLAIM_PAGE)]);
    let kept = turns("3, 4 of a page still claimed");
    [turns("3, 4 of a page, clearing"), Case { before: vec![region(DMA_INSERT_REGION, 0)], ..kept }]
}

// ---- A VM that is retired: the last one, on no port. Its pages are in for CPUs and for devices as
// one region. It lends one to each working VM and borrows one from each.

const LEAVER: u64 = PASSING;
const LEAVER_PAGES: u64 = 64;
const LEAVER_PAIRS: u64 = 2 * WORKING;
/// Slots of either cache that hold a guest page of it.
const LEAVER_SLOTS: u64 = 8;

fn leaver_region(operation: u64) -> Row {
    row([operation, LEAVER, 0, LOOSE, LEAVER_PAGES, READ_WRITE])
}

/// The pair in which it lends a page to a working VM, and that in which it borrows one.
fn leaver_pairs(operation: u64, vm: u64) -> [Row; 2] {
    let (lent, borrowed) = (LOOSE + vm, vm * OWNED + OWNED - 1);
    [row([operation, LEAVER, vm, lent]), row([operation, vm, LEAVER, borrowed])]
}

/// Its pairs with a VM, which maps the page that is lent to it at guest page k.
fn borrowing(vm: u64, k: u64) -> [Row; 4] {
    let ([lends, borrows], [_, for_devices]) = (leaver_pairs(SHARE_PAGE, vm), mapping(vm, k));
    [lends, borrows, row([CPU_MAP, vm, k, LOOSE + vm, READ_WRITE, 0]), for_devices]
}

/// All of PAGES, and its region a unit.
pub fn leaver_setup() -> Setup {
    let [_, vm, guest, page, count, access, ..] = leaver_region(INSERT_REGION);
    Setup { units: vec![[vm, guest, page, count, access, MARK_BOTH]], ..setup() }
}

/// The tables filled to the level, what it has among the rest: its mappings in the middle of the maps,
/// and in slots both its own and those onto its pages.
pub fn before_retire(level: Level) -> Vec<Row> {
    let [mappings, pairs, slots] = level.each([LEAVER_PAGES, LEAVER_PAIRS, LEAVER_SLOTS]);
    let (first, middle) = (1, mappings / 2);
    let regions = [INSERT_REGION, DMA_INSERT_REGION].map(leaver_region);
    let on_ports = |vm| [row([SWITCH_CPU, 0, vm]), row([BIND_DEVICE, 0, vm])];
    [
        working(),
        in_turn(first..middle, mapping),
        [&[row([ADD_VM, LEAVER])], &regions[..]].concat(),
        in_turn(0..first, borrowing),
        in_turn(middle..mappings, mapping),
        in_turn(0..pairs, lending),
        in_turn(0..slots, filling),
        // On a port it writes to each of its pages and gets its slots; then it leaves the port.
        on_ports(LEAVER).to_vec(),
        (0..LEAVER_PAGES).map(|k| row([CPU_WRITE, 0, k, k, 7])).collect(),
        (0..LEAVER_SLOTS).flat_map(|k| filling(0, k)).collect(),
        on_ports(0).to_vec(),
    ]
    .concat()
}

pub fn retire() -> Vec<Row> {
    vec![row([RETIRE_VM, LEAVER])]
}

/// The fewest single rows that come to the same: what others map of its pages, its pairs, its region
/// on either side, then the VM.
pub fn retire_by_parts() -> Vec<Row> {
    let unmaps = (0..WORKING).map(|vm| row([CPU_UNMAP, vm, 0]));
    let pairs = (0..WORKING).flat_map(|vm| leaver_pairs(UNSHARE_PAGE, vm));
    let regions = [REMOVE_REGION, DMA_REMOVE_REGION].map(leaver_region);
    unmaps.chain(pairs).chain(regions).chain([row([REMOVE_VM, LEAVER])]).collect()
}
