//! The library's box against the second program's machine, part by part.

use std::fmt::Debug;

use second::machine::*;
use second::operate::Row;
use tiligormis::{LentRef, Owned};

use crate::pack::{unpack, Difference};

/// Both say the same of a part.
pub fn same<T: PartialEq + Debug>(
    part: &'static str,
    library: T,
    second: T,
) -> Result<(), Difference> {
    if library == second {
        return Ok(());
    }
    Err(Difference::new(part, format!("library {library:?}, second {second:?}")))
}

/// A box against a machine. `units` are the header's when it was made: spare ones stay too. Of
/// memory these pages are compared, or all of it.
pub fn state(
    library: &Owned,
    second: &Machine,
    units: &[tiligormis::Unit; UNITS],
    pages: Option<&[Page]>,
) -> Result<(), Difference> {
    same("units", &library.machine.units, units)?;
    tables(library.shared(), second)?;
    match pages {
        None => memory(&library.memory, &second.memory),
        Some(pages) => pages.iter().try_for_each(|&at| page(&library.memory, &second.memory, at)),
    }
}

/// Header, sets, pairs, maps, slots, hands and ports. Maps and pairs are compared as maps and sets,
/// so their order in a table does not count; slots are compared by number.
pub fn tables(lent: LentRef, second: &Machine) -> Result<(), Difference> {
    let library = unpack(lent)?;
    same("pages", library.pages, second.pages)?;
    same("shared span", library.shared, second.shared)?;
    same("units", &library.units, &second.units)?;
    same("known VMs", &library.known, &second.known)?;
    same("pool", &library.pool, &second.pool)?;
    same("pairs", &library.pairs, &second.pairs)?;
    half(&library.cpu, &second.cpu, &CPU_PARTS)?;
    half(&library.dma, &second.dma, &DMA_PARTS)
}

/// Pages, map, walker, cache, hand, ports of a side.
type Parts = [&'static str; 6];
const CPU_PARTS: Parts = ["CPU pages", "CPU map", "CPU walker", "CPU cache", "CPU hand", "CPUs"];
const DMA_PARTS: Parts = ["DMA pages", "DMA map", "DMA walker", "DMA cache", "DMA hand", "devices"];

fn half(library: &Half, second: &Half, parts: &Parts) -> Result<(), Difference> {
    same(parts[0], &library.owned, &second.owned)?;
    same(parts[1], &library.software, &second.software)?;
    same(parts[2], &library.walker, &second.walker)?;
    for (place, slots) in library.cache.slots.iter().zip(&second.cache.slots).enumerate() {
        same(parts[3], (place, slots.0), (place, slots.1))?;
    }
    same(parts[4], library.cache.hand, second.cache.hand)?;
    same(parts[5], library.ports, second.ports)
}

/// All of memory.
pub fn memory(library: &[u64], second: &[u64]) -> Result<(), Difference> {
    if library == second {
        return Ok(());
    }
    same("memory", library.len(), second.len())?;
    let place = (0..library.len()).find(|&place| library[place] != second[place]).unwrap_or(0);
    same("memory", (place, library[place]), (place, second[place]))
}

/// One page of a memory that has all its words.
pub fn page(library: &[u64], second: &[u64], page: Page) -> Result<(), Difference> {
    let words = Machine::address(page, 0)..Machine::address(page + 1, 0);
    memory(&library[words.clone()], &second[words])
        .map_err(|differs| Difference::new("memory", format!("page {page}: {}", differs.detail)))
}

/// The pages that a row names, those that its guest page translates to in `m`, and those of a VM that
/// it retires.
pub fn touched(m: &Machine, row: &Row) -> Vec<Page> {
    let [operation, vm, guest, third, count, ..] = *row;
    let side = side_of(operation);
    let mut pages = match operation {
        3 | 4 => vec![row[2]],
        5..=8 => vec![third],
        11..=14 => (0..count.min(m.pages)).map(|index| third.saturating_add(index)).collect(),
        27 => held(m, vm),
        _ => Vec::new(),
    };
    let acting = match operation {
        7..=10 => Some(vm),
        17 | 18 | 21..=24 => m.half(side).ports.get(row[1] as usize).copied().flatten(),
        _ => None,
    };
    if let Some(vm) = acting {
        pages.extend(m.half(side).walker.get(&(vm, guest)).map(|entry| entry.page));
    }
    pages.retain(|&page| page < m.pages);
    pages
}

/// The pages that a VM holds, for CPU or DMA.
fn held(m: &Machine, vm: Vm) -> Vec<Page> {
    let sides = [&m.cpu, &m.dma].into_iter();
    sides.filter_map(|half| half.owned.get(&vm)).flatten().copied().collect()
}

/// The side of an operation that has a twin on the other.
fn side_of(operation: u64) -> Side {
    match operation % 2 {
        1 => Side::Cpu,
        _ => Side::Dma,
    }
}
