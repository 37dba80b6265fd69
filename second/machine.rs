//! The state of the machine in the forms in which one would explain it: sets
//! of pages, maps from keys to entries, slots by number.

use std::collections::{BTreeMap, BTreeSet};

use crate::valid;

pub type Vm = u64;
pub type Page = u64;
pub type Guest = u64;

pub const PAGES: u64 = 1024;
pub const WORDS: u64 = 512;
pub const GUESTS: u64 = 65_536;
pub const VMS: u64 = 16;
pub const PORTS: usize = 8;
pub const ENTRIES: usize = 512;
pub const PAIRS: usize = 128;
pub const SLOTS: usize = 64;
pub const UNITS: usize = 32;
pub const ACCESSES: u64 = 8;
pub const GENERATIONS: u64 = 65_536;

/// Numbers of a row, of its answer, and of a unit.
pub const ROW_NUMBERS: usize = 8;
pub const ANSWER_NUMBERS: usize = 4;
pub const UNIT_NUMBERS: usize = 6;

/// A unit as start is told it: VM, guest page, page, count, access, mark.
pub type UnitNumbers = [u64; UNIT_NUMBERS];

/// Operations and refusals are numbered from 1 to these.
pub const OPERATIONS: u64 = 27;
pub const REFUSALS: u64 = 16;

/// The number by which a row names idle.
pub const IDLE: u64 = 4_294_967_295;

/// Access bits that the two kinds of guest access need.
pub const READ: u64 = 1;
pub const WRITE: u64 = 2;

/// CPU and DMA are two sides of one shape.
#[derive(Clone, Copy, PartialEq, Eq, PartialOrd, Ord, Debug)]
pub enum Side {
    Cpu,
    Dma,
}

/// What a guest page translates to.
#[derive(Clone, Copy, PartialEq, Eq, Debug)]
pub struct Entry {
    pub page: Page,
    pub access: u64,
    pub generation: u64,
}

/// A cached translation; `port` is the CPU or the device that filled it.
#[derive(Clone, Copy, PartialEq, Eq, Debug)]
pub struct Slot {
    pub port: u64,
    pub vm: Vm,
    pub guest: Guest,
    pub entry: Entry,
}

impl Slot {
    pub fn key(&self) -> (u64, Vm, Guest) {
        (self.port, self.vm, self.guest)
    }
}

/// A translation cache and the hand that picks the next slot to give up.
#[derive(Clone, PartialEq, Eq, Debug)]
pub struct Cache {
    pub slots: [Option<Slot>; SLOTS],
    pub hand: usize,
}

/// Translations of one side, by VM and guest page.
pub type Map = BTreeMap<(Vm, Guest), Entry>;

/// All that one side keeps.
#[derive(Clone, PartialEq, Eq, Debug)]
pub struct Half {
    /// Pages held for this side. It has a key for every known VM and for no other.
    pub owned: BTreeMap<Vm, BTreeSet<Page>>,
    pub software: Map,
    pub walker: Map,
    pub cache: Cache,
    /// The VM on each CPU, or bound to each device; `None` is idle.
    pub ports: [Option<Vm>; PORTS],
}

impl Half {
    fn new() -> Self {
        let cache = Cache { slots: [None; SLOTS], hand: 0 };
        Half {
            owned: BTreeMap::new(),
            software: Map::new(),
            walker: Map::new(),
            cache,
            ports: [None; PORTS],
        }
    }

    pub fn holds(&self, vm: Vm, page: Page) -> bool {
        self.owned.get(&vm).is_some_and(|pages| pages.contains(&page))
    }

    /// Some VM holds `page` on this side.
    pub fn held(&self, page: Page) -> bool {
        self.owned.values().any(|pages| pages.contains(&page))
    }

    /// A VM other than `vm` holds `page` on this side.
    pub fn other_holds(&self, vm: Vm, page: Page) -> bool {
        self.owned.iter().any(|(&holder, pages)| holder != vm && pages.contains(&page))
    }

    /// A CPU is on `vm`, or a device bound to it.
    pub fn runs(&self, vm: Vm) -> bool {
        self.ports.contains(&Some(vm))
    }
}

/// A run of numbers from `base` on.
#[derive(Clone, Copy, PartialEq, Eq, Debug)]
pub struct Span {
    pub base: u64,
    pub count: u64,
}

impl Span {
    /// It ends at or below `limit`, judged without wrapping.
    pub fn fits(self, limit: u64) -> bool {
        self.count <= limit && self.base <= limit - self.count
    }

    pub fn contains(self, number: u64) -> bool {
        number >= self.base && number - self.base < self.count
    }
}

/// The five fields of a region, which are also the five of a unit.
#[derive(Clone, Copy, PartialEq, Eq, Debug)]
pub struct Region {
    pub vm: Vm,
    pub guest: Guest,
    pub page: Page,
    pub count: u64,
    pub access: u64,
}

impl Region {
    /// At least one page, all of them guest pages and pages of the machine.
    pub fn fits(&self, pages: u64) -> bool {
        let span = |base| Span { base, count: self.count };
        self.count >= 1 && span(self.guest).fits(GUESTS) && span(self.page).fits(pages)
    }

    pub fn key(&self, index: u64) -> (Vm, Guest) {
        (self.vm, self.guest + index)
    }

    /// The entry that the region installs for its page number `index`.
    pub fn entry(&self, index: u64) -> Entry {
        Entry { page: self.page + index, access: self.access, generation: 0 }
    }
}

/// The sides for which a unit may be assigned.
#[derive(Clone, Copy, PartialEq, Eq, Debug)]
pub enum Mark {
    Cpu,
    Dma,
    Both,
}

impl Mark {
    fn from_number(number: u64) -> Option<Self> {
        match number {
            1 => Some(Mark::Cpu),
            2 => Some(Mark::Dma),
            3 => Some(Mark::Both),
            _ => None,
        }
    }

    pub fn suits(self, side: Side) -> bool {
        matches!((self, side), (Mark::Both, _) | (Mark::Cpu, Side::Cpu) | (Mark::Dma, Side::Dma))
    }
}

#[derive(Clone, Copy, PartialEq, Eq, Debug)]
pub struct Unit {
    pub region: Region,
    pub mark: Mark,
}

impl Unit {
    /// Reads VM, guest, page, count, access, mark; spans are not judged here.
    fn from_numbers(numbers: &UnitNumbers) -> Option<Self> {
        let [vm, guest, page, count, access, mark] = *numbers;
        if vm >= VMS || access >= ACCESSES {
            return None;
        }
        let region = Region { vm, guest, page, count, access };
        Some(Unit { region, mark: Mark::from_number(mark)? })
    }
}

/// A sharing pair: its two ends, the lower first, and the page.
pub type Pair = (Vm, Vm, Page);

/// The one form of a pair, whichever end is named first.
pub fn pair(left: Vm, right: Vm, page: Page) -> Pair {
    (left.min(right), left.max(right), page)
}

/// One of the pair's ends is `vm`.
pub fn joins(&(low, high, _): &Pair, vm: Vm) -> bool {
    low == vm || high == vm
}

/// Lengths of what is lent to `start`.
#[derive(Clone, Copy, Debug)]
pub struct Lent {
    pub memory: u64,
    pub cpu_slots: u64,
    pub dma_slots: u64,
}

impl Lent {
    /// The lengths that suit a machine of `pages` pages.
    pub fn fitting(pages: u64) -> Self {
        let slots = SLOTS as u64;
        Lent { memory: pages.saturating_mul(WORDS), cpu_slots: slots, dma_slots: slots }
    }
}

/// The answer of the free query; `lowest` is `None` for the named nothing.
#[derive(Clone, Copy, PartialEq, Eq, Debug)]
pub struct Free {
    pub number: u64,
    pub count: u64,
    pub lowest: Option<Page>,
}

/// The whole machine.
#[derive(Clone, PartialEq, Eq, Debug)]
pub struct Machine {
    pub pages: u64,
    pub shared: Span,
    pub units: Vec<Unit>,
    pub known: BTreeSet<Vm>,
    pub pool: BTreeSet<Page>,
    pub pairs: BTreeSet<Pair>,
    pub cpu: Half,
    pub dma: Half,
    pub memory: Vec<u64>,
}

impl Machine {
    /// What a refused start leaves: no page at all, hence not valid.
    pub fn empty() -> Self {
        Machine {
            pages: 0,
            shared: Span { base: 0, count: 0 },
            units: Vec::new(),
            known: BTreeSet::new(),
            pool: BTreeSet::new(),
            pairs: BTreeSet::new(),
            cpu: Half::new(),
            dma: Half::new(),
            memory: Vec::new(),
        }
    }

    /// Gives the number of the answer and the machine, empty unless that is 0.
    pub fn start(pages: u64, shared: Span, units: &[UnitNumbers], lent: Lent) -> (u64, Self) {
        match Self::try_start(pages, shared, units, lent) {
            Ok(machine) => (0, machine),
            Err(number) => (number, Self::empty()),
        }
    }

    fn try_start(pages: u64, shared: Span, units: &[UnitNumbers], lent: Lent) -> Result<Self, u64> {
        let slots = SLOTS as u64;
        let lengths = pages.checked_mul(WORDS) == Some(lent.memory)
            && lent.cpu_slots == slots
            && lent.dma_slots == slots;
        if !lengths || !(1..=PAGES).contains(&pages) {
            return Err(1);
        }
        if units.len() > UNITS {
            return Err(2);
        }
        // Every field of every unit is judged before the span of any.
        let units: Vec<Unit> =
            units.iter().map(Unit::from_numbers).collect::<Option<_>>().ok_or(2u64)?;
        if !units.iter().all(|unit| unit.region.fits(pages)) || !shared.fits(pages) {
            return Err(3);
        }
        Ok(Machine {
            pages,
            shared,
            units,
            pool: (0..pages).filter(|&page| !shared.contains(page)).collect(),
            memory: vec![0; (pages * WORDS) as usize],
            ..Self::empty()
        })
    }

    /// A page is free when it lies in the pool and no VM holds it for DMA.
    pub fn is_free(&self, page: Page) -> bool {
        self.pool.contains(&page) && !self.dma.held(page)
    }

    /// How many pages are free and which is the lowest.
    pub fn free(&self) -> Free {
        if !valid::is_valid(self) {
            return Free { number: 1, count: 0, lowest: None };
        }
        let free: BTreeSet<Page> = (0..self.pages).filter(|&page| self.is_free(page)).collect();
        Free { number: 0, count: free.len() as u64, lowest: free.first().copied() }
    }

    pub fn half(&self, side: Side) -> &Half {
        match side {
            Side::Cpu => &self.cpu,
            Side::Dma => &self.dma,
        }
    }

    pub fn half_mut(&mut self, side: Side) -> &mut Half {
        match side {
            Side::Cpu => &mut self.cpu,
            Side::Dma => &mut self.dma,
        }
    }

    /// A pair that names `page` has `vm` as one of its ends.
    pub fn shared_with(&self, vm: Vm, page: Page) -> bool {
        self.pairs.iter().any(|pair| pair.2 == page && joins(pair, vm))
    }

    /// Some pair names `page`.
    pub fn edge_names(&self, page: Page) -> bool {
        self.pairs.iter().any(|&(_, _, named)| named == page)
    }

    /// The page is such that mapping it is not refused to `vm` with 6.
    pub fn may_map(&self, side: Side, vm: Vm, page: Page) -> bool {
        match side {
            Side::Cpu => self.cpu.holds(vm, page) || self.shared_with(vm, page),
            Side::Dma => self.dma.holds(vm, page) || self.shared.contains(page),
        }
    }

    /// Some unit has the region's five fields and a mark that suits.
    pub fn assignable(&self, side: Side, region: &Region) -> bool {
        self.units.iter().any(|unit| unit.region == *region && unit.mark.suits(side))
    }

    /// The place in memory of a word of a page.
    pub fn address(page: Page, word: u64) -> usize {
        (page * WORDS + word) as usize
    }
}
