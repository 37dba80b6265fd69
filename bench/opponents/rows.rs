//! What both versions have in common: rows read into operations, units, and answers.

use face::*;

// A word has a bit for each VM, and a field of an entry has sixteen.
const _: () = assert!(VMS <= 64 && PAGES <= 1 << 16 && GENERATIONS <= 1 << 16);

pub fn other(side: Side) -> Side {
    match side {
        Side::Cpu => Side::Dma,
        Side::Dma => Side::Cpu,
    }
}

/// What a mapping gives.
#[derive(Clone, Copy, PartialEq, Eq, Debug)]
pub struct Entry {
    pub page: u16,
    pub access: u16,
    pub generation: u16,
}

/// The five fields by which a region is named; spans may have any size before they are judged.
#[derive(Clone, Copy, PartialEq, Eq, Debug)]
pub struct Region {
    pub vm: usize,
    pub guest: usize,
    pub page: usize,
    pub count: usize,
    pub access: usize,
}

impl Region {
    pub fn fits(&self, pages: usize) -> bool {
        self.count > 0
            && span_fits(self.guest, self.count, GUEST_PAGES)
            && span_fits(self.page, self.count, pages)
    }

    /// The entry of the region's k-th page.
    pub fn entry(&self, k: usize) -> Entry {
        Entry { page: (self.page + k) as u16, access: self.access as u16, generation: 0 }
    }
}

/// A region that may be inserted, and on which sides.
#[derive(Clone, Copy, PartialEq, Eq, Debug)]
pub struct Unit {
    region: Region,
    cpu: bool,
    dma: bool,
}

impl Unit {
    /// Its span is judged later.
    fn parse(numbers: &[u64; UNIT_NUMBERS]) -> Option<Unit> {
        let [vm, guest, page, count, access, mark] = *numbers;
        let (vm, access) = (below(vm, VMS).ok()?, below(access, ACCESSES).ok()?);
        let [guest, page, count] = [guest, page, count].map(|number| number as usize);
        let region = Region { vm, guest, page, count, access };
        match mark {
            1..=3 => Some(Unit { region, cpu: mark != 2, dma: mark != 1 }),
            _ => None,
        }
    }

    pub fn suits(&self, side: Side, region: &Region) -> bool {
        let marked = match side {
            Side::Cpu => self.cpu,
            Side::Dma => self.dma,
        };
        marked && self.region == *region
    }
}

/// The units of a start, or the number of its refusal: memory and N, then every unit's fields, then
/// every span.
pub fn judge(setup: &Setup, memory: usize) -> Result<Vec<Unit>, u64> {
    let pages = setup.pages;
    if !(1..=PAGES).contains(&pages) || memory != pages * PAGE_WORDS {
        return Err(1);
    }
    if setup.units.len() > UNITS {
        return Err(2);
    }
    let units: Vec<Unit> =
        setup.units.iter().map(Unit::parse).collect::<Option<_>>().ok_or(2u64)?;
    let spans = units.iter().all(|unit| unit.region.fits(pages))
        && span_fits(setup.shared_base, setup.shared_count, pages);
    spans.then_some(units).ok_or(3)
}

/// The refusals after 1, by their numbers.
#[derive(Clone, Copy, PartialEq, Eq, Debug)]
pub enum Refusal {
    OutOfRange = 2,
    BadSpan = 3,
    VmUnknown = 4,
    VmKnown = 5,
    PageNotHeld = 6,
    PageClaimed = 7,
    NoSuchUnit = 8,
    MappingDiffers = 9,
    MappingPresent = 10,
    StillInUse = 11,
    PairWrong = 12,
    VmBusy = 13,
    NoRoom = 14,
    PortIdle = 15,
    AccessLacking = 16,
}

#[derive(Clone, Copy, PartialEq, Eq, Debug)]
pub struct Refused {
    refusal: Refusal,
    index: usize,
}

impl From<Refusal> for Refused {
    fn from(refusal: Refusal) -> Refused {
        Refused { refusal, index: 0 }
    }
}

/// What an accepted operation answers.
#[derive(Clone, Copy, PartialEq, Eq, Debug, Default)]
pub struct Done {
    pub dropped: usize,
    pub word: u64,
}

pub type Answer = Result<Done, Refused>;

/// Refuses where the condition holds.
pub fn refuse_if(condition: bool, refusal: Refusal) -> Result<(), Refused> {
    if condition {
        return Err(refusal.into());
    }
    Ok(())
}

/// Refuses a region with the index of its lowest failing page, if there is one.
pub fn refuse_at(failing: Option<usize>, refusal: Refusal) -> Result<(), Refused> {
    match failing {
        Some(index) => Err(Refused { refusal, index }),
        None => Ok(()),
    }
}

/// The operations, their numbers in range.
pub trait Operations {
    fn start(&mut self, setup: &Setup) -> Result<(), u64>;
    /// N.
    fn pages(&self) -> usize;
    fn add_vm(&mut self, vm: usize) -> Answer;
    fn remove_vm(&mut self, vm: usize) -> Answer;
    fn retire(&mut self, vm: usize) -> Answer;
    fn assign(&mut self, vm: usize, page: usize) -> Answer;
    fn reclaim(&mut self, vm: usize, page: usize) -> Answer;
    fn share(&mut self, left: usize, right: usize, page: usize) -> Answer;
    fn unshare(&mut self, left: usize, right: usize, page: usize) -> Answer;
    fn map(&mut self, side: Side, vm: usize, guest: usize, entry: Entry) -> Answer;
    fn unmap(&mut self, side: Side, vm: usize, guest: usize) -> Answer;
    fn insert(&mut self, side: Side, region: &Region) -> Answer;
    fn remove(&mut self, side: Side, region: &Region) -> Answer;
    fn switch(&mut self, side: Side, port: usize, target: Option<usize>) -> Answer;
    fn fill(&mut self, side: Side, port: usize, guest: usize) -> Answer;
    fn empty(&mut self, side: Side, slot: usize) -> Answer;
    /// The word of memory that an access comes to, which needs one access bit.
    fn reach(
        &mut self,
        side: Side,
        port: usize,
        guest: usize,
        word: usize,
        needed: usize,
    ) -> Result<&mut u64, Refused>;
}

fn below(number: u64, limit: usize) -> Result<usize, Refused> {
    match number < limit as u64 {
        true => Ok(number as usize),
        false => Err(Refusal::OutOfRange.into()),
    }
}

fn vm(number: u64) -> Result<usize, Refused> {
    below(number, VMS)
}

fn guest(number: u64) -> Result<usize, Refused> {
    below(number, GUEST_PAGES)
}

fn port(number: u64) -> Result<usize, Refused> {
    below(number, PORTS)
}

fn target(number: u64) -> Result<Option<usize>, Refused> {
    if number == IDLE {
        return Ok(None);
    }
    vm(number).map(Some)
}

fn entry([page, access, generation]: [u64; 3], pages: usize) -> Result<Entry, Refused> {
    let page = below(page, pages)? as u16;
    let access = below(access, ACCESSES)? as u16;
    Ok(Entry { page, access, generation: below(generation, GENERATIONS)? as u16 })
}

fn region([_, number, guest, page, count, access, ..]: &Row) -> Result<Region, Refused> {
    let (vm, access) = (vm(*number)?, below(*access, ACCESSES)?);
    Ok(Region { vm, guest: *guest as usize, page: *page as usize, count: *count as usize, access })
}

fn operate<M: Operations>(m: &mut M, row: &Row) -> Answer {
    let [number, a, b, c, d, e, ..] = *row;
    let pages = m.pages();
    // Odd numbers from 7 on are the CPU's operation of a kind, even ones the device's.
    let side = if number % 2 == 1 { Side::Cpu } else { Side::Dma };
    match number {
        1 => m.add_vm(vm(a)?),
        2 => m.remove_vm(vm(a)?),
        3 => m.assign(vm(a)?, below(b, pages)?),
        4 => m.reclaim(vm(a)?, below(b, pages)?),
        5 => m.share(vm(a)?, vm(b)?, below(c, pages)?),
        6 => m.unshare(vm(a)?, vm(b)?, below(c, pages)?),
        7 | 8 => m.map(side, vm(a)?, guest(b)?, entry([c, d, e], pages)?),
        9 | 10 => m.unmap(side, vm(a)?, guest(b)?),
        // Of regions 11 and 12 are the CPU's.
        11 => m.insert(Side::Cpu, &region(row)?),
        12 => m.remove(Side::Cpu, &region(row)?),
        13 => m.insert(Side::Dma, &region(row)?),
        14 => m.remove(Side::Dma, &region(row)?),
        15 | 16 => m.switch(side, port(a)?, target(b)?),
        17 | 18 => m.fill(side, port(a)?, guest(b)?),
        19 | 20 => m.empty(side, below(a, SLOTS)?),
        21 | 22 => {
            let word = m.reach(side, port(a)?, guest(b)?, below(c, PAGE_WORDS)?, READ)?;
            Ok(Done { dropped: 0, word: *word })
        }
        23 | 24 => {
            *m.reach(side, port(a)?, guest(b)?, below(c, PAGE_WORDS)?, WRITE)? = d;
            Ok(Done::default())
        }
        25 | 26 => Ok(Done::default()),
        27 => m.retire(vm(a)?),
        _ => Err(Refusal::OutOfRange.into()),
    }
}

/// Carries rows out one after the other; the number of the refusal as a whole, or 0.
pub fn run<M: Operations>(machine: &mut M, rows: &[Row], answers: &mut [Numbers]) -> u64 {
    if answers.len() < rows.len() {
        return Refusal::OutOfRange as u64;
    }
    for (row, room) in rows.iter().zip(answers) {
        *room = numbers(operate(machine, row));
    }
    0
}

/// Number, region index, dropped slots, word.
fn numbers(answer: Answer) -> Numbers {
    match answer {
        Ok(done) => [0, 0, done.dropped as u64, done.word],
        Err(refused) => [refused.refusal as u64, refused.index as u64, 0, 0],
    }
}
