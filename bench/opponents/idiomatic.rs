//! (b) The machine with the standard library's collections: hash maps for mappings, vectors of records
//! for pages, VMs and slots, and beside them counts and sets that answer what would be a search.

use std::collections::hash_map;

use face::*;

use crate::bits::Bits;
use crate::hash::Map;
use crate::rows::*;

/// Who has a page: the pool, the shared span, or the VM that owns it.
#[derive(Clone, Copy, PartialEq, Eq)]
enum Home {
    Pool,
    Shared,
    Vm(u8),
}

#[derive(Clone)]
struct Page {
    home: Home,
    /// The VM that holds it for DMA.
    dma: Option<u8>,
    /// A bit for each VM that the owner shares it with. Of every pair one end owns the page.
    lent_to: u64,
    /// Mappings onto it on either side, and those of each VM's on the CPU side.
    mapped: [u16; 2],
    cpu_mapped: [u16; VMS],
}

impl Page {
    fn at(home: Home) -> Page {
        Page { home, dma: None, lent_to: 0, mapped: [0; 2], cpu_mapped: [0; VMS] }
    }

    fn held_by(&self, side: Side, vm: usize) -> bool {
        match side {
            Side::Cpu => self.home == Home::Vm(vm as u8),
            Side::Dma => self.dma == Some(vm as u8),
        }
    }

    fn claimed_elsewhere(&self, vm: usize) -> bool {
        self.dma.is_some_and(|holder| holder as usize != vm)
    }

    fn is_lent_to(&self, vm: usize) -> bool {
        self.lent_to >> vm & 1 == 1
    }

    fn may_be_mapped(&self, side: Side, vm: usize) -> bool {
        self.held_by(side, vm)
            || match side {
                Side::Cpu => self.is_lent_to(vm),
                Side::Dma => self.home == Home::Shared,
            }
    }

    fn map(&mut self, side: Side, vm: usize) {
        self.mapped[side as usize] += 1;
        self.cpu_mapped[vm] += (side == Side::Cpu) as u16;
    }

    fn unmap(&mut self, side: Side, vm: usize) {
        self.mapped[side as usize] -= 1;
        self.cpu_mapped[vm] -= (side == Side::Cpu) as u16;
    }
}

#[derive(Clone, Copy, Default)]
struct Vm {
    known: bool,
    /// Pages, mappings and ports of either side and pages borrowed, all together. Where a VM is the
    /// owner in a pair it has the page.
    uses: usize,
}

type PageSet = Bits<{ PAGES.div_ceil(64) }>;
type SlotSet = Bits<{ SLOTS.div_ceil(64) }>;

/// The walker's entry, and the slots that hold it.
struct Walked {
    entry: Entry,
    slots: SlotSet,
}

#[derive(Clone, Copy, Default)]
struct Slot {
    port: usize,
    key: u64,
}

fn key(vm: usize, guest: usize) -> u64 {
    (vm * GUEST_PAGES + guest) as u64
}

fn vm_of(key: u64) -> usize {
    key as usize / GUEST_PAGES
}

/// All that one side has beside pages.
struct Half {
    map: Map<Entry>,
    walker: Map<Walked>,
    /// What a slot holds unless it is free.
    slots: Vec<Slot>,
    free: SlotSet,
    hand: usize,
    ports: Vec<Option<usize>>,
}

impl Half {
    /// Nothing in it, and so much room that maps never move.
    fn new() -> Half {
        let mut half = Half {
            map: Map::with_capacity_and_hasher(2 * ENTRIES, Default::default()),
            walker: Map::with_capacity_and_hasher(2 * ENTRIES, Default::default()),
            slots: vec![Slot::default(); SLOTS],
            free: SlotSet::NONE,
            hand: 0,
            ports: vec![None; PORTS],
        };
        half.clear();
        half
    }

    fn clear(&mut self) {
        self.map.clear();
        self.walker.clear();
        self.free.insert_span(0, SLOTS);
        self.hand = 0;
        self.ports.fill(None);
    }

    fn install(&mut self, key: u64, entry: Entry) {
        self.map.insert(key, entry);
        self.walker.insert(key, Walked { entry, slots: SlotSet::NONE });
    }

    /// Takes the walker's entry of a key, and drops its slots; how many.
    fn forget(&mut self, key: u64) -> usize {
        let slots = self.walker.remove(&key).map_or(SlotSet::NONE, |walked| walked.slots);
        self.free.insert_all(&slots);
        slots.len()
    }

    /// The slot that a fill takes where none has its key.
    fn take_slot(&mut self) -> usize {
        if let Some(slot) = self.free.lowest() {
            self.free.remove(slot);
            return slot;
        }
        let slot = self.hand;
        self.hand = (slot + 1) % SLOTS;
        self.release(slot);
        slot
    }

    /// The entry that the slot holds is no longer held by it.
    fn release(&mut self, slot: usize) {
        if let Some(walked) = self.walker.get_mut(&self.slots[slot].key) {
            walked.slots.remove(slot);
        }
    }

    fn vm_on(&self, port: usize) -> Result<usize, Refused> {
        self.ports[port].ok_or(Refusal::PortIdle.into())
    }
}

pub struct Idiomatic {
    units: Vec<Unit>,
    pages: Vec<Page>,
    vms: Vec<Vm>,
    pairs: usize,
    halves: [Half; 2],
    memory: Vec<u64>,
}

/// What operations ask.
impl Idiomatic {
    pub fn new(pages: usize) -> Idiomatic {
        Idiomatic {
            units: Vec::with_capacity(UNITS),
            pages: Vec::with_capacity(pages),
            vms: vec![Vm::default(); VMS],
            pairs: 0,
            halves: [Half::new(), Half::new()],
            memory: vec![0; pages * PAGE_WORDS],
        }
    }

    fn check_known(&self, vm: usize) -> Result<(), Refused> {
        refuse_if(!self.vms[vm].known, Refusal::VmUnknown)
    }

    /// Gives a page back; where that ends the VM's last claim to it, its words become 0.
    fn give_back(&mut self, side: Side, vm: usize, page: usize) {
        let record = &mut self.pages[page];
        match side {
            Side::Cpu => record.home = Home::Pool,
            Side::Dma => record.dma = None,
        }
        self.vms[vm].uses -= 1;
        if !record.held_by(other(side), vm) {
            self.memory[page * PAGE_WORDS..(page + 1) * PAGE_WORDS].fill(0);
        }
    }

    /// Gives the VM a page, which for DMA it may hold already.
    fn take(&mut self, side: Side, vm: usize, page: usize) {
        let record = &mut self.pages[page];
        self.vms[vm].uses += !record.held_by(side, vm) as usize;
        match side {
            Side::Cpu => record.home = Home::Vm(vm as u8),
            Side::Dma => record.dma = Some(vm as u8),
        }
    }

    /// Of two ends the one that borrows the page, where the other owns and shares it.
    fn borrower(&self, left: usize, right: usize, page: usize) -> Option<usize> {
        let Page { home: Home::Vm(owner), .. } = self.pages[page] else { return None };
        let borrower = match owner as usize {
            owner if owner == left => right,
            owner if owner == right => left,
            _ => return None,
        };
        self.pages[page].is_lent_to(borrower).then_some(borrower)
    }

    /// Takes every mapping of a VM, and for CPUs every one onto a page that it owns; how many slots
    /// that drops. It alone goes over a map: a list for each VM would be kept by every mapping.
    fn sweep(&mut self, side: Side, vm: usize) -> usize {
        let half = &mut self.halves[side as usize];
        let mut map = std::mem::take(&mut half.map);
        let mut dropped = 0;
        map.retain(|&key, entry| {
            let (user, page) = (vm_of(key), &mut self.pages[entry.page as usize]);
            let goes = (user == vm) | (side == Side::Cpu && page.held_by(side, vm));
            if goes {
                page.unmap(side, user);
                self.vms[user].uses -= 1;
                dropped += half.forget(key);
            }
            !goes
        });
        half.map = map;
        dropped
    }

    /// Ends all claims and pairs of a VM that has no mapping and no port left: its count is of these,
    /// and says when the last is found.
    fn give_all_back(&mut self, vm: usize) {
        let mut left = std::mem::take(&mut self.vms[vm].uses);
        let mut cleared = PageSet::NONE;
        for (page, record) in self.pages.iter_mut().enumerate() {
            if left == 0 {
                break;
            }
            let [owned, held] = [Side::Cpu, Side::Dma].map(|side| record.held_by(side, vm));
            let borrowed = record.is_lent_to(vm);
            if !(owned | held | borrowed) {
                continue;
            }
            left -= owned as usize + held as usize + borrowed as usize;
            if owned {
                record.home = Home::Pool;
                let lent_to = Bits::from(std::mem::take(&mut record.lent_to));
                self.pairs -= lent_to.len();
                lent_to.iter().for_each(|borrower| self.vms[borrower].uses -= 1);
            }
            if held {
                record.dma = None;
            }
            if borrowed {
                record.lent_to &= !(1 << vm);
                self.pairs -= 1;
            } else {
                cleared.insert(page);
            }
        }
        for (page, count) in cleared.spans() {
            self.memory[page * PAGE_WORDS..(page + count) * PAGE_WORDS].fill(0);
        }
    }

    /// What every region operation asks first.
    fn check_region(&self, side: Side, region: &Region) -> Result<(), Refused> {
        refuse_if(!region.fits(self.pages.len()), Refusal::BadSpan)?;
        self.check_known(region.vm)?;
        let unit = self.units.iter().any(|unit| unit.suits(side, region));
        refuse_if(!unit, Refusal::NoSuchUnit)
    }

    fn check_insert(&self, side: Side, region: &Region) -> Result<(), Refused> {
        let Region { vm, guest, page, count, .. } = *region;
        let pages = &self.pages[page..page + count];
        let map = &self.halves[side as usize].map;
        if side == Side::Cpu {
            refuse_at(pages.iter().position(|page| page.home != Home::Pool), Refusal::PageNotHeld)?;
        }
        let present = (0..count).position(|k| map.contains_key(&key(vm, guest + k)));
        refuse_at(present, Refusal::MappingPresent)?;
        let claimed = pages.iter().position(|page| {
            let own = page.home == Home::Pool || page.held_by(Side::Cpu, vm);
            page.claimed_elsewhere(vm) || side == Side::Dma && !own
        });
        refuse_at(claimed, Refusal::PageClaimed)?;
        refuse_if(ENTRIES - map.len() < count, Refusal::NoRoom)
    }

    fn check_remove(&self, side: Side, region: &Region) -> Result<(), Refused> {
        let Region { vm, guest, page, count, .. } = *region;
        let pages = &self.pages[page..page + count];
        let map = &self.halves[side as usize].map;
        let missing = pages.iter().position(|page| !page.held_by(side, vm));
        refuse_at(missing, Refusal::PageNotHeld)?;
        let differs =
            (0..count).position(|k| map.get(&key(vm, guest + k)) != Some(&region.entry(k)));
        refuse_at(differs, Refusal::MappingDiffers)?;
        // One mapping is the region's own.
        let used = pages.iter().position(|page| {
            page.mapped[side as usize] > 1 || side == Side::Cpu && page.lent_to != 0
        });
        refuse_at(used, Refusal::StillInUse)
    }
}

impl Operations for Idiomatic {
    fn start(&mut self, setup: &Setup) -> Result<(), u64> {
        self.units = judge(setup, self.memory.len())?;
        let shared = setup.shared_base..setup.shared_base + setup.shared_count;
        self.pages.clear();
        self.pages.resize(setup.pages, Page::at(Home::Pool));
        self.pages[shared].iter_mut().for_each(|page| page.home = Home::Shared);
        self.vms.fill(Vm::default());
        self.pairs = 0;
        self.halves.iter_mut().for_each(Half::clear);
        self.memory.fill(0);
        Ok(())
    }

    fn pages(&self) -> usize {
        self.pages.len()
    }

    fn add_vm(&mut self, vm: usize) -> Answer {
        refuse_if(self.vms[vm].known, Refusal::VmKnown)?;
        self.vms[vm].known = true;
        Ok(Done::default())
    }

    fn remove_vm(&mut self, vm: usize) -> Answer {
        self.check_known(vm)?;
        refuse_if(self.vms[vm].uses > 0, Refusal::VmBusy)?;
        self.vms[vm].known = false;
        Ok(Done::default())
    }

    fn retire(&mut self, vm: usize) -> Answer {
        self.check_known(vm)?;
        let runs = |half: &Half| half.ports.contains(&Some(vm));
        refuse_if(self.halves.iter().any(runs), Refusal::VmBusy)?;
        let dropped = self.sweep(Side::Cpu, vm) + self.sweep(Side::Dma, vm);
        self.give_all_back(vm);
        self.vms[vm].known = false;
        Ok(Done { dropped, word: 0 })
    }

    fn assign(&mut self, vm: usize, page: usize) -> Answer {
        self.check_known(vm)?;
        refuse_if(self.pages[page].home != Home::Pool, Refusal::PageNotHeld)?;
        refuse_if(self.pages[page].claimed_elsewhere(vm), Refusal::PageClaimed)?;
        self.take(Side::Cpu, vm, page);
        Ok(Done::default())
    }

    fn reclaim(&mut self, vm: usize, page: usize) -> Answer {
        self.check_known(vm)?;
        let record = &self.pages[page];
        refuse_if(!record.held_by(Side::Cpu, vm), Refusal::PageNotHeld)?;
        let used = record.mapped[Side::Cpu as usize] > 0 || record.lent_to != 0;
        refuse_if(used, Refusal::StillInUse)?;
        self.give_back(Side::Cpu, vm, page);
        Ok(Done::default())
    }

    fn share(&mut self, left: usize, right: usize, page: usize) -> Answer {
        self.check_known(left)?;
        self.check_known(right)?;
        refuse_if(left == right, Refusal::PairWrong)?;
        let record = &mut self.pages[page];
        refuse_if(!record.held_by(Side::Cpu, left), Refusal::PageNotHeld)?;
        if !record.is_lent_to(right) {
            refuse_if(self.pairs == PAIRS, Refusal::NoRoom)?;
            record.lent_to |= 1 << right;
            self.pairs += 1;
            self.vms[right].uses += 1;
        }
        Ok(Done::default())
    }

    fn unshare(&mut self, left: usize, right: usize, page: usize) -> Answer {
        self.check_known(left)?;
        self.check_known(right)?;
        let borrower = self.borrower(left, right, page).ok_or(Refusal::PairWrong)?;
        let record = &mut self.pages[page];
        refuse_if(record.cpu_mapped[borrower] > 0, Refusal::StillInUse)?;
        record.lent_to &= !(1 << borrower);
        self.pairs -= 1;
        self.vms[borrower].uses -= 1;
        Ok(Done::default())
    }

    fn map(&mut self, side: Side, vm: usize, guest: usize, entry: Entry) -> Answer {
        self.check_known(vm)?;
        let page = entry.page as usize;
        refuse_if(!self.pages[page].may_be_mapped(side, vm), Refusal::PageNotHeld)?;
        let half = &mut self.halves[side as usize];
        let full = half.map.len() == ENTRIES;
        let walked = Walked { entry, slots: SlotSet::NONE };
        match half.map.entry(key(vm, guest)) {
            hash_map::Entry::Vacant(_) if full => Err(Refusal::NoRoom.into()),
            hash_map::Entry::Vacant(place) => {
                half.walker.insert(*place.key(), walked);
                place.insert(entry);
                self.pages[page].map(side, vm);
                self.vms[vm].uses += 1;
                Ok(Done::default())
            }
            hash_map::Entry::Occupied(mut place) => {
                let slots = half.walker.insert(*place.key(), walked).map(|old| old.slots);
                let slots = slots.unwrap_or(SlotSet::NONE);
                half.free.insert_all(&slots);
                let old = place.insert(entry);
                self.pages[old.page as usize].unmap(side, vm);
                self.pages[page].map(side, vm);
                Ok(Done { dropped: slots.len(), word: 0 })
            }
        }
    }

    fn unmap(&mut self, side: Side, vm: usize, guest: usize) -> Answer {
        self.check_known(vm)?;
        let half = &mut self.halves[side as usize];
        let entry = half.map.remove(&key(vm, guest)).ok_or(Refusal::MappingDiffers)?;
        let dropped = half.forget(key(vm, guest));
        self.pages[entry.page as usize].unmap(side, vm);
        self.vms[vm].uses -= 1;
        Ok(Done { dropped, word: 0 })
    }

    fn insert(&mut self, side: Side, region: &Region) -> Answer {
        self.check_region(side, region)?;
        self.check_insert(side, region)?;
        let Region { vm, guest, page, count, .. } = *region;
        for k in 0..count {
            self.take(side, vm, page + k);
            self.halves[side as usize].install(key(vm, guest + k), region.entry(k));
            self.pages[page + k].map(side, vm);
        }
        self.vms[vm].uses += count;
        Ok(Done::default())
    }

    fn remove(&mut self, side: Side, region: &Region) -> Answer {
        self.check_region(side, region)?;
        self.check_remove(side, region)?;
        let Region { vm, guest, page, count, .. } = *region;
        let mut dropped = 0;
        for k in 0..count {
            let half = &mut self.halves[side as usize];
            half.map.remove(&key(vm, guest + k));
            dropped += half.forget(key(vm, guest + k));
            self.pages[page + k].unmap(side, vm);
            self.give_back(side, vm, page + k);
        }
        self.vms[vm].uses -= count;
        Ok(Done { dropped, word: 0 })
    }

    fn switch(&mut self, side: Side, port: usize, target: Option<usize>) -> Answer {
        if let Some(vm) = target {
            self.check_known(vm)?;
            self.vms[vm].uses += 1;
        }
        let before = std::mem::replace(&mut self.halves[side as usize].ports[port], target);
        if let Some(vm) = before {
            self.vms[vm].uses -= 1;
        }
        Ok(Done::default())
    }

    fn fill(&mut self, side: Side, port: usize, guest: usize) -> Answer {
        let half = &mut self.halves[side as usize];
        let key = key(half.vm_on(port)?, guest);
        let walked = half.walker.get(&key).ok_or(Refusal::MappingDiffers)?;
        // A slot of the key holds the walker's entry already.
        if walked.slots.iter().any(|slot| half.slots[slot].port == port) {
            return Ok(Done::default());
        }
        let slot = half.take_slot();
        half.slots[slot] = Slot { port, key };
        if let Some(walked) = half.walker.get_mut(&key) {
            walked.slots.insert(slot);
        }
        Ok(Done::default())
    }

    fn empty(&mut self, side: Side, slot: usize) -> Answer {
        let half = &mut self.halves[side as usize];
        if !half.free.contains(slot) {
            half.release(slot);
            half.free.insert(slot);
        }
        Ok(Done::default())
    }

    /// What a slot holds is the walker's entry, so that alone is looked up.
    fn reach(
        &mut self,
        side: Side,
        port: usize,
        guest: usize,
        word: usize,
        needed: usize,
    ) -> Result<&mut u64, Refused> {
        let half = &self.halves[side as usize];
        let vm = half.vm_on(port)?;
        let walked = half.walker.get(&key(vm, guest)).ok_or(Refusal::MappingDiffers)?;
        refuse_if(walked.entry.access as usize & needed == 0, Refusal::AccessLacking)?;
        Ok(&mut self.memory[walked.entry.page as usize * PAGE_WORDS + word])
    }
}
