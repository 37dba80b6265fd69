//! (a) The machine in safe Rust over the library's own bounded tables and nothing beside them: arrays
//! of packed words, page sets as bits, SLOTS slots a cache. It works from every valid state: the
//! walker's table may stand in another order than the map.

use face::*;

use crate::bits::{lowest_in, Bits};
use crate::rows::*;
use crate::table::*;

type PageSet = Bits<{ PAGES.div_ceil(64) }>;

/// All that one side has.
struct Half {
    owned: [PageSet; VMS],
    map: Table<ENTRIES>,
    walker: Table<ENTRIES>,
    cache: Table<SLOTS>,
    hand: usize,
    ports: [Option<usize>; PORTS],
}

impl Half {
    const EMPTY: Half = Half {
        owned: [PageSet::NONE; VMS],
        map: Table::EMPTY,
        walker: Table::EMPTY,
        cache: Table::EMPTY,
        hand: 0,
        ports: [None; PORTS],
    };

    /// Of a word of page sets, the pages that other VMs hold.
    fn elsewhere(&self, vm: usize, at: usize) -> u64 {
        let others = self.owned.iter().enumerate().filter(|&(other, _)| other != vm);
        others.fold(0, |all, (_, pages)| all | pages.word(at))
    }

    fn runs(&self, vm: usize) -> bool {
        self.ports.contains(&Some(vm))
    }

    fn is_busy(&self, vm: usize) -> bool {
        !self.owned[vm].is_empty()
            || self.runs(vm)
            || self.map.any(|word| Pattern::vm(vm).fits(word))
    }

    fn vm_on(&self, port: usize) -> Result<usize, Refused> {
        self.ports[port].ok_or(Refusal::PortIdle.into())
    }

    /// The walker's place of a key that the map has in `place`: mostly the same one.
    fn walker_place(&self, place: usize, key: Pattern) -> Option<usize> {
        match key.fits(self.walker.0[place]) {
            true => Some(place),
            false => self.walker.find(|word| key.fits(word)),
        }
    }

    /// Puts a word, or EMPTY, over the entry in a place of the map, and drops its slots.
    fn replace(&mut self, place: usize, word: Word, key: Pattern, address: Pattern) -> Answer {
        self.map.0[place] = word;
        if let Some(place) = self.walker_place(place, key) {
            self.walker.0[place] = word;
        }
        let dropped = self.cache.drop_where(PORTS, |slot| address.fits(slot));
        Ok(Done { dropped, word: 0 })
    }

    /// Takes the mappings that pass out of the map and the walker, which has the same ones, and drops
    /// their slots; how many.
    fn sweep(&mut self, test: impl Fn(Word) -> bool + Copy) -> usize {
        let gone = self.map.drop_where(ENTRIES, test);
        self.walker.drop_where(gone, test);
        self.cache.drop_where(SLOTS, test)
    }
}

pub struct Bounded {
    pages: usize,
    units: Vec<Unit>,
    /// A bit for each VM.
    known: u64,
    pool: PageSet,
    shared: PageSet,
    pairs: Table<PAIRS>,
    halves: Box<[Half; 2]>,
    memory: Vec<u64>,
}

/// What operations ask.
impl Bounded {
    pub fn new(pages: usize) -> Bounded {
        Bounded {
            pages: 0,
            units: Vec::new(),
            known: 0,
            pool: PageSet::NONE,
            shared: PageSet::NONE,
            pairs: Table::EMPTY,
            halves: Box::new([Half::EMPTY; 2]),
            memory: vec![0; pages * PAGE_WORDS],
        }
    }

    fn half(&mut self, side: Side) -> &mut Half {
        &mut self.halves[side as usize]
    }

    fn holds(&self, side: Side, vm: usize, page: usize) -> bool {
        self.halves[side as usize].owned[vm].contains(page)
    }

    fn knows(&self, vm: usize) -> bool {
        self.known >> vm & 1 == 1
    }

    fn check_known(&self, vm: usize) -> Result<(), Refused> {
        refuse_if(!self.knows(vm), Refusal::VmUnknown)
    }

    /// Where the pair stands, in whichever order of its ends.
    fn find_pair(&self, left: usize, right: usize, page: usize) -> Option<usize> {
        let (one, other) = (pair(left, right, page), pair(right, left, page));
        self.pairs.find(|word| word == one || word == other)
    }

    fn shares(&self, vm: usize, page: usize) -> bool {
        let (left, right) = (Pattern::vm(vm), Pattern::right(vm));
        let [left, right] = [left, right].map(|end| end.and(Pattern::page(page)));
        self.pairs.any(|word| left.fits(word) | right.fits(word))
    }

    fn may_map(&self, side: Side, vm: usize, page: usize) -> bool {
        self.holds(side, vm, page)
            || match side {
                Side::Cpu => self.shares(vm, page),
                Side::Dma => self.shared.contains(page),
            }
    }

    /// Clears a page to which the VM's last claim has ended.
    fn clear(&mut self, page: usize) {
        self.memory[page * PAGE_WORDS..(page + 1) * PAGE_WORDS].fill(0);
    }

    /// What every region operation asks first.
    fn check_region(&self, side: Side, region: &Region) -> Result<(), Refused> {
        refuse_if(!region.fits(self.pages), Refusal::BadSpan)?;
        self.check_known(region.vm)?;
        let unit = self.units.iter().any(|unit| unit.suits(side, region));
        refuse_if(!unit, Refusal::NoSuchUnit)
    }

    fn check_insert(&self, side: Side, region: &Region) -> Result<(), Refused> {
        let Region { vm, guest, page, count, .. } = *region;
        let [cpu, dma] = &*self.halves;
        if side == Side::Cpu {
            let missing = lowest_in(page, count, |at| !self.pool.word(at));
            refuse_at(missing, Refusal::PageNotHeld)?;
        }
        let map = &self.halves[side as usize].map;
        let span = Span::guests(vm, guest, count);
        let mut present = PageSet::NONE;
        map.each(|word| span.has(word), |word| present.insert(span.index(word)));
        refuse_at(present.lowest(), Refusal::MappingPresent)?;
        let claimed = lowest_in(page, count, |at| match side {
            Side::Cpu => dma.elsewhere(vm, at),
            Side::Dma => dma.elsewhere(vm, at) | cpu.elsewhere(vm, at) | self.shared.word(at),
        });
        refuse_at(claimed, Refusal::PageClaimed)?;
        refuse_if(!map.has_room(count), Refusal::NoRoom)
    }

    fn check_remove(&self, side: Side, region: &Region) -> Result<(), Refused> {
        let Region { vm, guest, page, count, .. } = *region;
        let half = &self.halves[side as usize];
        let missing = lowest_in(page, count, |at| !half.owned[vm].word(at));
        refuse_at(missing, Refusal::PageNotHeld)?;
        let (own, targets) = (Span::guests(vm, guest, count), Span::pages(page, count));
        let (mut present, mut used) = (PageSet::NONE, PageSet::NONE);
        let near = |word| own.has(word) | targets.has(word);
        half.map.each(near, |word| {
            let k = own.index(word);
            if own.has(word) && word == entry_word(vm, guest + k, region.entry(k)) {
                present.insert(k);
            } else if targets.has(word) {
                used.insert(targets.index(word));
            }
        });
        refuse_at(lowest_in(0, count, |at| !present.word(at)), Refusal::MappingDiffers)?;
        if side == Side::Cpu {
            self.pairs.each(|pair| targets.has(pair), |pair| used.insert(targets.index(pair)));
        }
        refuse_at(used.lowest(), Refusal::StillInUse)
    }
}

impl Operations for Bounded {
    /// Makes every table anew, in the room that is there.
    fn start(&mut self, setup: &Setup) -> Result<(), u64> {
        self.units = judge(setup, self.memory.len())?;
        let Setup { pages, shared_base, shared_count, .. } = *setup;
        self.pages = pages;
        self.known = 0;
        self.shared = PageSet::NONE;
        self.shared.insert_span(shared_base, shared_count);
        self.pool = PageSet::NONE;
        self.pool.insert_span(0, pages);
        self.pool.remove_span(shared_base, shared_count);
        self.pairs = Table::EMPTY;
        *self.halves = [Half::EMPTY; 2];
        self.memory.fill(0);
        Ok(())
    }

    fn pages(&self) -> usize {
        self.pages
    }

    fn add_vm(&mut self, vm: usize) -> Answer {
        refuse_if(self.knows(vm), Refusal::VmKnown)?;
        self.known |= 1 << vm;
        Ok(Done::default())
    }

    fn remove_vm(&mut self, vm: usize) -> Answer {
        self.check_known(vm)?;
        let (left, right) = (Pattern::vm(vm), Pattern::right(vm));
        let busy = self.halves.iter().any(|half| half.is_busy(vm))
            || self.pairs.any(|word| left.fits(word) | right.fits(word));
        refuse_if(busy, Refusal::VmBusy)?;
        self.known &= !(1 << vm);
        Ok(Done::default())
    }

    fn retire(&mut self, vm: usize) -> Answer {
        self.check_known(vm)?;
        refuse_if(self.halves.iter().any(|half| half.runs(vm)), Refusal::VmBusy)?;
        let [cpu, dma] = &mut *self.halves;
        let owned = std::mem::replace(&mut cpu.owned[vm], PageSet::NONE);
        let held = std::mem::replace(&mut dma.owned[vm], PageSet::NONE);
        let (own, right) = (Pattern::vm(vm), Pattern::right(vm));
        let onto = |word| owned.bit(page_of(word)) & filled(word) == 1;
        let of_cpus = cpu.sweep(|word| own.fits(word) | onto(word));
        let of_devices = dma.sweep(|word| own.fits(word));
        self.pairs.drop_where(PAIRS, |word| own.fits(word) | right.fits(word));
        self.pool.insert_all(&owned);
        self.known &= !(1 << vm);
        let mut cleared = owned;
        cleared.insert_all(&held);
        for (page, count) in cleared.spans() {
            self.memory[page * PAGE_WORDS..(page + count) * PAGE_WORDS].fill(0);
        }
        Ok(Done { dropped: of_cpus + of_devices, word: 0 })
    }

    fn assign(&mut self, vm: usize, page: usize) -> Answer {
        self.check_known(vm)?;
        refuse_if(!self.pool.contains(page), Refusal::PageNotHeld)?;
        let [cpu, dma] = &mut *self.halves;
        let claimed = dma.elsewhere(vm, page / 64) >> (page % 64) & 1 == 1;
        refuse_if(claimed, Refusal::PageClaimed)?;
        self.pool.remove(page);
        cpu.owned[vm].insert(page);
        Ok(Done::default())
    }

    fn reclaim(&mut self, vm: usize, page: usize) -> Answer {
        self.check_known(vm)?;
        refuse_if(!self.holds(Side::Cpu, vm, page), Refusal::PageNotHeld)?;
        let on_page = Pattern::page(page);
        let used = self.pairs.any(|word| on_page.fits(word))
            || self.half(Side::Cpu).map.any(|word| on_page.fits(word));
        refuse_if(used, Refusal::StillInUse)?;
        self.half(Side::Cpu).owned[vm].remove(page);
        self.pool.insert(page);
        if !self.holds(Side::Dma, vm, page) {
            self.clear(page);
        }
        Ok(Done::default())
    }

    fn share(&mut self, left: usize, right: usize, page: usize) -> Answer {
        self.check_known(left)?;
        self.check_known(right)?;
        refuse_if(left == right, Refusal::PairWrong)?;
        refuse_if(!self.holds(Side::Cpu, left, page), Refusal::PageNotHeld)?;
        if self.find_pair(left, right, page).is_none() {
            let at = self.pairs.lowest_empty().ok_or(Refusal::NoRoom)?;
            self.pairs.0[at] = pair(left, right, page);
        }
        Ok(Done::default())
    }

    fn unshare(&mut self, left: usize, right: usize, page: usize) -> Answer {
        self.check_known(left)?;
        self.check_known(right)?;
        let at = self.find_pair(left, right, page).ok_or(Refusal::PairWrong)?;
        // One of the ends owns the page.
        let borrower = if self.holds(Side::Cpu, left, page) { right } else { left };
        let borrowed = Pattern::vm(borrower).and(Pattern::page(page));
        let used = self.half(Side::Cpu).map.any(|word| borrowed.fits(word));
        refuse_if(used, Refusal::StillInUse)?;
        self.pairs.0[at] = EMPTY;
        Ok(Done::default())
    }

    fn map(&mut self, side: Side, vm: usize, guest: usize, entry: Entry) -> Answer {
        self.check_known(vm)?;
        refuse_if(!self.may_map(side, vm, entry.page as usize), Refusal::PageNotHeld)?;
        let half = self.half(side);
        let (key, word) = (Pattern::key(0, vm, guest), entry_word(vm, guest, entry));
        if let Some(place) = half.map.find(|word| key.fits(word)) {
            return half.replace(place, word, key, Pattern::address(vm, guest));
        }
        // The walker has no such key either, and no slot holds it.
        let place = half.map.lowest_empty().ok_or(Refusal::NoRoom)?;
        half.map.0[place] = word;
        half.walker.put_all(std::iter::once(word));
        Ok(Done::default())
    }

    fn unmap(&mut self, side: Side, vm: usize, guest: usize) -> Answer {
        self.check_known(vm)?;
        let half = self.half(side);
        let key = Pattern::key(0, vm, guest);
        let place = half.map.find(|word| key.fits(word)).ok_or(Refusal::MappingDiffers)?;
        half.replace(place, EMPTY, key, Pattern::address(vm, guest))
    }

    fn insert(&mut self, side: Side, region: &Region) -> Answer {
        self.check_region(side, region)?;
        self.check_insert(side, region)?;
        let Region { vm, guest, page, count, .. } = *region;
        if side == Side::Cpu {
            self.pool.remove_span(page, count);
        }
        let half = self.half(side);
        half.owned[vm].insert_span(page, count);
        let words = (0..count).map(|k| entry_word(vm, guest + k, region.entry(k)));
        half.map.put_all(words.clone());
        half.walker.put_all(words);
        Ok(Done::default())
    }

    fn remove(&mut self, side: Side, region: &Region) -> Answer {
        self.check_region(side, region)?;
        self.check_remove(side, region)?;
        let Region { vm, guest, page, count, .. } = *region;
        if side == Side::Cpu {
            self.pool.insert_span(page, count);
        }
        let half = self.half(side);
        half.owned[vm].remove_span(page, count);
        let span = Span::guests(vm, guest, count);
        half.map.drop_where(count, |word| span.has(word));
        half.walker.drop_where(count, |word| span.has(word));
        let dropped = half.cache.drop_where(SLOTS, |slot| span.has(slot));
        for page in page..page + count {
            if !self.holds(other(side), vm, page) {
                self.clear(page);
            }
        }
        Ok(Done { dropped, word: 0 })
    }

    fn switch(&mut self, side: Side, port: usize, target: Option<usize>) -> Answer {
        if let Some(vm) = target {
            self.check_known(vm)?;
        }
        self.half(side).ports[port] = target;
        Ok(Done::default())
    }

    fn fill(&mut self, side: Side, port: usize, guest: usize) -> Answer {
        let half = self.half(side);
        let vm = half.vm_on(port)?;
        let held = Pattern::key(port, vm, guest);
        // A slot of the key holds the walker's entry already.
        if half.cache.any(|slot| held.fits(slot)) {
            return Ok(Done::default());
        }
        let entry = half.walker.get(Pattern::key(0, vm, guest)).ok_or(Refusal::MappingDiffers)?;
        let slot = half.cache.lowest_empty().unwrap_or_else(|| {
            let slot = half.hand;
            half.hand = (slot + 1) % SLOTS;
            slot
        });
        half.cache.0[slot] = entry | at_port(port);
        Ok(Done::default())
    }

    fn empty(&mut self, side: Side, slot: usize) -> Answer {
        self.half(side).cache.0[slot] = EMPTY;
        Ok(Done::default())
    }

    fn reach(
        &mut self,
        side: Side,
        port: usize,
        guest: usize,
        word: usize,
        needed: usize,
    ) -> Result<&mut u64, Refused> {
        let half = self.half(side);
        let vm = half.vm_on(port)?;
        let entry = (half.cache.get(Pattern::key(port, vm, guest)))
            .or_else(|| half.walker.get(Pattern::key(0, vm, guest)))
            .ok_or(Refusal::MappingDiffers)?;
        refuse_if(access_of(entry) & needed == 0, Refusal::AccessLacking)?;
        Ok(&mut self.memory[page_of(entry) * PAGE_WORDS + word])
    }
}
