//! The twenty-seven operations: reading a row, judging it, doing it.
//! Judging only looks at the machine, so a refusal can't change anything.

use crate::machine::*;
use crate::valid;

/// One row: operation number, arguments, the rest ignored.
pub type Row = [u64; ROW_NUMBERS];

#[derive(Clone, Copy, PartialEq, Eq, Debug, Default)]
pub struct Answer {
    pub number: u64,
    pub index: u64,
    pub dropped: u64,
    pub word: u64,
}

impl Answer {
    pub fn refused(number: u64) -> Self {
        Answer { number, ..Answer::default() }
    }

    pub fn numbers(self) -> [u64; ANSWER_NUMBERS] {
        [self.number, self.index, self.dropped, self.word]
    }
}

/// The kinds of argument that refusal 2 judges; `Any` is never out of range.
#[derive(Clone, Copy, PartialEq, Eq, Debug)]
pub enum Kind {
    Vm,
    Target,
    Guest,
    Page,
    Access,
    Generation,
    Port,
    Slot,
    Word,
    Any,
}

impl Kind {
    /// The first number that is too large, in a machine of `pages` pages.
    pub fn limit(self, pages: u64) -> Option<u64> {
        match self {
            Kind::Vm | Kind::Target => Some(VMS),
            Kind::Guest => Some(GUESTS),
            Kind::Page => Some(pages),
            Kind::Access => Some(ACCESSES),
            Kind::Generation => Some(GENERATIONS),
            Kind::Port => Some(PORTS as u64),
            Kind::Slot => Some(SLOTS as u64),
            Kind::Word => Some(WORDS),
            Kind::Any => None,
        }
    }

    pub fn in_range(self, number: u64, pages: u64) -> bool {
        let below = self.limit(pages).is_none_or(|limit| number < limit);
        below || (self == Kind::Target && number == IDLE)
    }
}

/// The arguments of an operation, in order; `None` for an unknown number.
/// Spans of regions are `Any`, since refusal 3 judges them.
pub fn arguments(operation: u64) -> Option<&'static [Kind]> {
    use Kind::*;
    Some(match operation {
        1 | 2 | 27 => &[Vm],
        3 | 4 => &[Vm, Page],
        5 | 6 => &[Vm, Vm, Page],
        7 | 8 => &[Vm, Guest, Page, Access, Generation],
        9 | 10 => &[Vm, Guest],
        11..=14 => &[Vm, Any, Any, Any, Access],
        15 | 16 => &[Port, Target],
        17 | 18 => &[Port, Guest],
        19 | 20 => &[Slot],
        21 | 22 => &[Port, Guest, Word],
        23 | 24 => &[Port, Guest, Word, Any],
        25 | 26 => &[],
        _ => return None,
    })
}

/// Where a guest access goes: a port, a guest page, a word of it.
#[derive(Clone, Copy, Debug)]
pub struct Place {
    side: Side,
    port: u64,
    guest: Guest,
    word: u64,
}

/// A row whose numbers are all in range.
#[derive(Clone, Copy, Debug)]
pub enum Operation {
    AddVm(Vm),
    RemoveVm(Vm),
    Assign(Vm, Page),
    Reclaim(Vm, Page),
    Share(Vm, Vm, Page),
    Unshare(Vm, Vm, Page),
    Map(Side, Vm, Guest, Entry),
    Unmap(Side, Vm, Guest),
    Insert(Side, Region),
    Remove(Side, Region),
    Run(Side, u64, Option<Vm>),
    Fill(Side, u64, Guest),
    Empty(Side, u64),
    Read(Place),
    Write(Place, u64),
    Barrier,
    Retire(Vm),
}

/// Reads a row; `None` if its operation is unknown or a number is out of range.
fn decode(row: &Row, pages: u64) -> Option<Operation> {
    use Operation::*;
    use Side::*;
    let kinds = arguments(row[0])?;
    if !kinds.iter().zip(&row[1..]).all(|(kind, &number)| kind.in_range(number, pages)) {
        return None;
    }
    let [number, a, b, c, d, e, ..] = *row;
    let entry = Entry { page: c, access: d, generation: e };
    let region = Region { vm: a, guest: b, page: c, count: d, access: e };
    let target = (b != IDLE).then_some(b);
    let place = |side| Place { side, port: a, guest: b, word: c };
    Some(match number {
        1 => AddVm(a),
        2 => RemoveVm(a),
        3 => Assign(a, b),
        4 => Reclaim(a, b),
        5 => Share(a, b, c),
        6 => Unshare(a, b, c),
        7 => Map(Cpu, a, b, entry),
        8 => Map(Dma, a, b, entry),
        9 => Unmap(Cpu, a, b),
        10 => Unmap(Dma, a, b),
        11 => Insert(Cpu, region),
        12 => Remove(Cpu, region),
        13 => Insert(Dma, region),
        14 => Remove(Dma, region),
        15 => Run(Cpu, a, target),
        16 => Run(Dma, a, target),
        17 => Fill(Cpu, a, b),
        18 => Fill(Dma, a, b),
        19 => Empty(Cpu, a),
        20 => Empty(Dma, a),
        21 => Read(place(Cpu)),
        22 => Read(place(Dma)),
        23 => Write(place(Cpu), d),
        24 => Write(place(Dma), d),
        27 => Retire(a),
        _ => Barrier,
    })
}

type Verdict = Result<(), Answer>;

fn refuse(number: u64, when: bool) -> Verdict {
    if when {
        Err(Answer::refused(number))
    } else {
        Ok(())
    }
}

/// Refuses with the lowest index of the region for which `fails` holds.
fn refuse_lowest(number: u64, region: &Region, fails: impl Fn(u64) -> bool) -> Verdict {
    match (0..region.count).find(|&index| fails(index)) {
        Some(index) => Err(Answer { number, index, ..Answer::default() }),
        None => Ok(()),
    }
}

/// The entry points.
impl Machine {
    /// One operation, with the test for validity.
    pub fn operate(&mut self, row: &Row) -> Answer {
        if valid::is_valid(self) {
            self.apply(row)
        } else {
            Answer::refused(1)
        }
    }

    /// A sequence of rows, an answer of four numbers for each; gives the
    /// number of its refusal as a whole, or 0.
    pub fn sequence(&mut self, rows: &[u64], answers: &mut [u64]) -> u64 {
        if !valid::is_valid(self) {
            return 1;
        }
        let count = rows.len() / ROW_NUMBERS;
        if rows.len() % ROW_NUMBERS != 0 || answers.len() < count * ANSWER_NUMBERS {
            return 2;
        }
        let answers = answers.chunks_exact_mut(ANSWER_NUMBERS);
        for (row, answer) in rows.chunks_exact(ROW_NUMBERS).zip(answers) {
            let row = row.try_into().expect("a chunk is a row");
            answer.copy_from_slice(&self.apply(row).numbers());
        }
        0
    }

    /// One operation on a machine already known to be valid.
    pub fn apply(&mut self, row: &Row) -> Answer {
        match self.decide(row) {
            Ok(operation) => self.perform(operation),
            Err(answer) => answer,
        }
    }

    /// The number and index with which a valid machine would answer.
    pub fn verdict(&self, row: &Row) -> Answer {
        self.decide(row).err().unwrap_or_default()
    }

    fn decide(&self, row: &Row) -> Result<Operation, Answer> {
        let operation = decode(row, self.pages).ok_or(Answer::refused(2))?;
        self.judge(operation)?;
        Ok(operation)
    }
}

/// The checks after 1 and 2, in the order of the paper's table.
impl Machine {
    fn judge(&self, operation: Operation) -> Verdict {
        use Operation::*;
        match operation {
            AddVm(vm) => refuse(5, self.known.contains(&vm)),
            RemoveVm(vm) => {
                self.known_or_4(vm)?;
                refuse(13, self.vm_in_use(vm))
            }
            Assign(vm, page) => {
                self.known_or_4(vm)?;
                refuse(6, !self.pool.contains(&page))?;
                refuse(7, self.dma.other_holds(vm, page))
            }
            Reclaim(vm, page) => self.judge_reclaim(vm, page),
            Share(left, right, page) => self.judge_share(left, right, page),
            Unshare(left, right, page) => self.judge_unshare(left, right, page),
            Map(side, vm, guest, entry) => {
                self.known_or_4(vm)?;
                refuse(6, !self.may_map(side, vm, entry.page))?;
                let map = &self.half(side).software;
                refuse(14, !map.contains_key(&(vm, guest)) && map.len() >= ENTRIES)
            }
            Unmap(side, vm, guest) => {
                self.known_or_4(vm)?;
                refuse(9, !self.half(side).software.contains_key(&(vm, guest)))
            }
            Insert(side, region) => self.judge_insert(side, &region),
            Remove(side, region) => self.judge_remove(side, &region),
            Run(_, _, target) => target.map_or(Ok(()), |vm| self.known_or_4(vm)),
            Fill(side, port, guest) => {
                let vm = self.running_or_15(side, port)?;
                refuse(9, !self.half(side).walker.contains_key(&(vm, guest)))
            }
            Read(place) => self.translate(place, READ).map(|_| ()),
            Write(place, _) => self.translate(place, WRITE).map(|_| ()),
            Empty(..) | Barrier => Ok(()),
            Retire(vm) => {
                self.known_or_4(vm)?;
                refuse(13, self.cpu.runs(vm) || self.dma.runs(vm))
            }
        }
    }

    fn known_or_4(&self, vm: Vm) -> Verdict {
        refuse(4, !self.known.contains(&vm))
    }

    fn running_or_15(&self, side: Side, port: u64) -> Result<Vm, Answer> {
        self.half(side).ports[port as usize].ok_or(Answer::refused(15))
    }

    /// Something still names the VM: a page, a mapping, an edge or a port.
    fn vm_in_use(&self, vm: Vm) -> bool {
        let in_use = |half: &Half| {
            half.owned.get(&vm).is_some_and(|pages| !pages.is_empty())
                || half.software.keys().any(|key| key.0 == vm)
                || half.runs(vm)
        };
        let edges = self.pairs.iter().any(|pair| joins(pair, vm));
        in_use(&self.cpu) || in_use(&self.dma) || edges
    }

    fn judge_reclaim(&self, vm: Vm, page: Page) -> Verdict {
        self.known_or_4(vm)?;
        refuse(6, !self.cpu.holds(vm, page))?;
        let mapped = self.cpu.software.values().any(|entry| entry.page == page);
        refuse(11, mapped || self.edge_names(page))
    }

    fn judge_share(&self, left: Vm, right: Vm, page: Page) -> Verdict {
        self.known_or_4(left)?;
        self.known_or_4(right)?;
        refuse(12, left == right)?;
        refuse(6, !self.cpu.holds(left, page))?;
        let stored = self.pairs.contains(&pair(left, right, page));
        refuse(14, !stored && self.pairs.len() >= PAIRS)
    }

    fn judge_unshare(&self, left: Vm, right: Vm, page: Page) -> Verdict {
        self.known_or_4(left)?;
        self.known_or_4(right)?;
        refuse(12, !self.pairs.contains(&pair(left, right, page)))?;
        let borrower = if self.cpu.holds(left, page) { right } else { left };
        let mut entries = self.cpu.software.iter();
        refuse(11, entries.any(|(key, entry)| key.0 == borrower && entry.page == page))
    }

    /// What inserting and removing a region ask first on either side.
    fn judge_region(&self, side: Side, region: &Region) -> Verdict {
        refuse(3, !region.fits(self.pages))?;
        self.known_or_4(region.vm)?;
        refuse(8, !self.assignable(side, region))
    }

    fn judge_insert(&self, side: Side, region: &Region) -> Verdict {
        self.judge_region(side, region)?;
        let (vm, map) = (region.vm, &self.half(side).software);
        if side == Side::Cpu {
            refuse_lowest(6, region, |i| !self.pool.contains(&(region.page + i)))?;
        }
        refuse_lowest(10, region, |i| map.contains_key(&region.key(i)))?;
        refuse_lowest(7, region, |i| {
            let page = region.page + i;
            let claimed =
                side == Side::Dma && (self.cpu.other_holds(vm, page) || self.shared.contains(page));
            claimed || self.dma.other_holds(vm, page)
        })?;
        let free = ENTRIES.saturating_sub(map.len()) as u64;
        refuse(14, free < region.count)
    }

    fn judge_remove(&self, side: Side, region: &Region) -> Verdict {
        self.judge_region(side, region)?;
        let half = self.half(side);
        refuse_lowest(6, region, |i| !half.holds(region.vm, region.page + i))?;
        refuse_lowest(9, region, |i| half.software.get(&region.key(i)) != Some(&region.entry(i)))?;
        refuse_lowest(11, region, |i| {
            let (own, page) = (region.key(i), region.page + i);
            let mut entries = half.software.iter();
            entries.any(|(&key, entry)| key != own && entry.page == page)
                || (side == Side::Cpu && self.edge_names(page))
        })
    }

    /// The entry for a guest access: of the slot if held, else the walker's.
    fn translate(&self, place: Place, needed: u64) -> Result<Entry, Answer> {
        let vm = self.running_or_15(place.side, place.port)?;
        let half = self.half(place.side);
        let key = (place.port, vm, place.guest);
        let held = half.cache.slots.iter().flatten().find(|slot| slot.key() == key);
        let entry = held
            .map(|slot| slot.entry)
            .or_else(|| half.walker.get(&(vm, place.guest)).copied())
            .ok_or(Answer::refused(9))?;
        refuse(16, entry.access & needed == 0)?;
        Ok(entry)
    }
}

/// The effects of operations that were not refused.
impl Machine {
    fn perform(&mut self, operation: Operation) -> Answer {
        use Operation::*;
        let mut answer = Answer::default();
        match operation {
            AddVm(vm) => self.add_vm(vm),
            RemoveVm(vm) => self.remove_vm(vm),
            Assign(vm, page) => self.assign(vm, page),
            Reclaim(vm, page) => self.reclaim(vm, page),
            Share(left, right, page) => {
                self.pairs.insert(pair(left, right, page));
            }
            Unshare(left, right, page) => {
                self.pairs.remove(&pair(left, right, page));
            }
            Map(side, vm, guest, entry) => {
                answer.dropped = self.half_mut(side).erase((vm, guest));
                self.half_mut(side).install((vm, guest), entry);
            }
            Unmap(side, vm, guest) => answer.dropped = self.half_mut(side).erase((vm, guest)),
            Insert(side, region) => self.insert(side, &region),
            Remove(side, region) => answer.dropped = self.remove(side, &region),
            Run(side, port, target) => self.half_mut(side).ports[port as usize] = target,
            Fill(side, port, guest) => self.half_mut(side).fill(port, guest),
            Empty(side, slot) => self.half_mut(side).cache.slots[slot as usize] = None,
            Read(place) => {
                if let Ok(entry) = self.translate(place, READ) {
                    answer.word = self.memory[Self::address(entry.page, place.word)];
                }
            }
            Write(place, value) => {
                if let Ok(entry) = self.translate(place, WRITE) {
                    self.memory[Self::address(entry.page, place.word)] = value;
                }
            }
            Barrier => {}
            Retire(vm) => answer.dropped = self.retire(vm),
        }
        answer
    }

    fn add_vm(&mut self, vm: Vm) {
        self.known.insert(vm);
        for half in [&mut self.cpu, &mut self.dma] {
            half.owned.entry(vm).or_default();
        }
    }

    fn remove_vm(&mut self, vm: Vm) {
        self.known.remove(&vm);
        for half in [&mut self.cpu, &mut self.dma] {
            half.owned.remove(&vm);
        }
    }

    /// Ends all that the VM has, what others map of its CPU pages, and then its
    /// id; gives how many slots were dropped on both sides.
    fn retire(&mut self, vm: Vm) -> u64 {
        let pages = |half: &Half| half.owned.get(&vm).cloned().unwrap_or_default();
        let (owned, held) = (pages(&self.cpu), pages(&self.dma));
        let of_cpu = self.cpu.sweep(|user, page| user == vm || owned.contains(&page));
        let of_dma = self.dma.sweep(|user, _| user == vm);
        self.pairs.retain(|pair| !joins(pair, vm));
        owned.iter().for_each(|&page| self.reclaim(vm, page));
        held.iter().for_each(|&page| self.release(Side::Dma, vm, page));
        self.remove_vm(vm);
        of_cpu + of_dma
    }

    fn assign(&mut self, vm: Vm, page: Page) {
        self.pool.remove(&page);
        self.cpu.owned.entry(vm).or_default().insert(page);
    }

    fn reclaim(&mut self, vm: Vm, page: Page) {
        self.pool.insert(page);
        self.release(Side::Cpu, vm, page);
    }

    /// Ends one side's claim, and clears the page if the VM has no other on it.
    fn release(&mut self, side: Side, vm: Vm, page: Page) {
        if let Some(pages) = self.half_mut(side).owned.get_mut(&vm) {
            pages.remove(&page);
        }
        if !self.cpu.holds(vm, page) && !self.dma.holds(vm, page) {
            let begin = Self::address(page, 0);
            self.memory[begin..begin + WORDS as usize].fill(0);
        }
    }

    fn insert(&mut self, side: Side, region: &Region) {
        for index in 0..region.count {
            let page = region.page + index;
            match side {
                Side::Cpu => self.assign(region.vm, page),
                Side::Dma => {
                    self.dma.owned.entry(region.vm).or_default().insert(page);
                }
            }
            self.half_mut(side).install(region.key(index), region.entry(index));
        }
    }

    /// Gives how many slots were dropped.
    fn remove(&mut self, side: Side, region: &Region) -> u64 {
        let mut dropped = 0;
        for index in 0..region.count {
            let page = region.page + index;
            dropped += self.half_mut(side).erase(region.key(index));
            match side {
                Side::Cpu => self.reclaim(region.vm, page),
                Side::Dma => self.release(side, region.vm, page),
            }
        }
        dropped
    }
}

/// Edits of one side's maps and cache.
impl Half {
    /// Software and walker maps always get the same edit.
    fn install(&mut self, key: (Vm, Guest), entry: Entry) {
        self.software.insert(key, entry);
        self.walker.insert(key, entry);
    }

    /// Takes a key out of both maps and out of every slot, whatever its port;
    /// gives how many slots matched.
    fn erase(&mut self, key: (Vm, Guest)) -> u64 {
        self.software.remove(&key);
        self.walker.remove(&key);
        self.cache.drop_slots(|slot| (slot.vm, slot.guest) == key)
    }

    /// The same for every translation whose VM and page are such that it goes.
    fn sweep(&mut self, goes: impl Fn(Vm, Page) -> bool) -> u64 {
        for map in [&mut self.software, &mut self.walker] {
            map.retain(|key, entry| !goes(key.0, entry.page));
        }
        self.cache.drop_slots(|slot| goes(slot.vm, slot.entry.page))
    }

    /// Caches the walker's entry for the VM on the port.
    fn fill(&mut self, port: u64, guest: Guest) {
        let Some(vm) = self.ports[port as usize] else { return };
        let Some(&entry) = self.walker.get(&(vm, guest)) else { return };
        let new = Slot { port, vm, guest, entry };
        let place = self.cache.place_for(new.key());
        self.cache.slots[place] = Some(new);
    }
}

impl Cache {
    /// Empties the slots that go, in their places; gives how many they were.
    fn drop_slots(&mut self, goes: impl Fn(&Slot) -> bool) -> u64 {
        let mut dropped = 0;
        for slot in &mut self.slots {
            if slot.as_ref().is_some_and(&goes) {
                *slot = None;
                dropped += 1;
            }
        }
        dropped
    }

    /// The slot that has the key, else the lowest empty one, else that at the
    /// hand, which only then steps on.
    fn place_for(&mut self, key: (u64, Vm, Guest)) -> usize {
        let has_key = |slot: &Option<Slot>| slot.is_some_and(|filled| filled.key() == key);
        if let Some(place) = self.slots.iter().position(has_key) {
            return place;
        }
        if let Some(place) = self.slots.iter().position(Option::is_none) {
            return place;
        }
        let place = self.hand;
        self.hand = (self.hand + 1) % SLOTS;
        place
    }
}
