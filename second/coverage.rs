//! A record of what a script reaches: each operation with each refusal, each
//! argument out of range alone, and the brims and reasons named in `POINTS`.

use std::collections::{BTreeMap, BTreeSet};
use std::fmt;
use std::io::{self, BufRead};

use crate::machine::*;
use crate::operate::{arguments, Answer, Kind, Row};
use crate::script::{Event, Events, Setup};

/// The refusals after 1 and 2 that the paper lists for an operation.
pub fn refusals(operation: u64) -> &'static [u64] {
    match operation {
        1 => &[5],
        2 | 27 => &[4, 13],
        3 => &[4, 6, 7],
        4 => &[4, 6, 11],
        5 => &[4, 6, 12, 14],
        6 => &[4, 11, 12],
        7 | 8 => &[4, 6, 14],
        9 | 10 => &[4, 9],
        11 => &[3, 4, 6, 7, 8, 10, 14],
        12 | 14 => &[3, 4, 6, 8, 9, 11],
        13 => &[3, 4, 7, 8, 10, 14],
        15 | 16 => &[4],
        17 | 18 => &[9, 15],
        21..=24 => &[9, 15, 16],
        _ => &[],
    }
}

/// The refusals of a region that name the index of a page.
fn indexed(operation: u64) -> impl Iterator<Item = u64> {
    let region = (11..=14).contains(&operation);
    let named = |number: &u64| matches!(number, 6 | 7 | 9 | 10 | 11);
    refusals(operation).iter().copied().filter(move |number| region && named(number))
}

/// Operation 0 stands for starts, queries and unknown operations.
type Point = (u64, &'static str);

/// Reasons and brims, each with the operations that must reach it.
const POINTS: &[(&[u64], &[&str])] = &[
    (&[0], &["start 0", "start 0, empty span at N", "start 0, all pages shared"]),
    (&[0], &["start 0, as many units as fit", "start 0, units differ only in mark"]),
    (&[0], &["start 0, unit repeats", "start 0, unit in shared span"]),
    (&[0], &["start 1, N 0", "start 1, N over PAGES", "start 1 before 2 and 3"]),
    (&[0], &["start 2, a unit too many", "start 2, unit VM", "start 2, unit access"]),
    (&[0], &["start 2, unit mark", "start 2, last field before first span"]),
    (&[0], &["start 3, unit count 0", "start 3, unit guest span", "start 3, unit page span"]),
    (&[0], &["start 3, wrapping", "start 3, shared span past N"]),
    (&[0], &["start 3, empty shared span above N", "free", "free none", "free refused"]),
    (&[0], &["free, pool page held for DMA", "free, pool page held below the lowest"]),
    (&[0], &["free none, pool not empty"]),
    (&[0], &["operation 0", "operation past the last", "operation over 32 bits"]),
    (&[2], &["13 CPU pages alone", "13 DMA pages alone", "13 borrower's CPU mapping"]),
    (&[2], &["13 DMA mappings alone", "13 edges alone", "13 a CPU alone", "13 a device alone"]),
    (&[3], &["0 on its own DMA page", "6 another VM's page", "6 shared span"]),
    (&[4], &["6 in pool", "6 another VM's page", "11 mapping alone", "11 edge alone"]),
    (&[4, 12, 14], &["nonzero page cleared", "nonzero page kept for the other claim"]),
    (&[5, 6], &["4 left alone", "4 right alone"]),
    (&[5], &["0 on the last free pair", "0 on a stored pair", "0 on a stored pair, pairs full"]),
    (&[5], &["6 though right owns", "6 borrower first on a stored pair"]),
    (&[6], &["0 owner first", "0 borrower first", "0 though the owner maps it"]),
    (&[6], &["11 owner first", "11 borrower first", "12 same VM"]),
    (&[7], &["0 on its own page", "0 on a borrowed page", "6 in pool", "6 another VM's page"]),
    (&[7], &["6 shared span", "6 its own DMA page", "6 a pair of others"]),
    (&[8], &["0 on its own DMA page", "0 on the shared span", "6 its own CPU page"]),
    (&[8], &["6 in pool", "6 another VM's page"]),
    (&[7, 8], &["0 replaces", "0 replaces, map full", "0 on the last free entry"]),
    (&[7, 8, 9, 10, 12, 14], &["drops one slot", "drops several slots"]),
    (&[7, 8, 9, 10, 12, 14], &["keeps another VM's slot"]),
    (&[11, 12, 13, 14], &["3 count 0", "3 past the last guest page", "3 past the last page"]),
    (&[11, 12, 13, 14], &["3 wrapping", "8 VM alone", "8 guest alone", "8 page alone"]),
    (&[11, 12, 13, 14], &["8 count alone", "8 access alone", "8 mark alone"]),
    (&[11, 12, 13, 14], &["0 one page", "0 several pages"]),
    (&[11, 13], &["14 with free entries left", "14 on an empty map", "0 fills the map"]),
    (&[11], &["6 a VM's page", "6 shared span", "0 on its own DMA pages"]),
    (&[12, 14], &["9 absent", "9 other page", "9 other access", "9 other generation"]),
    (&[12], &["11 mapping alone", "11 edge alone"]),
    (&[13], &["7 another VM's DMA page", "7 another VM's CPU page", "7 shared span"]),
    (&[13], &["0 on its own CPU pages", "0 on pool pages", "0 on its own DMA pages"]),
    (&[15, 16], &["0 to idle", "0 from one VM to another"]),
    (&[17, 18], &["0 key held", "0 key held, cache full", "0 lowest empty below a filled slot"]),
    (
        &[17, 18],
        &["0 slot at the hand", "0 hand from the last slot to 0", "0 empty slot, hand not 0"],
    ),
    (&[17, 18], &["0 same guest on another port"]),
    (&[19, 20], &["0 filled slot", "0 empty slot"]),
    (&[21, 22, 23, 24], &["0 by a slot", "0 by the walker", "16 by a slot", "16 by the walker"]),
    (&[21, 22, 23, 24], &["0 last word", "9 though another VM maps it"]),
    (&[21, 22], &["0 nonzero word"]),
    (&[22, 24], &["0 on the shared span"]),
    (&[27], &["13 a CPU alone", "13 a device alone", "0 VM with nothing"]),
    (&[27], &["0 drops in the CPU cache alone", "0 drops in the DMA cache alone"]),
    (&[27], &["0 drops in both caches", "0 keeps another VM's slots on both sides"]),
    (&[27], &["0 a borrower's mapping goes", "0 a borrower's slot goes"]),
    (&[27], &["0 edge goes, VM its left end", "0 edge goes, VM its right end"]),
    (&[27], &["0 edge goes, VM the lower end", "0 edge goes, VM the higher end"]),
    (&[27], &["0 nonzero page cleared", "0 nonzero DMA-only page cleared"]),
    (&[27], &["0 nonzero page kept for its lender", "0 nonzero shared page kept"]),
    (&[27], &["0 CPU map full", "0 DMA map full", "0 pairs full"]),
];

#[derive(Clone, Default, Debug)]
pub struct Coverage {
    pub boxes: u64,
    pub rows: u64,
    /// Lines that could not be read; the run ended there.
    pub unread: u64,
    pub sizes: BTreeSet<u64>,
    /// How often each operation gave each number.
    pub answers: BTreeMap<(u64, u64), u64>,
    /// The same for region indexes above 0.
    pub above: BTreeMap<(u64, u64), u64>,
    /// Refusal 2 where only this argument is out of range.
    pub ranges: BTreeMap<(u64, usize), u64>,
    pub points: BTreeMap<Point, u64>,
}

impl Coverage {
    /// Runs a script and records it all.
    pub fn of(input: impl BufRead) -> io::Result<Self> {
        let mut record = Coverage::default();
        let mut machine = Machine::empty();
        let mut alive = false;
        for event in Events::new(input) {
            match event?.1 {
                Event::Start(setup) => {
                    let (number, started) = setup.start();
                    record.start(&setup, number);
                    (machine, alive) = (started, number == 0);
                }
                Event::Row(row) if alive => {
                    record.row(&machine, &row);
                    machine.apply(&row);
                }
                Event::Row(row) => {
                    record.rows += 1;
                    *record.answers.entry((row[0], 1)).or_default() += 1;
                }
                Event::Free => record.free(&machine),
                Event::Bad => record.unread += 1,
            }
        }
        Ok(record)
    }

    /// What a complete suite must reach and this one has not.
    pub fn missing(&self) -> Vec<String> {
        let mut missing = Vec::new();
        if self.unread > 0 {
            missing.push("all that follows a line not understood".to_string());
        }
        for operation in 1..=OPERATIONS {
            let kinds = arguments(operation).unwrap_or_default();
            let judged: Vec<usize> = (0..kinds.len()).filter(|&i| kinds[i] != Kind::Any).collect();
            for number in [0, 1].iter().chain(refusals(operation)) {
                if !self.answers.contains_key(&(operation, *number)) {
                    missing.push(format!("operation {operation} answers {number}"));
                }
            }
            for number in indexed(operation) {
                if !self.above.contains_key(&(operation, number)) {
                    missing.push(format!("operation {operation}, {number} above index 0"));
                }
            }
            for place in judged {
                if !self.ranges.contains_key(&(operation, place)) {
                    missing.push(format!("operation {operation}, 2 by argument {}", place + 1));
                }
            }
        }
        let points = POINTS.iter().flat_map(|(operations, names)| {
            operations
                .iter()
                .flat_map(|&operation| names.iter().map(move |&name| (operation, name)))
        });
        let unmet = points.filter(|point| !self.points.contains_key(point));
        missing.extend(unmet.map(|(operation, name)| format!("operation {operation}: {name}")));
        missing
    }

    /// Counts a point; a name that `POINTS` doesn't have is a mistake here.
    fn hit(&mut self, operation: u64, name: &'static str, when: bool) {
        let listed = POINTS
            .iter()
            .any(|(operations, names)| operations.contains(&operation) && names.contains(&name));
        assert!(listed, "no such point: {operation}: {name}");
        if when {
            *self.points.entry((operation, name)).or_default() += 1;
        }
    }

    fn free(&mut self, m: &Machine) {
        let free = m.free();
        let none = free.number == 0 && free.lowest.is_none();
        let held: Vec<Page> = m.pool.iter().copied().filter(|&page| m.dma.held(page)).collect();
        let some_held = free.lowest.is_some() && !held.is_empty();
        let below = free.lowest.is_some_and(|lowest| held.iter().any(|&page| page < lowest));
        self.hit(0, "free", free.lowest.is_some());
        self.hit(0, "free none", none);
        self.hit(0, "free refused", free.number == 1);
        self.hit(0, "free, pool page held for DMA", some_held);
        self.hit(0, "free, pool page held below the lowest", below);
        self.hit(0, "free none, pool not empty", none && !m.pool.is_empty());
    }
}

/// Starts.
impl Coverage {
    fn start(&mut self, setup: &Setup, number: u64) {
        self.boxes += 1;
        match number {
            0 => self.start_accepted(setup),
            1 => {
                let others = setup.units.iter().any(|unit| unit[0] >= VMS);
                self.hit(0, "start 1, N 0", setup.pages == 0);
                self.hit(0, "start 1, N over PAGES", setup.pages > PAGES);
                self.hit(0, "start 1 before 2 and 3", others && !setup.shared.fits(setup.pages));
            }
            2 => self.start_refused_2(setup),
            _ => self.start_refused_3(setup),
        }
    }

    fn start_accepted(&mut self, setup: &Setup) {
        let (pages, shared, units) = (setup.pages, setup.shared, &setup.units);
        self.sizes.insert(pages);
        let two = |alike: fn(&UnitNumbers, &UnitNumbers) -> bool| {
            (0..units.len()).any(|i| units[..i].iter().any(|unit| alike(unit, &units[i])))
        };
        let only_mark = two(|a, b| a[..5] == b[..5] && a[5] != b[5]);
        self.hit(0, "start 0", true);
        self.hit(0, "start 0, empty span at N", shared == Span { base: pages, count: 0 });
        self.hit(0, "start 0, all pages shared", shared.count == pages);
        self.hit(0, "start 0, as many units as fit", units.len() == UNITS);
        self.hit(0, "start 0, units differ only in mark", only_mark);
        self.hit(0, "start 0, unit repeats", two(|a, b| a == b));
        self.hit(0, "start 0, unit in shared span", units.iter().any(|u| shared.contains(u[2])));
    }

    fn start_refused_2(&mut self, setup: &Setup) {
        let units = &setup.units;
        let bad = |unit: &UnitNumbers| {
            unit[0] >= VMS || unit[4] >= ACCESSES || !(1..=3).contains(&unit[5])
        };
        let order = units.len() > 1 && bad(&units[units.len() - 1]) && units[0][3] == 0;
        self.hit(0, "start 2, a unit too many", units.len() > UNITS);
        self.hit(0, "start 2, unit VM", units.iter().any(|unit| unit[0] >= VMS));
        self.hit(0, "start 2, unit access", units.iter().any(|unit| unit[4] >= ACCESSES));
        self.hit(0, "start 2, unit mark", units.iter().any(|unit| !(1..=3).contains(&unit[5])));
        self.hit(0, "start 2, last field before first span", order);
    }

    fn start_refused_3(&mut self, setup: &Setup) {
        let (pages, shared, units) = (setup.pages, setup.shared, &setup.units);
        let wraps = |unit: &UnitNumbers| unit[2].checked_add(unit[3]).is_none();
        let past = |base, count, limit| count > 0 && !Span { base, count }.fits(limit);
        let guest_span = units.iter().any(|unit| past(unit[1], unit[3], GUESTS));
        let page_span = units.iter().any(|unit| past(unit[2], unit[3], pages));
        self.hit(0, "start 3, unit count 0", units.iter().any(|unit| unit[3] == 0));
        self.hit(0, "start 3, unit guest span", guest_span);
        self.hit(0, "start 3, unit page span", page_span);
        self.hit(0, "start 3, wrapping", units.iter().any(wraps));
        self.hit(0, "start 3, shared span past N", past(shared.base, shared.count, pages));
        self.hit(0, "start 3, empty shared span above N", shared.count == 0 && shared.base > pages);
    }
}

/// Rows, judged by the state before them.
impl Coverage {
    fn row(&mut self, m: &Machine, row: &Row) {
        let answer = m.verdict(row);
        let operation = row[0];
        self.rows += 1;
        *self.answers.entry((operation, answer.number)).or_default() += 1;
        if answer.index > 0 {
            *self.above.entry((operation, answer.number)).or_default() += 1;
        }
        if answer.number == 2 {
            return self.out_of_range(m, row);
        }
        match operation {
            2 if answer.number == 13 => self.remove_vm(m, row[1]),
            3 | 4 => self.page(m, row, answer),
            5 | 6 => self.sharing(m, row, answer),
            7 | 8 => self.map(m, row, answer),
            11..=14 => self.region(m, row, answer),
            15 | 16 => self.run(m, row, answer),
            17 | 18 => self.fill(m, row, answer),
            19 | 20 => {
                let filled = half_of(m, operation).cache.slots[row[1] as usize].is_some();
                self.hit(operation, "0 filled slot", filled);
                self.hit(operation, "0 empty slot", !filled);
            }
            21..=24 => self.access(m, row, answer),
            27 => self.retire(m, row[1], answer),
            _ => {}
        }
        if answer.number == 0 {
            self.drops(m, row);
        }
    }

    fn out_of_range(&mut self, m: &Machine, row: &Row) {
        let Some(kinds) = arguments(row[0]) else {
            self.hit(0, "operation 0", row[0] == 0);
            self.hit(0, "operation past the last", row[0] == OPERATIONS + 1);
            self.hit(0, "operation over 32 bits", row[0] > u64::from(u32::MAX));
            return;
        };
        let bad = |&place: &usize| !kinds[place].in_range(row[place + 1], m.pages);
        let places: Vec<usize> = (0..kinds.len()).filter(bad).collect();
        if let [place] = places[..] {
            *self.ranges.entry((row[0], place)).or_default() += 1;
        }
    }

    /// Which of the reasons of 13 hold, and that one of them holds alone.
    fn remove_vm(&mut self, m: &Machine, vm: Vm) {
        let reasons = belongings(m, vm);
        let alone = |reason: usize| (0..7).all(|i| reasons[i] == (i == reason));
        self.hit(2, "13 CPU pages alone", alone(0));
        self.hit(2, "13 DMA pages alone", alone(1));
        self.hit(2, "13 borrower's CPU mapping", reasons[2] && !reasons[0]);
        self.hit(2, "13 DMA mappings alone", alone(3));
        self.hit(2, "13 edges alone", alone(4));
        self.hit(2, "13 a CPU alone", alone(5));
        self.hit(2, "13 a device alone", alone(6));
    }

    fn page(&mut self, m: &Machine, row: &Row, answer: Answer) {
        let [operation, vm, page, ..] = *row;
        let other = m.cpu.other_holds(vm, page);
        match (operation, answer.number) {
            (3, 0) => self.hit(3, "0 on its own DMA page", m.dma.holds(vm, page)),
            (3, 6) => {
                self.hit(3, "6 another VM's page", other);
                self.hit(3, "6 shared span", m.shared.contains(page));
            }
            (4, 0) => self.clearing(m, operation, page, m.dma.holds(vm, page)),
            (4, 6) => {
                self.hit(4, "6 in pool", m.pool.contains(&page));
                self.hit(4, "6 another VM's page", other);
            }
            (4, 11) => {
                let mapped = m.cpu.software.values().any(|entry| entry.page == page);
                self.hit(4, "11 mapping alone", mapped && !m.edge_names(page));
                self.hit(4, "11 edge alone", !mapped && m.edge_names(page));
            }
            _ => {}
        }
    }

    fn clearing(&mut self, m: &Machine, operation: u64, page: Page, stays: bool) {
        let nonzero = nonzero(m, page);
        self.hit(operation, "nonzero page cleared", nonzero && !stays);
        self.hit(operation, "nonzero page kept for the other claim", nonzero && stays);
    }

    fn sharing(&mut self, m: &Machine, row: &Row, answer: Answer) {
        let [operation, left, right, page, ..] = *row;
        let known = |vm| m.known.contains(&vm);
        let stored = m.pairs.contains(&pair(left, right, page));
        let left_owns = m.cpu.holds(left, page);
        let maps = |vm| m.cpu.software.iter().any(|(key, e)| key.0 == vm && e.page == page);
        match (operation, answer.number) {
            (_, 4) => {
                self.hit(operation, "4 left alone", !known(left) && known(right));
                self.hit(operation, "4 right alone", known(left) && !known(right));
            }
            (5, 0) => {
                self.hit(5, "0 on the last free pair", !stored && m.pairs.len() == PAIRS - 1);
                self.hit(5, "0 on a stored pair", stored);
                self.hit(5, "0 on a stored pair, pairs full", stored && m.pairs.len() == PAIRS);
            }
            (5, 6) => {
                self.hit(5, "6 though right owns", m.cpu.holds(right, page));
                self.hit(5, "6 borrower first on a stored pair", stored);
            }
            (6, 0) => {
                self.hit(6, "0 owner first", left_owns);
                self.hit(6, "0 borrower first", !left_owns);
                self.hit(6, "0 though the owner maps it", maps(left) || maps(right));
            }
            (6, 11) => {
                self.hit(6, "11 owner first", left_owns);
                self.hit(6, "11 borrower first", !left_owns);
            }
            (6, 12) => self.hit(6, "12 same VM", left == right),
            _ => {}
        }
    }

    fn map(&mut self, m: &Machine, row: &Row, answer: Answer) {
        let [operation, vm, guest, page, ..] = *row;
        let map = &half_of(m, operation).software;
        let (present, free) = (map.contains_key(&(vm, guest)), ENTRIES - map.len());
        match answer.number {
            0 => {
                self.hit(operation, "0 replaces", present);
                self.hit(operation, "0 replaces, map full", present && free == 0);
                self.hit(operation, "0 on the last free entry", !present && free == 1);
                if operation == 7 {
                    self.hit(7, "0 on its own page", m.cpu.holds(vm, page));
                    self.hit(7, "0 on a borrowed page", !m.cpu.holds(vm, page));
                } else {
                    self.hit(8, "0 on its own DMA page", m.dma.holds(vm, page));
                    self.hit(8, "0 on the shared span", m.shared.contains(page));
                }
            }
            6 => {
                let dma = m.dma.holds(vm, page);
                let other = half_of(m, operation).other_holds(vm, page);
                self.hit(operation, "6 in pool", m.pool.contains(&page) && !dma && !other);
                self.hit(operation, "6 another VM's page", other);
                if operation == 7 {
                    self.hit(7, "6 shared span", m.shared.contains(page));
                    self.hit(7, "6 its own DMA page", dma);
                    self.hit(7, "6 a pair of others", m.edge_names(page));
                } else {
                    self.hit(8, "6 its own CPU page", m.cpu.holds(vm, page));
                }
            }
            _ => {}
        }
    }

    fn region(&mut self, m: &Machine, row: &Row, answer: Answer) {
        let [operation, vm, guest, page, count, access, ..] = *row;
        let region = Region { vm, guest, page, count, access };
        match (operation, answer.number) {
            (_, 3) => self.region_span(m, operation, &region),
            (_, 8) => self.region_unit(m, operation, &region),
            (_, 0) => self.region_accepted(m, operation, &region),
            (11 | 13, 14) => {
                let map = &half_of(m, operation).software;
                self.hit(operation, "14 with free entries left", map.len() < ENTRIES);
                self.hit(operation, "14 on an empty map", map.is_empty());
            }
            (_, number) => self.region_page(m, operation, &region, number, answer.index),
        }
    }

    fn region_span(&mut self, m: &Machine, operation: u64, region: &Region) {
        let past =
            |base, limit| region.count > 0 && !Span { base, count: region.count }.fits(limit);
        let (guest, page) = (past(region.guest, GUESTS), past(region.page, m.pages));
        let wraps = |base: u64| base.checked_add(region.count).is_none();
        self.hit(operation, "3 count 0", region.count == 0);
        self.hit(operation, "3 past the last guest page", guest && !page);
        self.hit(operation, "3 past the last page", page && !guest);
        self.hit(operation, "3 wrapping", wraps(region.guest) || wraps(region.page));
    }

    /// A unit differs from the region in one field alone.
    fn region_unit(&mut self, m: &Machine, operation: u64, region: &Region) {
        let side = side_of(operation);
        let near = |wanted: [bool; 6]| {
            m.units.iter().any(|unit| {
                let (u, r) = (&unit.region, region);
                [
                    u.vm != r.vm,
                    u.guest != r.guest,
                    u.page != r.page,
                    u.count != r.count,
                    u.access != r.access,
                    !unit.mark.suits(side),
                ] == wanted
            })
        };
        let names =
            ["8 VM alone", "8 guest alone", "8 page alone", "8 count alone", "8 access alone"];
        for (place, name) in names.into_iter().chain(["8 mark alone"]).enumerate() {
            self.hit(operation, name, near(std::array::from_fn(|i| i == place)));
        }
    }

    fn region_accepted(&mut self, m: &Machine, operation: u64, region: &Region) {
        let map = &half_of(m, operation).software;
        let pages = || region.page..region.page + region.count;
        let own = |half: &Half| pages().any(|page| half.holds(region.vm, page));
        self.hit(operation, "0 one page", region.count == 1);
        self.hit(operation, "0 several pages", region.count > 1);
        if operation == 11 || operation == 13 {
            let filled = map.len() as u64 + region.count;
            self.hit(operation, "0 fills the map", filled == ENTRIES as u64);
        }
        match operation {
            11 => self.hit(11, "0 on its own DMA pages", own(&m.dma)),
            13 => {
                self.hit(13, "0 on its own CPU pages", own(&m.cpu));
                self.hit(13, "0 on its own DMA pages", own(&m.dma));
                self.hit(13, "0 on pool pages", pages().any(|page| m.pool.contains(&page)));
            }
            _ => {
                let other = if operation == 12 { &m.dma } else { &m.cpu };
                for page in pages() {
                    self.clearing(m, operation, page, other.holds(region.vm, page));
                }
            }
        }
    }

    /// Why the page at `index` fails.
    fn region_page(&mut self, m: &Machine, op: u64, region: &Region, number: u64, index: u64) {
        let (vm, page) = (region.vm, region.page + index);
        let found = half_of(m, op).software.get(&region.key(index));
        let differs = |field: fn(&Entry) -> u64| {
            found.is_some_and(|entry| field(entry) != field(&region.entry(index)))
        };
        match (op, number) {
            (11, 6) => {
                self.hit(11, "6 a VM's page", m.cpu.held(page));
                self.hit(11, "6 shared span", m.shared.contains(page));
            }
            (12 | 14, 9) => {
                self.hit(op, "9 absent", found.is_none());
                self.hit(op, "9 other page", differs(|entry| entry.page));
                self.hit(op, "9 other access", differs(|entry| entry.access));
                self.hit(op, "9 other generation", differs(|entry| entry.generation));
            }
            (12, 11) => {
                let targets = m.cpu.software.values().filter(|entry| entry.page == page).count();
                self.hit(12, "11 mapping alone", targets > 1 && !m.edge_names(page));
                self.hit(12, "11 edge alone", targets == 1 && m.edge_names(page));
            }
            (13, 7) => {
                self.hit(13, "7 another VM's DMA page", m.dma.other_holds(vm, page));
                self.hit(13, "7 another VM's CPU page", m.cpu.other_holds(vm, page));
                self.hit(13, "7 shared span", m.shared.contains(page));
            }
            _ => {}
        }
    }

    fn run(&mut self, m: &Machine, row: &Row, answer: Answer) {
        let before = half_of(m, row[0]).ports[row[1] as usize];
        let moves = before.is_some_and(|vm| row[2] != IDLE && vm != row[2]);
        self.hit(row[0], "0 to idle", row[2] == IDLE);
        self.hit(row[0], "0 from one VM to another", answer.number == 0 && moves);
    }

    fn fill(&mut self, m: &Machine, row: &Row, answer: Answer) {
        let [operation, port, guest, ..] = *row;
        let half = half_of(m, operation);
        let (slots, hand) = (&half.cache.slots, half.cache.hand);
        let (Some(vm), 0) = (half.ports[port as usize], answer.number) else { return };
        let held = slots.iter().flatten().any(|slot| slot.key() == (port, vm, guest));
        let full = slots.iter().all(Option::is_some);
        let empty = slots.iter().position(Option::is_none).unwrap_or(SLOTS);
        let below = !held && slots[empty..].iter().any(Option::is_some);
        let elsewhere = slots.iter().flatten().any(|s| (s.vm, s.guest) == (vm, guest));
        self.hit(operation, "0 key held", held && !full);
        self.hit(operation, "0 key held, cache full", held && full);
        self.hit(operation, "0 lowest empty below a filled slot", below);
        self.hit(operation, "0 slot at the hand", !held && full);
        self.hit(operation, "0 hand from the last slot to 0", !held && full && hand == SLOTS - 1);
        self.hit(operation, "0 empty slot, hand not 0", !held && !full && hand != 0);
        self.hit(operation, "0 same guest on another port", !held && elsewhere);
    }

    fn access(&mut self, m: &Machine, row: &Row, answer: Answer) {
        let [operation, port, guest, word, ..] = *row;
        let half = half_of(m, operation);
        let Some(vm) = half.ports[port as usize] else { return };
        let key = (port, vm, guest);
        let by_slot = half.cache.slots.iter().flatten().any(|slot| slot.key() == key);
        let entry = half.walker.get(&(vm, guest));
        match (answer.number, entry) {
            (0, Some(entry)) => {
                self.hit(operation, "0 by a slot", by_slot);
                self.hit(operation, "0 by the walker", !by_slot);
                self.hit(operation, "0 last word", word == WORDS - 1);
                if operation < 23 {
                    let word = m.memory[Machine::address(entry.page, word)];
                    self.hit(operation, "0 nonzero word", word != 0);
                }
                if side_of(operation) == Side::Dma {
                    self.hit(operation, "0 on the shared span", m.shared.contains(entry.page));
                }
            }
            (16, _) => {
                self.hit(operation, "16 by a slot", by_slot);
                self.hit(operation, "16 by the walker", !by_slot);
            }
            (9, _) => {
                let other = half.walker.keys().any(|key| key.1 == guest);
                self.hit(operation, "9 though another VM maps it", other);
            }
            _ => {}
        }
    }

    /// Slots that an accepted row drops, and slots of others that it must keep.
    fn drops(&mut self, m: &Machine, row: &Row) {
        let [operation, vm, guest, _, count, ..] = *row;
        let count = match operation {
            7..=10 => 1,
            12 | 14 => count,
            _ => return,
        };
        let span = Span { base: guest, count };
        let slots = half_of(m, operation).cache.slots.iter().flatten();
        let near: Vec<&Slot> = slots.filter(|slot| span.contains(slot.guest)).collect();
        let dropped = near.iter().filter(|slot| slot.vm == vm).count();
        self.hit(operation, "drops one slot", dropped == 1);
        self.hit(operation, "drops several slots", dropped > 1);
        self.hit(operation, "keeps another VM's slot", near.len() > dropped);
    }
}

/// Operation 27.
impl Coverage {
    fn retire(&mut self, m: &Machine, vm: Vm, answer: Answer) {
        match answer.number {
            0 => {
                self.hit(27, "0 VM with nothing", belongings(m, vm) == [false; 7]);
                self.retired_slots(m, vm);
                self.retired_edges(m, vm);
                self.retired_pages(m, vm);
                self.hit(27, "0 CPU map full", m.cpu.software.len() == ENTRIES);
                self.hit(27, "0 DMA map full", m.dma.software.len() == ENTRIES);
                self.hit(27, "0 pairs full", m.pairs.len() == PAIRS);
            }
            13 => {
                let (cpu, device) = (m.cpu.runs(vm), m.dma.runs(vm));
                self.hit(27, "13 a CPU alone", cpu && !device);
                self.hit(27, "13 a device alone", device && !cpu);
            }
            _ => {}
        }
    }

    /// Slots that go and stay; borrowers are others with what lies on its pages.
    fn retired_slots(&mut self, m: &Machine, vm: Vm) {
        let lent = |user: Vm, entry: &Entry| user != vm && m.cpu.holds(vm, entry.page);
        let slots = |half: &Half| half.cache.slots.into_iter().flatten().collect::<Vec<Slot>>();
        let (cpu, dma) = (slots(&m.cpu), slots(&m.dma));
        let borrowed = cpu.iter().filter(|slot| lent(slot.vm, &slot.entry)).count();
        let of_cpu = borrowed + cpu.iter().filter(|slot| slot.vm == vm).count();
        let of_dma = dma.iter().filter(|slot| slot.vm == vm).count();
        let kept = of_cpu < cpu.len() && of_dma < dma.len();
        let mapping = m.cpu.software.iter().any(|(key, entry)| lent(key.0, entry));
        self.hit(27, "0 drops in the CPU cache alone", of_cpu > 0 && of_dma == 0);
        self.hit(27, "0 drops in the DMA cache alone", of_cpu == 0 && of_dma > 0);
        self.hit(27, "0 drops in both caches", of_cpu > 0 && of_dma > 0);
        self.hit(27, "0 keeps another VM's slots on both sides", kept);
        self.hit(27, "0 a borrower's mapping goes", mapping);
        self.hit(27, "0 a borrower's slot goes", borrowed > 0);
    }

    /// The left end is the one that share named first, and that is the owner.
    fn retired_edges(&mut self, m: &Machine, vm: Vm) {
        let edge = |holds: &dyn Fn(&Pair) -> bool| {
            m.pairs.iter().any(|pair| joins(pair, vm) && holds(pair))
        };
        let owns = |pair: &Pair| m.cpu.holds(vm, pair.2);
        self.hit(27, "0 edge goes, VM its left end", edge(&owns));
        self.hit(27, "0 edge goes, VM its right end", edge(&|pair| !owns(pair)));
        self.hit(27, "0 edge goes, VM the lower end", edge(&|&(low, ..)| low == vm));
        self.hit(27, "0 edge goes, VM the higher end", edge(&|&(_, high, _)| high == vm));
    }

    /// Pages that hold words and are cleared, and pages in its reach that aren't.
    fn retired_pages(&mut self, m: &Machine, vm: Vm) {
        let written: Vec<Page> = (0..m.pages).filter(|&page| nonzero(m, page)).collect();
        let any = |picked: &dyn Fn(Page) -> bool| written.iter().any(|&page| picked(page));
        let (owned, held) = (|page| m.cpu.holds(vm, page), |page| m.dma.holds(vm, page));
        let maps = |page| m.dma.software.iter().any(|(key, e)| key.0 == vm && e.page == page);
        let borrowed = |page| m.shared_with(vm, page) && !owned(page);
        self.hit(27, "0 nonzero page cleared", any(&owned));
        self.hit(27, "0 nonzero DMA-only page cleared", any(&|page| held(page) && !owned(page)));
        self.hit(27, "0 nonzero page kept for its lender", any(&borrowed));
        self.hit(27, "0 nonzero shared page kept", any(&|p| m.shared.contains(p) && maps(p)));
    }
}

/// What a VM has: CPU pages, DMA pages, CPU mappings, DMA mappings, edges, a
/// CPU, a device.
fn belongings(m: &Machine, vm: Vm) -> [bool; 7] {
    let pages = |half: &Half| half.owned.get(&vm).is_some_and(|pages| !pages.is_empty());
    let mapped = |half: &Half| half.software.keys().any(|key| key.0 == vm);
    let edges = m.pairs.iter().any(|pair| joins(pair, vm));
    let (cpu, dma) = (&m.cpu, &m.dma);
    [pages(cpu), pages(dma), mapped(cpu), mapped(dma), edges, cpu.runs(vm), dma.runs(vm)]
}

/// The page has a word other than 0.
fn nonzero(m: &Machine, page: Page) -> bool {
    let begin = Machine::address(page, 0);
    m.memory[begin..begin + WORDS as usize].iter().any(|&word| word != 0)
}

/// The side on which an operation from 7 to 24 works.
fn side_of(operation: u64) -> Side {
    match operation {
        11 | 12 => Side::Cpu,
        13 | 14 => Side::Dma,
        _ if operation % 2 == 1 => Side::Cpu,
        _ => Side::Dma,
    }
}

fn half_of(m: &Machine, operation: u64) -> &Half {
    m.half(side_of(operation))
}

/// The table that a person reads.
impl fmt::Display for Coverage {
    fn fmt(&self, f: &mut fmt::Formatter) -> fmt::Result {
        writeln!(f, "{} boxes, {} sizes, {} rows", self.boxes, self.sizes.len(), self.rows)?;
        writeln!(f, "\nanswers of each operation, number:times (times above index 0)")?;
        for operation in 1..=OPERATIONS {
            write!(f, "{operation:>3} ")?;
            for (&(_, number), times) in self.answers.range((operation, 0)..=(operation, REFUSALS))
            {
                write!(f, " {number}:{times}")?;
                if let Some(above) = self.above.get(&(operation, number)) {
                    write!(f, "({above})")?;
                }
            }
            writeln!(f)?;
        }
        writeln!(f, "\nrefusal 2 by one argument alone, argument:times")?;
        for operation in 1..=OPERATIONS {
            let ranges = self.ranges.range((operation, 0)..=(operation, ROW_NUMBERS));
            let cells: Vec<String> =
                ranges.map(|((_, place), times)| format!("{}:{times}", place + 1)).collect();
            if !cells.is_empty() {
                writeln!(f, "{operation:>3}  {}", cells.join(" "))?;
            }
        }
        writeln!(f, "\nreasons and brims")?;
        for ((operation, name), times) in &self.points {
            writeln!(f, "{operation:>3}  {name}: {times}")?;
        }
        let missing = self.missing();
        writeln!(f, "\nmissing: {}", if missing.is_empty() { "nothing" } else { "" })?;
        missing.iter().try_for_each(|line| writeln!(f, "  {line}"))
    }
}
