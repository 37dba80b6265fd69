//! Random scripts that aim: for most rows the writer wants a certain answer
//! and tries rows near the state of its own machine until one would give it.

use crate::author::{Author, Rng};
use crate::coverage::refusals;
use crate::directed::SCENARIOS;
use crate::log;
use crate::machine::*;
use crate::operate::{arguments, Kind, Row};

/// Numbers at which carelessness shows.
const ODD: [u64; 14] = [
    PORTS as u64 - 1,
    PORTS as u64,
    VMS - 1,
    VMS,
    SLOTS as u64 - 1,
    SLOTS as u64,
    WORDS - 1,
    WORDS,
    GUESTS - 1,
    GUESTS,
    IDLE,
    1 << 32,
    1 << 63,
    u64::MAX,
];

/// VMs that a box for the log never adds, so that some stay unknown.
const STRANGERS: std::ops::Range<Vm> = 10..VMS - 1;

/// The operation that takes most out of the tables.
const RETIRE: u64 = 27;

/// How many rows the writer tries for one wanted answer.
const TRIES: usize = 24;

/// What the rows of a stretch mostly do.
#[derive(Clone, Copy, PartialEq, Eq)]
enum Mood {
    Any,
    Grow,
    Shrink,
    Guests,
    Regions,
    Fills,
    Pairs,
    Maps,
    Sweep,
    /// Maps get full while units stay free, then regions find no room.
    Full,
    Brim,
}

impl Mood {
    /// How often each operation is chosen, by its number from 1 on.
    fn weights(self) -> [u64; OPERATIONS as usize] {
        match self {
            Mood::Any => {
                [4, 2, 4, 4, 4, 4, 6, 6, 4, 4, 6, 5, 6, 5, 4, 4, 6, 6, 2, 2, 5, 5, 5, 5, 1, 1, 1]
            }
            Mood::Grow => {
                [5, 0, 6, 0, 6, 0, 12, 12, 0, 0, 8, 0, 8, 0, 4, 4, 4, 4, 0, 0, 1, 1, 4, 4, 0, 0, 0]
            }
            Mood::Shrink => {
                [0, 4, 0, 8, 0, 8, 0, 0, 12, 12, 1, 9, 1, 9, 3, 3, 1, 1, 2, 2, 2, 2, 0, 0, 1, 1, 1]
            }
            Mood::Guests => {
                [0, 0, 0, 0, 1, 1, 2, 2, 1, 1, 1, 1, 1, 1, 3, 3, 6, 6, 1, 1, 9, 9, 9, 9, 1, 1, 1]
            }
            Mood::Regions => [
                2, 0, 0, 8, 0, 4, 2, 2, 9, 9, 22, 18, 22, 18, 2, 2, 4, 4, 0, 0, 1, 1, 8, 8, 0, 0, 1,
            ],
            Mood::Fills => {
                [0, 0, 0, 0, 0, 0, 3, 3, 1, 1, 0, 0, 0, 0, 3, 3, 40, 40, 2, 2, 1, 1, 1, 1, 0, 0, 0]
            }
            Mood::Pairs => {
                [6, 0, 9, 1, 70, 4, 4, 0, 1, 0, 1, 1, 1, 1, 0, 0, 0, 0, 0, 0, 1, 0, 1, 0, 0, 0, 0]
            }
            Mood::Maps => {
                [1, 0, 2, 0, 1, 0, 99, 99, 1, 1, 2, 1, 2, 1, 2, 2, 1, 1, 0, 0, 1, 1, 1, 1, 0, 0, 0]
            }
            Mood::Sweep => {
                [0, 1, 0, 8, 0, 12, 0, 0, 40, 40, 0, 8, 0, 8, 1, 1, 1, 1, 0, 0, 0, 0, 0, 0, 0, 0, 0]
            }
            Mood::Full => {
                [0, 0, 0, 0, 1, 0, 99, 99, 0, 0, 0, 0, 0, 0, 1, 1, 1, 1, 0, 0, 1, 1, 1, 1, 0, 0, 0]
            }
            Mood::Brim => [
                1, 0, 0, 0, 9, 0, 22, 22, 0, 0, 40, 0, 40, 0, 1, 1, 1, 1, 1, 1, 1, 1, 1, 1, 0, 0, 0,
            ],
        }
    }

    /// VMs are retired in it; where tables are to get full, none is.
    fn retires(self) -> bool {
        self.weights()[RETIRE as usize - 1] > 0
    }

    /// How many rows it lasts: long enough to bring its table to the brim.
    fn length(self) -> u64 {
        match self {
            Mood::Fills | Mood::Pairs => 400,
            Mood::Maps => 1700,
            Mood::Full => 1500,
            Mood::Sweep => 1000,
            _ => 120,
        }
    }

    /// How many rows of a hundred want to be accepted.
    fn accepted(self) -> u64 {
        match self {
            Mood::Any | Mood::Guests | Mood::Brim => 60,
            Mood::Grow | Mood::Regions => 75,
            Mood::Full => 97,
            _ => 90,
        }
    }
}

/// The writer of one random box.
struct Writer {
    rng: Rng,
    author: Author,
    mood: Mood,
    /// How many rows the mood still lasts.
    left: u64,
    /// Guest pages are mostly taken below this number, so that they meet.
    guests: u64,
    /// Only rows that a log can hold, and ways to what one box seldom meets.
    logged: bool,
    /// Rows that come next, the last one first.
    planned: Vec<Row>,
}

/// A script of one random box with `rows` rows.
pub fn generate(seed: u64, rows: u64) -> String {
    let mut rng = Rng::new(seed);
    let sizes = [1, 2, 3, 4, 5, 8, 8, 12, 16, 24, 40, 63, 64, 65, 100, 128, 200, 300, 600, PAGES];
    let pages = match rng.pick(&sizes) {
        Some(size) if rng.chance(80) => size,
        _ => 1 + rng.below(PAGES),
    };
    generate_sized(rng, pages, rows)
}

/// The same of a box of `pages` pages.
pub fn generate_of_size(seed: u64, pages: u64, rows: u64) -> String {
    generate_sized(Rng::new(seed), pages, rows)
}

fn generate_sized(rng: Rng, pages: u64, rows: u64) -> String {
    let mut writer = Writer::new(rng);
    writer.open(pages);
    writer.write_rows(rows);
    writer.author.text
}

/// A script of one random box with rows that a log can hold. It is of middle
/// size and has a shared page, so that it can reach nearly everything alone.
pub fn single(seed: u64, rows: u64) -> String {
    let mut rng = Rng::new(seed);
    let pages = rng.pick(&[65, 80, 100, 130]).unwrap_or(65);
    let mut writer = Writer { logged: true, ..Writer::new(rng) };
    let ([_, base, count], units) = writer.configuration(pages);
    let base = if count > 0 { base } else { pages - 1 };
    writer.author.open(pages, base, count.max(1), &units);
    writer.write_rows(rows);
    writer.author.text
}

/// Rows that go on from a valid machine, all of which a log can hold.
pub fn go_on(seed: u64, rows: u64, machine: Machine) -> String {
    let author = Author::resume(machine);
    let mut writer = Writer { logged: true, author, ..Writer::new(Rng::new(seed)) };
    writer.write_rows(rows);
    writer.author.text
}

/// The directed scenarios, random starts, then forty random boxes with about
/// `rows` rows in all, each script with its name. Four of the boxes have half
/// of the rows, so that their tables get full.
pub fn suite(seed: u64, rows: u64) -> Vec<(String, String)> {
    let directed = SCENARIOS.iter().map(|(name, scenario)| {
        let mut author = Author::new();
        author.note(name);
        scenario(&mut author);
        (name.to_string(), author.text)
    });
    let sizes = [8, 8, 3, 16, 40, PAGES, 64, 12, 130, 600, 2, 20, 65, 8, 300, 5, 30, 1, 200, 10];
    let random = (0..40u64).map(|turn| {
        let mut rng = Rng::new(seed.wrapping_add(turn << 32));
        let own = rng.next();
        let rows = if turn < 4 { rows / 8 } else { rows.div_ceil(72) };
        let text = match sizes.get(turn as usize) {
            Some(&pages) => generate_sized(Rng::new(own), pages, rows),
            None => generate(own, rows),
        };
        (format!("random box {turn}"), format!("# random box {turn}\n{text}"))
    });
    let starts = ("random starts".to_string(), random_starts(seed));
    directed.chain([starts]).chain(random).collect()
}

/// Many boxes, most of them spoiled in one or two places, with a few rows each.
fn random_starts(seed: u64) -> String {
    let mut text = "# random starts\n".to_string();
    let mut rng = Rng::new(seed);
    for _ in 0..60 {
        let most = if rng.chance(80) { 20 } else { PAGES };
        let pages = 1 + rng.below(most);
        let mut writer = Writer::new(Rng::new(rng.next()));
        let (mut size, mut units) = writer.configuration(pages);
        for _ in 0..rng.below(3) {
            writer.spoil_start(&mut size, &mut units);
        }
        writer.author.open(size[0], size[1], size[2], &units);
        for row in [[1, 1, 0], [3, 1, 0], [25, 0, 0]] {
            writer.author.row(&row);
        }
        writer.author.free();
        text.push_str(&writer.author.text);
    }
    text
}

/// Configuration.
impl Writer {
    fn new(rng: Rng) -> Self {
        let (author, mood) = (Author::new(), Mood::Grow);
        let (left, planned) = (mood.length(), Vec::new());
        Writer { rng, author, mood, left, guests: 24, logged: false, planned }
    }

    fn open(&mut self, pages: u64) {
        let ([pages, base, count], units) = self.configuration(pages);
        self.author.open(pages, base, count, &units);
    }

    /// The numbers of a box line, and the units.
    fn configuration(&mut self, pages: u64) -> ([u64; 3], Vec<UnitNumbers>) {
        let (base, count) = match self.rng.below(4) {
            0 => (self.rng.below(pages + 1), 0),
            1 => (pages - 1, 1),
            _ => {
                let base = self.rng.below(pages);
                (base, self.rng.below((pages - base).min(1 + pages / 4) + 1))
            }
        };
        let wanted = if self.rng.chance(20) { UNITS as u64 } else { 2 + self.rng.below(14) };
        let mut units: Vec<UnitNumbers> = Vec::new();
        for _ in 0..wanted {
            let unit = self.unit(pages, &units);
            units.push(unit);
        }
        ([pages, base, count], units)
    }

    /// A unit, often close to one before it, so that units overlap and differ
    /// in one field alone.
    fn unit(&mut self, pages: u64, before: &[UnitNumbers]) -> UnitNumbers {
        let mut unit = match self.rng.pick(before) {
            Some(unit) if self.rng.chance(40) => unit,
            _ => {
                let longest = if self.rng.chance(25) { pages } else { pages.min(4) };
                let count = 1 + self.rng.below(longest);
                let guest = self.rng.below(24);
                [self.rng.below(4), guest, self.rng.below(pages - count + 1), count, 3, 3]
            }
        };
        match self.rng.below(6) {
            0 => unit[0] = self.rng.below(VMS),
            1 => unit[1] = self.rng.below(24),
            2 => unit[1] = GUESTS - unit[3],
            3 => unit[4] = self.rng.below(ACCESSES),
            4 => unit[2] = self.rng.below(pages - unit[3] + 1),
            _ => unit[5] = 1 + self.rng.below(3),
        }
        unit
    }

    /// Puts an odd number into the box line or a unit, or adds a unit.
    fn spoil_start(&mut self, size: &mut [u64; 3], units: &mut Vec<UnitNumbers>) {
        let wrong = self.odd();
        match self.rng.below(4) {
            0 => size[self.rng.below(3) as usize] = wrong,
            1 => units.push([1, 0, 0, wrong, 3, 1]),
            _ => {
                let unit = self.rng.below(units.len() as u64) as usize;
                units[unit][self.rng.below(6) as usize] = wrong;
            }
        }
    }

    /// In the natural turn of moods, or right on to full maps.
    fn change_mood(&mut self, to_maps: bool) {
        let common = [Mood::Any, Mood::Grow, Mood::Shrink, Mood::Guests, Mood::Regions];
        let rare = [Mood::Fills, Mood::Pairs, Mood::Maps];
        self.mood = match self.mood {
            _ if to_maps => Mood::Maps,
            Mood::Full => Mood::Brim,
            Mood::Brim => Mood::Pairs,
            Mood::Pairs if self.logged => Mood::Fills,
            Mood::Maps => Mood::Fills,
            Mood::Fills | Mood::Pairs => Mood::Sweep,
            Mood::Sweep => Mood::Regions,
            _ if self.rng.chance(85) => self.rng.pick(&common).unwrap_or(Mood::Any),
            _ => self.rng.pick(&rare).unwrap_or(Mood::Any),
        };
        if self.logged && self.mood == Mood::Maps {
            self.mood = Mood::Full;
            self.plan_pages();
            for _ in 0..3 {
                if let Some(region) = self.free_a_unit() {
                    self.plan_region(14, region);
                }
            }
        }
        if self.logged && self.mood == Mood::Brim {
            self.plan_no_room(Side::Cpu);
            self.plan_no_room(Side::Dma);
        }
        // One VM goes while the tables are still full.
        if self.mood == Mood::Sweep {
            self.plan_retire();
        }
        self.left = self.mood.length();
        self.guests = match self.mood {
            Mood::Maps | Mood::Full => GUESTS,
            _ => self.rng.pick(&[8, 24, 24, 100, GUESTS]).unwrap_or(24),
        };
    }
}

/// Makes of a row one that a log can hold: the operation a known one, of an
/// argument too wide its upper half. A stranger to be added becomes another VM.
fn mend(row: &mut Row) {
    if log::body(row[0]).is_none() {
        row[0] = 1 + row[0] % OPERATIONS;
    }
    let widths = log::widths(row[0]);
    for (number, width) in row[1..].iter_mut().zip(widths) {
        if width < 8 && *number >> 32 > 0 {
            *number >>= 32;
        }
    }
    if row[0] == 1 && STRANGERS.contains(&row[1]) {
        row[1] -= STRANGERS.start;
    }
}

/// Rows.
impl Writer {
    fn write_rows(&mut self, rows: u64) {
        for row in 0..rows {
            self.write_row();
            self.left -= 1;
            if self.left == 0 {
                let early = rows >= 2400 && row < 200;
                self.change_mood(early);
            }
            if self.rng.chance(3) {
                self.author.free();
            }
        }
    }

    fn write_row(&mut self) {
        if self.planned.is_empty() {
            self.plan();
        }
        let mut row = self.planned.pop().unwrap_or_else(|| self.any_row());
        if self.logged {
            mend(&mut row);
        }
        let spelling = self.spell(&row);
        self.author.row_as(&row, &spelling);
    }

    fn any_row(&mut self) -> Row {
        if self.rng.chance(4) {
            self.noise()
        } else {
            self.aimed()
        }
    }

    /// Any operation with any numbers at all.
    fn noise(&mut self) -> Row {
        let operation =
            if self.rng.chance(90) { self.rng.below(OPERATIONS + 2) } else { self.odd() };
        let mut row = Row::default();
        row[0] = operation;
        for number in &mut row[1..] {
            *number = if self.rng.chance(50) { self.odd() } else { self.rng.below(10) };
        }
        // Where tables are to get full, chance retires no VM.
        if operation == RETIRE && !self.mood.retires() {
            row[1] = VMS + row[1] % VMS;
        }
        row
    }

    /// A row of an operation that should give a wanted answer.
    fn aimed(&mut self) -> Row {
        let operation = self.operation();
        let wanted = if self.rng.chance(self.mood.accepted()) {
            Some(0)
        } else if self.rng.chance(80) {
            self.rng.pick(refusals(operation))
        } else {
            None
        };
        let mut row = self.candidate(operation);
        for _ in 0..TRIES {
            if wanted.is_none_or(|number| self.author.machine.verdict(&row).number == number) {
                break;
            }
            row = self.candidate(operation);
        }
        if self.rng.chance(3) {
            self.spoil(&mut row);
        }
        row
    }

    fn operation(&mut self) -> u64 {
        let weights = self.mood.weights();
        let mut left = self.rng.below(weights.iter().sum());
        for (place, &weight) in weights.iter().enumerate() {
            if left < weight {
                return place as u64 + 1;
            }
            left -= weight;
        }
        OPERATIONS
    }

    /// Puts one argument at its limit or far out.
    fn spoil(&mut self, row: &mut Row) {
        let kinds = arguments(row[0]).unwrap_or_default();
        if kinds.is_empty() {
            return;
        }
        let place = self.rng.below(kinds.len() as u64) as usize;
        let limit = kinds[place].limit(self.author.machine.pages).unwrap_or(u64::MAX);
        row[place + 1] = if self.rng.chance(50) { limit } else { self.odd() };
    }

    fn odd(&mut self) -> u64 {
        if self.rng.chance(20) {
            self.rng.next()
        } else {
            self.rng.pick(&ODD).unwrap_or(0)
        }
    }

    /// One row of an operation, near to what the machine holds.
    fn candidate(&mut self, operation: u64) -> Row {
        let mut row = Row::default();
        row[0] = operation;
        match operation {
            4 | 5 => self.held_page(&mut row),
            6 => self.stored_pair(&mut row),
            7 | 8 if self.logged && self.rng.chance(50) => self.own_page(&mut row),
            7 | 8 => self.mapped_key(&mut row, 10),
            9 | 10 => self.mapped_key(&mut row, 85),
            11..=14 => self.unit_region(&mut row),
            17 | 18 | 21..=24 => self.running_port(&mut row),
            RETIRE => self.leaving_vm(&mut row),
            _ => self.plain(&mut row),
        }
        row
    }

    /// Every argument by its kind alone.
    fn plain(&mut self, row: &mut Row) {
        for (place, &kind) in arguments(row[0]).unwrap_or_default().iter().enumerate() {
            row[place + 1] = self.argument(kind, row[0]);
        }
    }

    fn argument(&mut self, kind: Kind, operation: u64) -> u64 {
        match kind {
            Kind::Vm => self.vm(),
            Kind::Target if self.rng.chance(15) => IDLE,
            Kind::Target => self.vm(),
            Kind::Guest => self.guest(),
            Kind::Page => self.page(operation),
            Kind::Access if self.rng.chance(50) => 3,
            Kind::Access => self.rng.below(ACCESSES),
            Kind::Generation if self.rng.chance(60) => 0,
            Kind::Generation => self.rng.below(GENERATIONS),
            Kind::Port => self.rng.below(PORTS as u64),
            Kind::Slot => self.rng.below(SLOTS as u64),
            Kind::Word => self.rng.pick(&[0, 1, 2, WORDS - 1]).unwrap_or(0),
            Kind::Any => self.rng.next(),
        }
    }

    /// Mostly a known VM; else a low one, which units name, or any.
    fn vm(&mut self) -> Vm {
        let known: Vec<Vm> = self.author.machine.known.iter().copied().collect();
        match self.rng.below(10) {
            0..=6 => self.rng.pick(&known).unwrap_or(0),
            7 | 8 => self.rng.below(4),
            _ => self.rng.below(VMS),
        }
    }

    fn guest(&mut self) -> Guest {
        match self.rng.below(50) {
            0 => GUESTS - 1,
            1 => self.rng.below(GUESTS),
            _ => self.rng.below(self.guests),
        }
    }

    /// Any page, or for a DMA map often one of the shared span or a DMA page.
    fn page(&mut self, operation: u64) -> Page {
        let m = &self.author.machine;
        let held: Vec<Page> = match operation {
            8 if m.shared.count > 0 => {
                let shared = m.shared.base + self.rng.below(m.shared.count);
                m.dma.owned.values().flatten().copied().chain([shared]).collect()
            }
            7 => m.cpu.owned.values().flatten().copied().collect(),
            3 => m.dma.owned.values().flatten().copied().chain(m.pool.first().copied()).collect(),
            _ => Vec::new(),
        };
        match self.rng.pick(&held) {
            Some(page) if self.rng.chance(60) => page,
            _ => self.rng.below(m.pages),
        }
    }

    /// Every VM with every page that it holds on a side.
    fn held(&self, side: Side) -> Vec<(Vm, Page)> {
        let owned = self.author.machine.half(side).owned.iter();
        owned.flat_map(|(&vm, pages)| pages.iter().map(move |&page| (vm, page))).collect()
    }

    /// A VM with one of its CPU pages, for share another VM between them.
    fn held_page(&mut self, row: &mut Row) {
        self.plain(row);
        let held = self.held(Side::Cpu);
        if let (Some((vm, page)), true) = (self.rng.pick(&held), self.rng.chance(80)) {
            row[1] = vm;
            row[if row[0] == 4 { 2 } else { 3 }] = page;
        }
    }

    fn stored_pair(&mut self, row: &mut Row) {
        self.plain(row);
        let pairs: Vec<Pair> = self.author.machine.pairs.iter().copied().collect();
        if let (Some((low, high, page)), true) = (self.rng.pick(&pairs), self.rng.chance(85)) {
            let ends = if self.rng.chance(50) { [low, high] } else { [high, low] };
            row[1..4].copy_from_slice(&[ends[0], ends[1], page]);
        }
    }

    /// A key that the map has, `percent` times in a hundred.
    fn mapped_key(&mut self, row: &mut Row, percent: u64) {
        self.plain(row);
        let side = if row[0] % 2 == 1 { Side::Cpu } else { Side::Dma };
        let map = &self.author.machine.half(side).software;
        let keys: Vec<(Vm, Guest)> = map.keys().copied().collect();
        if let (Some((vm, guest)), true) = (self.rng.pick(&keys), self.rng.chance(percent)) {
            row[1..3].copy_from_slice(&[vm, guest]);
        }
    }

    /// The five fields of a unit, mostly of a known VM, now and then with one
    /// of them changed.
    fn unit_region(&mut self, row: &mut Row) {
        let m = &self.author.machine;
        let known = |unit: &&Unit| m.known.contains(&unit.region.vm);
        let known: Vec<Unit> = m.units.iter().filter(known).copied().collect();
        let units = if self.rng.chance(85) { &known } else { &m.units };
        let Some(Unit { region, .. }) = self.rng.pick(units) else { return };
        let Region { vm, guest, page, count, access } = region;
        row[1..6].copy_from_slice(&[vm, guest, page, count, access]);
        if self.rng.chance(20) {
            let place = 1 + self.rng.below(5) as usize;
            row[place] = match self.rng.below(4) {
                0 => 0,
                1 => row[place] + 1,
                2 => self.odd(),
                _ => self.rng.below(8),
            };
        }
        if self.logged && self.rng.chance(4) {
            row[1] = STRANGERS.start;
        }
    }

    /// A port that runs a VM, and a guest page which that VM maps.
    fn running_port(&mut self, row: &mut Row) {
        self.plain(row);
        let side = if row[0] % 2 == 1 { Side::Cpu } else { Side::Dma };
        let half = self.author.machine.half(side);
        let running: Vec<(usize, Vm)> = half
            .ports
            .iter()
            .enumerate()
            .filter_map(|(port, vm)| vm.map(|vm| (port, vm)))
            .collect();
        let Some((port, vm)) = self.rng.pick(&running) else { return };
        if self.rng.chance(80) {
            row[1] = port as u64;
        }
        let keys = half.walker.range((vm, 0)..=(vm, GUESTS));
        let guests: Vec<Guest> = keys.map(|(key, _)| key.1).collect();
        if let (Some(guest), true) = (self.rng.pick(&guests), self.rng.chance(80)) {
            row[2] = guest;
        }
    }

    /// Mostly a VM that no port runs; at times a number that is no VM's.
    fn leaving_vm(&mut self, row: &mut Row) {
        self.plain(row);
        let m = &self.author.machine;
        let runs = |vm: &Vm| m.cpu.runs(*vm) || m.dma.runs(*vm);
        let off: Vec<Vm> = m.known.iter().copied().filter(|vm| !runs(vm)).collect();
        match self.rng.below(10) {
            0 => self.spoil(row),
            1..=5 => row[1] = self.rng.pick(&off).unwrap_or(row[1]),
            _ => {}
        }
    }

    /// The text of a row: mostly plain, at times in one of the spellings that
    /// the script allows.
    fn spell(&mut self, row: &Row) -> String {
        let arguments = arguments(row[0]).map_or(ROW_NUMBERS - 1, <[Kind]>::len);
        let mut words: Vec<String> = row[..=arguments].iter().map(u64::to_string).collect();
        if self.rng.chance(80) && matches!(row, [15 | 16, _, IDLE, ..]) {
            words[2] = "idle".to_string();
        }
        let text = words.join(" ");
        match self.rng.below(60) {
            0 => words.join("\t"),
            1 => format!("  {text} \t"),
            2 => format!("{text} # a comment"),
            3 => format!("{text}#1 2 3"),
            4 => format!("{text}\r"),
            5 => format!("00{text}"),
            6 => format!("\n# between\r\n{text}"),
            7 if arguments < ROW_NUMBERS - 1 => format!("{text} {}", u64::MAX),
            _ => text,
        }
    }
}

/// Ways to states that one box seldom meets by chance.
impl Writer {
    /// A row of 7 or 8 with a VM and a page that it holds.
    fn own_page(&mut self, row: &mut Row) {
        self.plain(row);
        let held = self.held(if row[0] == 7 { Side::Cpu } else { Side::Dma });
        if let Some((vm, page)) = self.rng.pick(&held) {
            (row[1], row[3]) = (vm, page);
        }
    }

    /// A unit of few pages, mostly of a known VM.
    fn small_unit(&mut self) -> Option<Region> {
        let m = &self.author.machine;
        let small = m.units.iter().map(|unit| unit.region).filter(|region| region.count <= 4);
        let (known, others): (Vec<Region>, Vec<Region>) =
            small.partition(|region| m.known.contains(&region.vm));
        let units = if known.is_empty() || self.rng.chance(10) { others } else { known };
        self.rng.pick(&units)
    }

    /// Behind the rows that are planned already.
    fn plan_row(&mut self, numbers: &[u64]) {
        let mut row = Row::default();
        row[..numbers.len()].copy_from_slice(numbers);
        self.planned.insert(0, row);
    }

    fn plan_region(&mut self, operation: u64, region: Region) {
        let Region { vm, guest, page, count, access } = region;
        self.plan_row(&[operation, vm, guest, page, count, access]);
    }

    /// Plans rows after which the pages of a unit are in the pool; gives the unit.
    fn free_a_unit(&mut self) -> Option<Region> {
        let region = self.small_unit()?;
        let m = &self.author.machine;
        let named = |page: Page| Span { base: region.page, count: region.count }.contains(page);
        let mappings = m.cpu.software.iter().filter(|(_, entry)| named(entry.page));
        let unmaps = mappings.map(|(key, _)| [9, key.0, key.1, 0]);
        let pairs = m.pairs.iter().filter(|pair| named(pair.2));
        let unshares = pairs.map(|&(low, high, page)| [6, low, high, page]);
        let held = self.held(Side::Cpu).into_iter().filter(|&(_, page)| named(page));
        let reclaims = held.map(|(vm, page)| [4, vm, page, 0]);
        let rows: Vec<[u64; 4]> = unmaps.chain(unshares).chain(reclaims).collect();
        rows.iter().for_each(|row| self.plan_row(row));
        Some(region)
    }

    /// Plans for each known VM to take a page that is free, if there are enough.
    fn plan_pages(&mut self) {
        let m = &self.author.machine;
        let free = (0..m.pages).rev().filter(|&page| m.is_free(page));
        let rows: Vec<[u64; 3]> =
            m.known.iter().zip(free).map(|(&vm, page)| [3, vm, page]).collect();
        rows.iter().for_each(|row| self.plan_row(row));
    }

    /// Plans to free a unit, to bring the map to its brim, and to insert the unit.
    fn plan_no_room(&mut self, side: Side) {
        let Some(region) = self.free_a_unit() else { return };
        let (insert, map, unmap) = if side == Side::Cpu { (11, 7, 9) } else { (13, 8, 10) };
        for index in 0..region.count {
            self.plan_row(&[unmap, region.vm, region.guest + index]);
        }
        let m = &self.author.machine;
        let page = match side {
            Side::Cpu => m.cpu.owned.get(&region.vm).and_then(|pages| pages.last().copied()),
            Side::Dma => Some(m.shared.base),
        };
        let room = ENTRIES - m.half(side).software.len() + self.planned.len();
        if let (Some(page), true) = (page, room < Mood::Brim.length() as usize) {
            for _ in 0..room {
                let guest = self.rng.below(GUESTS);
                self.plan_row(&[map, region.vm, guest, page, 3]);
            }
        }
        self.plan_region(insert, region);
    }

    /// At times plans rows: in a box for the log about regions, and where VMs
    /// are retired how one of them comes to that.
    fn plan(&mut self) {
        let percent = if self.mood == Mood::Regions { 4 } else { 1 };
        if self.logged && self.rng.chance(percent) {
            self.plan_unit();
        } else if self.mood.retires() && self.rng.chance(1) {
            self.plan_retire();
        }
    }

    /// Plans to free a unit and insert it: with one of its guest pages mapped
    /// before, with a page shared or mapped again after, or with a page held
    /// for DMA by another VM.
    fn plan_unit(&mut self) {
        let Some(region) = self.free_a_unit() else { return };
        let (vm, index, other) = (region.vm, self.rng.below(region.count), self.vm());
        let (insert, remove, map) = if self.rng.chance(70) { (11, 12, 7) } else { (13, 14, 8) };
        let way = self.rng.below(4);
        if way == 0 {
            let held = self.held(Side::Cpu);
            let own: Vec<_> = held.into_iter().filter(|&(holder, _)| holder == vm).collect();
            if let Some((_, page)) = self.rng.pick(&own) {
                self.plan_row(&[7, vm, region.guest + index, page, 3]);
            }
        } else if way == 1 {
            self.plan_rival(region);
        }
        self.plan_region(insert, region);
        match way {
            2 => self.plan_row(&[5, vm, other, region.page + index]),
            3 => self.plan_row(&[map, vm, region.guest + region.count, region.page + index, 1]),
            _ => return,
        }
        self.plan_region(remove, region);
    }

    /// Plans to insert for DMA another VM's unit that meets the region.
    fn plan_rival(&mut self, region: Region) {
        let meets = |other: &Region| {
            other.vm != region.vm
                && other.page < region.page + region.count
                && region.page < other.page + other.count
        };
        let units = self.author.machine.units.iter().map(|unit| unit.region);
        let rivals: Vec<Region> = units.filter(meets).collect();
        if let Some(rival) = self.rng.pick(&rivals) {
            self.plan_row(&[1, rival.vm]);
            self.plan_region(13, rival);
        }
    }
}

/// Ways to a VM retired.
impl Writer {
    fn plan_retire(&mut self) {
        match self.rng.below(6) {
            0 => self.plan_newcomer(),
            1 => self.plan_lender(),
            2 => self.plan_device_page(),
            3 => self.plan_slots(&[Side::Cpu]),
            4 => self.plan_slots(&[Side::Dma]),
            _ => self.plan_slots(&[Side::Cpu, Side::Dma]),
        }
    }

    /// A port on the VM fills one guest page and is idle again.
    fn plan_slot(&mut self, side: Side, vm: Vm, guest: Guest) {
        let (run, fill) = if side == Side::Cpu { (15, 17) } else { (16, 18) };
        let port = self.rng.below(PORTS as u64);
        for row in [[run, port, vm], [fill, port, guest], [run, port, IDLE]] {
            self.plan_row(&row);
        }
    }

    /// The VM is taken off its ports and goes, at times told to go before that
    /// too; mostly it comes back.
    fn plan_leave(&mut self, vm: Vm) {
        if self.rng.chance(30) {
            self.plan_row(&[RETIRE, vm]);
        }
        for (run, side) in [(15, Side::Cpu), (16, Side::Dma)] {
            let ports = self.author.machine.half(side).ports;
            for port in (0..PORTS).filter(|&port| ports[port] == Some(vm)) {
                self.plan_row(&[run, port as u64, IDLE]);
            }
        }
        self.plan_row(&[RETIRE, vm]);
        if self.rng.chance(80) {
            self.plan_row(&[1, vm]);
        }
    }

    /// A VM that has nothing.
    fn plan_newcomer(&mut self) {
        let known = &self.author.machine.known;
        let new = |vm: &Vm| !known.contains(vm) && !STRANGERS.contains(vm);
        let unknown: Vec<Vm> = (0..VMS).filter(new).collect();
        if let Some(vm) = self.rng.pick(&unknown) {
            self.plan_row(&[1, vm]);
            self.plan_row(&[RETIRE, vm]);
        }
    }

    /// A VM with a slot on each of the sides on which it maps something.
    fn plan_slots(&mut self, sides: &[Side]) {
        let m = &self.author.machine;
        let of_side = |&side: &Side| m.half(side).software.keys().map(|key| key.0);
        let vms: Vec<Vm> = sides.iter().flat_map(of_side).collect();
        let Some(vm) = self.rng.pick(&vms) else { return };
        for &side in sides {
            let keys = self.author.machine.half(side).software.range((vm, 0)..=(vm, GUESTS));
            let guests: Vec<Guest> = keys.map(|(key, _)| key.1).collect();
            if let Some(guest) = self.rng.pick(&guests) {
                self.plan_slot(side, vm, guest);
            }
        }
        self.plan_leave(vm);
    }

    /// A VM lends a page to another, which maps it, has a slot for it and reads
    /// it in vain when the lender is gone.
    fn plan_lender(&mut self) {
        let held = self.held(Side::Cpu);
        let Some((vm, page)) = self.rng.pick(&held) else { return };
        let Some(other) = self.other_vm(vm) else { return };
        let guest = self.guest();
        self.plan_row(&[5, vm, other, page]);
        self.plan_row(&[7, other, guest, page, 3]);
        self.plan_slot(Side::Cpu, other, guest);
        self.plan_leave(vm);
        self.plan_row(&[15, 0, other]);
        self.plan_row(&[21, 0, guest]);
    }

    /// A device writes a word to a page that its VM holds for DMA alone; when
    /// the VM is gone, the next one reads 0 there.
    fn plan_device_page(&mut self) {
        let Some(Region { vm, guest, page, count, access }) = self.free_a_unit() else { return };
        let Some(other) = self.other_vm(vm) else { return };
        let (index, word, port) = (self.rng.below(count), self.rng.below(WORDS), 0);
        let (at, new) = (page + index, self.guest());
        self.plan_row(&[13, vm, guest, page, count, access]);
        self.plan_row(&[8, vm, guest + index, at, 3]);
        self.plan_row(&[16, port, vm]);
        self.plan_row(&[24, port, guest + index, word, 1 + word]);
        self.plan_row(&[16, port, IDLE]);
        self.plan_leave(vm);
        for row in [[3, other, at, 0, 0], [7, other, new, at, 1], [15, port, other, 0, 0]] {
            self.plan_row(&row);
        }
        self.plan_row(&[21, port, new, word]);
    }

    /// A known VM that is not the one named.
    fn other_vm(&mut self, vm: Vm) -> Option<Vm> {
        let known = self.author.machine.known.iter().copied();
        let others: Vec<Vm> = known.filter(|&other| other != vm).collect();
        self.rng.pick(&others)
    }
}
