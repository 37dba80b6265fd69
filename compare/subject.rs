//! What is compared with the second program: the library, through its Rust wrapper.

use second::machine::{Free, Machine, PAGES};
use second::operate::{self, Row};
use second::script::Setup;
use tiligormis::{Answer, Owned, Refusal, Slot, Unit};

/// The library with a box of its own; in the self-test, something that is only nearly the library.
pub trait Subject {
    /// The number of the answer of a start on whatever the box has.
    fn start(&mut self, setup: &Setup) -> u64;
    fn operation(&mut self, row: &Row) -> Answer;
    /// The number of the sequence as a whole.
    fn sequence(&mut self, rows: &[Row], answers: &mut [Answer]) -> u64;
    fn free(&self) -> Free;
    fn valid(&self) -> bool;
    fn owned(&self) -> &Owned;
}

/// Makes a subject of a box.
pub type Maker = dyn Fn(Owned) -> Box<dyn Subject>;

pub struct Library {
    pub owned: Owned,
}

pub fn library(owned: Owned) -> Box<dyn Subject> {
    Box::new(Library { owned })
}

fn number(result: Result<(), Refusal>) -> u64 {
    result.err().map_or(tiligormis::ACCEPTED, Refusal::number)
}

impl Subject for Library {
    fn start(&mut self, setup: &Setup) -> u64 {
        let unit = |&[vm, guest, page, count, access, mark]: &[u64; 6]| Unit {
            vm,
            guest,
            page,
            count,
            access,
            mark,
        };
        let units: Vec<Unit> = setup.units.iter().map(unit).collect();
        let shared = setup.shared;
        number(self.owned.lent().start(setup.pages, shared.base, shared.count, &units))
    }

    fn operation(&mut self, row: &Row) -> Answer {
        self.owned.lent().operation(*row)
    }

    fn sequence(&mut self, rows: &[Row], answers: &mut [Answer]) -> u64 {
        number(self.owned.lent().sequence(rows, answers))
    }

    fn free(&self) -> Free {
        match self.owned.shared().free() {
            Ok(pages) => Free { number: 0, count: pages.count, lowest: pages.lowest() },
            Err(refusal) => Free { number: refusal.number(), count: 0, lowest: None },
        }
    }

    fn valid(&self) -> bool {
        self.owned.shared().valid()
    }

    fn owned(&self) -> &Owned {
        &self.owned
    }
}

/// The second program's answer in the library's struct.
pub fn answer(answer: operate::Answer) -> Answer {
    let [number, index, dropped, word] = answer.numbers();
    Answer { number, index, dropped, word }
}

/// The second program's answer to a row; `alive` says that its machine was started.
pub fn apply(machine: &mut Machine, alive: bool, row: &Row) -> Answer {
    match alive {
        true => answer(machine.apply(row)),
        false => Answer { number: tiligormis::STATE_NOT_VALID, ..Answer::default() },
    }
}

/// A box full of what a start must overwrite, or leave where it is refused.
pub fn used_box(pages: u64) -> Owned {
    const USED: u64 = 0x5555_AAAA_5A5A_A5A5;
    let mut owned = Owned::new(pages.min(PAGES) as usize);
    owned.machine.known = USED;
    owned.machine.cpus.fill(USED);
    owned.machine.units.fill(Unit { mark: USED, ..Unit::default() });
    let tables = [&mut owned.sets, &mut owned.pairs, &mut owned.cpu_map, &mut owned.cpu_walker];
    for words in tables.into_iter().chain([&mut owned.dma_map, &mut owned.dma_walker]) {
        words.fill(USED);
    }
    owned.memory.fill(USED);
    for slots in [&mut owned.cpu_cache, &mut owned.dma_cache] {
        slots.fill(Slot { port: 1, vm: 2, guest: 3, entry: 4 });
    }
    owned
}
