//! The library and its opponents side by side, and how they are timed.

use std::hint::black_box;
use std::time::Instant;

use face::{Machine, Row, Setup, PAGES};

use crate::library::Library;

/// The most rows of one sequence.
pub const ROWS: usize = 10_000;

/// The library, then (a) and (b) without vector loops, then (a) and (b) with them.
pub const MACHINES: usize = 5;
pub const NAMES: &str = "library, (a), (b), and (a), (b) with vector loops,";

pub struct Machines {
    pub library: Library,
    opponents: [Box<dyn Machine>; MACHINES - 1],
}

impl Machines {
    /// Room for machines of so many pages; nothing is started.
    pub fn new(pages: usize) -> Machines {
        let pages = pages.min(PAGES);
        let opponents = [plain::bounded, plain::idiomatic, vector::bounded, vector::idiomatic];
        Machines {
            library: Library::new(pages, ROWS),
            opponents: opponents.map(|opponent| opponent(pages, ROWS)),
        }
    }

    pub fn each(&mut self) -> [&mut dyn Machine; MACHINES] {
        let [a, b, c, d] = self.opponents.each_mut().map(|opponent| &mut **opponent);
        [&mut self.library, a, b, c, d]
    }

    pub fn started(setup: &Setup) -> Machines {
        let mut machines = Machines::new(setup.pages);
        for machine in machines.each() {
            assert_eq!(machine.start(setup), 0, "start is accepted");
        }
        machines
    }

    /// Carries rows out that all of them must accept.
    pub fn accept(&mut self, rows: &[Row]) {
        for rows in rows.chunks(ROWS) {
            for machine in self.each() {
                assert_eq!(machine.sequence(rows), 0);
                for (k, row) in rows.iter().enumerate() {
                    assert_eq!(machine.answer(k)[0], 0, "row {row:?} is accepted");
                }
            }
        }
    }
}

/// Nanoseconds of each machine.
pub type Times = [f64; MACHINES];

/// Nanoseconds of one call.
pub fn time<R>(call: impl FnOnce() -> R) -> f64 {
    let before = Instant::now();
    black_box(call());
    before.elapsed().as_nanos() as f64
}

/// Each machine by turns, in every round; of each the least of all rounds. `turn` gives the times
/// of one machine in one round.
pub fn contest<const TIMES: usize>(
    machines: &mut Machines,
    rounds: usize,
    mut turn: impl FnMut(&mut dyn Machine) -> [f64; TIMES],
) -> [Times; TIMES] {
    let mut least = [[f64::INFINITY; MACHINES]; TIMES];
    for _ in 0..rounds {
        for (place, machine) in machines.each().into_iter().enumerate() {
            for (least, spent) in least.iter_mut().zip(turn(machine)) {
                least[place] = least[place].min(spent);
            }
        }
    }
    least
}
