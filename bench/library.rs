//! The library as one of the machines.

use face::{Machine, Numbers, Row, Setup};
use tiligormis::{Answer, Owned, Refusal, Unit};

pub struct Library {
    pub owned: Owned,
    answers: Vec<Answer>,
}

impl Library {
    /// For so many pages and so many rows of a sequence; nothing is started.
    pub fn new(pages: usize, rows: usize) -> Library {
        Library { owned: Owned::new(pages), answers: vec![Answer::default(); rows] }
    }

    /// One row by itself; the number of its answer.
    pub fn operation(&mut self, row: &Row) -> u64 {
        self.owned.lent().operation(*row).number
    }
}

impl Machine for Library {
    fn start(&mut self, setup: &Setup) -> u64 {
        let unit = |&[vm, guest, page, count, access, mark]: &[u64; 6]| Unit {
            vm,
            guest,
            page,
            count,
            access,
            mark,
        };
        let units: Vec<Unit> = setup.units.iter().map(unit).collect();
        let [base, count] = [setup.shared_base, setup.shared_count].map(|number| number as u64);
        self.owned.lent().start(setup.pages as u64, base, count, &units).err().map_or(0, Refusal::number)
    }

    fn sequence(&mut self, rows: &[Row]) -> u64 {
        self.owned.lent().sequence(rows, &mut self.answers).err().map_or(0, Refusal::number)
    }

    fn answer(&self, k: usize) -> Numbers {
        let Answer { number, index, dropped, word } = self.answers[k];
        [number, index, dropped, word]
    }
}
