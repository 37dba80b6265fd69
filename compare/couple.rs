//! One trial, run by the second program and by two boxes of the library: one goes row by row, by
//! either entry, and is compared after every row; one takes the same rows in batches.

use second::author::Rng;
use second::machine::{Machine, Page};
use second::operate::Row;
use second::valid::is_valid;
use tiligormis::{Answer, Owned, OUT_OF_RANGE, STATE_NOT_VALID};

use crate::differ::{memory, same, state, tables, touched};
use crate::pack::{Difference, SPARE_UNIT};
use crate::subject::{apply, used_box, Maker, Subject};
use crate::tally::Tally;
use crate::trial::{Step, Trial};

/// What is compared.
#[derive(Clone, Copy, PartialEq, Eq, PartialOrd, Ord, Debug)]
pub enum Check {
    Start,
    Row,
    Batch,
    Free,
    Validity,
}

/// A difference, and the step of the trial at which it was seen.
#[derive(Clone, Debug)]
pub struct Finding {
    pub check: Check,
    pub step: usize,
    pub difference: Difference,
}

/// Memories of up to this many pages are compared whole after every row.
const SMALL: u64 = 16;
/// Larger ones after as many rows, and at the end of every batch.
const WHOLE_EVERY: u64 = 1000;
/// So often both tests for validity are asked, and the free query.
const ASK_EVERY: u64 = 64;
/// Lengths of batches, drawn at random.
const LENGTHS: [usize; 14] = [0, 1, 1, 2, 3, 4, 7, 8, 16, 33, 64, 100, 250, 1000];
/// Stands in answer room that nobody may write.
pub const UNWRITTEN: Answer = Answer { number: 77, index: 77, dropped: 77, word: 77 };

struct Couple<'a> {
    second: Machine,
    /// The start was accepted.
    alive: bool,
    single: Box<dyn Subject>,
    batched: Box<dyn Subject>,
    /// The box after start: what a refused start left stays so, and so do units.
    started: Owned,
    rng: Rng,
    tally: &'a mut Tally,
    rows: u64,
    /// How many rows make the batch full, the rows so far, and the second program's answers.
    length: usize,
    batch: Vec<Row>,
    answers: Vec<Answer>,
}

/// Runs a trial up to the first difference.
pub fn run(trial: &Trial, seed: u64, make: &Maker, tally: &mut Tally) -> Result<(), Finding> {
    let finding = |check, step| move |difference| Finding { check, step, difference };
    let mut couple = Couple::start(trial, seed, make, tally).map_err(finding(Check::Start, 0))?;
    for (at, step) in trial.steps.iter().enumerate() {
        match step {
            Step::Row(row) => {
                couple.row(row).map_err(finding(Check::Row, at))?;
                couple.batch(row).map_err(finding(Check::Batch, at))?;
            }
            Step::Free => couple.free().map_err(finding(Check::Free, at))?,
        }
        if couple.rows % ASK_EVERY == 0 {
            couple.validity().map_err(finding(Check::Validity, at))?;
            couple.free().map_err(finding(Check::Free, at))?;
        }
    }
    let end = trial.steps.len();
    couple.flush().map_err(finding(Check::Batch, end))?;
    couple.alike(&*couple.single, None).map_err(finding(Check::Row, end))?;
    couple.validity().map_err(finding(Check::Validity, end))
}

impl<'a> Couple<'a> {
    fn start(
        trial: &Trial,
        seed: u64,
        make: &Maker,
        tally: &'a mut Tally,
    ) -> Result<Self, Difference> {
        let (number, second) = trial.setup.start();
        let single = started(trial, number, &second, make)?;
        let batched = started(trial, number, &second, make)?;
        *tally.starts.entry(number).or_default() += 1;
        if number == 0 {
            tally.sizes.insert(second.pages);
        }
        Ok(Couple {
            second,
            alive: number == 0,
            started: single.owned().clone(),
            single,
            batched,
            rng: Rng::new(seed),
            tally,
            rows: 0,
            length: 1,
            batch: Vec::new(),
            answers: Vec::new(),
        })
    }

    /// One row by either entry, and the state after it.
    fn row(&mut self, row: &Row) -> Result<(), Difference> {
        let mut pages = touched(&self.second, row);
        let expected = apply(&mut self.second, self.alive, row);
        pages.extend(touched(&self.second, row));
        let by_operation = self.rng.chance(50);
        let answer = match by_operation {
            true => self.single.operation(row),
            false => self.sequence_of_one(row)?,
        };
        same("answer's number", answer.number, expected.number)?;
        same("answer's index", answer.index, expected.index)?;
        same("answer's dropped slots", answer.dropped, expected.dropped)?;
        same("answer's word", answer.word, expected.word)?;
        self.rows += 1;
        let whole = self.second.pages <= SMALL || self.rows % WHOLE_EVERY == 0;
        // Page by page in turn, so that none waits long.
        pages.push(self.rows % self.second.pages.max(1));
        self.alike(&*self.single, (!whole).then_some(&pages[..]))?;
        self.tally.whole_memories += u64::from(whole && self.second.pages > SMALL);
        self.tally.by_operation += u64::from(by_operation);
        self.tally.by_sequence += u64::from(!by_operation);
        self.tally.answer(row[0], expected.number);
        self.answers.push(expected);
        Ok(())
    }

    /// The row as a sequence; refused as a whole, its number is the answer's.
    fn sequence_of_one(&mut self, row: &Row) -> Result<Answer, Difference> {
        let mut room = [UNWRITTEN; 2];
        let number = self.single.sequence(&[*row], &mut room);
        same("room beyond the answers", room[1], UNWRITTEN)?;
        if number != 0 {
            same("room of a refused sequence", room[0], UNWRITTEN)?;
            return Ok(Answer { number, ..Answer::default() });
        }
        Ok(room[0])
    }

    /// The box is the second program's machine; of memory these pages, or all of it.
    fn alike(&self, subject: &dyn Subject, pages: Option<&[Page]>) -> Result<(), Difference> {
        let owned = subject.owned();
        if !self.alive {
            return match *owned == self.started {
                true => Ok(()),
                false => Err(Difference::new("refused box", "it changed")),
            };
        }
        state(owned, &self.second, &self.started.machine.units, pages)
    }

    fn free(&mut self) -> Result<(), Difference> {
        same("free query", self.single.free(), self.second.free())?;
        self.tally.free_queries += 1;
        Ok(())
    }

    /// Both are valid exactly if the start was accepted.
    fn validity(&mut self) -> Result<(), Difference> {
        same("validity", self.single.valid(), is_valid(&self.second))?;
        same("validity", self.single.valid(), self.alive)?;
        self.tally.validities += 1;
        Ok(())
    }

    /// Takes a row into the batch, and runs it where it is full.
    fn batch(&mut self, row: &Row) -> Result<(), Difference> {
        self.batch.push(*row);
        if self.batch.len() < self.length {
            return Ok(());
        }
        self.flush()?;
        self.length = self.rng.pick(&LENGTHS).unwrap_or(1);
        match self.length {
            0 => self.flush(),
            _ => Ok(()),
        }
    }

    fn flush(&mut self) -> Result<(), Difference> {
        if !self.batch.is_empty() && self.rng.chance(20) {
            self.short_room()?;
        }
        let mut expected = std::mem::take(&mut self.answers);
        let number = if self.alive { 0 } else { STATE_NOT_VALID };
        if !self.alive {
            expected.fill(UNWRITTEN);
        }
        expected.resize(expected.len() + self.rng.below(3) as usize, UNWRITTEN);
        let mut room = vec![UNWRITTEN; expected.len()];
        same("sequence's number", self.batched.sequence(&self.batch, &mut room), number)?;
        for (place, answers) in room.iter().zip(&expected).enumerate() {
            same("sequence's answers", (place, answers.0), (place, answers.1))?;
        }
        self.alike(&*self.batched, None)?;
        self.tally.batch(self.batch.len());
        self.batch.clear();
        Ok(())
    }

    /// Room for one answer too few: refused with 2 if the box is valid, and nothing is written.
    fn short_room(&mut self) -> Result<(), Difference> {
        let before = self.batched.owned().clone();
        let mut room = vec![UNWRITTEN; self.batch.len() - 1];
        let number = if self.alive { OUT_OF_RANGE } else { STATE_NOT_VALID };
        same("short room's number", self.batched.sequence(&self.batch, &mut room), number)?;
        if room.iter().any(|answer| *answer != UNWRITTEN) || *self.batched.owned() != before {
            return Err(Difference::new("short room", "the box or the room changed"));
        }
        self.tally.short_rooms += 1;
        Ok(())
    }
}

/// A box after the trial's start, which must answer with `number`.
fn started(
    trial: &Trial,
    number: u64,
    second: &Machine,
    make: &Maker,
) -> Result<Box<dyn Subject>, Difference> {
    let used = used_box(trial.setup.pages);
    let mut subject = make(used.clone());
    same("start's number", subject.start(&trial.setup), number)?;
    match number {
        0 => after_start(subject.owned(), second)?,
        _ => after_refused_start(subject.owned(), &used)?,
    }
    Ok(subject)
}

/// All of a box after an accepted start.
pub fn after_start(owned: &Owned, second: &Machine) -> Result<(), Difference> {
    tables(owned.shared(), second)?;
    let spare = &owned.machine.units[second.units.len()..];
    if spare.iter().any(|unit| *unit != SPARE_UNIT) {
        return Err(Difference::new("units", "a spare one is not 0 marked CPU"));
    }
    memory(&owned.memory, &second.memory)
}

/// A refused start gives an empty machine and leaves all that is lent.
pub fn after_refused_start(owned: &Owned, before: &Owned) -> Result<(), Difference> {
    same("pages of a refused start", owned.machine.pages, 0)?;
    let lent = Owned { machine: owned.machine.clone(), ..before.clone() };
    match *owned == lent {
        true => Ok(()),
        false => Err(Difference::new("refused start", "something lent changed")),
    }
}
