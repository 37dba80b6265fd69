//! A box lent to the library, and the entries over it.

use crate::ffi;
use crate::log::Replayed;
use crate::numbers::*;
use crate::structs::{Answer, FreePages, Machine, Row, Slot, Unit};

/// A box lent to be changed. The slices may have any length and any content; a valid box has the
/// lengths named at the fields, and keeps the rules of docs/MACHINE.md, section 4.
///
/// No two slices overlap: Rust refuses to lend one table for two.
///
/// ```compile_fail,E0382
/// fn one_table_for_two(mut lent: tiligormis::Lent) -> bool {
///     lent.cpu_walker = lent.cpu_map;
///     lent.valid()
/// }
/// ```
pub struct Lent<'a> {
    pub machine: &'a mut Machine,
    /// [`SETS`] * [`SET_WORDS`] words: the pool, the shared span, then CPU and DMA pages of each VM.
    pub sets: &'a mut [u64],
    /// [`PAIRS`] words, one for each sharing pair.
    pub pairs: &'a mut [u64],
    /// [`ENTRIES`] words, one for each mapping of a CPU.
    pub cpu_map: &'a mut [u64],
    /// [`ENTRIES`] words: what the hardware walks for CPUs.
    pub cpu_walker: &'a mut [u64],
    /// [`SLOTS`] slots.
    pub cpu_cache: &'a mut [Slot],
    /// [`ENTRIES`] words, one for each mapping of a device.
    pub dma_map: &'a mut [u64],
    /// [`ENTRIES`] words: what the hardware walks for devices.
    pub dma_walker: &'a mut [u64],
    /// [`SLOTS`] slots.
    pub dma_cache: &'a mut [Slot],
    /// [`PAGE_WORDS`] words for each page of the machine.
    pub memory: &'a mut [u64],
}

/// A box lent to be looked at: the same parts as [`Lent`].
#[derive(Clone, Copy)]
pub struct LentRef<'a> {
    pub machine: &'a Machine,
    pub sets: &'a [u64],
    pub pairs: &'a [u64],
    pub cpu_map: &'a [u64],
    pub cpu_walker: &'a [u64],
    pub cpu_cache: &'a [Slot],
    pub dma_map: &'a [u64],
    pub dma_walker: &'a [u64],
    pub dma_cache: &'a [Slot],
    pub memory: &'a [u64],
}

/// Calls an entry with the box, its slices as pointers by `$pointer`, and the entry's own arguments.
///
/// Sound for every box: a reference and a slice point to as many elements as they say, aligned, and
/// nobody else writes to them while they are lent; mutable ones overlap nothing.
macro_rules! call {
    ($entry:ident, $lent:ident, $pointer:ident $(, $own:expr)*) => {
        // SAFETY: as said above; every call hands on slices or locals as its own arguments.
        unsafe {
            ffi::$entry(
                $lent.machine,
                MACHINE_NUMBERS,
                $lent.sets.$pointer(),
                $lent.sets.len(),
                $lent.pairs.$pointer(),
                $lent.pairs.len(),
                $lent.cpu_map.$pointer(),
                $lent.cpu_map.len(),
                $lent.cpu_walker.$pointer(),
                $lent.cpu_walker.len(),
                $lent.cpu_cache.$pointer(),
                $lent.cpu_cache.len(),
                $lent.dma_map.$pointer(),
                $lent.dma_map.len(),
                $lent.dma_walker.$pointer(),
                $lent.dma_walker.len(),
                $lent.dma_cache.$pointer(),
                $lent.dma_cache.len(),
                $lent.memory.$pointer(),
                $lent.memory.len(),
                $($own),*
            )
        }
    };
}

impl Lent<'_> {
    /// Starts a machine of `pages` pages; the shared span may have count 0. Accepted, the whole box
    /// is written: empty tables, all pages in the pool but those of the shared span, every port
    /// idle, memory 0. Refused, the header is that of an empty machine, of 0 pages, and everything
    /// else stays as it was.
    ///
    /// Refused, in this order, with [`Refusal::StateNotValid`] for `pages` or the length of a slice, with
    /// [`Refusal::OutOfRange`] for more than [`UNITS`] units or the VM, access or mark of one, and with
    /// [`Refusal::BadSpan`] for the span of a unit or the shared span.
    pub fn start(
        &mut self,
        pages: u64,
        shared_base: u64,
        shared_count: u64,
        units: &[Unit],
    ) -> Result<(), Refusal> {
        let numbers = units.len() * UNIT_NUMBERS;
        Refusal::accepted(call!(
            tiligormis_start,
            self,
            as_mut_ptr,
            pages,
            shared_base,
            shared_count,
            units.as_ptr().cast(),
            numbers
        ))
    }

    /// Carries out one operation. Refused, the box stays as it was.
    pub fn operation(&mut self, row: Row) -> Answer {
        let mut answer = Answer::default();
        call!(
            tiligormis_operation,
            self,
            as_mut_ptr,
            row.as_ptr(),
            ROW_NUMBERS,
            &mut answer,
            ANSWER_NUMBERS
        );
        answer
    }

    /// Carries out row after row, a refused one too, and writes an answer for each; answers beyond
    /// the rows keep their content. The box is judged once, before the first row.
    ///
    /// Refused as a whole, nothing changes, the answers included: with [`Refusal::StateNotValid`] where the
    /// box is not valid, with [`Refusal::OutOfRange`] where there are fewer answers than rows.
    pub fn sequence(&mut self, rows: &[Row], answers: &mut [Answer]) -> Result<(), Refusal> {
        Refusal::accepted(call!(
            tiligormis_sequence,
            self,
            as_mut_ptr,
            rows.as_ptr().cast(),
            rows.len() * ROW_NUMBERS,
            answers.as_mut_ptr().cast(),
            answers.len() * ANSWER_NUMBERS
        ))
    }

    /// Replays a log: carries out at most `most` records from a place on, a refused operation too, and
    /// writes answers for as many of them as there is room for; there may be none. The box is judged
    /// once, before the first record. A record that cannot be read ends it, and what was done before
    /// that stands.
    ///
    /// Refused with [`Refusal::StateNotValid`] where the box is not valid; then nothing changes.
    ///
    /// ```
    /// # #[cfg(feature = "alloc")] {
    /// use tiligormis::*;
    /// let (mut first, mut second) = (Owned::new(8), Owned::new(8));
    /// first.lent().start(8, 7, 1, &[]).unwrap();
    /// second.lent().start(8, 7, 1, &[]).unwrap();
    /// let mut buffer = [0; 3 * RECORD_BYTES];
    /// let mut log = LogWriter::new(&mut buffer);
    /// for row in [rows::add_vm(1), rows::assign_page(1, 7), rows::assign_page(1, 5)] {
    ///     first.lent().operation(row);
    ///     log.write(&row).unwrap();
    /// }
    /// let mut answers = [Answer::default(); 2];
    /// let begun = second.lent().replay(log.written(), 0, 2, &mut answers).unwrap();
    /// assert_eq!((begun.taken, begun.place, begun.stopped), (2, 20, None));
    /// assert_eq!(answers.map(|answer| answer.number), [ACCEPTED, PAGE_NOT_HELD]);
    /// let rest = second.lent().replay(log.written(), begun.place, usize::MAX, &mut []).unwrap();
    /// assert_eq!(rest.readable(), Ok(1));
    /// assert!(second == first);
    /// # }
    /// ```
    pub fn replay(
        &mut self,
        log: &[u8],
        place: usize,
        most: usize,
        answers: &mut [Answer],
    ) -> Result<Replayed, Refusal> {
        let (mut next, mut taken) = (place as u64, 0);
        let number = call!(
            tiligormis_replay,
            self,
            as_mut_ptr,
            log.as_ptr(),
            log.len(),
            &mut next,
            1,
            most as u64,
            answers.as_mut_ptr().cast(),
            answers.len() * ANSWER_NUMBERS,
            &mut taken,
            1
        );
        let stopped = LogRefusal::from_number(number);
        if stopped.is_none() {
            Refusal::accepted(number)?;
        }
        Ok(Replayed { taken: taken as usize, place: next as usize, stopped })
    }

    /// Whether the box is valid.
    pub fn valid(&self) -> bool {
        self.shared().valid()
    }

    /// The free pages: those in the pool that no VM holds for DMA. Refused with
    /// [`Refusal::StateNotValid`] where the box is not valid.
    pub fn free(&self) -> Result<FreePages, Refusal> {
        self.shared().free()
    }

    /// The box, lent on to be looked at.
    pub fn shared(&self) -> LentRef<'_> {
        LentRef {
            machine: self.machine,
            sets: self.sets,
            pairs: self.pairs,
            cpu_map: self.cpu_map,
            cpu_walker: self.cpu_walker,
            cpu_cache: self.cpu_cache,
            dma_map: self.dma_map,
            dma_walker: self.dma_walker,
            dma_cache: self.dma_cache,
            memory: self.memory,
        }
    }
}

impl LentRef<'_> {
    /// Whether the box is valid.
    pub fn valid(self) -> bool {
        call!(tiligormis_valid, self, as_ptr)
    }

    /// The free pages: those in the pool that no VM holds for DMA. Refused with
    /// [`Refusal::StateNotValid`] where the box is not valid.
    pub fn free(self) -> Result<FreePages, Refusal> {
        let mut pages = FreePages { count: 0, lowest: NO_PAGE };
        Refusal::accepted(call!(tiligormis_free, self, as_ptr, &mut pages, FREE_NUMBERS))?;
        Ok(pages)
    }
}
