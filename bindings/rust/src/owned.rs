//! A box on the heap, for programs that have no tables of their own to lend.

use crate::lent::{Lent, LentRef};
use crate::numbers::*;
use crate::structs::{Machine, Slot};
use alloc::boxed::Box;
use alloc::vec;
use alloc::vec::Vec;

/// All parts of a box, to be lent: see [`Lent`] for what each is. With the feature `alloc`.
///
/// ```
/// use tiligormis::*;
/// let mut owned = Owned::new(8);
/// owned.lent().start(8, 7, 1, &[]).unwrap();
/// owned.lent().add_vm(1).unwrap();
/// assert_eq!(owned.shared().free().unwrap().lowest(), Some(0));
/// ```
#[derive(Clone, Debug, PartialEq, Eq)]
pub struct Owned {
    pub machine: Box<Machine>,
    pub sets: Vec<u64>,
    pub pairs: Vec<u64>,
    pub cpu_map: Vec<u64>,
    pub cpu_walker: Vec<u64>,
    pub cpu_cache: Vec<Slot>,
    pub dma_map: Vec<u64>,
    pub dma_walker: Vec<u64>,
    pub dma_cache: Vec<Slot>,
    pub memory: Vec<u64>,
}

impl Owned {
    /// Tables and memory for a machine of `pages` pages, all 0. Nothing is started: the header is of
    /// a machine of no pages, which every other entry refuses.
    pub fn new(pages: usize) -> Owned {
        Owned {
            machine: Box::default(),
            sets: vec![0; SETS * SET_WORDS],
            pairs: vec![0; PAIRS],
            cpu_map: vec![0; ENTRIES],
            cpu_walker: vec![0; ENTRIES],
            cpu_cache: vec![Slot::default(); SLOTS],
            dma_map: vec![0; ENTRIES],
            dma_walker: vec![0; ENTRIES],
            dma_cache: vec![Slot::default(); SLOTS],
            memory: vec![0; PAGE_WORDS * pages],
        }
    }

    /// The box, lent to be changed.
    pub fn lent(&mut self) -> Lent<'_> {
        Lent {
            machine: &mut self.machine,
            sets: &mut self.sets,
            pairs: &mut self.pairs,
            cpu_map: &mut self.cpu_map,
            cpu_walker: &mut self.cpu_walker,
            cpu_cache: &mut self.cpu_cache,
            dma_map: &mut self.dma_map,
            dma_walker: &mut self.dma_walker,
            dma_cache: &mut self.dma_cache,
            memory: &mut self.memory,
        }
    }

    /// The box, lent to be looked at.
    pub fn shared(&self) -> LentRef<'_> {
        LentRef {
            machine: &self.machine,
            sets: &self.sets,
            pairs: &self.pairs,
            cpu_map: &self.cpu_map,
            cpu_walker: &self.cpu_walker,
            cpu_cache: &self.cpu_cache,
            dma_map: &self.dma_map,
            dma_walker: &self.dma_walker,
            dma_cache: &self.dma_cache,
            memory: &self.memory,
        }
    }
}
