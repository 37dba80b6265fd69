//! Safe Rust over `libtiligormis.a`, the page bookkeeping of a thin hypervisor, proved.
//!
//! A box is a machine header, eight tables and memory, all of them the caller's. [`Lent`] is a box
//! lent to the library; with the feature `alloc`, `Owned` is one on the heap to lend from. Slices of
//! every length and any content may be lent: every entry but start judges the box first, refuses one
//! that is not valid with [`Refusal::StateNotValid`], and leaves it as it was. `include/tiligormis.h`
//! is the manual of the same functions for C, docs/MACHINE.md says what the machine does.
//!
//! The crate needs `core` alone, and `alloc` for `Owned`. [`Lent`] has a method for each operation;
//! [`rows`] makes the same operations as rows, for a sequence of them and for the operation log:
//! [`LogWriter`] writes a record for each row, [`LogReader`] reads them, and [`Lent::replay`] carries
//! them out on another box.
//!
//! ```
//! use tiligormis::*;
//! let (mut sets, mut pairs) = ([0; SETS * SET_WORDS], [0; PAIRS]);
//! let (mut cpu_map, mut cpu_walker) = ([0; ENTRIES], [0; ENTRIES]);
//! let (mut dma_map, mut dma_walker) = ([0; ENTRIES], [0; ENTRIES]);
//! let mut machine = Lent {
//!     machine: &mut Machine::default(),
//!     sets: &mut sets,
//!     pairs: &mut pairs,
//!     cpu_map: &mut cpu_map,
//!     cpu_walker: &mut cpu_walker,
//!     cpu_cache: &mut [Slot::default(); SLOTS],
//!     dma_map: &mut dma_map,
//!     dma_walker: &mut dma_walker,
//!     dma_cache: &mut [Slot::default(); SLOTS],
//!     memory: &mut [0; 8 * PAGE_WORDS],
//! };
//! machine.start(8, 7, 1, &[])?;
//! machine.add_vm(1)?;
//! assert_eq!(machine.add_vm(1), Err(Refusal::VmKnown));
//! machine.assign_page(1, 5)?;
//! machine.cpu_map(1, 16, 5, READ | WRITE, 0)?;
//! machine.switch_cpu(0, Some(1))?;
//! machine.cpu_write(0, 16, 511, 1111)?;
//! assert_eq!(machine.cpu_read(0, 16, 511), Ok(1111));
//! assert_eq!(machine.free()?.count, 6);
//! # Ok::<(), Refusal>(())
//! ```

#![no_std]

#[cfg(any(feature = "alloc", test))]
extern crate alloc;
#[cfg(test)]
extern crate std;

mod answers;
mod ffi;
mod lent;
mod log;
mod numbers;
mod operations;
#[cfg(any(feature = "alloc", test))]
mod owned;
mod slots;
mod structs;
#[cfg(test)]
mod tests;

pub use answers::Refused;
pub use lent::{Lent, LentRef};
pub use log::{LogError, LogReader, LogWriter, Replayed};
pub use numbers::*;
pub use operations::rows;
#[cfg(any(feature = "alloc", test))]
pub use owned::Owned;
pub use slots::{empty_slot, fill_slot, find_slot, Translation};
pub use structs::{row, Answer, FreePages, Machine, Row, Slot, Unit};
