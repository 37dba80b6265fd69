//! The structs that cross, laid out as C lays them out, and the layout asserted.

use crate::numbers::*;
use core::mem::{offset_of, size_of};

/// A slot of a translation cache: the translation of a guest page of a VM, held for one CPU or
/// device. An empty slot is all 0; a filled one has as its entry
/// 2^31 + page * 2^19 + access * 2^16 + generation.
#[repr(C)]
#[derive(Clone, Copy, Debug, Default, PartialEq, Eq)]
pub struct Slot {
    /// CPU or device.
    pub port: u8,
    pub vm: u8,
    pub guest: u16,
    pub entry: u32,
}

/// A region that may be inserted and removed, and for which side.
#[repr(C)]
#[derive(Clone, Copy, Debug, Default, PartialEq, Eq)]
pub struct Unit {
    pub vm: u64,
    /// The first guest page.
    pub guest: u64,
    /// The first page.
    pub page: u64,
    /// 1 or more pages.
    pub count: u64,
    pub access: u64,
    /// [`MARK_CPU`], [`MARK_DMA`] or [`MARK_BOTH`]; any other makes a box not valid.
    pub mark: u64,
}

/// The machine header. Start writes all of it; operations change `known`, the hands and the ports.
/// Units from `unit_count` on are not looked at. The default is all 0, a machine of no pages,
/// which every other entry refuses.
#[repr(C)]
#[derive(Clone, Copy, Debug, Default, PartialEq, Eq)]
pub struct Machine {
    pub pages: u64,
    pub shared_base: u64,
    pub shared_count: u64,
    pub unit_count: u64,
    /// Bit v is set where VM v is known.
    pub known: u64,
    /// The next slot of the CPU cache to be replaced.
    pub cpu_hand: u64,
    pub dma_hand: u64,
    /// The VM on each CPU, or [`IDLE`].
    pub cpus: [u64; PORTS],
    /// The VM that each device is bound to, or [`IDLE`].
    pub devices: [u64; PORTS],
    pub units: [Unit; UNITS],
}

/// What a row is answered.
#[repr(C)]
#[derive(Clone, Copy, Debug, Default, PartialEq, Eq)]
pub struct Answer {
    /// [`ACCEPTED`], or the refusal's number.
    pub number: u64,
    /// Of a region refused with 6, 7, 9, 10 or 11: its lowest page that fails; else 0.
    pub index: u64,
    /// Cache slots that an unmapping, a replacement or the removal of a region dropped.
    pub dropped: u64,
    /// The word read; 0 except for an accepted read.
    pub word: u64,
}

/// The free query's result. A page is free that is in the pool and that no VM holds for DMA.
#[repr(C)]
#[derive(Clone, Copy, Debug, PartialEq, Eq)]
pub struct FreePages {
    /// How many pages are free.
    pub count: u64,
    pub(crate) lowest: u64,
}

impl FreePages {
    /// The lowest free page, if there is one; it can be assigned to every known VM.
    pub fn lowest(self) -> Option<u64> {
        (self.lowest != NO_PAGE).then_some(self.lowest)
    }
}

/// An operation's number and its arguments; numbers beyond them are ignored.
pub type Row = [u64; ROW_NUMBERS];

/// A row of these numbers, filled up with 0.
pub const fn row<const GIVEN: usize>(numbers: [u64; GIVEN]) -> Row {
    const { assert!(GIVEN <= ROW_NUMBERS, "a row has eight numbers") };
    let mut row = [0; ROW_NUMBERS];
    let mut at = 0;
    while at < GIVEN {
        row[at] = numbers[at];
        at += 1;
    }
    row
}

const _: () = assert!(size_of::<usize>() == 8);

/// Asserts how a struct is laid out: its size, and the place and type of each field.
macro_rules! layout {
    ($name:ty, $size:expr; $($field:ident: $kind:ty = $place:expr),*) => {
        const _: () = assert!(size_of::<$name>() == $size);
        $(const _: () = assert!(offset_of!($name, $field) == $place);)*
        const _: fn(&$name) = |whole| { $(let _: &$kind = &whole.$field;)* };
    };
}

layout!(Slot, 8; port: u8 = 0, vm: u8 = 1, guest: u16 = 2, entry: u32 = 4);
layout!(Unit, 8 * UNIT_NUMBERS;
    vm: u64 = 0, guest: u64 = 8, page: u64 = 16, count: u64 = 24, access: u64 = 32, mark: u64 = 40);
layout!(Machine, 8 * MACHINE_NUMBERS;
    pages: u64 = 0, shared_base: u64 = 8, shared_count: u64 = 16, unit_count: u64 = 24,
    known: u64 = 32, cpu_hand: u64 = 40, dma_hand: u64 = 48,
    cpus: [u64; PORTS] = 56, devices: [u64; PORTS] = 120, units: [Unit; UNITS] = 184);
layout!(Answer, 8 * ANSWER_NUMBERS; number: u64 = 0, index: u64 = 8, dropped: u64 = 16, word: u64 = 24);
layout!(FreePages, 8 * FREE_NUMBERS; count: u64 = 0, lowest: u64 = 8);
