//! The slots of one translation cache. These functions judge no box and may make one that is not
//! valid.

use crate::ffi;
use crate::numbers::{Refusal, SLOTS};
use crate::structs::Slot;

/// What a filled slot holds: for a CPU or device, a guest page of a VM and where it goes.
#[derive(Clone, Copy, Debug, Default, PartialEq, Eq)]
pub struct Translation {
    /// CPU or device.
    pub port: u64,
    pub vm: u64,
    pub guest: u64,
    pub page: u64,
    pub access: u64,
    pub generation: u64,
}

impl Slot {
    /// What the slot holds, if it is filled.
    pub const fn translation(self) -> Option<Translation> {
        let entry = self.entry as u64;
        if entry >> 31 == 0 {
            return None;
        }
        Some(Translation {
            port: self.port as u64,
            vm: self.vm as u64,
            guest: self.guest as u64,
            page: entry >> 19 & 0xfff,
            access: entry >> 16 & 0x7,
            generation: entry & 0xffff,
        })
    }
}

/// The lowest filled slot, of the first [`SLOTS`], that holds this port, VM and guest page.
pub fn find_slot(slots: &[Slot], port: u64, vm: u64, guest: u64) -> Option<usize> {
    // SAFETY: the pointer and the length are those of a slice.
    let place = unsafe { ffi::tiligormis_find_slot(slots.as_ptr(), slots.len(), port, vm, guest) };
    (place < SLOTS).then_some(place)
}

/// Fills slot `place`. Refused, no slot changes: with [`Refusal::StateNotValid`] where there are not
/// [`SLOTS`] slots, with [`Refusal::OutOfRange`] where a number is out of range.
pub fn fill_slot(slots: &mut [Slot], place: usize, held: Translation) -> Result<(), Refusal> {
    // SAFETY: the pointer and the length are those of a slice that is lent to be changed.
    Refusal::accepted(unsafe {
        ffi::tiligormis_fill_slot(
            slots.as_mut_ptr(),
            slots.len(),
            place as u64,
            held.port,
            held.vm,
            held.guest,
            held.page,
            held.access,
            held.generation,
        )
    })
}

/// Empties slot `place`. Refused as [`fill_slot`] is.
pub fn empty_slot(slots: &mut [Slot], place: usize) -> Result<(), Refusal> {
    // SAFETY: the pointer and the length are those of a slice that is lent to be changed.
    Refusal::accepted(unsafe {
        ffi::tiligormis_empty_slot(slots.as_mut_ptr(), slots.len(), place as u64)
    })
}
