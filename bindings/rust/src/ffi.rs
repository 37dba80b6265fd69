//! The exported functions as include/tiligormis.h declares them. Only scalars, pointers and lengths
//! cross, so the declarations hold on every 64-bit processor.

use crate::structs::{Answer, FreePages, Machine, Slot};

/// Declares entries: each takes the box first, by `mut` or by `const` pointers, then its own.
macro_rules! entries {
    ($($pointer:tt $entry:ident($($own:ident: $kind:ty),*) -> $result:ty;)*) => {
        #[link(name = "tiligormis", kind = "static")]
        extern "C" {
            $(pub fn $entry(
                machine: *$pointer Machine, machine_numbers: usize,
                sets: *$pointer u64, sets_length: usize,
                pairs: *$pointer u64, pairs_length: usize,
                cpu_map: *$pointer u64, cpu_map_length: usize,
                cpu_walker: *$pointer u64, cpu_walker_length: usize,
                cpu_cache: *$pointer Slot, cpu_cache_length: usize,
                dma_map: *$pointer u64, dma_map_length: usize,
                dma_walker: *$pointer u64, dma_walker_length: usize,
                dma_cache: *$pointer Slot, dma_cache_length: usize,
                memory: *$pointer u64, memory_length: usize,
                $($own: $kind),*
            ) -> $result;)*
        }
    };
}

entries! {
    mut tiligormis_start(
        pages: u64, shared_base: u64, shared_count: u64, units: *const u64, units_length: usize
    ) -> u64;
    mut tiligormis_operation(
        row: *const u64, row_length: usize, answer: *mut Answer, answer_numbers: usize
    ) -> u64;
    mut tiligormis_sequence(
        rows: *const u64, rows_length: usize, answers: *mut u64, answers_length: usize
    ) -> u64;
    mut tiligormis_replay(
        log: *const u8, log_length: usize, place: *mut u64, place_length: usize, most: u64,
        answers: *mut u64, answers_length: usize, taken: *mut u64, taken_length: usize
    ) -> u64;
    const tiligormis_valid() -> bool;
    const tiligormis_free(free_pages: *mut FreePages, free_numbers: usize) -> u64;
}

extern "C" {
    pub fn tiligormis_log_write(
        row: *const u64,
        row_length: usize,
        log: *mut u8,
        log_length: usize,
        place: *mut u64,
        place_length: usize,
    ) -> u64;
    pub fn tiligormis_log_read(
        log: *const u8,
        log_length: usize,
        place: *mut u64,
        place_length: usize,
        row: *mut u64,
        row_length: usize,
    ) -> u64;
    pub fn tiligormis_find_slot(
        slots: *const Slot,
        slots_length: usize,
        port: u64,
        vm: u64,
        guest: u64,
    ) -> usize;
    pub fn tiligormis_fill_slot(
        slots: *mut Slot,
        slots_length: usize,
        place: u64,
        port: u64,
        vm: u64,
        guest: u64,
        page: u64,
        access: u64,
        generation: u64,
    ) -> u64;
    pub fn tiligormis_empty_slot(slots: *mut Slot, slots_length: usize, place: u64) -> u64;
}
