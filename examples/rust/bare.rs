//! A program without std and without a heap, as firmware is: a page is given to a guest, written,
//! taken back and given to the next guest, who finds it cleared. The box is the program's own memory.
//! The status is 0 where all of it was accepted, else the number of the refusal.

#![no_std]
#![no_main]

use tiligormis::*;

const PAGES_HERE: usize = 8;
const CPU: u64 = 0;
const GUEST: u64 = 16;
const PAGE: u64 = 5;
const FIRST: u64 = 1;
const NEXT: u64 = 2;

/// The tables that a box has besides its header, its caches and memory.
struct Tables {
    sets: [u64; SETS * SET_WORDS],
    pairs: [u64; PAIRS],
    maps: [[u64; ENTRIES]; 4],
}

/// Puts a VM that has one page, mapped, on the CPU.
fn put(machine: &mut Lent, vm: u64) -> Result<(), Refusal> {
    machine.add_vm(vm)?;
    machine.assign_page(vm, PAGE)?;
    machine.cpu_map(vm, GUEST, PAGE, READ | WRITE, 0)?;
    machine.switch_cpu(CPU, Some(vm))
}

/// Gives what the next guest reads where the first one wrote.
fn story(machine: &mut Lent) -> Result<u64, Refusal> {
    machine.start(PAGES_HERE as u64, 0, 0, &[])?;
    put(machine, FIRST)?;
    machine.cpu_write(CPU, GUEST, 0, 1111)?;
    machine.cpu_fill(CPU, GUEST)?;
    machine.cpu_unmap(FIRST, GUEST)?;
    machine.reclaim_page(FIRST, PAGE)?;
    put(machine, NEXT)?;
    machine.cpu_read(CPU, GUEST, 0)
}

#[no_mangle]
extern "C" fn main() -> i32 {
    let mut tables =
        Tables { sets: [0; SETS * SET_WORDS], pairs: [0; PAIRS], maps: [[0; ENTRIES]; 4] };
    let [cpu_map, cpu_walker, dma_map, dma_walker] = &mut tables.maps;
    let mut machine = Lent {
        machine: &mut Machine::default(),
        sets: &mut tables.sets,
        pairs: &mut tables.pairs,
        cpu_map,
        cpu_walker,
        cpu_cache: &mut [Slot::default(); SLOTS],
        dma_map,
        dma_walker,
        dma_cache: &mut [Slot::default(); SLOTS],
        memory: &mut [0; PAGES_HERE * PAGE_WORDS],
    };
    match story(&mut machine) {
        Ok(0) => 0,
        Ok(_) => -1,
        Err(refusal) => refusal.number() as i32,
    }
}

extern "C" {
    /// Stands nowhere: this program links because, optimised, nothing that it calls can panic.
    fn nothing_here_panics() -> !;
}

/// Some linkers want it found, though nothing unwinds where a panic aborts.
#[no_mangle]
extern "C" fn rust_eh_personality() {}

#[panic_handler]
fn panic(_: &core::panic::PanicInfo) -> ! {
    // SAFETY: it is never called, as it is not there.
    unsafe { nothing_here_panics() }
}
