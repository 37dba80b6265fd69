//! The slots of one cache.

use super::*;

#[test]
fn slots_are_found() {
    let mut owned = whole();
    assert_eq!(find_slot(&owned.cpu_cache, 0, 1, 17), Some(1));
    assert_eq!(find_slot(&owned.cpu_cache[..2], 0, 1, 17), Some(1));
    assert_eq!(find_slot(&owned.cpu_cache[..1], 0, 1, 17), None);
    assert_eq!(find_slot(&[], 0, 1, 17), None);
    for (port, vm, guest) in [(1, 1, 17), (0, 2, 17), (0, 1, 18), (0, 0, 0)] {
        assert_eq!(find_slot(&owned.cpu_cache, port, vm, guest), None);
    }
    for (port, vm, guest) in [(1 << 8, 1, 17), (0, 257, 17), (0, 1, 65_536 + 17)] {
        assert_eq!(find_slot(&owned.cpu_cache, port, vm, guest), None);
    }
    owned.cpu_cache.push(Slot { port: 7, vm: 15, guest: 9, entry: 1 << 31 });
    assert_eq!(find_slot(&owned.cpu_cache, 7, 15, 9), None);
}

const MOST: Translation = Translation {
    port: PORTS as u64 - 1,
    vm: VMS - 1,
    guest: GUEST_PAGES - 1,
    page: PAGES - 1,
    access: ACCESSES - 1,
    generation: GENERATIONS - 1,
};

#[test]
fn slots_are_filled_and_emptied() {
    let mut slots = [Slot::default(); SLOTS];
    let last = SLOTS - 1;
    assert_eq!(fill_slot(&mut slots, last, MOST), Ok(()));
    let mut expected = [Slot::default(); SLOTS];
    expected[last] = Slot { port: 7, vm: 15, guest: 65_535, entry: 0x9fff_ffff };
    assert_eq!(slots, expected);
    assert_eq!(find_slot(&slots, MOST.port, MOST.vm, MOST.guest), Some(last));
    assert_eq!(empty_slot(&mut slots, last), Ok(()));
    assert_eq!(slots, [Slot::default(); SLOTS]);
}

#[test]
fn slots_say_what_they_hold() {
    let mut slots = [Slot::default(); SLOTS];
    assert_eq!(slots[0].translation(), None);
    let none = Translation::default();
    for held in [
        none,
        MOST,
        Translation { port: MOST.port, ..none },
        Translation { vm: MOST.vm, ..none },
        Translation { guest: MOST.guest, ..none },
        Translation { page: MOST.page, ..none },
        Translation { access: MOST.access, ..none },
        Translation { generation: MOST.generation, ..none },
    ] {
        fill_slot(&mut slots, 0, held).unwrap();
        assert_eq!(slots[0].translation(), Some(held));
    }
}

#[test]
fn translations_out_of_range_are_refused() {
    let mut slots = [Slot::default(); SLOTS];
    for over in [
        Translation { port: PORTS as u64, ..MOST },
        Translation { vm: VMS, ..MOST },
        Translation { guest: GUEST_PAGES, ..MOST },
        Translation { page: PAGES, ..MOST },
        Translation { access: ACCESSES, ..MOST },
        Translation { generation: GENERATIONS, ..MOST },
    ] {
        assert_eq!(fill_slot(&mut slots, 0, over), Err(Refusal::OutOfRange));
    }
    assert_eq!(slots, [Slot::default(); SLOTS]);
}

#[test]
fn places_out_of_range_are_refused() {
    let filled = Slot { port: 1, vm: 1, guest: 1, entry: 1 << 31 };
    let mut slots = [filled; SLOTS + 1];
    for place in [SLOTS, usize::MAX] {
        assert_eq!(fill_slot(&mut slots[..SLOTS], place, MOST), Err(Refusal::OutOfRange));
        assert_eq!(empty_slot(&mut slots[..SLOTS], place), Err(Refusal::OutOfRange));
    }
    for length in [0, SLOTS - 1, SLOTS + 1] {
        assert_eq!(fill_slot(&mut slots[..length], 0, MOST), Err(Refusal::StateNotValid));
        assert_eq!(empty_slot(&mut slots[..length], 0), Err(Refusal::StateNotValid));
    }
    assert_eq!(slots, [filled; SLOTS + 1]);
}

#[test]
fn a_stale_slot_is_refused_until_it_is_emptied() {
    let mut owned = whole();
    let stale = Translation { port: 1, vm: 2, guest: 40, page: 0, access: WRITE, generation: 0 };
    fill_slot(&mut owned.dma_cache, 5, stale).unwrap();
    entries_refuse(&mut owned);
    empty_slot(&mut owned.dma_cache, 5).unwrap();
    assert!(owned == whole());
    assert!(owned.shared().valid());
}
