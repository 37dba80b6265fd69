//! Boxes that are whole, headers that are no machine's, and answers.

use super::*;

#[test]
fn whole_box_is_accepted() {
    let mut owned = whole();
    let before = owned.clone();
    assert!(owned.shared().valid());
    assert!(owned.lent().valid());
    assert_eq!(free(&owned), (4, Some(3)));
    assert!(owned == before);
    let read = owned.lent().operation(row([CPU_READ, 0, 16, 0]));
    assert_eq!(read, Answer { word: 1111, ..Answer::default() });
    let unmapped = owned.lent().operation(row([CPU_UNMAP, 1, 16]));
    assert_eq!(unmapped, Answer { dropped: 1, ..Answer::default() });
    let removed = owned.lent().operation(row([REMOVE_REGION, 1, 16, 0, 3, READ | WRITE]));
    assert_eq!(removed, Answer { number: MAPPING_DIFFERS, ..Answer::default() });
    let inserted = owned.lent().operation(row([INSERT_REGION, 2, 16, 2, 2, READ | WRITE]));
    assert_eq!(inserted, Answer { number: PAGE_NOT_HELD, ..Answer::default() });
}

#[test]
fn marks_that_are_none_are_refused() {
    for mark in [0, 4, u64::MAX] {
        for unit in 0..UNITS_TOLD.len() {
            let mut owned = whole();
            owned.machine.units[unit].mark = mark;
            entries_refuse(&mut owned);
            let mut units = UNITS_TOLD;
            units[unit].mark = mark;
            start_refuses(&mut whole(), 8, [7, 1], &units, Refusal::OutOfRange);
        }
    }
}

#[test]
fn units_past_the_count_are_not_looked_at() {
    let mut owned = whole();
    let most = u64::MAX;
    let unit = Unit { vm: most, guest: most, page: most, count: most, access: most, mark: most };
    owned.machine.units[UNITS_TOLD.len()..].fill(unit);
    assert!(owned.shared().valid());
}

#[test]
fn unit_counts_above_the_most_are_refused() {
    let mut owned = whole();
    owned.machine.units = [UNITS_TOLD[0]; UNITS];
    owned.machine.unit_count = UNITS as u64;
    assert!(owned.shared().valid());
    for count in [UNITS as u64 + 1, 1 << 32, u64::MAX] {
        owned.machine.unit_count = count;
        entries_refuse(&mut owned);
    }
    let units = [UNITS_TOLD[0]; UNITS + 1];
    start_refuses(&mut whole(), 8, [7, 1], &units, Refusal::OutOfRange);
    whole().lent().start(8, 7, 1, &units[..UNITS]).unwrap();
}

#[test]
fn answers_are_counted() {
    let rows = [row([ADD_VM, 3]); 2];
    let untouched = Answer { number: 9, index: 9, dropped: 9, word: 9 };
    let mut answers = [untouched; 3];
    let mut owned = whole();
    let before = owned.clone();
    assert_eq!(owned.lent().sequence(&rows, &mut answers[..1]), Err(Refusal::OutOfRange));
    assert_eq!(owned.lent().sequence(&rows, &mut []), Err(Refusal::OutOfRange));
    assert_eq!(owned.lent().sequence(&[], &mut []), Ok(()));
    assert_eq!(owned.lent().sequence(&[], &mut answers), Ok(()));
    assert!(owned == before && answers == [untouched; 3]);
    assert_eq!(owned.lent().sequence(&rows, &mut answers), Ok(()));
    let known = Answer { number: VM_KNOWN, ..Answer::default() };
    assert_eq!(answers, [Answer::default(), known, untouched]);
}

fn free(owned: &Owned) -> (u64, Option<u64>) {
    let pages = owned.shared().free().unwrap();
    (pages.count, pages.lowest())
}

#[test]
fn none_free_is_none() {
    let mut owned = Owned::new(8);
    owned.lent().start(8, 0, 8, &[]).unwrap();
    assert_eq!(free(&owned), (0, None));
}

/// The worked table's C5: pages 0 to 2 are in the pool again, but VM 1 holds them for DMA.
#[test]
fn held_for_dma_is_not_free() {
    let mut owned = Owned::new(8);
    owned.lent().start(8, 7, 1, &UNITS_TOLD).unwrap();
    assert_eq!(free(&owned), (7, Some(0)));
    owned.lent().add_vm(1).unwrap();
    owned.lent().add_vm(2).unwrap();
    owned.lent().insert_region(1, 16, 0, 3, READ | WRITE).unwrap();
    owned.lent().dma_insert_region(1, 16, 0, 3, READ | WRITE).unwrap();
    owned.lent().remove_region(1, 16, 0, 3, READ | WRITE).unwrap();
    assert_eq!(free(&owned), (4, Some(3)));
    assert_eq!(owned.lent().assign_page(2, 2), Err(Refusal::PageClaimed));
    owned.lent().assign_page(2, 3).unwrap();
    owned.lent().dma_remove_region(1, 16, 0, 3, READ | WRITE).unwrap();
    assert_eq!(free(&owned), (6, Some(0)));
}

/// All that is in the pool may be held for DMA, and then none is free.
#[test]
fn none_free_though_the_pool_has_pages() {
    let mut owned = Owned::new(3);
    let unit = Unit { vm: 1, guest: 16, page: 0, count: 2, access: READ, mark: MARK_DMA };
    owned.lent().start(3, 2, 1, &[unit]).unwrap();
    owned.lent().add_vm(1).unwrap();
    owned.lent().dma_insert_region(1, 16, 0, 2, READ).unwrap();
    assert_eq!(free(&owned), (0, None));
}
