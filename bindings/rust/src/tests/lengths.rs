//! Slices of other lengths, each in turn.

use super::*;

/// Gives one of the nine slices of a box another length.
fn resize(owned: &mut Owned, slice: usize, change: isize) {
    fn to<T: Clone + Default>(slice: &mut Vec<T>, change: isize) {
        let length = slice.len().saturating_add_signed(change);
        slice.resize(length, T::default());
    }
    match slice {
        0 => to(&mut owned.sets, change),
        1 => to(&mut owned.pairs, change),
        2 => to(&mut owned.cpu_map, change),
        3 => to(&mut owned.cpu_walker, change),
        4 => to(&mut owned.cpu_cache, change),
        5 => to(&mut owned.dma_map, change),
        6 => to(&mut owned.dma_walker, change),
        7 => to(&mut owned.dma_cache, change),
        _ => to(&mut owned.memory, change),
    }
}

/// Each slice in turn with its length changed so.
fn lengths_changed(change: isize) {
    for slice in 0..9 {
        let mut owned = whole();
        resize(&mut owned, slice, change);
        entries_refuse(&mut owned);
        start_refuses(&mut owned, 8, [7, 1], &UNITS_TOLD, Refusal::StateNotValid);
    }
}

#[test]
fn empty_slices_are_refused() {
    lengths_changed(isize::MIN);
}

#[test]
fn short_slices_are_refused() {
    lengths_changed(-1);
    lengths_changed(-17);
}

#[test]
fn long_slices_are_refused() {
    lengths_changed(1);
    lengths_changed(512);
}

#[test]
fn parts_of_longer_slices_are_a_box() {
    let mut owned = whole();
    for slice in 0..9 {
        resize(&mut owned, slice, 8);
    }
    let before = owned.clone();
    let mut lent = owned.lent();
    fn cut<T>(slice: &mut &mut [T]) {
        let length = slice.len() - 8;
        *slice = &mut std::mem::take(slice)[..length];
    }
    cut(&mut lent.sets);
    cut(&mut lent.pairs);
    cut(&mut lent.cpu_map);
    cut(&mut lent.cpu_walker);
    cut(&mut lent.cpu_cache);
    cut(&mut lent.dma_map);
    cut(&mut lent.dma_walker);
    cut(&mut lent.dma_cache);
    cut(&mut lent.memory);
    assert!(lent.valid());
    assert_eq!(
        lent.operation(row([CPU_WRITE, 0, 18, PAGE_WORDS as u64 - 1, 2222])),
        Answer::default()
    );
    let mut expected = before;
    expected.memory[3 * PAGE_WORDS - 1] = 2222;
    assert!(owned == expected);
}
