//! What start refuses, and what it makes.

use super::*;

#[test]
fn start_makes_everything_anew() {
    let mut owned = whole();
    owned.lent().start(8, 7, 1, &UNITS_TOLD).unwrap();
    let mut fresh = Owned::new(8);
    *fresh.machine = empty_machine();
    fresh.machine.pages = 8;
    fresh.machine.shared_base = 7;
    fresh.machine.shared_count = 1;
    fresh.machine.unit_count = 2;
    fresh.machine.units[..2].copy_from_slice(&UNITS_TOLD);
    fresh.sets[0] = 0b0111_1111;
    fresh.sets[SET_WORDS] = 0b1000_0000;
    assert!(owned == fresh);
}

#[test]
fn nothing_started_is_refused() {
    entries_refuse(&mut Owned::new(8));
    entries_refuse(&mut Owned::new(0));
    start_refuses(&mut Owned::new(0), 0, [0, 0], &[], Refusal::StateNotValid);
}

#[test]
fn pages_and_spans_of_start_are_judged() {
    for pages in [0, 7, 9, PAGES + 1, (1 << 55) + 8, u64::MAX] {
        start_refuses(&mut whole(), pages, [7, 1], &[], Refusal::StateNotValid);
    }
    for span in [[8, 1], [9, 0], [u64::MAX, 1], [0, 9]] {
        start_refuses(&mut whole(), 8, span, &[], Refusal::BadSpan);
    }
    let last = Unit { page: 7, ..UNITS_TOLD[1] };
    start_refuses(&mut whole(), 8, [7, 1], &[UNITS_TOLD[0], last], Refusal::BadSpan);
}
