//! The edges of the library as safe Rust reaches them. What only C can do, null pointers and numbers
//! that are no whole rows or units, is tested in bindings/c.

mod boxes;
mod documented;
mod lengths;
mod log;
mod no_std;
mod numbers;
mod operations;
mod refusals;
mod replays;
mod slots;
mod starts;

use crate::*;
use std::boxed::Box;
use std::vec::Vec;

const UNITS_TOLD: [Unit; 2] = [
    Unit { vm: 1, guest: 16, page: 0, count: 3, access: READ | WRITE, mark: MARK_BOTH },
    Unit { vm: 2, guest: 16, page: 2, count: 2, access: READ | WRITE, mark: MARK_CPU },
];

/// One past the last kind of a record.
const PAST: u8 = KINDS as u8 + 1;

/// A machine of eight pages at work, with something in every table.
fn whole() -> Owned {
    let mut owned = Owned::new(8);
    let mut lent = owned.lent();
    lent.start(8, 7, 1, &UNITS_TOLD).unwrap();
    let rows = [
        rows::add_vm(1),
        rows::add_vm(2),
        rows::insert_region(1, 16, 0, 3, READ | WRITE),
        rows::dma_insert_region(1, 16, 0, 3, READ | WRITE),
        rows::share_page(1, 2, 1),
        rows::switch_cpu(0, Some(1)),
        rows::bind_device(0, Some(1)),
        rows::cpu_fill(0, 16),
        rows::cpu_fill(0, 17),
        rows::dma_fill(0, 18),
        rows::cpu_write(0, 16, 0, 1111),
    ];
    let mut answers = [Answer { number: u64::MAX, ..Answer::default() }; 11];
    lent.sequence(&rows, &mut answers).unwrap();
    assert_eq!(answers, [Answer::default(); 11]);
    owned
}

/// The header that a refused start leaves.
fn empty_machine() -> Machine {
    let none = Unit { mark: MARK_CPU, ..Unit::default() };
    let idle = [IDLE; PORTS];
    Machine { cpus: idle, devices: idle, units: [none; UNITS], ..Machine::default() }
}

/// Every entry but start refuses this box and leaves it.
fn entries_refuse(owned: &mut Owned) {
    let before = owned.clone();
    let untouched = Answer { number: 9, index: 9, dropped: 9, word: 9 };
    let mut answers = [untouched];
    let not_valid = Answer { number: STATE_NOT_VALID, ..Answer::default() };
    assert!(!owned.shared().valid());
    assert!(!owned.lent().valid());
    assert_eq!(owned.shared().free(), Err(Refusal::StateNotValid));
    assert_eq!(owned.lent().free(), Err(Refusal::StateNotValid));
    assert_eq!(owned.lent().operation(rows::add_vm(3)), not_valid);
    assert_eq!(owned.lent().add_vm(3), Err(Refusal::StateNotValid));
    let rows = [rows::add_vm(3)];
    assert_eq!(owned.lent().sequence(&rows, &mut answers), Err(Refusal::StateNotValid));
    let log = [6, 0, 1, 0, 3, 0, 0, 0];
    assert_eq!(owned.lent().replay(&log, 0, 1, &mut answers), Err(Refusal::StateNotValid));
    assert_eq!(answers, [untouched]);
    assert!(*owned == before);
}

/// Start refuses so, and leaves the box but for the header.
fn start_refuses(owned: &mut Owned, pages: u64, span: [u64; 2], units: &[Unit], refusal: Refusal) {
    let before = owned.clone();
    assert_eq!(owned.lent().start(pages, span[0], span[1], units), Err(refusal));
    assert!(*owned == Owned { machine: Box::new(empty_machine()), ..before });
}
