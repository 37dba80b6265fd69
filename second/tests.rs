//! Tests: the worked table, entries, effects, free pages, retired VMs, validity,
//! the script format, the suite, the log.

use std::collections::BTreeSet;

use crate::coverage::{refusals, Coverage};
use crate::generate::{generate, go_on, single, suite};
use crate::log::{self, Reader};
use crate::machine::*;
use crate::operate::{arguments, Answer, Row};
use crate::script::{self, check, look, run, Event, Events};
use crate::valid::{broken, CLAUSES};

const UNITS_OF_TABLE: [UnitNumbers; 2] = [[1, 16, 0, 3, 3, 3], [2, 16, 2, 2, 3, 1]];

/// The eight-page machine of the worked table with some VMs.
fn eight(vms: &[u64]) -> Machine {
    let shared = Span { base: 7, count: 1 };
    let (number, mut m) = Machine::start(8, shared, &UNITS_OF_TABLE, Lent::fitting(8));
    assert_eq!(number, 0);
    for &vm in vms {
        assert_eq!(go(&mut m, &[1, vm]), 0);
    }
    m
}

/// The same with VMs 1 and 2 and U1 in.
fn with_u1() -> Machine {
    let mut m = eight(&[1, 2]);
    assert_eq!(go(&mut m, &[11, 1, 16, 0, 3, 3]), 0);
    m
}

fn answer(m: &mut Machine, numbers: &[u64]) -> Answer {
    let mut row = Row::default();
    row[..numbers.len()].copy_from_slice(numbers);
    m.operate(&row)
}

fn go(m: &mut Machine, numbers: &[u64]) -> u64 {
    answer(m, numbers).number
}

/// The count of the free pages and the lowest.
fn free(m: &Machine) -> (u64, Option<u64>) {
    let free = m.free();
    assert_eq!(free.number, 0);
    (free.count, free.lowest)
}

fn whole_suite(seed: u64, rows: u64) -> String {
    suite(seed, rows).into_iter().map(|(_, script)| script).collect()
}

fn output_of(script: &[u8]) -> String {
    let mut output = Vec::new();
    run(script, &mut output).expect("memory can be read and written");
    String::from_utf8(output).expect("the output is plain text")
}

mod worked_table {
    use super::*;

    #[test]
    fn c1_to_c3() {
        let mut m = eight(&[]);
        assert_eq!(free(&m), (7, Some(0)));
        let adds = [1, 1, VMS - 1, VMS].map(|vm| go(&mut m, &[1, vm]));
        assert_eq!(adds, [0, 5, 0, 2]);
        assert_eq!(go(&mut m, &[11, 1, 16, 0, 3, 3]), 0);
        assert_eq!(free(&m), (4, Some(3)));
        assert_eq!(answer(&mut m, &[11, 1, 16, 0, 3, 3]).numbers(), [6, 0, 0, 0]);
    }

    #[test]
    fn c4_and_c5() {
        let mut m = with_u1();
        assert_eq!(answer(&mut m, &[11, 2, 16, 2, 2, 3]).numbers(), [6, 0, 0, 0]);
        assert_eq!(go(&mut m, &[13, 1, 16, 0, 3, 3]), 0);
        assert_eq!(go(&mut m, &[12, 1, 16, 0, 3, 3]), 0);
        assert_eq!(free(&m), (4, Some(3)));
        assert_eq!(answer(&mut m, &[11, 2, 16, 2, 2, 3]).numbers(), [7, 0, 0, 0]);
    }

    #[test]
    fn c6() {
        let mut m = eight(&[1, 2]);
        for operation in 11..=14 {
            assert_eq!(go(&mut m, &[operation, 1, 16, 0, 0, 3]), 3);
            assert_eq!(go(&mut m, &[operation, 1, 16, 6, 2, 3]), 8);
            assert_eq!(go(&mut m, &[operation, 1, 16, 6, 3, 3]), 3);
        }
    }

    #[test]
    fn c7_and_c8() {
        let mut m = with_u1();
        assert_eq!(go(&mut m, &[5, 1, 1, 0]), 12);
        assert_eq!(go(&mut m, &[5, 2, 1, 0]), 6);
        assert_eq!(go(&mut m, &[5, 1, 2, 0]), 0);
        assert_eq!(go(&mut m, &[5, 1, 2, 0]), 0);
        let mut m = with_u1();
        assert_eq!(go(&mut m, &[4, 1, 0]), 11);
        assert_eq!(go(&mut m, &[5, 1, 2, 0]), 0);
        assert_eq!(go(&mut m, &[7, 2, 40, 0, 1]), 0);
        assert_eq!(go(&mut m, &[6, 1, 2, 0]), 11);
        assert_eq!(go(&mut m, &[9, 2, 40]), 0);
        assert_eq!(go(&mut m, &[6, 1, 2, 0]), 0);
    }

    #[test]
    fn c9_to_c11() {
        let mut m = with_u1();
        for row in [&[15, 0, 1][..], &[23, 0, 17, 0, 9], &[17, 0, 16]] {
            assert_eq!(go(&mut m, row), 0);
        }
        assert_eq!(answer(&mut m, &[7, 1, 16, 1, 1]).numbers(), [0, 0, 1, 0]);
        assert_eq!(answer(&mut m, &[21, 0, 16, 0]).numbers(), [0, 0, 0, 9]);
        let mut m = eight(&[1, 2]);
        let rows: [&[u64]; 9] = [
            &[3, 1, 3],
            &[7, 1, 5, 3, 2],
            &[15, 0, 1],
            &[23, 0, 5, 0, 5],
            &[9, 1, 5],
            &[4, 1, 3],
            &[3, 2, 3],
            &[7, 2, 5, 3, 1],
            &[15, 0, 2],
        ];
        for row in rows {
            assert_eq!(go(&mut m, row), 0);
        }
        assert_eq!(answer(&mut m, &[21, 0, 5, 0]).numbers(), [0, 0, 0, 0]);
        let mut m = with_u1();
        assert_eq!(go(&mut m, &[15, 0, 1]), 0);
        assert_eq!(answer(&mut m, &[21, 0, 16, WORDS - 1]).numbers(), [0, 0, 0, 0]);
        assert_eq!(go(&mut m, &[21, 0, 16, WORDS]), 2);
    }

    #[test]
    fn script_and_output_written_by_hand() {
        let script = include_bytes!("worked.box");
        assert_eq!(output_of(script), include_str!("worked.out"));
    }
}

mod entries {
    use super::*;

    #[test]
    fn start_judges_what_is_lent_first() {
        let none = Span { base: 0, count: 0 };
        let good = Lent::fitting(8);
        let start = |pages, lent| Machine::start(pages, none, &[[VMS, 0, 0, 0, 0, 0]], lent).0;
        assert_eq!(start(8, good), 2);
        assert_eq!(start(8, Lent { memory: 8 * WORDS - 1, ..good }), 1);
        assert_eq!(start(8, Lent { memory: 8 * WORDS + 1, ..good }), 1);
        assert_eq!(start(8, Lent { cpu_slots: SLOTS as u64 - 1, ..good }), 1);
        assert_eq!(start(8, Lent { dma_slots: SLOTS as u64 + 1, ..good }), 1);
        assert_eq!(start(0, Lent { memory: 0, ..good }), 1);
        assert_eq!(start(PAGES + 1, Lent::fitting(PAGES + 1)), 1);
        assert_eq!(start(1 << 55, Lent { memory: 0, ..good }), 1);
    }

    #[test]
    fn a_started_machine_is_bare_and_valid() {
        let m = eight(&[]);
        assert_eq!(broken(&m), None);
        assert_eq!(m.pool, (0..7).collect());
        assert!(m.known.is_empty() && m.pairs.is_empty());
        assert!(m.memory.iter().all(|&word| word == 0));
        for half in [&m.cpu, &m.dma] {
            assert!(half.owned.is_empty() && half.software.is_empty() && half.walker.is_empty());
            assert!(half.cache.hand == 0 && half.cache.slots.iter().all(Option::is_none));
            assert!(half.ports.iter().all(Option::is_none));
        }
    }

    #[test]
    fn an_empty_machine_refuses_everything_with_1() {
        let mut m = Machine::empty();
        for operation in (0..=OPERATIONS + 1).chain([u64::MAX]) {
            assert_eq!(answer(&mut m, &[operation, u64::MAX]), Answer::refused(1));
        }
        let mut room = [9; ANSWER_NUMBERS];
        assert_eq!(m.sequence(&[1; ROW_NUMBERS - 1], &mut room), 1);
        assert_eq!(m.sequence(&[], &mut room), 1);
        assert_eq!(m.free(), Free { number: 1, count: 0, lowest: None });
        assert_eq!((m, room), (Machine::empty(), [9; ANSWER_NUMBERS]));
    }

    #[test]
    fn a_sequence_is_refused_as_a_whole_or_goes_on() {
        let mut m = eight(&[]);
        let before = m.clone();
        let mut room = [7; 3 * ANSWER_NUMBERS];
        assert_eq!(m.sequence(&[1; ROW_NUMBERS + 1], &mut room), 2);
        assert_eq!(m.sequence(&[1; 2 * ROW_NUMBERS], &mut room[..2 * ANSWER_NUMBERS - 1]), 2);
        assert_eq!(m.sequence(&[1; 2 * ROW_NUMBERS], &mut []), 2);
        assert_eq!((&m, room), (&before, [7; 3 * ANSWER_NUMBERS]));
        assert_eq!(m.sequence(&[], &mut []), 0);
        assert_eq!(m, before);
        assert_eq!(m.sequence(&[1; 2 * ROW_NUMBERS], &mut room), 0);
        assert_eq!(room, [0, 0, 0, 0, 5, 0, 0, 0, 7, 7, 7, 7]);
        assert_eq!(m.known, BTreeSet::from([1]));
    }

    #[test]
    fn an_invalid_machine_stays_as_it_is() {
        let mut m = with_u1();
        m.cpu.walker.clear();
        let before = m.clone();
        assert_eq!(go(&mut m, &[25]), 1);
        assert_eq!(m.sequence(&[25; ROW_NUMBERS], &mut [0; ANSWER_NUMBERS]), 1);
        assert_eq!(m.free().number, 1);
        assert_eq!(m, before);
    }

    #[test]
    fn a_sequence_answers_as_its_rows_one_by_one() {
        let text = generate(5, 300);
        let rows: Vec<Row> = Events::new(text.as_bytes())
            .filter_map(|event| match event {
                Ok((_, Event::Row(row))) => Some(row),
                _ => None,
            })
            .collect();
        let (mut single, mut joined) = (eight(&[1, 2]), eight(&[1, 2]));
        let answers: Vec<u64> = rows.iter().flat_map(|row| single.operate(row).numbers()).collect();
        let mut room = vec![0; rows.len() * 4];
        assert_eq!(joined.sequence(&rows.concat(), &mut room), 0);
        assert_eq!(room, answers);
        assert_eq!(single, joined);
    }
}

mod effects {
    use super::*;

    fn entry(page: u64) -> Entry {
        Entry { page, access: 3, generation: 0 }
    }

    #[test]
    fn regions_move_pages_and_entries() {
        let mut m = with_u1();
        assert_eq!(m.cpu.owned[&1], BTreeSet::from([0, 1, 2]));
        assert_eq!(m.pool, BTreeSet::from([3, 4, 5, 6]));
        let map: Map = (0..3).map(|i| ((1, 16 + i), entry(i))).collect();
        assert_eq!((&m.cpu.software, &m.cpu.walker), (&map, &map));
        assert_eq!(go(&mut m, &[13, 1, 16, 0, 3, 3]), 0);
        assert_eq!(m.pool, BTreeSet::from([3, 4, 5, 6]));
        assert_eq!((&m.dma.software, &m.dma.walker), (&map, &map));
        assert_eq!(go(&mut m, &[12, 1, 16, 0, 3, 3]), 0);
        assert_eq!(m.pool, (0..7).collect());
        assert_eq!(m.dma.owned[&1], BTreeSet::from([0, 1, 2]));
        assert_eq!(go(&mut m, &[14, 1, 16, 0, 3, 3]), 0);
        assert_eq!(m, eight(&[1, 2]));
    }

    #[test]
    fn a_vm_comes_and_goes_without_trace() {
        let mut m = eight(&[2]);
        assert_eq!(go(&mut m, &[1, 9]), 0);
        assert!(m.cpu.owned.contains_key(&9) && m.dma.owned.contains_key(&9));
        assert_eq!(go(&mut m, &[2, 9]), 0);
        assert_eq!(m, eight(&[2]));
    }

    #[test]
    fn fills_take_slots_in_the_order_of_the_paper() {
        let mut m = with_u1();
        let (first, past) = (100, 100 + SLOTS as u64);
        for guest in first..past + 6 {
            assert_eq!(go(&mut m, &[7, 1, guest, 0, 3]), 0);
        }
        assert_eq!(go(&mut m, &[15, 2, 1]), 0);
        for guest in first..past {
            assert_eq!(go(&mut m, &[17, 2, guest]), 0);
        }
        let guest_in = |m: &Machine, slot: usize| m.cpu.cache.slots[slot].map(|s| s.guest);
        assert_eq!(
            (guest_in(&m, 0), guest_in(&m, SLOTS - 1), m.cpu.cache.hand),
            (Some(first), Some(past - 1), 0)
        );
        assert_eq!(go(&mut m, &[17, 2, past]), 0);
        assert_eq!((guest_in(&m, 0), m.cpu.cache.hand), (Some(past), 1));
        assert_eq!(go(&mut m, &[17, 2, first + 10]), 0);
        assert_eq!((guest_in(&m, 10), m.cpu.cache.hand), (Some(first + 10), 1));
        for slot in [5, 40] {
            assert_eq!(go(&mut m, &[19, slot]), 0);
        }
        assert_eq!(go(&mut m, &[17, 2, past + 1]), 0);
        assert_eq!(
            (guest_in(&m, 5), guest_in(&m, 40), m.cpu.cache.hand),
            (Some(past + 1), None, 1)
        );
        m.cpu.cache.hand = SLOTS - 1;
        for guest in past + 2..past + 5 {
            assert_eq!(go(&mut m, &[17, 2, guest]), 0);
        }
        assert_eq!((guest_in(&m, 40), guest_in(&m, SLOTS - 1)), (Some(past + 2), Some(past + 3)));
        assert_eq!((guest_in(&m, 0), m.cpu.cache.hand), (Some(past + 4), 1));
        assert_eq!(broken(&m), None);
    }

    #[test]
    fn accesses_change_no_slot_and_writes_one_word() {
        let mut m = with_u1();
        assert_eq!(go(&mut m, &[15, 0, 1]), 0);
        let mut before = m.clone();
        assert_eq!(go(&mut m, &[23, 0, 17, 8, u64::MAX]), 0);
        before.memory[Machine::address(1, 8)] = u64::MAX;
        assert_eq!(m, before);
        assert_eq!(answer(&mut m, &[21, 0, 17, 8]).word, u64::MAX);
        assert_eq!(m, before);
    }

    #[test]
    fn only_the_page_whose_last_claim_ends_is_cleared() {
        let mut m = with_u1();
        assert_eq!(go(&mut m, &[13, 1, 16, 0, 3, 3]), 0);
        m.memory.fill(6);
        assert_eq!(go(&mut m, &[12, 1, 16, 0, 3, 3]), 0);
        assert!(m.memory.iter().all(|&word| word == 6));
        assert_eq!(go(&mut m, &[3, 1, 1]), 0);
        assert_eq!(go(&mut m, &[14, 1, 16, 0, 3, 3]), 0);
        const EMPTY: [u64; WORDS as usize] = [0; WORDS as usize];
        let cleared: Vec<bool> = m.memory.chunks(EMPTY.len()).map(|page| page == EMPTY).collect();
        assert_eq!(cleared, [true, false, true, false, false, false, false, false]);
        assert!(m.memory.iter().all(|&word| word == 0 || word == 6));
        assert_eq!(go(&mut m, &[4, 1, 1]), 0);
        assert_eq!(m.memory[Machine::address(1, 0)..Machine::address(2, 0)], EMPTY);
    }
}

mod free_pages {
    use super::*;

    /// Eight pages, the last one shared, a unit for VM 1's DMA, and VMs 1 and 2.
    fn with_dma(page: u64, count: u64) -> Machine {
        let (shared, unit) = (Span { base: 7, count: 1 }, [1, 16, page, count, 3, 2]);
        let (_, mut m) = Machine::start(8, shared, &[unit], Lent::fitting(8));
        for row in [&[1, 1][..], &[1, 2], &[13, 1, 16, page, count, 3]] {
            assert_eq!(go(&mut m, row), 0);
        }
        assert_eq!(m.pool, (0..7).collect());
        m
    }

    #[test]
    fn what_a_vm_holds_for_dma_is_not_counted() {
        let mut m = with_dma(3, 2);
        assert_eq!(free(&m), (5, Some(0)));
        let pages: Vec<u64> = (0..9).filter(|&page| m.is_free(page)).collect();
        assert_eq!(pages, [0, 1, 2, 5, 6]);
        // It becomes free neither by an unmap nor as a CPU page of its VM.
        let rows: [(&[u64], u64); 5] = [
            (&[10, 1, 16], 5),
            (&[8, 1, 16, 3, 3], 5),
            (&[3, 1, 3], 5),
            (&[14, 1, 16, 3, 2, 3], 6),
            (&[4, 1, 3], 7),
        ];
        for (row, count) in rows {
            assert_eq!(go(&mut m, row), 0);
            assert_eq!(free(&m), (count, Some(0)), "after {row:?}");
        }
    }

    #[test]
    fn the_lowest_passes_over_what_is_held_for_dma() {
        let mut m = with_dma(0, 2);
        assert_eq!(free(&m), (5, Some(2)));
        assert_eq!([1, 2].map(|page| go(&mut m, &[3, 2, page])), [7, 0]);
        assert_eq!(free(&m), (4, Some(3)));
        assert_eq!(go(&mut m, &[14, 1, 16, 0, 2, 3]), 0);
        assert_eq!(free(&m), (6, Some(0)));
    }

    #[test]
    fn none_is_free_though_the_pool_has_pages() {
        let mut m = with_dma(0, 7);
        assert_eq!(m.free(), Free { number: 0, count: 0, lowest: None });
        assert_eq!(go(&mut m, &[3, 1, 5]), 0);
        assert_eq!(m.free(), Free { number: 0, count: 0, lowest: None });
        assert_eq!(go(&mut m, &[14, 1, 16, 0, 7, 3]), 0);
        assert_eq!(free(&m), (6, Some(0)));
    }

    /// Every known VM could be assigned the page.
    fn assignable_to_all(m: &Machine, page: u64) -> bool {
        m.known.iter().all(|&vm| m.verdict(&[3, vm, page, 0, 0, 0, 0, 0]).number == 0)
    }

    /// Where there are two VMs or more, these are just the free pages.
    #[test]
    fn free_is_what_every_vm_could_be_assigned() {
        let (mut m, mut asked, mut held) = (Machine::empty(), 0, 0);
        let scripts: String = (0..8).map(|seed| generate(seed, 1500)).collect();
        for event in Events::new(scripts.as_bytes()) {
            match event.expect("memory reads").1 {
                Event::Start(setup) => m = setup.start().1,
                Event::Row(row) => drop(m.apply(&row)),
                Event::Free if m.known.len() >= 2 => {
                    let pages = (0..m.pages).filter(|&page| assignable_to_all(&m, page));
                    let pages: Vec<u64> = pages.collect();
                    assert_eq!(free(&m), (pages.len() as u64, pages.first().copied()));
                    asked += 1;
                    held += u64::from(pages.len() < m.pool.len());
                }
                _ => {}
            }
        }
        assert!(asked > 100 && held > 20, "asked {asked} times, {held} with pages held for DMA");
    }
}

mod retired {
    use super::*;

    /// Ends a VM's DMA claim on a page by way of a unit of that page.
    fn give_up(m: &mut Machine, vm: u64, page: u64) {
        let region = Region { vm, guest: 0, page, count: 1, access: 3 };
        let units = std::mem::replace(&mut m.units, vec![Unit { region, mark: Mark::Dma }]);
        for row in [[8, vm, 0, page, 3, 0], [14, vm, 0, page, 1, 3]] {
            assert_eq!(go(m, &row), 0);
        }
        m.units = units;
    }

    /// Takes all that a VM has, one thing after the other, by the operations
    /// that are there for it; gives how many slots they dropped.
    fn piece_by_piece(m: &mut Machine, vm: u64) -> u64 {
        let before = m.clone();
        let (cpu, dma) = (&before.cpu, &before.dma);
        let entries = cpu.software.iter();
        let gone = entries.filter(|(key, entry)| key.0 == vm || cpu.holds(vm, entry.page));
        let unmaps = gone.map(|(key, _)| [9, key.0, key.1, 0]);
        let own = dma.software.keys().filter(|key| key.0 == vm);
        let dma_unmaps = own.map(|key| [10, key.0, key.1, 0]);
        let pairs = before.pairs.iter().filter(|pair| joins(pair, vm));
        let unshares = pairs.map(|&(low, high, page)| [6, low, high, page]);
        let reclaims = cpu.owned[&vm].iter().map(|&page| [4, vm, page, 0]);
        let mut dropped = 0;
        for row in unmaps.chain(dma_unmaps).chain(unshares).chain(reclaims) {
            let answer = answer(m, &row);
            assert_eq!(answer.number, 0);
            dropped += answer.dropped;
        }
        dma.owned[&vm].iter().for_each(|&page| give_up(m, vm, page));
        assert_eq!(go(m, &[2, vm]), 0);
        dropped
    }

    /// The VM that an event retires, if that is accepted.
    fn accepted(m: &Machine, event: &Event) -> Option<u64> {
        match event {
            Event::Row(row) if row[0] == 27 && m.verdict(row).number == 0 => Some(row[1]),
            _ => None,
        }
    }

    #[test]
    fn a_vm_goes_at_once_as_piece_by_piece() {
        let (mut m, mut met, mut dropping) = (Machine::empty(), 0, 0);
        let scripts = whole_suite(5, 20_000) + &single(3, 20_000);
        for event in Events::new(scripts.as_bytes()) {
            let event = event.expect("memory reads").1;
            if let Some(vm) = accepted(&m, &event) {
                let (mut whole, mut pieces) = (m.clone(), m.clone());
                let dropped = piece_by_piece(&mut pieces, vm);
                assert_eq!(answer(&mut whole, &[27, vm]).numbers(), [0, 0, dropped, 0]);
                assert_eq!(whole, pieces);
                met += 1;
                dropping += u64::from(dropped > 0);
            }
            match event {
                Event::Start(setup) => m = setup.start().1,
                Event::Row(row) => drop(m.apply(&row)),
                _ => {}
            }
        }
        assert!(met > 50 && dropping > 20, "{met} VMs retired, {dropping} with slots");
    }

    #[test]
    fn a_vm_with_a_region_on_both_sides_leaves_a_bare_box() {
        let mut m = with_u1();
        assert_eq!(go(&mut m, &[13, 1, 16, 0, 3, 3]), 0);
        m.memory[..Machine::address(3, 0)].fill(6);
        (m.cpu.cache.hand, m.dma.cache.hand) = (5, SLOTS - 1);
        assert_eq!(answer(&mut m, &[27, 1]), Answer::default());
        assert_eq!((m.cpu.cache.hand, m.dma.cache.hand), (5, SLOTS - 1));
        (m.cpu.cache.hand, m.dma.cache.hand) = (0, 0);
        assert_eq!(m, eight(&[2]));
    }

    #[test]
    fn only_pages_that_it_held_are_cleared() {
        let mut m = with_u1();
        let rows: [&[u64]; 6] = [
            &[13, 1, 16, 0, 3, 3],
            &[12, 1, 16, 0, 3, 3],
            &[3, 1, 1],
            &[3, 2, 4],
            &[5, 2, 1, 4],
            &[8, 1, 9, 7, 3],
        ];
        for row in rows {
            assert_eq!(go(&mut m, row), 0);
        }
        m.memory.fill(6);
        assert_eq!(go(&mut m, &[27, 1]), 0);
        for (place, &word) in m.memory.iter().enumerate() {
            assert_eq!(word, if place < Machine::address(3, 0) { 0 } else { 6 });
        }
        assert_eq!(free(&m), (6, Some(0)));
    }
}

mod validity {
    use super::*;

    type Damage = fn(&mut Machine);

    /// A state with something in every table.
    fn full() -> Machine {
        let mut m = with_u1();
        let rows: [&[u64]; 11] = [
            &[13, 1, 16, 0, 3, 3],
            &[3, 1, 3],
            &[3, 2, 4],
            &[5, 1, 2, 3],
            &[7, 2, 40, 3, 1, 9],
            &[8, 2, 41, 7, 3, 65_535],
            &[15, 0, 1],
            &[15, 7, 2],
            &[16, 0, 1],
            &[17, 0, 16],
            &[18, 0, 17],
        ];
        for row in rows {
            assert_eq!(go(&mut m, row), 0);
        }
        assert_eq!(broken(&m), None);
        m
    }

    fn slot(m: &mut Machine) -> &mut Slot {
        m.cpu.cache.slots[0].as_mut().expect("the state has a slot")
    }

    /// Puts one entry into both maps of a side.
    fn put(half: &mut Half, key: (u64, u64), entry: Entry) {
        half.software.insert(key, entry);
        half.walker.insert(key, entry);
    }

    const fn entry(page: u64) -> Entry {
        Entry { page, access: 3, generation: 0 }
    }

    /// Each damage with the clause that it must break first.
    const DAMAGES: &[(&str, Damage)] = &[
        ("page count in range", |m| m.pages = 0),
        ("page count in range", |m| m.pages = PAGES + 1),
        ("page count in range", |m| m.pages = u64::MAX),
        ("memory of WORDS words a page", |m| m.memory.push(0)),
        ("memory of WORDS words a page", |m| m.pages = 9),
        ("at most UNITS units", |m| m.units = vec![m.units[0]; UNITS + 1]),
        ("unit fields in range", |m| m.units[1].region.vm = VMS),
        ("unit fields in range", |m| m.units[0].region.access = ACCESSES),
        ("unit spans fit", |m| m.units[0].region.count = 0),
        ("unit spans fit", |m| m.units[0].region.page = 6),
        ("unit spans fit", |m| m.units[0].region.guest = u64::MAX),
        ("shared span fits", |m| m.shared.count = 2),
        ("shared span fits", |m| m.shared = Span { base: 9, count: 0 }),
        ("known VMs in range", |m| {
            m.known.insert(VMS);
        }),
        ("only known VMs hold pages", |m| {
            m.known.remove(&2);
        }),
        ("only known VMs hold pages", |m| {
            m.cpu.owned.insert(9, BTreeSet::from([5]));
        }),
        ("only known VMs hold pages", |m| {
            m.dma.owned.insert(9, BTreeSet::from([5]));
        }),
        ("ownership covers the known VMs", |m| {
            m.known.insert(9);
        }),
        ("ownership covers the known VMs", |m| {
            m.dma.owned.remove(&2);
        }),
        ("ownership covers the known VMs", |m| {
            m.cpu.owned.insert(9, BTreeSet::new());
        }),
        ("no page at N or above", |m| {
            m.pool.insert(8);
        }),
        ("no page at N or above", |m| {
            m.cpu.owned.get_mut(&1).unwrap().insert(8);
        }),
        ("no page at N or above", |m| {
            m.dma.owned.get_mut(&1).unwrap().insert(PAGES);
        }),
        ("every page in exactly one place", |m| {
            m.pool.remove(&5);
        }),
        ("every page in exactly one place", |m| {
            m.pool.insert(0);
        }),
        ("every page in exactly one place", |m| {
            m.pool.insert(7);
        }),
        ("every page in exactly one place", |m| {
            m.cpu.owned.get_mut(&2).unwrap().insert(0);
        }),
        ("every page in exactly one place", |m| m.shared.count = 0),
        ("every page in exactly one place", |m| m.shared = Span { base: 6, count: 2 }),
        ("at most ENTRIES entries a map", |m| {
            (0..=ENTRIES as u64).for_each(|guest| put(&mut m.dma, (1, guest), entry(7)));
        }),
        ("at most ENTRIES entries a map", |m| {
            m.cpu.walker.extend((0..=ENTRIES as u64).map(|guest| ((1, guest), entry(0))));
        }),
        ("map numbers in range", |m| put(&mut m.cpu, (VMS, 0), entry(0))),
        ("map numbers in range", |m| put(&mut m.cpu, (1, GUESTS), entry(0))),
        ("map numbers in range", |m| put(&mut m.dma, (1, 0), entry(8))),
        ("map numbers in range", |m| {
            put(&mut m.dma, (1, 0), Entry { access: ACCESSES, ..entry(0) })
        }),
        ("map numbers in range", |m| {
            put(&mut m.cpu, (1, 0), Entry { generation: GENERATIONS, ..entry(0) });
        }),
        ("map numbers in range", |m| {
            m.dma.walker.insert((1, 0), entry(8));
        }),
        ("walker equals software", |m| {
            m.cpu.software.remove(&(1, 17));
        }),
        ("walker equals software", |m| {
            m.dma.walker.insert((1, 0), entry(0));
        }),
        ("walker equals software", |m| {
            m.cpu.walker.insert((1, 17), entry(2));
        }),
        ("mapped VMs known", |m| put(&mut m.cpu, (9, 0), entry(0))),
        ("mapped VMs known", |m| put(&mut m.dma, (9, 0), entry(7))),
        ("entries target what their VM may map", |m| put(&mut m.cpu, (2, 0), entry(0))),
        ("entries target what their VM may map", |m| put(&mut m.cpu, (1, 0), entry(7))),
        ("entries target what their VM may map", |m| put(&mut m.cpu, (1, 0), entry(5))),
        ("entries target what their VM may map", |m| put(&mut m.dma, (1, 0), entry(3))),
        ("entries target what their VM may map", |m| put(&mut m.dma, (2, 0), entry(0))),
        ("entries target what their VM may map", |m| m.pairs.clear()),
        ("at most PAIRS pairs", |m| m.pairs.extend((0..=PAIRS as u64).map(|page| (1, 2, page)))),
        ("pairs join two different known VMs", |m| {
            m.pairs.insert((1, 1, 0));
        }),
        ("pairs join two different known VMs", |m| {
            m.pairs.insert((1, 9, 0));
        }),
        ("pairs join two different known VMs", |m| {
            m.pairs.insert((1, VMS, 0));
        }),
        ("pairs join two different known VMs", |m| {
            m.pairs.insert((2, 1, 3));
        }),
        ("pair pages owned by an end", |m| {
            m.pairs.insert((1, 2, 5));
        }),
        ("pair pages owned by an end", |m| {
            m.pairs.insert((1, 2, 7));
        }),
        ("pair pages owned by an end", |m| {
            m.pairs.insert((1, 2, 8));
        }),
        ("DMA pages held by one VM", |m| {
            m.dma.owned.get_mut(&2).unwrap().insert(0);
        }),
        ("DMA pages own CPU pages or in the pool", |m| {
            m.dma.owned.get_mut(&2).unwrap().insert(3);
        }),
        ("DMA pages own CPU pages or in the pool", |m| {
            m.dma.owned.get_mut(&1).unwrap().insert(7);
        }),
        ("hands in range", |m| m.cpu.cache.hand = SLOTS),
        ("hands in range", |m| m.dma.cache.hand = usize::MAX),
        ("slot numbers in range", |m| slot(m).port = PORTS as u64),
        ("slot numbers in range", |m| slot(m).vm = VMS),
        ("slot numbers in range", |m| slot(m).guest = GUESTS),
        ("slot numbers in range", |m| slot(m).entry.page = 8),
        ("slot numbers in range", |m| slot(m).entry.access = ACCESSES),
        ("slot numbers in range", |m| slot(m).entry.generation = GENERATIONS),
        ("no key twice in a cache", |m| m.cpu.cache.slots[SLOTS - 1] = m.cpu.cache.slots[0]),
        ("no key twice in a cache", |m| m.dma.cache.slots[1] = m.dma.cache.slots[0]),
        ("slots hold the walker's entry", |m| slot(m).guest = 19),
        ("slots hold the walker's entry", |m| slot(m).vm = 2),
        ("slots hold the walker's entry", |m| slot(m).entry.page = 1),
        ("slots hold the walker's entry", |m| slot(m).entry.access = 1),
        ("slots hold the walker's entry", |m| slot(m).entry.generation = 1),
        ("ports on known VMs or idle", |m| m.cpu.ports[5] = Some(9)),
        ("ports on known VMs or idle", |m| m.dma.ports[5] = Some(VMS)),
    ];

    #[test]
    fn each_damage_is_found_under_its_clause() {
        for (place, (clause, damage)) in DAMAGES.iter().enumerate() {
            let mut m = full();
            damage(&mut m);
            assert_eq!(broken(&m), Some(*clause), "damage {place}");
        }
    }

    #[test]
    fn each_clause_has_a_damage() {
        let damaged: BTreeSet<&str> = DAMAGES.iter().map(|(clause, _)| *clause).collect();
        let clauses: BTreeSet<&str> = CLAUSES.iter().map(|(clause, _)| *clause).collect();
        assert_eq!(damaged, clauses);
    }

    #[test]
    fn harmless_changes_stay_valid() {
        let changes: [Damage; 6] = [
            |m| m.memory.fill(u64::MAX),
            |m| m.cpu.cache.hand = SLOTS - 1,
            |m| m.cpu.cache.slots.swap(0, SLOTS - 1),
            |m| m.units.clear(),
            |m| m.cpu.ports = [None; PORTS],
            |m| slot(m).port = PORTS as u64 - 1,
        ];
        for change in changes {
            let mut m = full();
            change(&mut m);
            assert_eq!(broken(&m), None);
        }
    }
}

mod format {
    use super::*;

    fn says(script: &str, expected: &[&str]) {
        let output = output_of(script.as_bytes());
        assert_eq!(output.lines().collect::<Vec<_>>(), expected, "{script:?}");
    }

    #[test]
    fn starts_are_printed_once_the_units_end() {
        says("", &[]);
        says("# nothing\n\n", &[]);
        says("box 8 7 1", &["start 0"]);
        says("box 8 7 1\nbox 0 0 0\nbox 8 9 0\n", &["start 0", "start 1", "start 3"]);
        says("box 8 7 1\n# a\n\nunit 1 0 0 1 1 1\n\t\r\nunit 1 0 0 1 1 4", &["start 2"]);
        says("box 8 7 1\nfree\nfree", &["start 0", "free 7 0", "free 7 0"]);
        says("box 1 0 1\nfree", &["start 0", "free 0 none"]);
        let many = format!("box 8 7 1\n{}1 1\n", "unit 1 0 0 1 1 1\n".repeat(UNITS + 1));
        says(&many, &["start 2", "1 0 0 0"]);
        let most = format!("box 8 7 1\n{}1 1\n", "unit 1 0 0 1 1 1\n".repeat(UNITS));
        says(&most, &["start 0", "0 0 0 0"]);
    }

    #[test]
    fn a_refused_box_refuses_every_row() {
        says(
            "box 0 0 0\n1 1\n99\nfree\n1 1",
            &["start 1", "1 0 0 0", "1 0 0 0", "free refused 1", "1 0 0 0"],
        );
    }

    #[test]
    fn spellings_of_a_row() {
        says("box 8 7 1\r\n1 1\r\n", &["start 0", "0 0 0 0"]);
        says(
            "\t box\t8 7   1 \n \t1\t\t001 # x\n01 1#y\n1 1 7 7 7 7 7 7\n",
            &["start 0", "0 0 0 0", "5 0 0 0", "5 0 0 0"],
        );
        says(
            "box 8 7 1\n1\n15 0 idle\n16 7 idle 5\n015 0 idle\n15 0 4294967295\n",
            &["start 0", "0 0 0 0", "0 0 0 0", "0 0 0 0", "0 0 0 0", "0 0 0 0"],
        );
        says(
            "box 8 7 1\n1 18446744073709551615\n1 00000000000000000000000000000001",
            &["start 0", "2 0 0 0", "0 0 0 0"],
        );
    }

    const UNREADABLE: &[&str] = &[
        "1 -1",
        "1 +1",
        "1 0x1",
        "1 1.0",
        "x",
        "Box 8 7 1",
        "free 1",
        "frees",
        "idle",
        "15 idle",
        "15 0 0 idle",
        "14 0 idle",
        "15 0 Idle",
        "idle 0 0",
        "1 1 1 1 1 1 1 1 1",
        "1 18446744073709551616",
        "18446744073709551616",
        "1 99999999999999999999999999",
        "box",
        "box 8 7",
        "box 8 7 1 0",
        "box 8 7 x",
        "box 8 7 18446744073709551616",
        "unit",
        "unit 1 0 0 1 1",
        "unit 1 0 0 1 1 1 1",
        "unit 1 0 0 1 1 idle",
        "1\r1",
        "1,1",
        "1 1 ;",
        "\u{b}1 1",
        "1\u{a0}1",
        "box8 7 1",
        "1 free",
    ];

    #[test]
    fn lines_that_cannot_be_read_end_the_run() {
        for line in UNREADABLE {
            let start = format!("box 8 7 1\n{line}\n1 1\n");
            says(&start, &["start 0", "line 2: not understood"]);
            let later = format!("box 8 7 1\n\n1 1\n# c\n{line}\r\n1 1\nfree\n");
            says(&later, &["start 0", "0 0 0 0", "line 5: not understood"]);
        }
    }

    #[test]
    fn order_of_lines() {
        for line in ["1 1", "free", "unit 1 0 0 1 1 1", "\u{fffd}"] {
            says(&format!("# c\n{line}\nbox 8 7 1\n"), &["line 2: not understood"]);
        }
        let unit = "unit 1 0 0 1 1 1";
        says(
            &format!("box 8 7 1\n{unit}\n1 1\n{unit}\n"),
            &["start 0", "0 0 0 0", "line 4: not understood"],
        );
        says(
            &format!("box 8 7 1\nfree\n{unit}\n"),
            &["start 0", "free 7 0", "line 3: not understood"],
        );
    }

    #[test]
    fn a_carriage_return_counts_only_before_a_line_feed() {
        says("box 8 7 1\n1 1\r", &["start 0", "line 2: not understood"]);
        says("box 8 7 1\n1 1\r\r\n", &["start 0", "line 2: not understood"]);
        says("box 8 7 1\n1 1 #\r\r\n", &["start 0", "0 0 0 0"]);
    }

    #[test]
    fn long_scripts_are_batched_without_a_trace() {
        let mut script = b"box 8 7 1\n".to_vec();
        script.extend_from_slice("25\n".repeat(5000).as_bytes());
        script.extend_from_slice(b"1 1\n# \xff\xfe\nbad\n");
        let output = output_of(&script);
        assert_eq!(output.lines().count(), 5003);
        assert!(output.ends_with("0 0 0 0\nline 5004: not understood\n"));
    }
}

mod generated {
    use super::*;

    const ROWS: u64 = 20_000;

    #[test]
    fn the_suite_reaches_everything() {
        for seed in 1..=3 {
            let record = Coverage::of(whole_suite(seed, ROWS).as_bytes()).expect("memory reads");
            assert_eq!(record.missing(), Vec::<String>::new(), "seed {seed}");
            assert!(record.boxes >= 40 && record.sizes.len() >= 40 && record.rows >= 20_000);
        }
    }

    #[test]
    fn every_state_along_the_suite_is_valid() {
        for (name, script) in suite(7, ROWS / 2) {
            let mut output = Vec::new();
            let verdict = check(script.as_bytes(), &mut output).expect("memory reads");
            assert_eq!(verdict, Ok(()), "{name}");
            assert_eq!(output_of(script.as_bytes()).as_bytes(), output, "{name}");
        }
    }

    #[test]
    fn a_check_sees_a_change_and_an_invalid_state() {
        let (before, mut after) = (with_u1(), with_u1());
        after.memory[0] = 1;
        assert_eq!(look(&before, &after, true, Answer::default()), Ok(()));
        assert!(look(&before, &after, true, Answer::refused(4)).is_err());
        after.pool.clear();
        assert!(look(&before, &after, true, Answer::default()).is_err());
        assert!(look(&before, &before, false, Answer::refused(1)).is_err());
    }

    #[test]
    fn a_seed_fixes_the_script() {
        assert_eq!(generate(9, 500), generate(9, 500));
        assert_ne!(generate(9, 500), generate(10, 500));
        assert_eq!(whole_suite(4, 400), whole_suite(4, 400));
    }

    #[test]
    fn every_generated_line_can_be_read() {
        for seed in 0..30 {
            let text = generate(seed, 300);
            let events: Vec<Event> =
                Events::new(text.as_bytes()).map(|event| event.expect("memory reads").1).collect();
            assert!(!events.contains(&Event::Bad), "seed {seed}");
            let rows = events.iter().filter(|event| matches!(event, Event::Row(_))).count();
            assert_eq!(rows, 300);
        }
    }
}

/// Scripts and logs at hand for the tests of the log.
mod samples {
    use super::*;

    /// A row from its first numbers.
    pub fn row(numbers: &[u64]) -> Row {
        let mut row = Row::default();
        row[..numbers.len()].copy_from_slice(numbers);
        row
    }

    /// The rows of a script, in order.
    pub fn rows(script: &str) -> Vec<Row> {
        let events = Events::new(script.as_bytes()).map(|event| event.expect("memory reads").1);
        let rows = events.filter_map(|event| match event {
            Event::Row(row) => Some(row),
            _ => None,
        });
        rows.collect()
    }

    /// The records of rows that a log can hold.
    pub fn log_of(rows: &[Row]) -> Vec<u8> {
        rows.iter().flat_map(|row| log::record(row).expect("the row can be written")).collect()
    }

    /// The machine that a script leaves.
    pub fn machine_of(script: &str) -> Machine {
        run(script.as_bytes(), &mut std::io::sink()).expect("memory reads").expect("readable")
    }

    /// The first kind past the last known one.
    pub const PAST: u8 = OPERATIONS as u8 + 1;

    /// Kinds of a record that aren't known, the least and the largest of them.
    pub const UNKNOWN: [u16; 3] = [0, PAST as u16, u16::MAX];

    /// A row of each kind with arguments of all bytes, and the bytes that
    /// each argument has in the body, told by hand.
    pub const KINDS: [(&[u64], &[u64]); OPERATIONS as usize] = [
        (&[1, 0x0403_0201], &[4]),
        (&[2, 0x1413_1211], &[4]),
        (&[3, 0x0403_0201, 0x0807_0605], &[4, 4]),
        (&[4, 0x1413_1211, 0x1817_1615], &[4, 4]),
        (&[5, 1, 2, 0xFFFF_FFFF], &[4, 4, 4]),
        (&[6, 0xFFFF_FFFF, 0, 3], &[4, 4, 4]),
        (&[7, 1, 70_000, 3, 4, 65_536], &[4, 4, 4, 4, 4]),
        (&[8, 70_000, 2, 0x8000_0000, 4, 5], &[4, 4, 4, 4, 4]),
        (&[9, 1, 0x0102_0304], &[4, 4]),
        (&[10, 0, 0xFFFF_FFFF], &[4, 4]),
        (&[11, 1, 2, 3, 4, 5], &[4, 4, 4, 4, 4]),
        (&[12, 0xFFFF_FFFF, 0xFFFF_FFFF, 0, 0xFFFF_FFFF, 1], &[4, 4, 4, 4, 4]),
        (&[13, 5, 4, 3, 2, 1], &[4, 4, 4, 4, 4]),
        (&[14, 0, 0, 0, 0, 0xFFFF_FFFF], &[4, 4, 4, 4, 4]),
        (&[15, 0, 4_294_967_295], &[4, 4]),
        (&[16, 7, 15], &[4, 4]),
        (&[17, 8, 65_536], &[4, 4]),
        (&[18, 1, 2], &[4, 4]),
        (&[19, 64], &[4]),
        (&[20, 0xFFFF_FFFF], &[4]),
        (&[21, 1, 2, 512], &[4, 4, 4]),
        (&[22, 0xFFFF_FFFF, 0xFFFF_FFFF, 0xFFFF_FFFF], &[4, 4, 4]),
        (&[23, 1, 2, 3, 0x0807_0605_0403_0201], &[4, 4, 4, 8]),
        (&[24, 1, 2, 0xFFFF_FFFF, u64::MAX], &[4, 4, 4, 8]),
        (&[25], &[]),
        (&[26], &[]),
        (&[27, 0x2423_2221], &[4]),
    ];
}

mod records {
    use super::samples::*;
    use super::*;

    /// Reads one record at a place; gives what was read and the place after.
    fn read(log: &[u8], place: usize) -> (Result<Option<Row>, u64>, usize) {
        let mut reader = Reader { log, place };
        (reader.read(), reader.place)
    }

    /// A refusal leaves the reader where it was, at the front of a log and
    /// after another record.
    fn refused(bytes: &[u8], number: u64) {
        assert_eq!(read(bytes, 0), (Err(number), 0), "{bytes:?}");
        let mut log = log_of(&[row(&[1, 1])]);
        log.extend_from_slice(bytes);
        assert_eq!(read(&log, 0), (Ok(Some(row(&[1, 1]))), 8));
        assert_eq!(read(&log, 8), (Err(number), 8), "{bytes:?}");
    }

    #[test]
    fn adding_vm_1() {
        let bytes = [6, 0, 1, 0, 1, 0, 0, 0];
        assert_eq!(log::record(&row(&[1, 1])), Ok(bytes.to_vec()));
        assert_eq!(read(&bytes, 0), (Ok(Some(row(&[1, 1]))), 8));
    }

    #[test]
    fn retiring_vm_1() {
        let (bytes, retire) = ([6, 0, 27, 0, 1, 0, 0, 0], row(&[27, 1]));
        assert_eq!(log::record(&retire), Ok(bytes.to_vec()));
        assert_eq!(read(&bytes, 0), (Ok(Some(retire)), 8));
        assert_eq!(log::record(&row(&[27, 1 << 32])), Err(23));
        refused(&bytes[..7], 20);
        refused(&[5, 0, 27, 0, 1, 0, 0], 22);
        refused(&[7, 0, 27, 0, 1, 0, 0, 0, 0], 22);
    }

    #[test]
    fn a_write_by_hand() {
        let bytes = [22, 0, 23, 0, 7, 0, 0, 0, 0, 1, 0, 0, 255, 1, 0, 0, 1, 2, 3, 4, 5, 6, 7, 8];
        let write = row(&[23, 7, 256, 511, 0x0807_0605_0403_0201]);
        assert_eq!(log::record(&write), Ok(bytes.to_vec()));
        assert_eq!(read(&bytes, 0), (Ok(Some(write)), 24));
    }

    #[test]
    fn bodies_are_the_arguments() {
        for (place, (numbers, bytes)) in KINDS.iter().enumerate() {
            let kind = place as u64 + 1;
            let total = bytes.iter().sum::<u64>() as usize;
            assert_eq!((numbers[0], numbers.len()), (kind, bytes.len() + 1));
            assert_eq!((log::BODIES[place], log::body(kind)), (total, Some(total)));
            assert!(log::widths(kind).eq(bytes.iter().map(|&width| width as usize)));
            let record = log::record(&row(numbers)).expect("the row can be written");
            let mut by_hand = (2 + total as u16).to_le_bytes().to_vec();
            by_hand.extend((kind as u16).to_le_bytes());
            for (number, &width) in numbers[1..].iter().zip(*bytes) {
                by_hand.extend((0..width).map(|byte| (number >> (8 * byte)) as u8));
            }
            assert_eq!(record, by_hand, "kind {kind}");
        }
        for kind in [0, OPERATIONS + 1, 255, 257, 65_535, 65_537, 1 << 32, u64::MAX] {
            assert_eq!(log::body(kind), None);
        }
    }

    #[test]
    fn the_end_is_no_refusal() {
        assert_eq!(read(&[], 0), (Ok(None), 0));
        let log = log_of(&[row(&[25]), row(&[2, 3])]);
        for place in [log.len(), log.len() + 1, log.len() + 9, usize::MAX] {
            assert_eq!(read(&log, place), (Ok(None), place));
        }
    }

    #[test]
    fn one_to_three_bytes_left_are_cut_short() {
        for bytes in [[6, 0, 1], [0, 0, 0], [1, 0, 99], [2, 0, 25], [255, 255, 255]] {
            for count in 1..=3 {
                refused(&bytes[..count], 20);
            }
        }
    }

    #[test]
    fn every_record_cut_anywhere_is_cut_short() {
        for (numbers, _) in KINDS {
            let record = log_of(&[row(numbers)]);
            for count in 1..record.len() {
                refused(&record[..count], 20);
            }
        }
    }

    #[test]
    fn cut_short_comes_before_unknown_kind_and_wrong_length() {
        // Length one too long for what is left, by kinds known and unknown.
        for kind in UNKNOWN.into_iter().chain([1, 25, 27]) {
            let [low, high] = kind.to_le_bytes();
            refused(&[3, 0, low, high], 20);
            refused(&[6, 0, low, high, 1, 0, 0], 20);
            refused(&[0, 1, low, high, 1, 0, 0, 0], 20);
            refused(&[255, 255, low, high, 1, 0, 0, 0], 20);
        }
    }

    #[test]
    fn unknown_kind_comes_before_wrong_length() {
        for kind in UNKNOWN {
            let [low, high] = kind.to_le_bytes();
            for length in 0..=6 {
                refused(&[length, 0, low, high, 1, 0, 0, 0], 21);
            }
            for length in [0, 1] {
                refused(&[length, 0, low, high], 21);
                refused(&[length, 0, low, high, 9], 21);
            }
        }
        // Only the upper byte of the kind is wrong.
        refused(&[6, 0, 1, 1, 1, 0, 0, 0], 21);
        refused(&[2, 0, 25, 128], 21);
    }

    #[test]
    fn wrong_length() {
        for length in [0, 1] {
            refused(&[length, 0, 1, 0], 22);
            refused(&[length, 0, 25, 0], 22);
            refused(&[length, 0, 26, 0, 9, 9], 22);
            refused(&[length, 0, 27, 0, 1, 0, 0, 0], 22);
        }
        for (numbers, bytes) in KINDS {
            let right = 2 + bytes.iter().sum::<u64>() as u16;
            for length in (0..40u16).filter(|&length| length != right) {
                let mut record = length.to_le_bytes().to_vec();
                record.extend([numbers[0] as u8, 0]);
                record.resize(2 + usize::from(length).max(2), 7);
                refused(&record, 22);
            }
        }
        // Only the upper byte of the length is wrong.
        let mut long = vec![6, 1, 1, 0];
        long.resize(2 + 262, 0);
        refused(&long, 22);
    }

    #[test]
    fn the_writer_refuses_21_before_23() {
        let mut buffer = [7; 3];
        for kind in [0, OPERATIONS + 1, 65_536 + 1, 1 << 32, u64::MAX] {
            for place in [0, 3, 4, usize::MAX] {
                let wide = row(&[kind, u64::MAX, u64::MAX]);
                assert_eq!(log::write(&wide, &mut buffer, place), Err(21));
            }
        }
        assert_eq!(buffer, [7; 3]);
    }

    #[test]
    fn the_writer_refuses_an_argument_over_four_bytes() {
        for (numbers, bytes) in KINDS {
            for (place, &width) in bytes.iter().enumerate() {
                for wide in [1 << 32, 1 << 40, u64::MAX] {
                    let mut row = row(numbers);
                    row[place + 1] = wide;
                    let mut buffer = [7; 40];
                    let result = log::write(&row, &mut buffer, 0);
                    assert_eq!(result.is_ok(), width == 8, "{row:?}");
                    assert!(width == 8 || (result == Err(23) && buffer == [7; 40]));
                }
            }
        }
    }

    #[test]
    fn the_writer_needs_room_for_all_of_it() {
        for (numbers, _) in KINDS {
            let row = row(numbers);
            let record = log_of(&[row]);
            for short in 1..=record.len() {
                for place in [0, 5] {
                    let mut buffer = vec![7; place + record.len() - short];
                    let before = buffer.clone();
                    assert_eq!(log::write(&row, &mut buffer, place), Err(23));
                    assert_eq!(buffer, before);
                }
            }
            let mut buffer = vec![7; 3 + record.len() + 2];
            assert_eq!(log::write(&row, &mut buffer, 3), Ok(3 + record.len()));
            assert_eq!(buffer[3..3 + record.len()], record);
            assert_eq!((&buffer[..3], &buffer[3 + record.len()..]), (&[7; 3][..], &[7; 2][..]));
            for place in [buffer.len(), buffer.len() + 1, usize::MAX] {
                let before = buffer.clone();
                assert_eq!(log::write(&row, &mut buffer, place), Err(23));
                assert_eq!(buffer, before);
            }
        }
    }

    #[test]
    fn numbers_past_the_arguments_are_ignored_and_read_as_0() {
        for (numbers, _) in KINDS {
            let mut row = row(numbers);
            let record = log_of(&[row]);
            row[numbers.len()..].fill(u64::MAX);
            assert_eq!(log::record(&row), Ok(record.clone()));
            row[numbers.len()..].fill(0);
            assert_eq!(read(&record, 0), (Ok(Some(row)), record.len()));
        }
    }

    #[test]
    fn reading_what_was_written_and_writing_what_was_read() {
        let rows = rows(&single(11, 3000));
        let mut log = vec![0; 24 * rows.len()];
        let mut end = 0;
        for row in &rows {
            end = log::write(row, &mut log, end).expect("the row can be written");
        }
        log.truncate(end);
        let mut reader = Reader::new(&log);
        let mut again = Vec::new();
        for row in &rows {
            let used = 1 + log::widths(row[0]).count();
            let read = reader.read().expect("readable").expect("as many records as rows");
            assert_eq!(read[..used], row[..used]);
            assert!(read[used..].iter().all(|&number| number == 0));
            again.push(read);
        }
        assert_eq!((reader.read(), reader.place), (Ok(None), log.len()));
        assert_eq!(log_of(&again), log);
    }

    /// Any four bytes in front of enough others: what can be read is written
    /// the same, and all else is one of the two refusals.
    #[test]
    fn any_length_and_kind() {
        let mut log = vec![0; 4 + 65_536];
        for length in (0..=30u16).chain([256, 262, 65_535]) {
            for kind in (0..=70u16).chain([256, 257, 65_535]) {
                log[..2].copy_from_slice(&length.to_le_bytes());
                log[2..4].copy_from_slice(&kind.to_le_bytes());
                let known = log::body(u64::from(kind));
                let (result, place) = read(&log, 0);
                match known {
                    None => assert_eq!(result, Err(21)),
                    Some(body) if usize::from(length) != 2 + body => assert_eq!(result, Err(22)),
                    Some(body) => {
                        let row = result.expect("readable").expect("a record");
                        assert_eq!((place, log_of(&[row])), (4 + body, log[..4 + body].to_vec()));
                    }
                }
            }
        }
    }
}

mod replays {
    use super::samples::*;
    use super::*;

    /// Carries out rows one by one; each with its answer.
    fn by_rows(machine: &mut Machine, rows: &[Row]) -> Vec<(Row, Answer)> {
        rows.iter().map(|row| (*row, machine.operate(row))).collect()
    }

    /// Some rows of a box to begin with, and others that go on from there.
    fn sample(rows_on: u64) -> (Machine, Vec<Row>) {
        let machine = machine_of(&single(5, 60));
        let mut rows = rows(&format!("box 1 0 0\n{}", go_on(6, rows_on, machine.clone())));
        for row in &mut rows {
            let used = 1 + log::widths(row[0]).count();
            row[used..].fill(0);
        }
        (machine, rows)
    }

    #[test]
    fn a_replay_is_its_rows() {
        let (mut machine, rows) = sample(300);
        let mut other = machine.clone();
        let log = log_of(&rows);
        let mut reader = Reader::new(&log);
        let replay = log::replay(&mut machine, &mut reader, u64::MAX);
        assert_eq!((replay.number, reader.place), (0, log.len()));
        assert_eq!(replay.taken, by_rows(&mut other, &rows));
        assert_eq!(machine, other);
        let refused = replay.taken.iter().filter(|(_, answer)| answer.number != 0).count();
        assert!(replay.taken.len() == 300 && refused > 50 && refused < 250);
    }

    #[test]
    fn a_replay_in_pieces_is_the_whole() {
        let (start, rows) = sample(200);
        let log = log_of(&rows);
        let mut whole = start.clone();
        let all = log::replay(&mut whole, &mut Reader::new(&log), 200);
        for piece in [1, 2, 7, 199, 200, 201] {
            let (mut machine, mut reader) = (start.clone(), Reader::new(&log));
            let mut taken = Vec::new();
            while reader.place < log.len() {
                let replay = log::replay(&mut machine, &mut reader, piece);
                assert_eq!(replay.number, 0);
                assert!(replay.taken.len() as u64 == piece || reader.place == log.len());
                taken.extend(replay.taken);
            }
            assert_eq!((&taken, &machine), (&all.taken, &whole));
        }
    }

    #[test]
    fn an_invalid_machine_takes_none() {
        let unreadable = [9, 9];
        let log = log_of(&[row(&[1, 1])]);
        let mut broken = with_u1();
        broken.cpu.walker.clear();
        for before in [Machine::empty(), broken] {
            for bytes in [&unreadable[..], &log, &[]] {
                for most in [0, 1, u64::MAX] {
                    let (mut machine, mut reader) = (before.clone(), Reader::new(bytes));
                    let replay = log::replay(&mut machine, &mut reader, most);
                    assert_eq!((replay.number, replay.taken.len(), reader.place), (1, 0, 0));
                    assert_eq!(machine, before);
                }
            }
        }
    }

    #[test]
    fn refused_operations_count_and_change_nothing() {
        let rows = [[4, 1, 0], [1, 1, 0], [1, 70_000, 0], [12, 1, 5], [25, 0, 0]];
        let rows: Vec<Row> = rows.iter().map(|numbers| row(numbers)).collect();
        let log = log_of(&rows);
        let mut machine = with_u1();
        let replay = log::replay(&mut machine, &mut Reader::new(&log), u64::MAX);
        let numbers: Vec<u64> = replay.taken.iter().map(|(_, answer)| answer.number).collect();
        assert_eq!((replay.number, numbers), (0, vec![11, 5, 2, 3, 0]));
        assert_eq!(machine, with_u1());
    }

    #[test]
    fn a_vm_is_retired_by_a_log() {
        let rows = [[16, 3, 1], [27, 1, 0], [16, 3, IDLE], [27, 1, 0], [27, 1, 0], [27, 16, 0]];
        let log = log_of(&rows.map(|numbers| row(&numbers)));
        let mut machine = with_u1();
        let replay = log::replay(&mut machine, &mut Reader::new(&log), u64::MAX);
        let numbers: Vec<u64> = replay.taken.iter().map(|(_, answer)| answer.number).collect();
        assert_eq!((replay.number, numbers), (0, vec![0, 13, 0, 0, 4, 2]));
        assert_eq!(machine, eight(&[2]));
    }

    #[test]
    fn an_unreadable_record_ends_it_unless_enough_were_taken() {
        let rows = [row(&[1, 3]), row(&[1, 3]), row(&[3, 3, 4])];
        let front = log_of(&rows);
        let ends: [(&[u8], u64); 4] = [
            (&[6, 0, 1], 20),
            (&[6, 0, PAST, 0, 1, 0, 0, 0], 21),
            (&[5, 0, 1, 0, 1, 0, 0], 22),
            (&[1, 0, 25, 0], 22),
        ];
        for (end, number) in ends {
            let mut log = [&front, end].concat();
            log.extend(log_of(&[row(&[1, 9])]));
            if number == 20 {
                log.truncate(front.len() + end.len());
            }
            for (most, ending) in [(0, 0), (1, 0), (3, 0), (4, number), (u64::MAX, number)] {
                let (mut machine, mut reader) = (with_u1(), Reader::new(&log));
                let replay = log::replay(&mut machine, &mut reader, most);
                let taken = replay.taken.len();
                assert_eq!((replay.number, taken as u64), (ending, most.min(3)));
                assert_eq!(reader.place, [0, 8, 16, front.len()][taken]);
                let mut other = with_u1();
                assert_eq!(replay.taken, by_rows(&mut other, &rows[..taken]));
                assert_eq!(machine, other);
            }
        }
    }
}

mod log_commands {
    use super::samples::*;
    use super::*;

    fn written(script: &str) -> (Vec<u8>, Result<(), (u64, &'static str)>) {
        let mut output = Vec::new();
        let verdict = script::write_log(script.as_bytes(), &mut output).expect("memory reads");
        (output, verdict)
    }

    fn replayed(script: &str, log: &[u8], most: u64) -> String {
        let mut output = Vec::new();
        script::replay(script.as_bytes(), log, most, &mut output).expect("memory reads");
        String::from_utf8(output).expect("the output is plain text")
    }

    #[test]
    fn rows_alone_are_written() {
        let script = "# c\nbox 8 7 1\nunit 1 0 0 1 1 1\n1 1\nfree\n\n15 0 idle 9\r\n25 # x\nfree";
        let log = log_of(&[row(&[1, 1]), row(&[15, 0, IDLE]), row(&[25])]);
        assert_eq!(written(script), (log, Ok(())));
        assert_eq!(written(""), (Vec::new(), Ok(())));
        assert_eq!(written("box 0 0 0\n26"), (vec![2, 0, 26, 0], Ok(())));
    }

    #[test]
    fn what_ends_a_log_early() {
        let one = log_of(&[row(&[1, 1])]);
        let unit = "unit 1 0 0 1 1 1";
        let past = format!("{PAST} {}", u64::MAX);
        let ends = [
            ("x\n1 2", 3, "not understood"),
            (unit, 3, "not understood"),
            ("0 1\nx", 3, "unknown kind"),
            (&past, 3, "unknown kind"),
            ("18446744073709551615 1", 3, "unknown kind"),
            ("# c\n65537 1", 4, "unknown kind"),
            ("1 4294967296\n0", 3, "does not fit"),
            ("27 4294967296", 3, "does not fit"),
            ("free\n24 0 0 4294967296 1", 4, "does not fit"),
            ("box 8 7 1\nx", 3, "a second box"),
            ("box 8 7 1", 3, "a second box"),
            ("free\n\nbox 8 7 1\nunit 1 0 0 1 1 1\n\n1 2\n", 5, "a second box"),
            ("box 8 7 1\n\nbox 8 7 1\n1 2\n", 3, "a second box"),
            ("box 8 7\nbox 8 7 1", 3, "not understood"),
        ];
        for (end, line, why) in ends {
            let script = format!("box 8 7 1\n1 1\n{end}");
            assert_eq!(written(&script), (one.clone(), Err((line, why))), "{script:?}");
        }
        for (script, line) in [("1 1", 1), ("\nfree\n", 2), (unit, 1)] {
            assert_eq!(written(script), (Vec::new(), Err((line, "not understood"))));
        }
        assert_eq!(written("box 8 7 1\nbox 8 7 1\nx"), (Vec::new(), Err((2, "a second box"))));
    }

    #[test]
    fn a_replay_prints_the_run_then_the_records() {
        let script = "box 8 7 1\nunit 1 16 0 3 3 3\n1 1\nfree\n15 0 1\n";
        let rows: [&[u64]; 8] = [
            &[11, 1, 16, 0, 3, 3],
            &[23, 0, 16, 5, u64::MAX],
            &[21, 0, 16, 5],
            &[17, 0, 16],
            &[15, 0, IDLE],
            &[1, 1],
            &[27, 1],
            &[25],
        ];
        let log = log_of(&rows.map(row));
        let front = ["start 0", "0 0 0 0", "free 7 0", "0 0 0 0"];
        let lines = [
            "11 1 16 0 3 3: 0 0 0 0",
            "23 0 16 5 18446744073709551615: 0 0 0 0",
            "21 0 16 5: 0 0 0 18446744073709551615",
            "17 0 16: 0 0 0 0",
            "15 0 4294967295: 0 0 0 0",
            "1 1: 5 0 0 0",
            "27 1: 0 0 1 0",
            "25: 0 0 0 0",
        ];
        let joined = |lines: &[&[&str]]| lines.concat().join("\n") + "\n";
        assert_eq!(replayed(script, &log, u64::MAX), joined(&[&front, &lines, &["taken 8"]]));
        assert_eq!(replayed(script, &log, 2), joined(&[&front, &lines[..2], &["taken 2"]]));
        assert_eq!(replayed(script, &log, 0), joined(&[&front, &["taken 0"]]));
        let ends: [(&[u8], &str); 3] = [
            (&[9], "byte 108: cut short"),
            (&[2, 0, PAST, 0], "byte 108: unknown kind"),
            (&[0, 0, 1, 0], "byte 108: wrong length"),
        ];
        for (end, line) in ends {
            let log = [&log, end].concat();
            let expected = joined(&[&front, &lines, &[line, "taken 8"]]);
            assert_eq!(replayed(script, &log, 9), expected);
            assert_eq!(replayed(script, &log, 8), joined(&[&front, &lines, &["taken 8"]]));
        }
    }

    #[test]
    fn a_replay_without_a_box() {
        let log = log_of(&[row(&[1, 1])]);
        assert_eq!(replayed("", &log, 9), "refused 1\ntaken 0\n");
        assert_eq!(replayed("# c\n", &[9], 0), "refused 1\ntaken 0\n");
        let refused = "start 1\n1 0 0 0\nrefused 1\ntaken 0\n";
        assert_eq!(replayed("box 0 0 0\n1 1", &log, 9), refused);
        let last = "start 0\nstart 3\nrefused 1\ntaken 0\n";
        assert_eq!(replayed("box 8 7 1\nbox 8 9 0", &log, 9), last);
        let last = "start 1\nstart 0\n1 1: 0 0 0 0\ntaken 1\n";
        assert_eq!(replayed("box 0 0 0\nbox 8 7 1", &log, 9), last);
        let unread = "start 0\n0 0 0 0\nline 3: not understood\n";
        assert_eq!(replayed("box 8 7 1\n1 1\nx\n1 2", &log, 9), unread);
        assert_eq!(replayed("1 1", &log, 9), "line 1: not understood\n");
    }

    #[test]
    fn numbers_of_records() {
        assert_eq!(script::decimal("18446744073709551615"), Some(u64::MAX));
        assert_eq!((script::decimal("0"), script::decimal("007")), (Some(0), Some(7)));
        for word in ["", "18446744073709551616", "-1", "+1", "1 ", "0x1", "x"] {
            assert_eq!(script::decimal(word), None);
        }
    }

    #[test]
    fn a_box_told_by_its_log_is_the_box() {
        let script = single(12, 1500);
        let (log, verdict) = written(&script);
        assert_eq!(verdict, Ok(()));
        let setup = script.lines().take_while(|line| line.starts_with(['b', 'u']));
        let setup: String = setup.map(|line| format!("{line}\n")).collect();
        let mut machine = machine_of(&setup);
        let replay = log::replay(&mut machine, &mut Reader::new(&log), u64::MAX);
        assert_eq!((replay.number, replay.taken.len()), (0, 1500));
        assert_eq!(machine, machine_of(&script));
        let lines = replayed(&setup, &log, u64::MAX);
        let answers = lines.lines().filter_map(|line| line.split_once(": ")).map(|(_, it)| it);
        let told = output_of(script.as_bytes());
        assert!(answers.eq(told.lines().skip(1).filter(|line| !line.starts_with("free"))));
    }

    #[test]
    fn single_boxes_can_be_written_and_reach_everything() {
        let scripts = [1, 2, 3].map(|seed| single(seed, 20_000));
        for script in &scripts {
            assert_eq!(rows(script).len(), 20_000);
            assert_eq!(written(script).1, Ok(()));
        }
        let record = Coverage::of(scripts.concat().as_bytes()).expect("memory reads");
        for operation in 1..=OPERATIONS {
            let ranged = arguments(operation).is_some_and(|kinds| !kinds.is_empty());
            let range = if ranged { &[0, 2][..] } else { &[0] };
            for &number in range.iter().chain(refusals(operation)) {
                assert!(record.answers.contains_key(&(operation, number)), "{operation} {number}");
            }
        }
        let missing = record.missing();
        let retire = |line: &&String| line.starts_with("operation 27: ") && !line.ends_with("full");
        assert_eq!(missing.iter().find(retire), None);
        assert_eq!(single(9, 500), single(9, 500));
    }
}
