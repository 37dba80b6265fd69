//! The methods of the operations against their rows.

use super::*;
use crate::operations::METHODS;
use std::collections::BTreeSet;
use std::fmt::Debug;

/// The operations that were tried, by their numbers.
#[derive(Default)]
struct Tried {
    accepted: BTreeSet<u64>,
    refused: BTreeSet<u64>,
}

impl Tried {
    /// A method, after some rows, has this result, its row this answer, and both leave the same box;
    /// on a box that is not started the method is refused.
    fn same<T: Debug + PartialEq, E: Debug + PartialEq + Into<Refusal>>(
        &mut self,
        before: &[Row],
        method: impl Fn(&mut Lent) -> Result<T, E>,
        row: Row,
        (result, answer): (Result<T, E>, [u64; ANSWER_NUMBERS]),
    ) {
        let mut by_method = whole();
        for row in before {
            assert_eq!(by_method.lent().operation(*row).number, ACCEPTED, "{row:?}");
        }
        let mut by_row = by_method.clone();
        let [number, index, dropped, word] = answer;
        assert_eq!(by_row.lent().operation(row), Answer { number, index, dropped, word });
        assert_eq!(method(&mut by_method.lent()), result, "{row:?}");
        assert!(by_method == by_row, "{row:?}");
        let unstarted = method(&mut Owned::new(8).lent()).map_err(Into::into);
        assert!(matches!(unstarted, Err(Refusal::StateNotValid)), "{row:?}");
        let tried = if number == ACCEPTED { &mut self.accepted } else { &mut self.refused };
        tried.insert(row[0]);
    }
}

/// After some rows an operation, called by its name: the numbers of its row, its result, its answer.
macro_rules! same {
    ($tried:ident, $before:expr, $name:ident($($argument:expr),*) = $row:expr, $told:expr) => {
        assert_eq!(rows::$name($($argument),*), row($row));
        $tried.same(&$before, |lent| lent.$name($($argument),*), row($row), $told)
    };
}

const DONE: [u64; ANSWER_NUMBERS] = [0; ANSWER_NUMBERS];

/// The last operation.
const LAST: u64 = RETIRE_VM;

fn ledger(tried: &mut Tried) {
    let known = (Err(Refusal::VmKnown), [5, 0, 0, 0]);
    let busy = (Err(Refusal::VmBusy), [13, 0, 0, 0]);
    let not_held = (Err(Refusal::PageNotHeld), [6, 0, 0, 0]);
    let in_use = (Err(Refusal::StillInUse), [11, 0, 0, 0]);
    let wrong = (Err(Refusal::PairWrong), [12, 0, 0, 0]);
    same!(tried, [], add_vm(3) = [1, 3], (Ok(()), DONE));
    same!(tried, [], add_vm(2) = [1, 2], known);
    same!(tried, [rows::add_vm(3)], remove_vm(3) = [2, 3], (Ok(()), DONE));
    same!(tried, [], remove_vm(2) = [2, 2], busy);
    same!(tried, [], assign_page(2, 3) = [3, 2, 3], (Ok(()), DONE));
    same!(tried, [], assign_page(1, 7) = [3, 1, 7], not_held);
    same!(tried, [rows::assign_page(2, 3)], reclaim_page(2, 3) = [4, 2, 3], (Ok(()), DONE));
    same!(tried, [], reclaim_page(1, 0) = [4, 1, 0], in_use);
    same!(tried, [], share_page(1, 2, 0) = [5, 1, 2, 0], (Ok(()), DONE));
    same!(tried, [], share_page(1, 1, 0) = [5, 1, 1, 0], wrong);
    same!(tried, [], unshare_page(2, 1, 1) = [6, 2, 1, 1], (Ok(()), DONE));
    same!(tried, [], unshare_page(1, 2, 0) = [6, 1, 2, 0], wrong);
}

/// VM 1 has two slots of the CPU cache and one of the DMA cache, VM 2 a pair and nothing else.
fn retirement(tried: &mut Tried) {
    let unknown = (Err(Refusal::VmUnknown), [4, 0, 0, 0]);
    let busy = (Err(Refusal::VmBusy), [13, 0, 0, 0]);
    let out = (Err(Refusal::OutOfRange), [2, 0, 0, 0]);
    let (no_cpu, no_device) = (rows::switch_cpu(0, None), rows::bind_device(0, None));
    same!(tried, [no_cpu, no_device], retire_vm(1) = [27, 1], (Ok(3), [0, 0, 3, 0]));
    same!(tried, [no_cpu], retire_vm(1) = [27, 1], busy);
    same!(tried, [no_device], retire_vm(1) = [27, 1], busy);
    same!(tried, [], retire_vm(2) = [27, 2], (Ok(0), DONE));
    same!(tried, [rows::add_vm(3)], retire_vm(3) = [27, 3], (Ok(0), DONE));
    same!(tried, [], retire_vm(3) = [27, 3], unknown);
    same!(tried, [], retire_vm(VMS) = [27, VMS], out);
}

fn maps(tried: &mut Tried) {
    let dropped = (Ok(1), [0, 0, 1, 0]);
    let not_held = (Err(Refusal::PageNotHeld), [6, 0, 0, 0]);
    let differs = (Err(Refusal::MappingDiffers), [9, 0, 0, 0]);
    same!(tried, [], cpu_map(2, 40, 1, 5, 6) = [7, 2, 40, 1, 5, 6], (Ok(0), DONE));
    same!(tried, [], cpu_map(1, 16, 1, 5, 6) = [7, 1, 16, 1, 5, 6], dropped);
    same!(tried, [], cpu_map(2, 40, 0, 5, 6) = [7, 2, 40, 0, 5, 6], not_held);
    same!(tried, [], dma_map(1, 40, 7, 5, 6) = [8, 1, 40, 7, 5, 6], (Ok(0), DONE));
    same!(tried, [], dma_map(1, 18, 7, 5, 6) = [8, 1, 18, 7, 5, 6], dropped);
    same!(tried, [], dma_map(1, 18, 3, 5, 6) = [8, 1, 18, 3, 5, 6], not_held);
    same!(tried, [], cpu_unmap(1, 17) = [9, 1, 17], dropped);
    same!(tried, [], cpu_unmap(2, 17) = [9, 2, 17], differs);
    same!(tried, [], dma_unmap(1, 18) = [10, 1, 18], dropped);
    same!(tried, [], dma_unmap(1, 19) = [10, 1, 19], differs);
}

fn regions(tried: &mut Tried) {
    let not_held = Refused { refusal: Refusal::PageNotHeld, index: 1 };
    let in_use = Refused { refusal: Refusal::StillInUse, index: 1 };
    let present = Refused { refusal: Refusal::MappingPresent, index: 1 };
    let differs = Refused { refusal: Refusal::MappingDiffers, index: 2 };
    let no_unit = Refused { refusal: Refusal::NoSuchUnit, index: 0 };
    let unshare = rows::unshare_page(1, 2, 1);
    let remove = rows::remove_region(1, 16, 0, 3, 3);
    let dma_remove = rows::dma_remove_region(1, 16, 0, 3, 3);
    let assign = rows::assign_page(2, 1);
    let (unmap_first, unmap_last) = (rows::dma_unmap(1, 16), rows::dma_unmap(1, 18));

    let numbers = [11, 1, 16, 0, 3, 3];
    same!(tried, [unshare, remove], insert_region(1, 16, 0, 3, 3) = numbers, (Ok(()), DONE));
    let refused = (Err(not_held), [6, 1, 0, 0]);
    let others = [unshare, remove, dma_remove, assign];
    same!(tried, others, insert_region(1, 16, 0, 3, 3) = numbers, refused);
    let numbers = [12, 1, 16, 0, 3, 3];
    same!(tried, [unshare], remove_region(1, 16, 0, 3, 3) = numbers, (Ok(2), [0, 0, 2, 0]));
    same!(tried, [], remove_region(1, 16, 0, 3, 3) = numbers, (Err(in_use), [11, 1, 0, 0]));
    let numbers = [13, 1, 16, 0, 3, 3];
    same!(tried, [dma_remove], dma_insert_region(1, 16, 0, 3, 3) = numbers, (Ok(()), DONE));
    let refused = (Err(present), [10, 1, 0, 0]);
    same!(tried, [unmap_first], dma_insert_region(1, 16, 0, 3, 3) = numbers, refused);
    let numbers = [14, 1, 16, 0, 3, 3];
    same!(tried, [], dma_remove_region(1, 16, 0, 3, 3) = numbers, (Ok(1), [0, 0, 1, 0]));
    let refused = (Err(differs), [9, 2, 0, 0]);
    same!(tried, [unmap_last], dma_remove_region(1, 16, 0, 3, 3) = numbers, refused);
    let refused = (Err(no_unit), [8, 0, 0, 0]);
    same!(tried, [], dma_remove_region(2, 16, 2, 2, 3) = [14, 2, 16, 2, 2, 3], refused);
}

fn ports(tried: &mut Tried) {
    let unknown = (Err(Refusal::VmUnknown), [4, 0, 0, 0]);
    let idle = (Err(Refusal::PortIdle), [15, 0, 0, 0]);
    let differs = (Err(Refusal::MappingDiffers), [9, 0, 0, 0]);
    let out = (Err(Refusal::OutOfRange), [2, 0, 0, 0]);
    same!(tried, [], switch_cpu(1, Some(2)) = [15, 1, 2], (Ok(()), DONE));
    same!(tried, [], switch_cpu(0, None) = [15, 0, IDLE], (Ok(()), DONE));
    same!(tried, [], switch_cpu(0, Some(3)) = [15, 0, 3], unknown);
    same!(tried, [], bind_device(1, Some(2)) = [16, 1, 2], (Ok(()), DONE));
    same!(tried, [], bind_device(0, None) = [16, 0, IDLE], (Ok(()), DONE));
    same!(tried, [], bind_device(0, Some(3)) = [16, 0, 3], unknown);
    same!(tried, [], cpu_fill(0, 18) = [17, 0, 18], (Ok(()), DONE));
    same!(tried, [], cpu_fill(1, 18) = [17, 1, 18], idle);
    same!(tried, [], dma_fill(0, 16) = [18, 0, 16], (Ok(()), DONE));
    same!(tried, [], dma_fill(0, 19) = [18, 0, 19], differs);
    same!(tried, [], empty_cpu_slot(1) = [19, 1], (Ok(()), DONE));
    same!(tried, [], empty_cpu_slot(64) = [19, 64], out);
    same!(tried, [], empty_dma_slot(0) = [20, 0], (Ok(()), DONE));
    same!(tried, [], empty_dma_slot(u64::MAX) = [20, u64::MAX], out);
}

fn accesses(tried: &mut Tried) {
    let word = (Ok(1111), [0, 0, 0, 1111]);
    let out = (Err(Refusal::OutOfRange), [2, 0, 0, 0]);
    let differs = (Err(Refusal::MappingDiffers), [9, 0, 0, 0]);
    let idle = (Err(Refusal::PortIdle), [15, 0, 0, 0]);
    let lacking = (Err(Refusal::AccessLacking), [16, 0, 0, 0]);
    let read_only = rows::cpu_map(1, 16, 0, READ, 0);
    same!(tried, [], cpu_read(0, 16, 0) = [21, 0, 16, 0], word);
    same!(tried, [], cpu_read(0, 16, 512) = [21, 0, 16, 512], out);
    same!(tried, [], dma_read(0, 16, 0) = [22, 0, 16, 0], word);
    same!(tried, [], dma_read(0, 19, 0) = [22, 0, 19, 0], differs);
    same!(tried, [], cpu_write(0, 17, 3, 9) = [23, 0, 17, 3, 9], (Ok(()), DONE));
    same!(tried, [read_only], cpu_write(0, 16, 3, 9) = [23, 0, 16, 3, 9], lacking);
    same!(tried, [], dma_write(0, 17, 3, 9) = [24, 0, 17, 3, 9], (Ok(()), DONE));
    same!(tried, [], dma_write(1, 17, 3, 9) = [24, 1, 17, 3, 9], idle);
    same!(tried, [], data_barrier() = [25], (Ok(()), DONE));
    same!(tried, [], instruction_barrier() = [26], (Ok(()), DONE));
}

#[test]
fn every_method_is_its_row() {
    let mut tried = Tried::default();
    for group in [ledger, retirement, maps, regions, ports, accesses] {
        group(&mut tried);
    }
    assert!(tried.accepted.into_iter().eq(ADD_VM..=LAST));
    let barriers = DATA_BARRIER..=INSTRUCTION_BARRIER;
    let refusable = (ADD_VM..=LAST).filter(|number| !barriers.contains(number));
    assert!(tried.refused.into_iter().eq(refusable));
}

#[test]
fn every_operation_has_its_method() {
    let named = crate::numbers::NAMED.iter().skip_while(|(name, _)| *name != "ADD_VM");
    let methods = METHODS.iter().map(|(name, number)| (name.to_uppercase(), *number));
    assert!(methods.eq(named.map(|&(name, number)| (name.into(), number))));
    assert_eq!(METHODS.len() as u64, LAST);
}

#[test]
fn unknown_operations_are_refused() {
    for number in [0, LAST + 1, 1 << 32 | LAST, u64::MAX] {
        let mut owned = whole();
        let refused = Refused { refusal: Refusal::OutOfRange, index: 0 };
        assert_eq!(owned.lent().operation(row([number, 3])).accepted(), Err(refused), "{number}");
        assert!(owned == whole());
    }
}

/// Every word of its pages is 0, a borrower reads them no more, and its id may be had again.
#[test]
fn a_retired_vm_leaves_nothing() {
    let mut owned = whole();
    let mut lent = owned.lent();
    lent.cpu_map(2, 40, 1, READ, 0).unwrap();
    lent.switch_cpu(1, Some(2)).unwrap();
    lent.cpu_fill(1, 40).unwrap();
    lent.dma_write(0, 17, 511, 2222).unwrap();
    assert_eq!(lent.cpu_read(1, 40, 511), Ok(2222));
    lent.switch_cpu(0, None).unwrap();
    lent.bind_device(0, None).unwrap();
    assert_eq!(lent.retire_vm(1), Ok(4));
    assert!(lent.valid());
    assert_eq!(lent.cpu_read(1, 40, 511), Err(Refusal::MappingDiffers));
    assert_eq!(lent.free().map(|pages| (pages.count, pages.lowest())), Ok((7, Some(0))));
    assert!(lent.memory.iter().all(|word| *word == 0));
    assert_eq!(lent.add_vm(1), Ok(()));
    assert_eq!(lent.remove_vm(1), Ok(()));
}
