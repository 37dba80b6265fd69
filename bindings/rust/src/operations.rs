//! The twenty-seven operations, in one table: for each a function that makes its row, and a method of
//! [`Lent`] that carries it out.

use crate::answers::Refused;
use crate::lent::Lent;
use crate::numbers::Refusal;

/// The type of an argument: a number, or a VM that may be `idle`.
macro_rules! kind {
    () => { u64 };
    (idle) => { Option<u64> };
}

/// An argument as rows write it.
macro_rules! written {
    ($argument:ident) => {
        $argument
    };
    ($argument:ident idle) => {
        match $argument {
            Some(vm) => vm,
            None => $crate::numbers::IDLE,
        }
    };
}

/// What an accepted operation gives: nothing, how many slots it dropped, or the word that it read.
mod given {
    use crate::structs::Answer;

    pub fn nothing(_: Answer) {}

    pub fn dropped(answer: Answer) -> u64 {
        answer.dropped
    }

    pub fn word(answer: Answer) -> u64 {
        answer.word
    }
}

/// Declares operations: number, name, arguments, what is given, and the result's type.
macro_rules! operations {
    ($($(#[$meaning:meta])* $number:ident: $name:ident($($argument:ident $(or $idle:ident)?),*)
        gives $given:ident: $result:ty;)*) => {
        /// The row of each operation, for [`Lent::operation`] and [`Lent::sequence`]; the method of
        /// [`Lent`] that has the same name says what it does.
        pub mod rows {
            use crate::structs::{row, Row};
            #[allow(unused_imports)] // the documentation names it
            use crate::Lent;

            $(#[doc = concat!("The row of [`Lent::", stringify!($name), "`].")]
            pub const fn $name($($argument: kind!($($idle)?)),*) -> Row {
                row([crate::numbers::$number $(, written!($argument $($idle)?))*])
            })*
        }

        /// A method for each operation. Any number may be given. Refused, the box stays as it was.
        ///
        /// Each is refused first with [`Refusal::StateNotValid`] where the box is not valid, then with
        /// [`Refusal::OutOfRange`] where a VM, guest page, page, access, generation, CPU, device, slot
        /// or word has no such number on this machine; of a region only VM and access are judged so.
        /// What else refuses it stands at each, first match first. A region's `guest` and `page` are
        /// its first; page k of it goes from `guest` + k to `page` + k, under generation 0, and each
        /// of its refusals that [`Refused::index`] belongs to looks at every page before the next does.
        impl Lent<'_> {
            $($(#[$meaning])*
            pub fn $name(&mut self, $($argument: kind!($($idle)?)),*) -> $result {
                let answer = self.operation(rows::$name($($argument),*)).accepted()?;
                Ok(given::$given(answer))
            })*
        }

        #[cfg(test)]
        pub const METHODS: &[(&str, u64)] = &[$((stringify!($name), crate::numbers::$number)),*];
    };
}

operations! {
    /// Makes the VM known, with no pages.
    ///
    /// - [`Refusal::VmKnown`]: it is known already
    ADD_VM: add_vm(vm) gives nothing: Result<(), Refusal>;

    /// Makes the VM unknown; [`Lent::retire_vm`] does so with one that still has something.
    ///
    /// - [`Refusal::VmUnknown`]: it is not known
    /// - [`Refusal::VmBusy`]: it has a page, a mapping or a pair, or is on a CPU or a device
    REMOVE_VM: remove_vm(vm) gives nothing: Result<(), Refusal>;

    /// Moves a page from the pool to the VM's CPU pages.
    ///
    /// - [`Refusal::VmUnknown`]: the VM is not known
    /// - [`Refusal::PageNotHeld`]: the page is not in the pool
    /// - [`Refusal::PageClaimed`]: another VM holds it for DMA
    ASSIGN_PAGE: assign_page(vm, page) gives nothing: Result<(), Refusal>;

    /// Moves one of the VM's CPU pages back to the pool, and clears it unless the VM holds it for DMA.
    ///
    /// - [`Refusal::VmUnknown`]: the VM is not known
    /// - [`Refusal::PageNotHeld`]: the page is none of its CPU pages
    /// - [`Refusal::StillInUse`]: a CPU mapping goes to it, or a pair names it
    RECLAIM_PAGE: reclaim_page(vm, page) gives nothing: Result<(), Refusal>;

    /// Shares a CPU page of `left` with `right`; a pair that is stored already, in either order, stays.
    ///
    /// - [`Refusal::VmUnknown`]: one of the VMs is not known
    /// - [`Refusal::PairWrong`]: they are one VM
    /// - [`Refusal::PageNotHeld`]: the page is none of `left`'s CPU pages
    /// - [`Refusal::NoRoom`]: every place for a pair is taken
    SHARE_PAGE: share_page(left, right, page) gives nothing: Result<(), Refusal>;

    /// Ends the sharing of a page between two VMs, named in either order.
    ///
    /// - [`Refusal::VmUnknown`]: one of the VMs is not known
    /// - [`Refusal::PairWrong`]: there is no such pair
    /// - [`Refusal::StillInUse`]: the one that does not own the page still maps it for CPUs
    UNSHARE_PAGE: unshare_page(left, right, page) gives nothing: Result<(), Refusal>;

    /// Maps a guest page for CPUs, anew or in place of its mapping. Gives how many slots were dropped.
    ///
    /// - [`Refusal::VmUnknown`]: the VM is not known
    /// - [`Refusal::PageNotHeld`]: the page is none of its CPU pages, and no pair shares it with the VM
    /// - [`Refusal::NoRoom`]: the mapping is new, and every entry is taken
    CPU_MAP: cpu_map(vm, guest, page, access, generation) gives dropped: Result<u64, Refusal>;

    /// Maps a guest page for devices, anew or in place of its mapping. Gives how many slots were
    /// dropped.
    ///
    /// - [`Refusal::VmUnknown`]: the VM is not known
    /// - [`Refusal::PageNotHeld`]: the page is none of its DMA pages, nor of the shared span
    /// - [`Refusal::NoRoom`]: the mapping is new, and every entry is taken
    DMA_MAP: dma_map(vm, guest, page, access, generation) gives dropped: Result<u64, Refusal>;

    /// Takes the mapping of a guest page from CPUs. Gives how many slots were dropped.
    ///
    /// - [`Refusal::VmUnknown`]: the VM is not known
    /// - [`Refusal::MappingDiffers`]: the guest page is not mapped
    CPU_UNMAP: cpu_unmap(vm, guest) gives dropped: Result<u64, Refusal>;

    /// Takes the mapping of a guest page from devices. Gives how many slots were dropped.
    ///
    /// - [`Refusal::VmUnknown`]: the VM is not known
    /// - [`Refusal::MappingDiffers`]: the guest page is not mapped
    DMA_UNMAP: dma_unmap(vm, guest) gives dropped: Result<u64, Refusal>;

    /// Moves the pages of a region from the pool to the VM's CPU pages, and maps them for CPUs.
    ///
    /// - [`Refusal::BadSpan`]: `count` is 0, or the region ends past the last guest page or page
    /// - [`Refusal::VmUnknown`]: the VM is not known
    /// - [`Refusal::NoSuchUnit`]: no unit that may be inserted for CPUs is this region
    /// - [`Refusal::PageNotHeld`]: a page is not in the pool
    /// - [`Refusal::MappingPresent`]: a guest page is mapped
    /// - [`Refusal::PageClaimed`]: another VM holds a page for DMA
    /// - [`Refusal::NoRoom`]: fewer entries are free than the region has pages
    INSERT_REGION: insert_region(vm, guest, page, count, access) gives nothing: Result<(), Refused>;

    /// Takes a region from CPUs: its pages go back to the pool, its mappings go, and its pages are
    /// cleared where the VM does not hold them for DMA. Gives how many slots were dropped.
    ///
    /// - [`Refusal::BadSpan`]: `count` is 0, or the region ends past the last guest page or page
    /// - [`Refusal::VmUnknown`]: the VM is not known
    /// - [`Refusal::NoSuchUnit`]: no unit that may be inserted for CPUs is this region
    /// - [`Refusal::PageNotHeld`]: a page is none of the VM's CPU pages
    /// - [`Refusal::MappingDiffers`]: a guest page is not mapped as the region maps it
    /// - [`Refusal::StillInUse`]: another CPU mapping goes to a page, or a pair names it
    REMOVE_REGION: remove_region(vm, guest, page, count, access)
        gives dropped: Result<u64, Refused>;

    /// Makes the pages of a region DMA pages of the VM, and maps them for devices; the pool stays.
    ///
    /// - [`Refusal::BadSpan`]: `count` is 0, or the region ends past the last guest page or page
    /// - [`Refusal::VmUnknown`]: the VM is not known
    /// - [`Refusal::NoSuchUnit`]: no unit that may be inserted for devices is this region
    /// - [`Refusal::MappingPresent`]: a guest page is mapped
    /// - [`Refusal::PageClaimed`]: another VM holds a page, or it is of the shared span
    /// - [`Refusal::NoRoom`]: fewer entries are free than the region has pages
    DMA_INSERT_REGION: dma_insert_region(vm, guest, page, count, access)
        gives nothing: Result<(), Refused>;

    /// Takes a region from devices: its pages are no DMA pages of the VM any more, its mappings go, and
    /// its pages are cleared where they are none of the VM's CPU pages. Gives how many slots were
    /// dropped.
    ///
    /// - [`Refusal::BadSpan`]: `count` is 0, or the region ends past the last guest page or page
    /// - [`Refusal::VmUnknown`]: the VM is not known
    /// - [`Refusal::NoSuchUnit`]: no unit that may be inserted for devices is this region
    /// - [`Refusal::PageNotHeld`]: a page is none of the VM's DMA pages
    /// - [`Refusal::MappingDiffers`]: a guest page is not mapped as the region maps it
    /// - [`Refusal::StillInUse`]: another DMA mapping goes to a page
    DMA_REMOVE_REGION: dma_remove_region(vm, guest, page, count, access)
        gives dropped: Result<u64, Refused>;

    /// Puts a VM on a CPU; `None`, which rows write as [`IDLE`](crate::IDLE), makes it idle.
    ///
    /// - [`Refusal::VmUnknown`]: the VM is not known
    SWITCH_CPU: switch_cpu(cpu, vm or idle) gives nothing: Result<(), Refusal>;

    /// Binds a device to a VM; `None`, which rows write as [`IDLE`](crate::IDLE), binds it to nobody.
    ///
    /// - [`Refusal::VmUnknown`]: the VM is not known
    BIND_DEVICE: bind_device(device, vm or idle) gives nothing: Result<(), Refusal>;

    /// Puts what the walker has for a guest page of the CPU's VM into a slot.
    ///
    /// - [`Refusal::PortIdle`]: no VM is on the CPU
    /// - [`Refusal::MappingDiffers`]: the guest page is not mapped
    CPU_FILL: cpu_fill(cpu, guest) gives nothing: Result<(), Refusal>;

    /// Puts what the walker has for a guest page of the device's VM into a slot.
    ///
    /// - [`Refusal::PortIdle`]: the device is bound to nobody
    /// - [`Refusal::MappingDiffers`]: the guest page is not mapped
    DMA_FILL: dma_fill(device, guest) gives nothing: Result<(), Refusal>;

    /// Empties a slot of the CPU cache. Nothing else refuses it.
    EMPTY_CPU_SLOT: empty_cpu_slot(slot) gives nothing: Result<(), Refusal>;

    /// Empties a slot of the DMA cache. Nothing else refuses it.
    EMPTY_DMA_SLOT: empty_dma_slot(slot) gives nothing: Result<(), Refusal>;

    /// Reads a word of a guest page on a CPU, through a slot if one has it, else through the walker.
    ///
    /// - [`Refusal::PortIdle`]: no VM is on the CPU
    /// - [`Refusal::MappingDiffers`]: the guest page is not mapped
    /// - [`Refusal::AccessLacking`]: its access has no [`READ`](crate::READ)
    CPU_READ: cpu_read(cpu, guest, word) gives word: Result<u64, Refusal>;

    /// Reads a word of a guest page by a device, through a slot if one has it, else through the walker.
    ///
    /// - [`Refusal::PortIdle`]: the device is bound to nobody
    /// - [`Refusal::MappingDiffers`]: the guest page is not mapped
    /// - [`Refusal::AccessLacking`]: its access has no [`READ`](crate::READ)
    DMA_READ: dma_read(device, guest, word) gives word: Result<u64, Refusal>;

    /// Writes a word of a guest page on a CPU, through a slot if one has it, else through the walker.
    ///
    /// - [`Refusal::PortIdle`]: no VM is on the CPU
    /// - [`Refusal::MappingDiffers`]: the guest page is not mapped
    /// - [`Refusal::AccessLacking`]: its access has no [`WRITE`](crate::WRITE)
    CPU_WRITE: cpu_write(cpu, guest, word, value) gives nothing: Result<(), Refusal>;

    /// Writes a word of a guest page by a device, through a slot if one has it, else through the walker.
    ///
    /// - [`Refusal::PortIdle`]: the device is bound to nobody
    /// - [`Refusal::MappingDiffers`]: the guest page is not mapped
    /// - [`Refusal::AccessLacking`]: its access has no [`WRITE`](crate::WRITE)
    DMA_WRITE: dma_write(device, guest, word, value) gives nothing: Result<(), Refusal>;

    /// Does nothing. Nothing else refuses it.
    DATA_BARRIER: data_barrier() gives nothing: Result<(), Refusal>;

    /// Does nothing. Nothing else refuses it.
    INSTRUCTION_BARRIER: instruction_barrier() gives nothing: Result<(), Refusal>;

    /// Makes the VM unknown, and takes all that it has: its mappings and pairs go, with what other
    /// VMs map of its CPU pages; these go back to the pool, and its DMA pages are so no more. Every page
    /// that it held is cleared; one that was lent to it is not. Gives how many slots were dropped, of
    /// both caches together.
    ///
    /// - [`Refusal::VmUnknown`]: it is not known
    /// - [`Refusal::VmBusy`]: it is on a CPU or a device; nothing else that it has is a reason
    RETIRE_VM: retire_vm(vm) gives dropped: Result<u64, Refusal>;
}
