//! Every number that the header names, under the same name without `TILIGORMIS_`; of the refusals the
//! cases of [`Refusal`] and [`LogRefusal`] too.

use core::fmt;

/// Declares constants, and for the tests the list of them by name.
macro_rules! numbers {
    ($($(#[$meaning:meta])* $name:ident: $kind:ty = $value:expr;)*) => {
        $($(#[$meaning])* pub const $name: $kind = $value;)*

        #[cfg(test)]
        pub const NAMED: &[(&str, u64)] = &[$((stringify!($name), $name as u64)),*];
    };
}

numbers! {
    /// 64-bit words of a page.
    PAGE_WORDS: usize = 512;
    /// The most physical pages; a machine has 1 to this many.
    PAGES: u64 = 1024;
    /// Guest pages of a VM.
    GUEST_PAGES: u64 = 65_536;
    /// VM ids.
    VMS: u64 = 16;
    /// CPUs, and as many devices.
    PORTS: usize = 8;
    /// Entries of a map, software or walker.
    ENTRIES: usize = 512;
    /// Sharing pairs.
    PAIRS: usize = 128;
    /// Slots of a translation cache.
    SLOTS: usize = 64;
    /// The most units.
    UNITS: usize = 32;
    /// Accesses.
    ACCESSES: u64 = 8;
    /// Generations of an entry.
    GENERATIONS: u64 = 65_536;
    /// Page sets: the pool, the shared span, two for each VM.
    SETS: usize = 2 + 2 * VMS as usize;
    /// 64-bit words of a page set.
    SET_WORDS: usize = PAGES as usize / 64;

    /// Numbers of a row.
    ROW_NUMBERS: usize = 8;
    /// Numbers of an answer.
    ANSWER_NUMBERS: usize = 4;
    /// Numbers of a unit.
    UNIT_NUMBERS: usize = 6;
    /// Numbers of the free query's result.
    FREE_NUMBERS: usize = 2;
    /// Numbers of a machine header.
    MACHINE_NUMBERS: usize = 7 + 2 * PORTS + UNITS * UNIT_NUMBERS;

    /// Kinds of a log's records, from 1 on: the operations' numbers.
    KINDS: u64 = 27;
    /// Bytes of the longest record that a row makes.
    RECORD_BYTES: usize = 24;

    /// How rows and the header write that a port is idle.
    IDLE: u64 = 4_294_967_295;
    /// The lowest free page where none is free; [`crate::FreePages::lowest`] gives `None` for it.
    NO_PAGE: u64 = u64::MAX;

    /// Access bit; an access is any sum of the three.
    READ: u64 = 1;
    /// Access bit.
    WRITE: u64 = 2;
    /// Access bit.
    EXECUTE: u64 = 4;

    /// A unit that may be inserted for CPUs.
    MARK_CPU: u64 = 1;
    /// For devices.
    MARK_DMA: u64 = 2;
    /// For both.
    MARK_BOTH: u64 = 3;

    /// The number of an answer that accepts.
    ACCEPTED: u64 = 0;

    /// Arguments: vm.
    ADD_VM: u64 = 1;
    /// Arguments: vm.
    REMOVE_VM: u64 = 2;
    /// Arguments: vm, page.
    ASSIGN_PAGE: u64 = 3;
    /// Arguments: vm, page.
    RECLAIM_PAGE: u64 = 4;
    /// Arguments: left vm (the owner), right vm, page.
    SHARE_PAGE: u64 = 5;
    /// Arguments: vm, vm, page.
    UNSHARE_PAGE: u64 = 6;
    /// Arguments: vm, guest page, page, access, generation.
    CPU_MAP: u64 = 7;
    /// Arguments: vm, guest page, page, access, generation.
    DMA_MAP: u64 = 8;
    /// Arguments: vm, guest page.
    CPU_UNMAP: u64 = 9;
    /// Arguments: vm, guest page.
    DMA_UNMAP: u64 = 10;
    /// Arguments: vm, guest base, page base, count, access.
    INSERT_REGION: u64 = 11;
    /// Arguments: vm, guest base, page base, count, access.
    REMOVE_REGION: u64 = 12;
    /// Arguments: vm, guest base, page base, count, access.
    DMA_INSERT_REGION: u64 = 13;
    /// Arguments: vm, guest base, page base, count, access.
    DMA_REMOVE_REGION: u64 = 14;
    /// Arguments: cpu, vm or [`IDLE`].
    SWITCH_CPU: u64 = 15;
    /// Arguments: device, vm or [`IDLE`].
    BIND_DEVICE: u64 = 16;
    /// Arguments: cpu, guest page.
    CPU_FILL: u64 = 17;
    /// Arguments: device, guest page.
    DMA_FILL: u64 = 18;
    /// Arguments: slot.
    EMPTY_CPU_SLOT: u64 = 19;
    /// Arguments: slot.
    EMPTY_DMA_SLOT: u64 = 20;
    /// Arguments: cpu, guest page, word.
    CPU_READ: u64 = 21;
    /// Arguments: device, guest page, word.
    DMA_READ: u64 = 22;
    /// Arguments: cpu, guest page, word, value.
    CPU_WRITE: u64 = 23;
    /// Arguments: device, guest page, word, value.
    DMA_WRITE: u64 = 24;
    /// No arguments.
    DATA_BARRIER: u64 = 25;
    /// No arguments.
    INSTRUCTION_BARRIER: u64 = 26;
    /// Arguments: vm.
    RETIRE_VM: u64 = 27;
}

/// Declares an enum of refusals and, for the tests, the list of them: of each the constant, the case,
/// and what it means, which documents both and is what `Display` writes.
macro_rules! refusals {
    ($(#[$what:meta])* $refusals:ident, $list:ident;
        $($name:ident: u64 = $value:literal, $case:ident, $meaning:literal;)*) => {
        $(#[doc = concat!("[`", stringify!($refusals), "::", stringify!($case), "`]: ", $meaning, ".")]
        pub const $name: u64 = $value;)*

        $(#[$what])*
        #[derive(Clone, Copy, Debug, PartialEq, Eq, Hash)]
        #[non_exhaustive]
        pub enum $refusals {
            $(#[doc = concat!($value, ": ", $meaning, ".")]
            $case,)*
            /// A number that is none of these, which this version's library never returns. An
            /// archive of a later version, linked with this crate, may have refusals that have
            /// no name here yet; so it is neither a panic nor taken for another refusal.
            #[non_exhaustive]
            Unlisted {
                /// The number that was returned.
                number: u64,
            },
        }

        impl $refusals {
            /// The refusal's number, as it is returned; never [`ACCEPTED`].
            pub const fn number(self) -> u64 {
                match self {
                    $($refusals::$case => $name,)*
                    $refusals::Unlisted { number } => number,
                }
            }

            /// The refusal that has this number; none for [`ACCEPTED`] and for a number not listed.
            pub const fn from_number(number: u64) -> Option<$refusals> {
                match number {
                    $($name => Some($refusals::$case),)*
                    _ => None,
                }
            }

            /// Nothing where a returned number is 0, else the refusal.
            pub(crate) fn accepted(number: u64) -> Result<(), $refusals> {
                match number {
                    ACCEPTED => Ok(()),
                    _ => Err(Self::from_number(number).unwrap_or($refusals::Unlisted { number })),
                }
            }
        }

        impl fmt::Display for $refusals {
            fn fmt(&self, out: &mut fmt::Formatter<'_>) -> fmt::Result {
                match self {
                    $($refusals::$case => out.write_str($meaning),)*
                    $refusals::Unlisted { number } => {
                        write!(out, "refusal {number}, which has no name in this version")
                    }
                }
            }
        }

        impl core::error::Error for $refusals {}

        #[cfg(test)]
        pub const $list: &[(&str, $refusals, u64)] =
            &[$((stringify!($name), $refusals::$case, $value)),*];
    };
}

refusals! {
    /// Why something is refused. Refused, it has changed nothing (but see [`crate::Lent::start`]).
    Refusal, REFUSALS;
    STATE_NOT_VALID: u64 = 1, StateNotValid,
        "the box is not valid: a rule, memory's length or an array's length";
    OUT_OF_RANGE: u64 = 2, OutOfRange, "a number is out of range, or the operation is unknown";
    BAD_SPAN: u64 = 3, BadSpan, "a span is bad: no page, or past the last guest page or page";
    VM_UNKNOWN: u64 = 4, VmUnknown, "the VM is not known";
    VM_KNOWN: u64 = 5, VmKnown, "the VM is known already";
    PAGE_NOT_HELD: u64 = 6, PageNotHeld, "a page is not held as needed";
    PAGE_CLAIMED: u64 = 7, PageClaimed, "a page is claimed elsewhere";
    NO_SUCH_UNIT: u64 = 8, NoSuchUnit, "no unit has these five fields and a mark that suits";
    MAPPING_DIFFERS: u64 = 9, MappingDiffers, "the mapping is absent or different";
    MAPPING_PRESENT: u64 = 10, MappingPresent, "a guest page is mapped already";
    STILL_IN_USE: u64 = 11, StillInUse, "a page is still mapped or shared";
    PAIR_WRONG: u64 = 12, PairWrong, "the pair is wrong: a VM with itself, or no such pair";
    VM_BUSY: u64 = 13, VmBusy,
        "the VM still has something: a CPU, a device, for remove VM also a page, mapping or edge";
    NO_ROOM: u64 = 14, NoRoom, "there is no room: too few entries are free";
    PORT_IDLE: u64 = 15, PortIdle, "the port is idle";
    ACCESS_LACKING: u64 = 16, AccessLacking, "the mapping's access lacks the needed bit";
}

refusals! {
    /// Why a record of a log is not read or not written; no answer of the machine has one of these.
    LogRefusal, LOG_REFUSALS;
    CUT_SHORT: u64 = 20, CutShort,
        "a record is cut short: one to three bytes are left, or fewer than its length says";
    UNKNOWN_KIND: u64 = 21, UnknownKind, "a record's kind is unknown: no operation has this number";
    WRONG_LENGTH: u64 = 22, WrongLength, "a record's length is wrong: not that of its kind";
    DOES_NOT_FIT: u64 = 23, DoesNotFit,
        "a record does not fit: an argument is over four bytes, or there is too little room";
}
