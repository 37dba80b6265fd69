//! Changes planted in the texts, one at a time. The comparison must find each, and name the thing.

use crate::compare::Report;
use crate::Texts;

/// Which text is changed.
enum Where {
    Header,
    Ffi,
    Numbers,
    Structs,
    Cargo,
    Manual,
    List,
    Crate(&'static str),
}
use Where::*;

/// What is changed, the old text where it first stands, the new one, and the thing that is then
/// named.
const PLANTED: &[(Where, &str, &str, &str)] = &[
    // functions
    (
        Header,
        "size_t tiligormis_find_slot(",
        "size_t tiligormis_search_slot(",
        "tiligormis_find_slot",
    ),
    (Ffi, "pub fn tiligormis_empty_slot(", "pub fn tiligormis_drop_slot(", "tiligormis_empty_slot"),
    (Ffi, "const tiligormis_valid() -> bool;", "", "tiligormis_valid"),
    (
        Crate("box_cache"),
        "fn tiligormis_empty_slot(",
        "fn tiligormis_drop_slot(",
        "tiligormis_empty_slot",
    ),
    (
        Crate("box_start"),
        "extern \"C\" fn tiligormis_start(",
        "fn tiligormis_start(",
        "tiligormis_start",
    ),
    (
        Header,
        "uint64_t tiligormis_log_write(",
        "uint64_t tiligormis_write_log(",
        "tiligormis_log_write",
    ),
    (Ffi, "mut tiligormis_replay(", "mut tiligormis_repeat(", "tiligormis_replay"),
    (
        Crate("journal"),
        "extern \"C\" fn tiligormis_log_read(",
        "fn tiligormis_log_read(",
        "tiligormis_log_read",
    ),
    // parameters: const or mutable, width, pointer, name, order, number
    (
        Header,
        "const tiligormis_unit *units",
        "tiligormis_unit *units",
        "tiligormis_start, parameter 24",
    ),
    (
        Header,
        "const tiligormis_unit *units",
        "const tiligormis_slot *units",
        "tiligormis_start, parameter 24",
    ),
    (
        Header,
        "uint64_t port, uint64_t vm",
        "uint32_t port, uint64_t vm",
        "tiligormis_find_slot, parameter 3",
    ),
    (Header, "const uint64_t *rows", "uint64_t rows", "tiligormis_sequence, parameter 21"),
    (
        Header,
        "uint64_t shared_base, uint64_t shared_count,",
        "uint64_t shared_count, uint64_t shared_base,",
        "tiligormis_start, parameter 22",
    ),
    (
        Header,
        "uint64_t access, uint64_t generation);",
        "uint64_t access);",
        "tiligormis_fill_slot, parameter 9",
    ),
    (
        Header,
        "tiligormis_answer *answer",
        "tiligormis_slot *answer",
        "tiligormis_operation, parameter 23",
    ),
    (
        Header,
        "size_t answers_numbers);",
        "size_t answers_count);",
        "tiligormis_sequence, parameter 24",
    ),
    (
        Header,
        "tiligormis_answer *answers,",
        "tiligormis_slot *answers,",
        "tiligormis_sequence, parameter 23",
    ),
    (
        Header,
        "tiligormis_answer *answer,",
        "tiligormis_unit *answer,",
        "tiligormis_operation, parameter 23",
    ),
    (Ffi, "answer: *mut Answer", "answer: *const Answer", "tiligormis_operation, parameter 23"),
    (
        Ffi,
        "cpu_cache: *$pointer Slot",
        "cpu_cache: *$pointer u64",
        "tiligormis_valid, parameter 11",
    ),
    (
        Ffi,
        "mut tiligormis_sequence(",
        "const tiligormis_sequence(",
        "tiligormis_sequence, parameter 1",
    ),
    (Crate("box_start"), "memory: &mut [u64]", "memory: &[u64]", "tiligormis_start, parameter 19"),
    (Crate("tiligormis"), "row: &[u64]", "row: &mut [u64]", "tiligormis_operation, parameter 21"),
    (
        Crate("box_cache"),
        "slots: &[Slot], port: u64",
        "slots: &[Slot], port: usize",
        "tiligormis_find_slot, parameter 3",
    ),
    (
        Header,
        "uint8_t *log, size_t log_length, uint64_t *place,\n                              size_t",
        "uint64_t *log, size_t log_length, uint64_t *place,\n                              size_t",
        "tiligormis_log_write, parameter 3",
    ),
    (
        Header,
        "const uint8_t *log, size_t log_length",
        "uint8_t *log, size_t log_length",
        "tiligormis_replay, parameter 21",
    ),
    (
        Header,
        "uint64_t most, tiligormis_answer *answers, size_t answers_numbers",
        "tiligormis_answer *answers, size_t answers_numbers, uint64_t most",
        "tiligormis_replay, parameter 25",
    ),
    (
        Header,
        "uint64_t *taken,\n                           size_t taken_length);",
        "uint64_t *taken);",
        "tiligormis_replay, parameter 29",
    ),
    (Ffi, "log: *mut u8", "log: *mut u64", "tiligormis_log_write, parameter 3"),
    (Ffi, "row: *mut u64", "row: *const u64", "tiligormis_log_read, parameter 5"),
    (Crate("journal"), "log: &mut [u8]", "log: &[u8]", "tiligormis_log_write, parameter 3"),
    (Crate("journal"), "log: &[u8]", "log: &[u64]", "tiligormis_log_read, parameter 1"),
    (Crate("journal"), "most: u64", "most: usize", "tiligormis_replay, parameter 25"),
    // results
    (Header, "bool tiligormis_valid(", "uint64_t tiligormis_valid(", "tiligormis_valid, result"),
    (
        Ffi,
        "const tiligormis_valid() -> bool",
        "const tiligormis_valid() -> u64",
        "tiligormis_valid, result",
    ),
    (
        Crate("box_cache"),
        "guest: u64) -> usize",
        "guest: u64) -> u64",
        "tiligormis_find_slot, result",
    ),
    // limits
    (Header, "TILIGORMIS_PAIRS 128", "TILIGORMIS_PAIRS 256", "PAIRS"),
    (Header, "#define TILIGORMIS_VMS 16", "", "VMS"),
    (Header, "TILIGORMIS_EXECUTE 4", "TILIGORMIS_EXECUTE 8", "EXECUTE"),
    (Numbers, "GENERATIONS: u64 = ", "GENERATIONS: u64 = 1 + ", "GENERATIONS"),
    (Crate("numbers"), "const SLOTS: u64 = ", "const SLOTS: u64 = 1 + ", "SLOTS"),
    (Crate("access"), "const WRITE: u64 = ", "const WRITE: u64 = 1 + ", "WRITE"),
    (
        Crate("box_header"),
        "const NO_PAGE: u64 = u64::MAX",
        "const NO_PAGE: u64 = 0",
        "NO_PAGE",
    ),
    (Header, "TILIGORMIS_KINDS 27", "TILIGORMIS_KINDS 28", "KINDS"),
    (Header, "TILIGORMIS_RECORD_BYTES 24", "TILIGORMIS_RECORD_BYTES 20", "RECORD_BYTES"),
    (Numbers, "RECORD_BYTES: usize = ", "RECORD_BYTES: usize = 1 + ", "RECORD_BYTES"),
    (
        Crate("operation_log"),
        "const FIELDS: usize = ",
        "const FIELDS: usize = 1 + ",
        "RECORD_BYTES",
    ),
    // refusals and marks
    (Header, "TILIGORMIS_VM_KNOWN = 5", "TILIGORMIS_VM_KNOWN = 4", "VM_KNOWN"),
    (Numbers, "PORT_IDLE: u64 = ", "PORT_IDLE: u64 = 1 + ", "PORT_IDLE"),
    (
        Crate("numbers"),
        "VmUnknown = 4,\n    VmKnown = 5,",
        "VmKnown = 4,\n    VmUnknown = 5,",
        "refusal 4",
    ),
    (Crate("numbers"), "NoRoom = 14", "NoRoom = 13", "NO_ROOM"),
    (Crate("numbers"), "    AccessLacking = 16,\n", "", "refusals"),
    (Crate("numbers"), "word }) => [0,", "word }) => [1,", "ACCEPTED"),
    (Crate("units"), "Both = 3", "Both = 4", "MARK_BOTH"),
    (Header, "TILIGORMIS_CUT_SHORT = 20", "TILIGORMIS_CUT_SHORT = 19", "CUT_SHORT"),
    (Numbers, "DOES_NOT_FIT: u64 = ", "DOES_NOT_FIT: u64 = 1 + ", "DOES_NOT_FIT"),
    (
        Crate("operation_log"),
        "    UnknownKind,\n    WrongLength,",
        "    WrongLength,\n    UnknownKind,",
        "refusal 21",
    ),
    (
        Crate("operation_log"),
        "LogRefusal::WrongLength => 22",
        "LogRefusal::WrongLength => 2",
        "WRONG_LENGTH",
    ),
    (Crate("operation_log"), "    DoesNotFit,\n", "", "log refusals"),
    // operations
    (Header, "TILIGORMIS_CPU_UNMAP = 9", "TILIGORMIS_CPU_UNMAP = 10", "operation 9"),
    (
        Header,
        "TILIGORMIS_INSTRUCTION_BARRIER = 26",
        "TILIGORMIS_INSTRUCTION_BARRIER = 27",
        "operation 26",
    ),
    (Header, "TILIGORMIS_RETIRE_VM = 27", "TILIGORMIS_RETIRE_VM = 28", "operation 28"),
    (Header, "/* vm, page */", "/* vm */", "operation 3, arguments"),
    (Manual, "CPU, DMA fill", "DMA, CPU fill", "operation 17"),
    (Crate("rows"), "27 =>", "28 =>", "operation 27"),
    (Crate("rows"), "Operation::RetireVm(VmId(a))", "Operation::RetireVm(VmId(b))", "operation 27"),
    (Numbers, "DMA_READ: u64 = ", "DMA_READ: u64 = 1 + ", "DMA_READ"),
    (Crate("operation_log"), "    12, // 5\n", "    16, // 5\n", "operation 5, body"),
    (Crate("operation_log"), "    20, // 24\n", "    16, // 24\n", "operation 24, body"),
    (Crate("operation_log"), "    4, // 27\n", "    8, // 27\n", "operation 27, body"),
    (Crate("operation_log"), "const CPU_WRITE: u64 = ", "const CPU_WRITE: u64 = 1 + ", "CPU_WRITE"),
    // structs, sizes and places
    (Header, "uint32_t entry;", "uint64_t entry;", "bytes of Slot"),
    (Header, "uint64_t cpu_hand;", "", "bytes of Machine"),
    (Header, "uint64_t mark;", "uint64_t side;", "Unit, field 6"),
    (Header, "uint64_t lowest;", "", "bytes of FreePages"),
    (Structs, "pub guest: u16", "pub guest: u32", "Slot, field 3"),
    (Structs, "pub known: u64", "pub vms: u64", "Machine, field 5"),
    (Crate("slots"), "pub vm: u8", "pub vm: u16", "Slot, field 2"),
    (
        Crate("box_header"),
        "MACHINE_NUMBERS: usize = ",
        "MACHINE_NUMBERS: usize = 1 + ",
        "bytes of Machine",
    ),
    (
        Crate("box_header"),
        "DEVICES_AT: usize = ",
        "DEVICES_AT: usize = 1 + ",
        "place of Machine.devices",
    ),
    (
        Crate("numbers"),
        "ANSWER_NUMBERS: usize = ",
        "ANSWER_NUMBERS: usize = 1 + ",
        "bytes of Answer",
    ),
    (
        Crate("box_reads"),
        "FREE_NUMBERS: usize = ",
        "FREE_NUMBERS: usize = 1 + ",
        "bytes of FreePages",
    ),
    (Crate("start"), "UNIT_NUMBERS: usize = ", "UNIT_NUMBERS: usize = 1 + ", "bytes of Unit"),
    // the box
    (
        Header,
        "(box)->dma_map, TILIGORMIS_ENTRIES, (box)->dma_walker",
        "(box)->dma_walker, TILIGORMIS_ENTRIES, (box)->dma_map",
        "TILIGORMIS_LENT",
    ),
    (
        Header,
        "(box)->cpu_map, TILIGORMIS_ENTRIES",
        "(box)->cpu_map, TILIGORMIS_SLOTS",
        "cpu_map, length in a box",
    ),
    (
        Header,
        "size_t memory_length; /* TILIGORMIS_PAGE_WORDS * pages",
        "size_t memory_length; /* TILIGORMIS_PAGE_WORDS",
        "memory, length in a box",
    ),
    (
        Header,
        "cpu_walker[TILIGORMIS_ENTRIES]",
        "cpu_walker[TILIGORMIS_SLOTS]",
        "cpu_walker, length in tables",
    ),
    (
        Header,
        "sets[TILIGORMIS_SETS * TILIGORMIS_SET_WORDS]",
        "sets[TILIGORMIS_SETS]",
        "sets, length in tables",
    ),
    (Header, "    uint64_t pairs[TILIGORMIS_PAIRS];\n", "", "tiligormis_tables"),
    (Header, "    uint64_t *memory;\n    size_t memory_length;", "", "tiligormis_free, box"),
    (Crate("judge"), "(sets == SETS * SET_WORDS)", "(sets == SETS)", "sets, length in a box"),
    // inline functions: names and sentences, rows, blocks, entries, fields, version
    (
        Header,
        "tiligormis_row_add_vm(uint64_t vm)",
        "tiligormis_row_add(uint64_t vm)",
        "inline functions",
    ),
    (Header, "tables->dma_walker,", "tables->dma_map,", "tiligormis_box_of"),
    (
        Header,
        "\"TILIGORMIS_VM_UNKNOWN\",\n        \"TILIGORMIS_VM_KNOWN\",",
        "\"TILIGORMIS_VM_KNOWN\",\n        \"TILIGORMIS_VM_UNKNOWN\",",
        "name of refusal 4",
    ),
    (Header, "        \"TILIGORMIS_ACCESS_LACKING\",\n", "", "names of refusals"),
    (Header, "\"the port is idle\"", "\"the port is busy\"", "sentence of refusal 15"),
    (Header, "/* the VM is known already */", "/* the VM is known */", "sentence of refusal 5"),
    (Header, "/* the VM is not known */", "", "sentence of refusal 4"),
    (Header, "        \"the port is idle\",\n", "", "sentences of refusals"),
    (Header, "        \"unknown\",\n", "", "names of refusals"),
    (Header, "\"TILIGORMIS_WRONG_LENGTH\",", "\"unknown\",", "name of refusal 22"),
    (Header, "/* a record's length is wrong", "/* a length is wrong", "sentence of refusal 22"),
    (
        Header,
        "tiligormis_row_cpu_unmap(uint64_t vm, uint64_t guest)",
        "tiligormis_row_cpu_unmap(uint64_t guest, uint64_t vm)",
        "tiligormis_row_cpu_unmap, parameters",
    ),
    (
        Header,
        "tiligormis_row_empty_dma_slot(uint64_t slot)",
        "tiligormis_row_empty_dma_slot(uint32_t slot)",
        "tiligormis_row_empty_dma_slot, parameters",
    ),
    (
        Header,
        "{{TILIGORMIS_DMA_MAP, vm, guest, page,",
        "{{TILIGORMIS_CPU_MAP, vm, guest, page,",
        "tiligormis_row_dma_map, body",
    ),
    (
        Header,
        "{{TILIGORMIS_ASSIGN_PAGE, vm, page}}",
        "{{TILIGORMIS_ASSIGN_PAGE, page, vm}}",
        "tiligormis_row_assign_page, body",
    ),
    (
        Header,
        "/* device, guest page, word, value */",
        "/* device, word, guest page, value */",
        "tiligormis_row_dma_write, arguments",
    ),
    (
        Crate("rows"),
        "SideOperation::FillSlot(a, GuestPage(b))",
        "SideOperation::FillSlot(b, GuestPage(a))",
        "tiligormis_row_cpu_fill, arguments",
    ),
    (
        Crate("rows"),
        "region_of(vm: u64, guest: u64, page: u64,",
        "region_of(vm: u64, page: u64, guest: u64,",
        "tiligormis_row_insert_region, arguments",
    ),
    (Crate("rows"), "access: d,", "generation: d,", "tiligormis_row_cpu_map, arguments"),
    (Header, " * 15, switch CPU", " * 16, switch CPU", "tiligormis_row_switch_cpu, number"),
    (
        Header,
        "4 either VM is not known; 12 the two are one; 6 left",
        "4 either VM is not known; 6 left",
        "tiligormis_row_share_page, refusals",
    ),
    (Manual, "15; 9; 16 no read", "9; 15; 16 no read", "tiligormis_row_cpu_read, refusals"),
    (
        Header,
        "4 the VM is not known; 13 it has a CPU or a device",
        "13 it has a CPU or a device; 4 the VM is not known",
        "tiligormis_row_retire_vm, refusals",
    ),
    (
        Header,
        "answer, TILIGORMIS_ANSWER_NUMBERS);",
        "answer, TILIGORMIS_ROW_NUMBERS);",
        "tiligormis_box_operation, answer_numbers",
    ),
    (
        Header,
        "TILIGORMIS_UNIT_NUMBERS * looked_at",
        "looked_at",
        "tiligormis_box_start, units_numbers",
    ),
    (
        Header,
        "tiligormis_free(TILIGORMIS_LENT(box), free_pages",
        "tiligormis_free(free_pages",
        "tiligormis_box_free, box",
    ),
    (
        Header,
        "log, log_bytes, place, 1, most",
        "log, 8 * log_bytes, place, 1, most",
        "tiligormis_box_replay, log_length",
    ),
    (
        Header,
        "log_bytes, place, 1, most, answers",
        "log_bytes, place, 2, most, answers",
        "tiligormis_box_replay, place_length",
    ),
    (
        Header,
        "log, log_bytes, place, 1);",
        "log, TILIGORMIS_RECORD_BYTES, place, 1);",
        "tiligormis_write_record, log_length",
    ),
    (
        Header,
        "place, 1, row->numbers, TILIGORMIS_ROW_NUMBERS",
        "place, 1, row->numbers, TILIGORMIS_ANSWER_NUMBERS",
        "tiligormis_read_record, row_length",
    ),
    (Header, "(entry >> 19) & 0xfff", "(entry >> 20) & 0xfff", "tiligormis_entry_page, bit"),
    (Header, "(entry >> 16) & 0x7", "(entry >> 16) & 0xf", "tiligormis_entry_access, numbers"),
    (Header, "entry & 0xffff", "entry & 0x7fff", "tiligormis_entry_generation, numbers"),
    (
        Crate("numbers"),
        "PAGE_FIELD: u64 = 4096",
        "PAGE_FIELD: u64 = 2048",
        "tiligormis_entry_filled, bit",
    ),
    (Header, "VERSION_MINOR 4", "VERSION_MINOR 5", "version"),
    (Cargo, "version = \"0.", "version = \"1.", "version"),
    (
        Header,
        "(1000 * TILIGORMIS_VERSION_MAJOR",
        "(100 + TILIGORMIS_VERSION_MAJOR",
        "TILIGORMIS_VERSION",
    ),
    // the crates of the library
    (List, "box_cache staticlib:", "box_cache:", "crate box_cache"),
    (List, "journal staticlib:", "journal:", "crate journal"),
    (List, "slots:", "slots staticlib:", "crate slots"),
    (Crate("box_reads"), "pub fn valid(", "pub extern \"C\" fn valid(", "crate box_reads"),
];

/// Tries each change by itself, and counts it where something is found that names the thing.
pub fn try_all(texts: &Texts, report: &mut Report) {
    for (place, old, new, thing) in PLANTED {
        let mut changed = texts.clone();
        let text = text_of(&mut changed, place);
        if !text.contains(old) {
            report.failed.push(format!("planted: there is no `{old}` to change"));
            continue;
        }
        *text = text.replacen(old, new, 1);
        let found = changed.compared().failed;
        if found.iter().any(|line| line.starts_with(thing)) {
            report.passed += 1;
        } else {
            report
                .failed
                .push(format!("planted: `{old}` to `{new}`, and {thing} is not named: {found:?}"));
        }
    }
}

fn text_of<'a>(texts: &'a mut Texts, place: &Where) -> &'a mut String {
    match place {
        Header => &mut texts.header,
        Ffi => &mut texts.ffi,
        Numbers => &mut texts.numbers,
        Structs => &mut texts.structs,
        Cargo => &mut texts.cargo,
        Manual => &mut texts.manual,
        List => &mut texts.list,
        Crate(name) => texts.crates.entry(name.to_string()).or_default(),
    }
}
