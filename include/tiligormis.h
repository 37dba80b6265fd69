/*
 * Tiligormis: the page bookkeeping of a thin hypervisor, proved. This header is the library's manual for C; what the machine
 * does is in docs/MACHINE.md.
 *
 * The library keeps nothing. A box is a machine header, eight tables and memory, all of them the caller's; every function
 * works on what it is handed and gives it back when it returns.
 *
 *   static tiligormis_machine machine;
 *   static tiligormis_tables tables;
 *   static uint64_t memory[8 * TILIGORMIS_PAGE_WORDS];
 *
 *   tiligormis_unit units[] = {{1, 16, 0, 3, TILIGORMIS_READ | TILIGORMIS_WRITE, TILIGORMIS_MARK_BOTH}};
 *   tiligormis_answer answer;
 *   tiligormis_box box = tiligormis_box_of(&machine, &tables, memory, 8);
 *   uint64_t number = tiligormis_box_start(&box, 7, 1, units, 1);
 *   number = tiligormis_box_operation(&box, tiligormis_row_add_vm(1), &answer);
 *   if (number != TILIGORMIS_ACCEPTED)
 *       print(tiligormis_refusal_sentence(number));
 *
 * It is bookkeeping: it programs no MMU and sends no invalidation. Walkers and caches are the machine's picture of what hardware
 * walks and still holds, and the firmware does to the hardware what an accepted operation did to them. A read or a write goes
 * to `memory`; where guests and devices reach their memory by themselves, it says what an access is answered.
 *
 * The functions named tiligormis_box_.. and tiligormis_.._record fill in every length. Under them stand the library's own, for
 * whoever has the parts of a box apart: there each array crosses as a pointer and a length, and a length is always a number of
 * 64-bit words, of a header 215, of an answer 4, of a unit 6, of a row 8, and never of structs. (A slot is one such word.) Only
 * a log is of bytes, and its length a number of bytes.
 *
 * A box.
 *
 *   tiligormis_box
 *   +------------+
 *   | machine    |---> tiligormis_machine     pages, shared span, units; known VMs, the VM on each port, both hands
 *   | sets       |---> uint64_t[34 * 16]      a bit for each page: the pool, the shared span, each VM's CPU and DMA pages
 *   | pairs      |---> uint64_t[128]          which VM lends which page to which
 *   | cpu_map    |---> uint64_t[512]          guest page to page, for CPUs, as the firmware mapped it
 *   | cpu_walker |---> uint64_t[512]          the same, as the hardware walks it
 *   | cpu_cache  |---> tiligormis_slot[64]    what the CPUs still hold of it
 *   | dma_map    |---> uint64_t[512]          guest page to page, for devices
 *   | dma_walker |---> uint64_t[512]          the same, as the hardware walks it
 *   | dma_cache  |---> tiligormis_slot[64]    what the devices still hold of it
 *   | memory     |---> uint64_t[512 * pages]  the words of the pages
 *   +------------+
 *
 * Words.
 *
 *   page         512 words of 64 bits. A guest page is a page as a VM numbers what it sees.
 *   port, side   a port is a CPU or a device. The two sides, CPU and DMA, are what belongs to CPUs and what to devices.
 *   held         a VM holds a page that is among its CPU pages or its DMA pages; it owns those among its CPU pages.
 *   claimed      held by a VM, on either side. A page on which a VM's last claim ends is cleared: its words become 0.
 *   pool         the pages that nobody owns and that are not of the shared span. One may still be held for DMA.
 *   lent         a page is lent by its owner to another VM, by a pair; that VM may CPU-map it. An array is lent to a call.
 *   edge         one direction of a pair. A pair joins two VMs on a page; both its edges name the page.
 *   shared span  pages, fixed at start, that nobody claims and every VM may DMA-map. They are never cleared.
 *   unit         a region that start was told of. No other, and no part of one, can be inserted or removed.
 *   generation   a number that is kept with a mapping and handed back; the machine makes nothing of it.
 *
 * Where DMA pages come from. A device reaches what the VM that it is bound to has DMA-mapped, and a VM may DMA-map its DMA
 * pages and the shared span. Assign page gives a CPU page, never a DMA page. What gives DMA pages is DMA insert region alone,
 * and its region must be a unit marked TILIGORMIS_MARK_DMA or _BOTH. So what devices may reach is settled at start: by units,
 * or by the shared span. CPUs reach a DMA page too where the VM also owns and CPU-maps it, by insert region (a unit marked
 * _BOTH, or another for CPUs) or by assign page and CPU map. The shared span cannot be CPU-mapped. A unit marked _BOTH is
 * inserted and removed for each side by itself, in whichever order. A unit names its VM: no other can ever have its pages by
 * it. Units may overlap, repeat, and name pages that another's unit names; what is refused then is the insertion, while
 * somebody else has a page.
 *
 * How a VM is retired. Its CPUs and devices come first: switch CPU and bind device to TILIGORMIS_IDLE. Then retire VM takes it
 * away in one call with all that it has: mappings, slots, pairs, and its pages, which are cleared. Other VMs lose the pairs that
 * join them with it and what they CPU-map of its pages, and nothing else.
 *
 *   tiligormis_box_operation(&box, tiligormis_row_switch_cpu(cpu, TILIGORMIS_IDLE), &answer);
 *   tiligormis_box_operation(&box, tiligormis_row_bind_device(device, TILIGORMIS_IDLE), &answer);
 *   number = tiligormis_box_operation(&box, tiligormis_row_retire_vm(vm), &answer);
 *
 * How a VM is taken down piece by piece. Remove VM wants nothing left of it; this order gets there.
 *
 *   1  CPUs, devices  switch CPU and bind device to TILIGORMIS_IDLE; at the latest before step 6
 *   2  mappings       CPU unmap and DMA unmap for what CPU map and DMA map made, and for what other VMs CPU-map of the pages
 *                     that it lends. What insert region and DMA insert region made stays
 *   3  pairs          unshare page, whichever end it is
 *   4  CPU pages      remove region for what came by insert region, reclaim page for every other. A region of which a mapping
 *                     is gone or replaced goes page by page: the rest of its mappings by CPU unmap, then reclaim page
 *   5  DMA pages      DMA remove region. One of its mappings that is gone or replaced is first put back, by DMA map with the
 *                     region's access and generation 0: but for retire VM nothing else ends the claim
 *   6  the VM         remove VM
 *
 * Step 5 may come before 3 and 4, and retire VM, once step 1 is done, in place of all that is left. Either way a page is
 * cleared when the VM's last claim on it ends, and slots are dropped with the mappings that they hold.
 *
 * How a box is replayed elsewhere. The firmware keeps an operation log: after each operation, accepted or refused, it writes
 * the row's record and puts it into a ring or a file of its own; the library keeps none. A row that was refused with 1 is left
 * out: the box was not valid then, and the one that it is replayed on is.
 *
 *   uint8_t record[TILIGORMIS_RECORD_BYTES];
 *   uint64_t bytes = 0;
 *   number = tiligormis_box_operation(&box, row, &answer);
 *   if (number != TILIGORMIS_STATE_NOT_VALID &&
 *       tiligormis_write_record(row, record, sizeof record, &bytes) == TILIGORMIS_ACCEPTED)
 *       append(record, bytes);
 *
 * A row of which no record can be made is refused by the machine as well, so no change of the box is missing. Support takes the
 * box as it was when the log began, started anew with the same units or copied then with its memory, and replays the log on
 * it, whole or in pieces; that ends where the firmware's box was after the last record.
 *
 *   uint64_t place = 0, taken;
 *   number = tiligormis_box_replay(&copy, log, log_bytes, &place, UINT64_MAX, NULL, 0, &taken);
 *   if (number != TILIGORMIS_ACCEPTED)
 *       print(tiligormis_refusal_sentence(number), place);
 *
 * What is no operation is in no log: start, a slot filled or emptied by hand, what devices write to memory by themselves. The
 * record of a write has the value, so a log tells as much as memory does to whoever gets it.
 *
 * What is promised, and proved, for every content and every length of what is lent: the call ends, does nothing undefined, and
 * touches no byte outside. Every entry but start judges the box first (the functions over a log and over one cache, at the
 * end, are no entries). One that is not valid is refused with TILIGORMIS_STATE_NOT_VALID and left as it was: a length that is
 * not the one named below (a null pointer with length 0 among them), a mark that is none of the three, a count of units above
 * TILIGORMIS_UNITS, any number out of range, any rule of validity broken. The inline functions of this header are C, and not
 * proved; they are tested.
 *
 * What C must see to, since no library can: a pointer with a length other than 0 points to that many elements, aligned as C
 * aligns them; no two arrays of a call overlap, header, answers, rows, log and place included, except that two which are both
 * const may; and nothing else writes to them during the call. Memory is one of them: a device that writes by itself is kept,
 * while a call runs, off the pages that its operations read, write or clear. The code touches no other word of it; start
 * writes all.
 *
 * What it needs. A 64-bit little-endian processor, aarch64 or x86-64, and of it the general registers alone: the code reads and
 * writes no vector or floating-point register (on x86-64 no SSE, x87 or MMX), and nothing below the stack pointer (no red
 * zone). So it may run at EL2 or in ring 0, and an interrupt may come at any instruction. On aarch64 a few accesses to the
 * stack are not aligned: it is to be normal memory, with SCTLR_ELx.A = 0. The code calls memcpy and memset and nothing else.
 * Simple byte loops do, if they copy and fill as C says and return their first argument (gcc -fno-tree-loop-distribute-patterns,
 * clang -fno-builtin, lest such a loop becomes a call of itself). It takes none of the heap, and of the stack at most what
 * follows, the return address included, beside the arguments that C puts there and what memcpy and memset take:
 *
 *     bytes of stack           aarch64    x86-64
 *     tiligormis_empty_slot      1,280     1,280
 *     tiligormis_fill_slot       1,280     1,280
 *     tiligormis_find_slot       1,280     1,280
 *     tiligormis_free           14,336    14,336
 *     tiligormis_log_read            0       256
 *     tiligormis_log_write         256       256
 *     tiligormis_operation      16,384    16,384
 *     tiligormis_replay         16,128    16,128
 *     tiligormis_sequence       16,384    16,384
 *     tiligormis_start           2,816     2,816
 *     tiligormis_valid          14,336    14,336
 *
 * Link with libtiligormis.a. All functions may be called from several threads at once, on different boxes.
 */
#ifndef TILIGORMIS_H
#define TILIGORMIS_H

#include <stdbool.h>
#include <stddef.h>
#include <stdint.h>

#ifdef __cplusplus
extern "C" {
#endif

/* ---- Version ------------------------------------------------------------------------------------------------------------ */

#define TILIGORMIS_VERSION_MAJOR 0
#define TILIGORMIS_VERSION_MINOR 4
#define TILIGORMIS_VERSION (1000 * TILIGORMIS_VERSION_MAJOR + TILIGORMIS_VERSION_MINOR)

/* ---- Limits ------------------------------------------------------------------------------------------------------------- */

#define TILIGORMIS_PAGE_WORDS 512    /* 64-bit words of a page */
#define TILIGORMIS_PAGES 1024        /* the most physical pages; a machine has 1 to this many */
#define TILIGORMIS_GUEST_PAGES 65536 /* guest pages of a VM: 0 to 65,535 */
#define TILIGORMIS_VMS 16            /* VM ids: 0 to 15 */
#define TILIGORMIS_PORTS 8           /* CPUs: 0 to 7; as many devices */
#define TILIGORMIS_ENTRIES 512       /* entries of a map, software or walker */
#define TILIGORMIS_PAIRS 128         /* sharing pairs */
#define TILIGORMIS_SLOTS 64          /* slots of a translation cache */
#define TILIGORMIS_UNITS 32          /* the most units */
#define TILIGORMIS_ACCESSES 8        /* accesses: 0 to 7 */
#define TILIGORMIS_GENERATIONS 65536 /* generations: 0 to 65,535 */
#define TILIGORMIS_SETS 34           /* page sets: pool, shared span, two for each VM */
#define TILIGORMIS_SET_WORDS 16      /* 64-bit words of a page set */

#define TILIGORMIS_ROW_NUMBERS 8     /* numbers of a row */
#define TILIGORMIS_ANSWER_NUMBERS 4  /* numbers of an answer */
#define TILIGORMIS_UNIT_NUMBERS 6    /* numbers of a unit */
#define TILIGORMIS_FREE_NUMBERS 2    /* numbers of the free query's result */
#define TILIGORMIS_MACHINE_NUMBERS 215 /* numbers of a machine header */

#define TILIGORMIS_KINDS 27          /* kinds of a log's records: 1 to 27, the operations' numbers */
#define TILIGORMIS_RECORD_BYTES 24   /* bytes of the longest record that a row makes */

#define TILIGORMIS_IDLE 4294967295u  /* how rows and the header write that a port is idle */
#define TILIGORMIS_NO_PAGE UINT64_MAX /* the lowest free page where none is free */

/* ---- Access bits and marks ---------------------------------------------------------------------------------------------- */

#define TILIGORMIS_READ 1
#define TILIGORMIS_WRITE 2
#define TILIGORMIS_EXECUTE 4

#define TILIGORMIS_MARK_CPU 1  /* a unit that may be inserted for CPUs */
#define TILIGORMIS_MARK_DMA 2  /* for devices */
#define TILIGORMIS_MARK_BOTH 3 /* for both */

/* ---- Refusal numbers, each with its sentence ---------------------------------------------------------------------------- */

enum tiligormis_refusal {
    TILIGORMIS_ACCEPTED = 0,         /* accepted */
    TILIGORMIS_STATE_NOT_VALID = 1,  /* the box is not valid: a rule, memory's length or an array's length */
    TILIGORMIS_OUT_OF_RANGE = 2,     /* a number is out of range, or the operation is unknown */
    TILIGORMIS_BAD_SPAN = 3,         /* a span is bad: no page, or past the last guest page or page */
    TILIGORMIS_VM_UNKNOWN = 4,       /* the VM is not known */
    TILIGORMIS_VM_KNOWN = 5,         /* the VM is known already */
    TILIGORMIS_PAGE_NOT_HELD = 6,    /* a page is not held as needed */
    TILIGORMIS_PAGE_CLAIMED = 7,     /* a page is claimed elsewhere */
    TILIGORMIS_NO_SUCH_UNIT = 8,     /* no unit has these five fields and a mark that suits */
    TILIGORMIS_MAPPING_DIFFERS = 9,  /* the mapping is absent or different */
    TILIGORMIS_MAPPING_PRESENT = 10, /* a guest page is mapped already */
    TILIGORMIS_STILL_IN_USE = 11,    /* a page is still mapped or shared */
    TILIGORMIS_PAIR_WRONG = 12,      /* the pair is wrong: a VM with itself, or no such pair */
    TILIGORMIS_VM_BUSY = 13,         /* the VM still has something: a CPU, a device, for remove VM also a page, mapping or edge */
    TILIGORMIS_NO_ROOM = 14,         /* there is no room: too few entries are free */
    TILIGORMIS_PORT_IDLE = 15,       /* the port is idle */
    TILIGORMIS_ACCESS_LACKING = 16   /* the mapping's access lacks the needed bit */
};

/* Why a record of a log is not read or not written. No answer of the machine has one of these. */
enum tiligormis_log_refusal {
    TILIGORMIS_CUT_SHORT = 20,    /* a record is cut short: one to three bytes are left, or fewer than its length says */
    TILIGORMIS_UNKNOWN_KIND = 21, /* a record's kind is unknown: no operation has this number */
    TILIGORMIS_WRONG_LENGTH = 22, /* a record's length is wrong: not that of its kind */
    TILIGORMIS_DOES_NOT_FIT = 23  /* a record does not fit: an argument is over four bytes, or there is too little room */
};

/* The name above of a refusal's number, of the machine or of a log; "unknown" of any other number. */
static inline const char *tiligormis_refusal_name(uint64_t number) {
    static const char *const names[] = {
        "TILIGORMIS_ACCEPTED",
        "TILIGORMIS_STATE_NOT_VALID",
        "TILIGORMIS_OUT_OF_RANGE",
        "TILIGORMIS_BAD_SPAN",
        "TILIGORMIS_VM_UNKNOWN",
        "TILIGORMIS_VM_KNOWN",
        "TILIGORMIS_PAGE_NOT_HELD",
        "TILIGORMIS_PAGE_CLAIMED",
        "TILIGORMIS_NO_SUCH_UNIT",
        "TILIGORMIS_MAPPING_DIFFERS",
        "TILIGORMIS_MAPPING_PRESENT",
        "TILIGORMIS_STILL_IN_USE",
        "TILIGORMIS_PAIR_WRONG",
        "TILIGORMIS_VM_BUSY",
        "TILIGORMIS_NO_ROOM",
        "TILIGORMIS_PORT_IDLE",
        "TILIGORMIS_ACCESS_LACKING",
        "unknown",
        "unknown",
        "unknown",
        "TILIGORMIS_CUT_SHORT",
        "TILIGORMIS_UNKNOWN_KIND",
        "TILIGORMIS_WRONG_LENGTH",
        "TILIGORMIS_DOES_NOT_FIT",
    };
    return number < sizeof names / sizeof *names ? names[number] : "unknown";
}

/* The sentence above of a refusal's number, likewise, for people; "unknown" of any other number. */
static inline const char *tiligormis_refusal_sentence(uint64_t number) {
    static const char *const sentences[] = {
        "accepted",
        "the box is not valid: a rule, memory's length or an array's length",
        "a number is out of range, or the operation is unknown",
        "a span is bad: no page, or past the last guest page or page",
        "the VM is not known",
        "the VM is known already",
        "a page is not held as needed",
        "a page is claimed elsewhere",
        "no unit has these five fields and a mark that suits",
        "the mapping is absent or different",
        "a guest page is mapped already",
        "a page is still mapped or shared",
        "the pair is wrong: a VM with itself, or no such pair",
        "the VM still has something: a CPU, a device, for remove VM also a page, mapping or edge",
        "there is no room: too few entries are free",
        "the port is idle",
        "the mapping's access lacks the needed bit",
        "unknown",
        "unknown",
        "unknown",
        "a record is cut short: one to three bytes are left, or fewer than its length says",
        "a record's kind is unknown: no operation has this number",
        "a record's length is wrong: not that of its kind",
        "a record does not fit: an argument is over four bytes, or there is too little room",
    };
    return number < sizeof sentences / sizeof *sentences ? sentences[number] : "unknown";
}

/* ---- Operations: the first number of a row, and the arguments that follow it; numbers beyond them are ignored ------------- */

enum tiligormis_operation_number {
    TILIGORMIS_ADD_VM = 1,              /* vm */
    TILIGORMIS_REMOVE_VM = 2,           /* vm */
    TILIGORMIS_ASSIGN_PAGE = 3,         /* vm, page */
    TILIGORMIS_RECLAIM_PAGE = 4,        /* vm, page */
    TILIGORMIS_SHARE_PAGE = 5,          /* left vm (the owner), right vm, page */
    TILIGORMIS_UNSHARE_PAGE = 6,        /* left vm, right vm, page */
    TILIGORMIS_CPU_MAP = 7,             /* vm, guest page, page, access, generation */
    TILIGORMIS_DMA_MAP = 8,             /* vm, guest page, page, access, generation */
    TILIGORMIS_CPU_UNMAP = 9,           /* vm, guest page */
    TILIGORMIS_DMA_UNMAP = 10,          /* vm, guest page */
    TILIGORMIS_INSERT_REGION = 11,      /* vm, guest base, page base, count, access */
    TILIGORMIS_REMOVE_REGION = 12,      /* vm, guest base, page base, count, access */
    TILIGORMIS_DMA_INSERT_REGION = 13,  /* vm, guest base, page base, count, access */
    TILIGORMIS_DMA_REMOVE_REGION = 14,  /* vm, guest base, page base, count, access */
    TILIGORMIS_SWITCH_CPU = 15,         /* cpu, vm or TILIGORMIS_IDLE */
    TILIGORMIS_BIND_DEVICE = 16,        /* device, vm or TILIGORMIS_IDLE */
    TILIGORMIS_CPU_FILL = 17,           /* cpu, guest page */
    TILIGORMIS_DMA_FILL = 18,           /* device, guest page */
    TILIGORMIS_EMPTY_CPU_SLOT = 19,     /* slot */
    TILIGORMIS_EMPTY_DMA_SLOT = 20,     /* slot */
    TILIGORMIS_CPU_READ = 21,           /* cpu, guest page, word */
    TILIGORMIS_DMA_READ = 22,           /* device, guest page, word */
    TILIGORMIS_CPU_WRITE = 23,          /* cpu, guest page, word, value */
    TILIGORMIS_DMA_WRITE = 24,          /* device, guest page, word, value */
    TILIGORMIS_DATA_BARRIER = 25,
    TILIGORMIS_INSTRUCTION_BARRIER = 26,
    TILIGORMIS_RETIRE_VM = 27           /* vm */
};

/* ---- Structs. Those of numbers only cross as a pointer and how many numbers they have. ------------------------------------ */

/*
 * A slot of a translation cache: the translation of a guest page of a VM, held for one CPU or device. An empty slot is all 0.
 * A filled one has as its entry 2^31 + page * 2^19 + access * 2^16 + generation.
 */
typedef struct tiligormis_slot {
    uint8_t port; /* CPU or device */
    uint8_t vm;
    uint16_t guest;
    uint32_t entry;
} tiligormis_slot;

/* Of an entry whether it is filled, and its page, access and generation. Of a word w of a map the entry is (uint32_t)w. */
static inline bool tiligormis_entry_filled(uint32_t entry) { return ((entry >> 31) & 0x1) != 0; }
static inline uint32_t tiligormis_entry_page(uint32_t entry) { return (entry >> 19) & 0xfff; }
static inline uint32_t tiligormis_entry_access(uint32_t entry) { return (entry >> 16) & 0x7; }
static inline uint32_t tiligormis_entry_generation(uint32_t entry) { return entry & 0xffff; }

/* A region that may be inserted and removed, all of it, with this access, and for which side. */
typedef struct tiligormis_unit {
    uint64_t vm;
    uint64_t guest; /* the first guest page */
    uint64_t page;  /* the first page */
    uint64_t count; /* 1 or more pages */
    uint64_t access;
    uint64_t mark; /* TILIGORMIS_MARK_CPU, _DMA or _BOTH */
} tiligormis_unit;

/*
 * The machine header. tiligormis_start writes all of it. Operations change `known`, the hands and the ports; the rest stays.
 * Units from `unit_count` on are not looked at; start writes them as 0 marked CPU.
 */
typedef struct tiligormis_machine {
    uint64_t pages; /* N */
    uint64_t shared_base;
    uint64_t shared_count;
    uint64_t unit_count;
    uint64_t known;    /* bit v is set where VM v is known */
    uint64_t cpu_hand; /* the next slot of the CPU cache to be replaced, 0 to 63 */
    uint64_t dma_hand;
    uint64_t cpus[TILIGORMIS_PORTS];    /* the VM on each CPU, or TILIGORMIS_IDLE */
    uint64_t devices[TILIGORMIS_PORTS]; /* the VM that each device is bound to, or TILIGORMIS_IDLE */
    tiligormis_unit units[TILIGORMIS_UNITS];
} tiligormis_machine;

/* An operation's number and its arguments; see the constructors below. */
typedef struct tiligormis_row {
    uint64_t numbers[TILIGORMIS_ROW_NUMBERS];
} tiligormis_row;

typedef struct tiligormis_answer {
    uint64_t number;  /* 0, or the refusal number */
    uint64_t index;   /* of a region refused with 6, 7, 9, 10 or 11: where in it, from 0, its lowest failing page is; else 0 */
    uint64_t dropped; /* cache slots that an unmapping, a replacement, the removal of a region or a retirement dropped; else 0 */
    uint64_t word;    /* the word read; 0 except for an accepted read */
} tiligormis_answer;

typedef struct tiligormis_free_pages {
    uint64_t count;  /* of free pages: in the pool, and held by no VM for DMA */
    uint64_t lowest; /* of them; TILIGORMIS_NO_PAGE where none is free */
} tiligormis_free_pages;

/* ---- Rows: a constructor for each operation ----------------------------------------------------------------------------- */

/*
 * Each block says why the operation is refused, in the order in which it is asked, and what it does where it is not. Before
 * that come, for every operation, 1 where the box is not valid, and 2 where an argument is out of range: a VM, guest page,
 * page of the machine, access, generation, CPU, device, slot or word. Of a region 2 asks for VM and access alone; guest page,
 * page and count are asked by 3, without wrapping: a count of 0, or a span past the last guest page or the machine's last page.
 *
 * Refused, nothing changes. Accepted, nothing changes but what is said, and the walker's map always with the map. What is
 * dropped is every slot of that side with the mapping's VM and guest page, and answer.dropped counts them. To clear a page is
 * to set its 512 words to 0. Of a region every page is tried for one reason before the next is asked, and answer.index is the
 * lowest that fails, counted from 0.
 */

/*
 * 1, add VM.
 * Refused: 5 the VM is known already.
 * Effect: the VM is known, and has nothing.
 */
static inline tiligormis_row tiligormis_row_add_vm(uint64_t vm) {
    tiligormis_row row = {{TILIGORMIS_ADD_VM, vm}};
    return row;
}

/*
 * 2, remove VM; how it comes to that, the head of this file says. Retire VM, 27, takes away a VM that still has something.
 * Refused: 4 the VM is not known; 13 it has a CPU or DMA page, a CPU or DMA mapping, an edge, a CPU or a device.
 * Effect: the VM is not known.
 */
static inline tiligormis_row tiligormis_row_remove_vm(uint64_t vm) {
    tiligormis_row row = {{TILIGORMIS_REMOVE_VM, vm}};
    return row;
}

/*
 * 3, assign page.
 * Refused: 4 the VM is not known; 6 the page is not in the pool; 7 another VM holds it for DMA.
 * Effect: the page goes from the pool to the VM's CPU pages. It is not mapped.
 */
static inline tiligormis_row tiligormis_row_assign_page(uint64_t vm, uint64_t page) {
    tiligormis_row row = {{TILIGORMIS_ASSIGN_PAGE, vm, page}};
    return row;
}

/*
 * 4, reclaim page.
 * Refused: 4 the VM is not known; 6 it does not own the page; 11 a CPU mapping of any VM targets the page, or an edge names
 *   it.
 * Effect: the page goes back to the pool. It is cleared, unless the VM holds it for DMA.
 */
static inline tiligormis_row tiligormis_row_reclaim_page(uint64_t vm, uint64_t page) {
    tiligormis_row row = {{TILIGORMIS_RECLAIM_PAGE, vm, page}};
    return row;
}

/*
 * 5, share page: left lends it to right.
 * Refused: 4 either VM is not known; 12 the two are one; 6 left does not own the page; 14 there is no free pair, and this one
 *   is not there already.
 * Effect: right may CPU-map the page. A pair that is there already, in either order, stays as it is.
 */
static inline tiligormis_row tiligormis_row_share_page(uint64_t left, uint64_t right, uint64_t page) {
    tiligormis_row row = {{TILIGORMIS_SHARE_PAGE, left, right, page}};
    return row;
}

/*
 * 6, unshare page, the ends in either order.
 * Refused: 4 either VM is not known; 12 there is no such pair; 11 the end that does not own the page still CPU-maps it.
 * Effect: the pair is gone.
 */
static inline tiligormis_row tiligormis_row_unshare_page(uint64_t left, uint64_t right, uint64_t page) {
    tiligormis_row row = {{TILIGORMIS_UNSHARE_PAGE, left, right, page}};
    return row;
}

/*
 * 7, CPU map.
 * Refused: 4 the VM is not known; 6 it neither owns the page nor is lent it; 14 there is no free entry, and the guest page is
 *   not mapped already.
 * Effect: CPUs find the page at the guest page, with this access. What was mapped there is replaced, and its CPU slots are
 *   dropped.
 */
static inline tiligormis_row tiligormis_row_cpu_map(uint64_t vm, uint64_t guest, uint64_t page, uint64_t access,
                                                    uint64_t generation) {
    tiligormis_row row = {{TILIGORMIS_CPU_MAP, vm, guest, page, access, generation}};
    return row;
}

/*
 * 8, DMA map.
 * Refused: 4 the VM is not known; 6 the page is neither a DMA page of it nor of the shared span; 14 there is no free entry,
 *   and the guest page is not mapped already.
 * Effect: devices find the page at the guest page, with this access. What was mapped there is replaced, and its DMA slots are
 *   dropped.
 */
static inline tiligormis_row tiligormis_row_dma_map(uint64_t vm, uint64_t guest, uint64_t page, uint64_t access,
                                                    uint64_t generation) {
    tiligormis_row row = {{TILIGORMIS_DMA_MAP, vm, guest, page, access, generation}};
    return row;
}

/*
 * 9, CPU unmap.
 * Refused: 4 the VM is not known; 9 the guest page is not CPU-mapped.
 * Effect: the mapping is gone, and its CPU slots are dropped. The VM holds the page as before.
 */
static inline tiligormis_row tiligormis_row_cpu_unmap(uint64_t vm, uint64_t guest) {
    tiligormis_row row = {{TILIGORMIS_CPU_UNMAP, vm, guest}};
    return row;
}

/*
 * 10, DMA unmap.
 * Refused: 4 the VM is not known; 9 the guest page is not DMA-mapped.
 * Effect: the mapping is gone, and its DMA slots are dropped. The VM holds the page as before.
 */
static inline tiligormis_row tiligormis_row_dma_unmap(uint64_t vm, uint64_t guest) {
    tiligormis_row row = {{TILIGORMIS_DMA_UNMAP, vm, guest}};
    return row;
}

/*
 * 11, insert region.
 * Refused: 3 a span is bad; 4 the VM is not known; 8 no unit marked CPU or both is this region; 6 a page is not in the pool;
 *   10 a guest page is CPU-mapped already; 7 another VM holds a page for DMA; 14 fewer entries are free than the count.
 * Effect: the pages go from the pool to the VM's CPU pages, and guest page guest + k is CPU-mapped onto page + k, with this
 *   access and generation 0.
 */
static inline tiligormis_row tiligormis_row_insert_region(uint64_t vm, uint64_t guest, uint64_t page, uint64_t count,
                                                          uint64_t access) {
    tiligormis_row row = {{TILIGORMIS_INSERT_REGION, vm, guest, page, count, access}};
    return row;
}

/*
 * 12, remove region.
 * Refused: 3 a span is bad; 4 the VM is not known; 8 no unit marked CPU or both is this region; 6 the VM does not own every
 *   page; 9 a guest page is not CPU-mapped as insert region mapped it; 11 another CPU mapping, of any VM, targets a page, or an
 *   edge names it.
 * Effect: the mappings are gone, their CPU slots are dropped, and the pages go back to the pool. Each is cleared, unless the
 *   VM holds it for DMA.
 */
static inline tiligormis_row tiligormis_row_remove_region(uint64_t vm, uint64_t guest, uint64_t page, uint64_t count,
                                                          uint64_t access) {
    tiligormis_row row = {{TILIGORMIS_REMOVE_REGION, vm, guest, page, count, access}};
    return row;
}

/*
 * 13, DMA insert region.
 * Refused: 3 a span is bad; 4 the VM is not known; 8 no unit marked DMA or both is this region; 10 a guest page is DMA-mapped
 *   already; 7 another VM holds a page, for CPU or DMA, or it is of the shared span; 14 fewer entries are free than the count.
 * Effect: the pages, which the VM owns or the pool has, become DMA pages of the VM besides, and guest page guest + k is
 *   DMA-mapped onto page + k, with this access and generation 0.
 */
static inline tiligormis_row tiligormis_row_dma_insert_region(uint64_t vm, uint64_t guest, uint64_t page, uint64_t count,
                                                              uint64_t access) {
    tiligormis_row row = {{TILIGORMIS_DMA_INSERT_REGION, vm, guest, page, count, access}};
    return row;
}

/*
 * 14, DMA remove region.
 * Refused: 3 a span is bad; 4 the VM is not known; 8 no unit marked DMA or both is this region; 6 the VM does not hold
 *   every page for DMA; 9 a guest page is not DMA-mapped as DMA insert region mapped it; 11 another DMA mapping targets a page.
 * Effect: the mappings are gone, their DMA slots are dropped, and the pages are no DMA pages of the VM. Each is cleared,
 *   unless the VM owns it.
 */
static inline tiligormis_row tiligormis_row_dma_remove_region(uint64_t vm, uint64_t guest, uint64_t page, uint64_t count,
                                                              uint64_t access) {
    tiligormis_row row = {{TILIGORMIS_DMA_REMOVE_REGION, vm, guest, page, count, access}};
    return row;
}

/*
 * 15, switch CPU to a VM, or to TILIGORMIS_IDLE.
 * Refused: 4 the VM is not known.
 * Effect: the VM, or nobody, is on the CPU. No slot is dropped.
 */
static inline tiligormis_row tiligormis_row_switch_cpu(uint64_t cpu, uint64_t vm) {
    tiligormis_row row = {{TILIGORMIS_SWITCH_CPU, cpu, vm}};
    return row;
}

/*
 * 16, bind device to a VM, or to TILIGORMIS_IDLE.
 * Refused: 4 the VM is not known.
 * Effect: the device is bound to the VM, or to nobody. No slot is dropped.
 */
static inline tiligormis_row tiligormis_row_bind_device(uint64_t device, uint64_t vm) {
    tiligormis_row row = {{TILIGORMIS_BIND_DEVICE, device, vm}};
    return row;
}

/*
 * 17, CPU fill.
 * Refused: 15 nobody is on the CPU; 9 its VM does not CPU-map the guest page.
 * Effect: a CPU slot holds the translation: the slot that held it already, else the lowest empty one, else the one at the
 *   hand, which moves on. In a valid box a slot holds what the walker has, so a fill changes no later answer but `dropped`.
 */
static inline tiligormis_row tiligormis_row_cpu_fill(uint64_t cpu, uint64_t guest) {
    tiligormis_row row = {{TILIGORMIS_CPU_FILL, cpu, guest}};
    return row;
}

/*
 * 18, DMA fill.
 * Refused: 15 the device is bound to nobody; 9 its VM does not DMA-map the guest page.
 * Effect: a DMA slot holds the translation: the slot that held it already, else the lowest empty one, else the one at the
 *   hand, which moves on. In a valid box a slot holds what the walker has, so a fill changes no later answer but `dropped`.
 */
static inline tiligormis_row tiligormis_row_dma_fill(uint64_t device, uint64_t guest) {
    tiligormis_row row = {{TILIGORMIS_DMA_FILL, device, guest}};
    return row;
}

/*
 * 19, empty CPU slot.
 * Refused: none.
 * Effect: the slot is empty, whatever it held.
 */
static inline tiligormis_row tiligormis_row_empty_cpu_slot(uint64_t slot) {
    tiligormis_row row = {{TILIGORMIS_EMPTY_CPU_SLOT, slot}};
    return row;
}

/*
 * 20, empty DMA slot.
 * Refused: none.
 * Effect: the slot is empty, whatever it held.
 */
static inline tiligormis_row tiligormis_row_empty_dma_slot(uint64_t slot) {
    tiligormis_row row = {{TILIGORMIS_EMPTY_DMA_SLOT, slot}};
    return row;
}

/*
 * 21, CPU read.
 * Refused: 15 nobody is on the CPU; 9 its VM does not CPU-map the guest page; 16 the access lacks TILIGORMIS_READ.
 * Effect: the answer has the word. Nothing changes.
 */
static inline tiligormis_row tiligormis_row_cpu_read(uint64_t cpu, uint64_t guest, uint64_t word) {
    tiligormis_row row = {{TILIGORMIS_CPU_READ, cpu, guest, word}};
    return row;
}

/*
 * 22, DMA read.
 * Refused: 15 the device is bound to nobody; 9 its VM does not DMA-map the guest page; 16 the access lacks TILIGORMIS_READ.
 * Effect: the answer has the word. Nothing changes.
 */
static inline tiligormis_row tiligormis_row_dma_read(uint64_t device, uint64_t guest, uint64_t word) {
    tiligormis_row row = {{TILIGORMIS_DMA_READ, device, guest, word}};
    return row;
}

/*
 * 23, CPU write.
 * Refused: 15 nobody is on the CPU; 9 its VM does not CPU-map the guest page; 16 the access lacks TILIGORMIS_WRITE.
 * Effect: the word becomes the value.
 */
static inline tiligormis_row tiligormis_row_cpu_write(uint64_t cpu, uint64_t guest, uint64_t word, uint64_t value) {
    tiligormis_row row = {{TILIGORMIS_CPU_WRITE, cpu, guest, word, value}};
    return row;
}

/*
 * 24, DMA write.
 * Refused: 15 the device is bound to nobody; 9 its VM does not DMA-map the guest page; 16 the access lacks TILIGORMIS_WRITE.
 * Effect: the word becomes the value.
 */
static inline tiligormis_row tiligormis_row_dma_write(uint64_t device, uint64_t guest, uint64_t word, uint64_t value) {
    tiligormis_row row = {{TILIGORMIS_DMA_WRITE, device, guest, word, value}};
    return row;
}

/*
 * 25, data barrier.
 * Refused: none.
 * Effect: nothing changes.
 */
static inline tiligormis_row tiligormis_row_data_barrier(void) {
    tiligormis_row row = {{TILIGORMIS_DATA_BARRIER}};
    return row;
}

/*
 * 26, instruction barrier.
 * Refused: none.
 * Effect: nothing changes.
 */
static inline tiligormis_row tiligormis_row_instruction_barrier(void) {
    tiligormis_row row = {{TILIGORMIS_INSTRUCTION_BARRIER}};
    return row;
}

/*
 * 27, retire VM, with all that it has; it may have nothing.
 * Refused: 4 the VM is not known; 13 it has a CPU or a device. Nothing else that it has is a reason.
 * Effect: the VM is not known. Its CPU and DMA mappings are gone, and the CPU mappings of other VMs that target a page which it
 *   owned; the slots of all these are dropped, and answer.dropped counts those of both sides together. Every pair of which it
 *   was an end is gone. The pages that it owned go back to the pool, and it holds none for DMA. Each page that it held is
 *   cleared; pages that it was lent, and those of the shared span, are not.
 */
static inline tiligormis_row tiligormis_row_retire_vm(uint64_t vm) {
    tiligormis_row row = {{TILIGORMIS_RETIRE_VM, vm}};
    return row;
}

/* ---- The box ------------------------------------------------------------------------------------------------------------ */

/*
 * Storage for all that is lent with a header, memory apart. Nothing needs to be written into it before start.
 *
 *   sets        34 page sets of 16 words each: words 16 * s to 16 * s + 15 are set s, and page p is bit p % 64 of its word
 *               p / 64. Set 0 is the pool, set 1 the shared span, set 2 + 2 * v the CPU pages of VM v, 3 + 2 * v its DMA pages.
 *   pairs       a word for each sharing pair: left * 2^48 + right * 2^32 + 2^31 + page * 2^19, its ends in the order in which
 *               they were given; 0 is an empty place.
 *   cpu_map     a word for each mapping: vm * 2^48 + guest * 2^32 + entry, the entry as in a slot; 0 is an empty place.
 *   cpu_walker  the same for what the hardware walks; equal to cpu_map as a map, in whatever order.
 *   cpu_cache   the slots. dma_map, dma_walker and dma_cache are the devices' likewise.
 */
typedef struct tiligormis_tables {
    uint64_t sets[TILIGORMIS_SETS * TILIGORMIS_SET_WORDS];
    uint64_t pairs[TILIGORMIS_PAIRS];
    uint64_t cpu_map[TILIGORMIS_ENTRIES];
    uint64_t cpu_walker[TILIGORMIS_ENTRIES];
    tiligormis_slot cpu_cache[TILIGORMIS_SLOTS];
    uint64_t dma_map[TILIGORMIS_ENTRIES];
    uint64_t dma_walker[TILIGORMIS_ENTRIES];
    tiligormis_slot dma_cache[TILIGORMIS_SLOTS];
} tiligormis_tables;

/*
 * A box: where its header, tables and memory stand, in the order in which every entry takes them. Each table has as many
 * elements as in tiligormis_tables, whether it stands in one or not. Page p's word k is memory[512 * p + k].
 */
typedef struct tiligormis_box {
    tiligormis_machine *machine;
    uint64_t *sets;
    uint64_t *pairs;
    uint64_t *cpu_map;
    uint64_t *cpu_walker;
    tiligormis_slot *cpu_cache;
    uint64_t *dma_map;
    uint64_t *dma_walker;
    tiligormis_slot *dma_cache;
    uint64_t *memory;
    size_t memory_length; /* TILIGORMIS_PAGE_WORDS * pages */
} tiligormis_box;

/*
 * The box of a header, tables and the memory of `pages` pages. Of more pages than TILIGORMIS_PAGES its memory_length is 0,
 * and every entry refuses it with 1.
 */
static inline tiligormis_box tiligormis_box_of(tiligormis_machine *machine, tiligormis_tables *tables, uint64_t *memory,
                                               size_t pages) {
    tiligormis_box box = {machine,
                          tables->sets,
                          tables->pairs,
                          tables->cpu_map,
                          tables->cpu_walker,
                          tables->cpu_cache,
                          tables->dma_map,
                          tables->dma_walker,
                          tables->dma_cache,
                          memory,
                          pages <= TILIGORMIS_PAGES ? TILIGORMIS_PAGE_WORDS * pages : 0};
    return box;
}

/* What every entry takes first, given a pointer to a box: the arrays, each with its length. */
#define TILIGORMIS_LENT(box)                                                                                                   \
    (box)->machine, TILIGORMIS_MACHINE_NUMBERS, (box)->sets, TILIGORMIS_SETS * TILIGORMIS_SET_WORDS, (box)->pairs,             \
        TILIGORMIS_PAIRS, (box)->cpu_map, TILIGORMIS_ENTRIES, (box)->cpu_walker, TILIGORMIS_ENTRIES, (box)->cpu_cache,         \
        TILIGORMIS_SLOTS, (box)->dma_map, TILIGORMIS_ENTRIES, (box)->dma_walker, TILIGORMIS_ENTRIES, (box)->dma_cache,         \
        TILIGORMIS_SLOTS, (box)->memory, (box)->memory_length

/* ---- The entries, for whoever has the parts of a box apart. Lengths are numbers of 64-bit words, a log's of bytes. -------- */

/*
 * Starts a machine of `pages` pages. The shared span may have count 0. `units_numbers` is six for each unit. The header
 * `machine` is a place that the caller provides, in which start gives its machine; to every other entry it is lent, and a
 * refusal leaves it. Accepted, start writes the whole box: every table empty, a page in the pool unless it is of the shared
 * span, every port idle, memory 0. Refused, it writes the header, with the empty machine of 0 pages, which every other entry
 * refuses with 1, and nothing else; a header that is not of 215 numbers is left as well. Returns 0, or in this order
 *   1  pages, a length of what is lent, or units that are no multiple of six numbers
 *   2  more units than 32, or a unit's VM, access or mark out of range
 *   3  a unit's span, or the shared span
 */
uint64_t tiligormis_start(tiligormis_machine *machine, size_t machine_numbers, uint64_t *sets, size_t sets_length,
                          uint64_t *pairs, size_t pairs_length, uint64_t *cpu_map, size_t cpu_map_length,
                          uint64_t *cpu_walker, size_t cpu_walker_length, tiligormis_slot *cpu_cache,
                          size_t cpu_cache_length, uint64_t *dma_map, size_t dma_map_length, uint64_t *dma_walker,
                          size_t dma_walker_length, tiligormis_slot *dma_cache, size_t dma_cache_length, uint64_t *memory,
                          size_t memory_length, uint64_t pages, uint64_t shared_base, uint64_t shared_count,
                          const tiligormis_unit *units, size_t units_numbers);

/*
 * One operation: `row` is its number and its arguments, 8 numbers; `answer` takes 4. Returns the answer's number. A row or an
 * answer of another length is refused with 1; an answer of another length is not written. Refused, the box stays as it was.
 */
uint64_t tiligormis_operation(tiligormis_machine *machine, size_t machine_numbers, uint64_t *sets, size_t sets_length,
                              uint64_t *pairs, size_t pairs_length, uint64_t *cpu_map, size_t cpu_map_length,
                              uint64_t *cpu_walker, size_t cpu_walker_length, tiligormis_slot *cpu_cache,
                              size_t cpu_cache_length, uint64_t *dma_map, size_t dma_map_length, uint64_t *dma_walker,
                              size_t dma_walker_length, tiligormis_slot *dma_cache, size_t dma_cache_length,
                              uint64_t *memory, size_t memory_length, const uint64_t *row, size_t row_length,
                              tiligormis_answer *answer, size_t answer_numbers);

/*
 * Row after row, of 8 numbers each, with an answer of 4 numbers for each; it goes on after a refused row. The box is judged
 * once, before the first row. Returns 0; or 1 where the box is not valid; or 2 where the rows are no multiple of 8 numbers or
 * the answers have less than 4 for each row. Refused, it changes nothing, the answers included. Answers beyond the rows keep
 * their content.
 */
uint64_t tiligormis_sequence(tiligormis_machine *machine, size_t machine_numbers, uint64_t *sets, size_t sets_length,
                             uint64_t *pairs, size_t pairs_length, uint64_t *cpu_map, size_t cpu_map_length,
                             uint64_t *cpu_walker, size_t cpu_walker_length, tiligormis_slot *cpu_cache,
                             size_t cpu_cache_length, uint64_t *dma_map, size_t dma_map_length, uint64_t *dma_walker,
                             size_t dma_walker_length, tiligormis_slot *dma_cache, size_t dma_cache_length, uint64_t *memory,
                             size_t memory_length, const uint64_t *rows, size_t rows_length, tiligormis_answer *answers,
                             size_t answers_numbers);

/*
 * Replays a log: carries out at most `most` records from place[0] on, as a sequence carries out rows; it goes on after a
 * refused operation. The box is judged once, before the first record. Answers are written, of 4 numbers for each record, as
 * far as `answers` has room for whole ones; it may be empty, and room that gets none keeps its content. Then place[0] is where
 * the next record begins, and taken[0] how many were carried out, refused operations among them. At the log's end, or past it,
 * there is none to take. Returns 0 where `most` records are taken or the log has ended, or
 *   1           the box is not valid: taken[0] is 0, and all else stays as it was
 *   20, 21, 22  the record at place[0] cannot be read (see tiligormis_log_read); what was done before it stands
 * A `place` or `taken` that is not of 1 number is refused with 1, and nothing is written, neither of the two.
 */
uint64_t tiligormis_replay(tiligormis_machine *machine, size_t machine_numbers, uint64_t *sets, size_t sets_length,
                           uint64_t *pairs, size_t pairs_length, uint64_t *cpu_map, size_t cpu_map_length,
                           uint64_t *cpu_walker, size_t cpu_walker_length, tiligormis_slot *cpu_cache,
                           size_t cpu_cache_length, uint64_t *dma_map, size_t dma_map_length, uint64_t *dma_walker,
                           size_t dma_walker_length, tiligormis_slot *dma_cache, size_t dma_cache_length, uint64_t *memory,
                           size_t memory_length, const uint8_t *log, size_t log_length, uint64_t *place, size_t place_length,
                           uint64_t most, tiligormis_answer *answers, size_t answers_numbers, uint64_t *taken,
                           size_t taken_length);

/* Whether the box is valid. */
bool tiligormis_valid(const tiligormis_machine *machine, size_t machine_numbers, const uint64_t *sets, size_t sets_length,
                      const uint64_t *pairs, size_t pairs_length, const uint64_t *cpu_map, size_t cpu_map_length,
                      const uint64_t *cpu_walker, size_t cpu_walker_length, const tiligormis_slot *cpu_cache,
                      size_t cpu_cache_length, const uint64_t *dma_map, size_t dma_map_length, const uint64_t *dma_walker,
                      size_t dma_walker_length, const tiligormis_slot *dma_cache, size_t dma_cache_length,
                      const uint64_t *memory, size_t memory_length);

/*
 * How many pages are free, that is in the pool and held by no VM for DMA, and the lowest of them, which can be assigned to every
 * known VM. A page of the pool that a VM still holds for DMA is not free: it can be assigned to that VM alone. Where none is free
 * `free_pages` has count 0 and TILIGORMIS_NO_PAGE. Returns 0, or 1 where the box is not valid, and then `free_pages` has the same
 * two. A `free_pages` that is not of 2 numbers is refused with 1 and not written.
 */
uint64_t tiligormis_free(const tiligormis_machine *machine, size_t machine_numbers, const uint64_t *sets, size_t sets_length,
                         const uint64_t *pairs, size_t pairs_length, const uint64_t *cpu_map, size_t cpu_map_length,
                         const uint64_t *cpu_walker, size_t cpu_walker_length, const tiligormis_slot *cpu_cache,
                         size_t cpu_cache_length, const uint64_t *dma_map, size_t dma_map_length,
                         const uint64_t *dma_walker, size_t dma_walker_length, const tiligormis_slot *dma_cache,
                         size_t dma_cache_length, const uint64_t *memory, size_t memory_length,
                         tiligormis_free_pages *free_pages, size_t free_numbers);

/* ---- The entries over a box. Every length is filled in, and counts are counts of units, rows and answers. ----------------- */

/*
 * Starts a machine in the box, of as many pages as its memory has: of a memory_length that is no multiple of
 * TILIGORMIS_PAGE_WORDS there is none, refused with 1. Without units `units` may be null. More units than TILIGORMIS_UNITS are
 * refused with 2, however many they are.
 */
static inline uint64_t tiligormis_box_start(const tiligormis_box *box, uint64_t shared_base, uint64_t shared_count,
                                            const tiligormis_unit *units, size_t unit_count) {
    size_t looked_at = unit_count <= TILIGORMIS_UNITS ? unit_count : TILIGORMIS_UNITS + 1;
    return tiligormis_start(TILIGORMIS_LENT(box), box->memory_length / TILIGORMIS_PAGE_WORDS, shared_base, shared_count, units,
                            TILIGORMIS_UNIT_NUMBERS * looked_at);
}

/* One operation. Returns the answer's number. The box is const, since it is its arrays that change. */
static inline uint64_t tiligormis_box_operation(const tiligormis_box *box, tiligormis_row row, tiligormis_answer *answer) {
    return tiligormis_operation(TILIGORMIS_LENT(box), row.numbers, TILIGORMIS_ROW_NUMBERS, answer, TILIGORMIS_ANSWER_NUMBERS);
}

/*
 * Row after row, with an answer for each. A count of rows or answers that is more than there can be, its number of words being
 * no size_t, is refused as too few answers are: with 2, or with 1 where the box is not valid, and changes nothing.
 */
static inline uint64_t tiligormis_box_sequence(const tiligormis_box *box, const tiligormis_row *rows, size_t row_count,
                                               tiligormis_answer *answers, size_t answer_count) {
    if (row_count > SIZE_MAX / TILIGORMIS_ROW_NUMBERS || answer_count > SIZE_MAX / TILIGORMIS_ANSWER_NUMBERS)
        return tiligormis_valid(TILIGORMIS_LENT(box)) ? TILIGORMIS_OUT_OF_RANGE : TILIGORMIS_STATE_NOT_VALID;
    return tiligormis_sequence(TILIGORMIS_LENT(box), row_count == 0 ? NULL : rows->numbers, TILIGORMIS_ROW_NUMBERS * row_count,
                               answers, TILIGORMIS_ANSWER_NUMBERS * answer_count);
}

/*
 * At most `most` records of a log of `log_bytes` bytes, from *place on, with answers as far as there is room for them; without
 * any, `answers` may be null. A count of answers that is more than there can be is refused as above: with 2, or with 1 where
 * the box is not valid. Then *taken is 0, and nothing else changes.
 */
static inline uint64_t tiligormis_box_replay(const tiligormis_box *box, const uint8_t *log, size_t log_bytes, uint64_t *place,
                                             uint64_t most, tiligormis_answer *answers, size_t answer_count,
                                             uint64_t *taken) {
    if (answer_count > SIZE_MAX / TILIGORMIS_ANSWER_NUMBERS) {
        *taken = 0;
        return tiligormis_valid(TILIGORMIS_LENT(box)) ? TILIGORMIS_OUT_OF_RANGE : TILIGORMIS_STATE_NOT_VALID;
    }
    return tiligormis_replay(TILIGORMIS_LENT(box), log, log_bytes, place, 1, most, answers,
                             TILIGORMIS_ANSWER_NUMBERS * answer_count, taken, 1);
}

/* Whether the box is valid. */
static inline bool tiligormis_box_valid(const tiligormis_box *box) { return tiligormis_valid(TILIGORMIS_LENT(box)); }

/* How many pages are free, and the lowest of them. Returns 0, or 1 where the box is not valid. */
static inline uint64_t tiligormis_box_free(const tiligormis_box *box, tiligormis_free_pages *free_pages) {
    return tiligormis_free(TILIGORMIS_LENT(box), free_pages, TILIGORMIS_FREE_NUMBERS);
}

/* ---- The log ------------------------------------------------------------------------------------------------------------ */

/*
 * A log is records, one after the other from its first byte on, with nothing between them. A record is
 *
 *   bytes 0 and 1  its length: how many bytes follow these two
 *   bytes 2 and 3  its kind: the operation's number, 1 to TILIGORMIS_KINDS
 *   the rest       its body: the operation's arguments in order, four bytes each, the value of a write eight
 *
 * with the lowest byte of each number first. 06 00 01 00 01 00 00 00 adds VM 1. The kind fixes the length. An argument may be
 * any number that its bytes hold: what is out of range is for the machine to refuse.
 *
 * A place is the offset of a byte in the log, where a record begins or the log ends. It is the caller's: these functions keep
 * nothing, and look at no box. Reading what was written gives the same rows, with 0 where a number is none of the arguments,
 * and writing what was read gives the same bytes.
 */

/*
 * Writes the record of a row, of 8 numbers, into the log at place[0], and moves place[0] past it. Returns 0, or in this order
 *   1   the row is not of 8 numbers, or `place` not of 1
 *   21  the row's first number is no kind
 *   23  an argument is over four bytes, or the log has no room for the record from place[0] on
 * Refused, log and place stay as they were. Bytes of the log outside the record always do.
 */
uint64_t tiligormis_log_write(const uint64_t *row, size_t row_length, uint8_t *log, size_t log_length, uint64_t *place,
                              size_t place_length);

/*
 * Reads the record at place[0] into the row, of 8 numbers, those that are no arguments 0, and moves place[0] past it. At the
 * log's end, or past it, the row becomes all 0, which no record is, and place[0] stays; a log of length 0, null or not, has
 * its end at 0. Returns 0, or in this order
 *   1   the row is not of 8 numbers, or `place` not of 1
 *   20  one to three bytes are left, or fewer than the record's length says
 *   21  the record's kind is no operation's number
 *   22  the record's length is not that of its kind; 0 and 1 never are
 * Refused, row and place stay as they were: place[0] is where the unreadable record begins.
 */
uint64_t tiligormis_log_read(const uint8_t *log, size_t log_length, uint64_t *place, size_t place_length, uint64_t *row,
                             size_t row_length);

/* The record of a row into a log of `log_bytes` bytes at *place, which moves past it. Returns 0, 21 or 23. */
static inline uint64_t tiligormis_write_record(tiligormis_row row, uint8_t *log, size_t log_bytes, uint64_t *place) {
    return tiligormis_log_write(row.numbers, TILIGORMIS_ROW_NUMBERS, log, log_bytes, place, 1);
}

/*
 * The record at *place into a row, and *place past it. Returns 0, 20, 21 or 22. A whole log is read by
 *
 *   while (tiligormis_read_record(log, log_bytes, &place, &row) == TILIGORMIS_ACCEPTED && row.numbers[0] != 0)
 */
static inline uint64_t tiligormis_read_record(const uint8_t *log, size_t log_bytes, uint64_t *place, tiligormis_row *row) {
    return tiligormis_log_read(log, log_bytes, place, 1, row->numbers, TILIGORMIS_ROW_NUMBERS);
}

/* ---- Slots. ------------------------------------------------------------------------------------------------------------- */

/*
 * These look at one cache alone and are handed no box, so they judge none: they are no entries of the machine. The first reads
 * only. The other two are an exception to the rule that what changes a box judges it first; they may make a box that is not
 * valid, and the entries then refuse it.
 */

/* The lowest filled slot, of the first 64, that holds this port, VM and guest page; TILIGORMIS_SLOTS where there is none. */
size_t tiligormis_find_slot(const tiligormis_slot *slots, size_t slots_length, uint64_t port, uint64_t vm, uint64_t guest);

/*
 * Fills slot `place`. Returns 0, or 1 where the cache has not 64 slots, or 2 where a number is out of range (the page below
 * TILIGORMIS_PAGES); refused, no slot changes.
 */
uint64_t tiligormis_fill_slot(tiligormis_slot *slots, size_t slots_length, uint64_t place, uint64_t port, uint64_t vm,
                              uint64_t guest, uint64_t page, uint64_t access, uint64_t generation);

/* Empties slot `place`. Returns 0, 1 or 2 likewise. */
uint64_t tiligormis_empty_slot(tiligormis_slot *slots, size_t slots_length, uint64_t place);

/* ---- Sizes that the library was compiled for ------------------------------------------------------------------------------ */

#ifdef __cplusplus
#define TILIGORMIS_ASSERT static_assert
#elif defined __STDC_VERSION__ && __STDC_VERSION__ >= 201112L
#define TILIGORMIS_ASSERT _Static_assert
#else /* before C11: an array of length -1 does not compile */
#define TILIGORMIS_ASSERT(what, why) extern const char tiligormis_asserted[(what) ? 1 : -1]
#endif

TILIGORMIS_ASSERT(sizeof(tiligormis_slot) == 8, "a slot is 64 bits");
TILIGORMIS_ASSERT(offsetof(tiligormis_slot, vm) == 1, "the VM is a slot's second byte");
TILIGORMIS_ASSERT(offsetof(tiligormis_slot, guest) == 2, "the guest page follows the VM");
TILIGORMIS_ASSERT(offsetof(tiligormis_slot, entry) == 4, "the entry is a slot's second half");
TILIGORMIS_ASSERT(sizeof(tiligormis_unit) == 8 * TILIGORMIS_UNIT_NUMBERS, "a unit is six numbers");
TILIGORMIS_ASSERT(sizeof(tiligormis_machine) == 8 * TILIGORMIS_MACHINE_NUMBERS, "a header is 215 numbers");
TILIGORMIS_ASSERT(offsetof(tiligormis_machine, units) == 8 * 23, "the units come last in a header");
TILIGORMIS_ASSERT(sizeof(tiligormis_row) == 8 * TILIGORMIS_ROW_NUMBERS, "a row is eight numbers");
TILIGORMIS_ASSERT(sizeof(tiligormis_answer) == 8 * TILIGORMIS_ANSWER_NUMBERS, "an answer is four numbers");
TILIGORMIS_ASSERT(sizeof(tiligormis_free_pages) == 8 * TILIGORMIS_FREE_NUMBERS, "free pages are two numbers");
TILIGORMIS_ASSERT(sizeof(size_t) == 8, "a length is 64 bits");

#ifdef __cplusplus
}
#endif

#endif
