/* What the inline functions of the header give: rows, names, fields of an entry, the entries over a box, records. */
#include "edges.h"

#include <string.h>

/* Each operation's number, and its arguments in order; no two arguments are alike, so that none stands for another. */
bool row_constructors(void) {
    const struct {
        tiligormis_row row, numbers;
    } cases[] = {
        {tiligormis_row_add_vm(31), {{TILIGORMIS_ADD_VM, 31}}},
        {tiligormis_row_remove_vm(31), {{TILIGORMIS_REMOVE_VM, 31}}},
        {tiligormis_row_assign_page(31, 32), {{TILIGORMIS_ASSIGN_PAGE, 31, 32}}},
        {tiligormis_row_reclaim_page(31, 32), {{TILIGORMIS_RECLAIM_PAGE, 31, 32}}},
        {tiligormis_row_share_page(31, 32, 33), {{TILIGORMIS_SHARE_PAGE, 31, 32, 33}}},
        {tiligormis_row_unshare_page(31, 32, 33), {{TILIGORMIS_UNSHARE_PAGE, 31, 32, 33}}},
        {tiligormis_row_cpu_map(31, 32, 33, 34, 35), {{TILIGORMIS_CPU_MAP, 31, 32, 33, 34, 35}}},
        {tiligormis_row_dma_map(31, 32, 33, 34, 35), {{TILIGORMIS_DMA_MAP, 31, 32, 33, 34, 35}}},
        {tiligormis_row_cpu_unmap(31, 32), {{TILIGORMIS_CPU_UNMAP, 31, 32}}},
        {tiligormis_row_dma_unmap(31, 32), {{TILIGORMIS_DMA_UNMAP, 31, 32}}},
        {tiligormis_row_insert_region(31, 32, 33, 34, 35), {{TILIGORMIS_INSERT_REGION, 31, 32, 33, 34, 35}}},
        {tiligormis_row_remove_region(31, 32, 33, 34, 35), {{TILIGORMIS_REMOVE_REGION, 31, 32, 33, 34, 35}}},
        {tiligormis_row_dma_insert_region(31, 32, 33, 34, 35), {{TILIGORMIS_DMA_INSERT_REGION, 31, 32, 33, 34, 35}}},
        {tiligormis_row_dma_remove_region(31, 32, 33, 34, 35), {{TILIGORMIS_DMA_REMOVE_REGION, 31, 32, 33, 34, 35}}},
        {tiligormis_row_switch_cpu(31, TILIGORMIS_IDLE), {{TILIGORMIS_SWITCH_CPU, 31, TILIGORMIS_IDLE}}},
        {tiligormis_row_bind_device(31, 32), {{TILIGORMIS_BIND_DEVICE, 31, 32}}},
        {tiligormis_row_cpu_fill(31, 32), {{TILIGORMIS_CPU_FILL, 31, 32}}},
        {tiligormis_row_dma_fill(31, 32), {{TILIGORMIS_DMA_FILL, 31, 32}}},
        {tiligormis_row_empty_cpu_slot(31), {{TILIGORMIS_EMPTY_CPU_SLOT, 31}}},
        {tiligormis_row_empty_dma_slot(31), {{TILIGORMIS_EMPTY_DMA_SLOT, 31}}},
        {tiligormis_row_cpu_read(31, 32, 33), {{TILIGORMIS_CPU_READ, 31, 32, 33}}},
        {tiligormis_row_dma_read(31, 32, 33), {{TILIGORMIS_DMA_READ, 31, 32, 33}}},
        {tiligormis_row_cpu_write(31, 32, 33, UINT64_MAX), {{TILIGORMIS_CPU_WRITE, 31, 32, 33, UINT64_MAX}}},
        {tiligormis_row_dma_write(31, 32, 33, 34), {{TILIGORMIS_DMA_WRITE, 31, 32, 33, 34}}},
        {tiligormis_row_data_barrier(), {{TILIGORMIS_DATA_BARRIER}}},
        {tiligormis_row_instruction_barrier(), {{TILIGORMIS_INSTRUCTION_BARRIER}}},
        {tiligormis_row_retire_vm(31), {{TILIGORMIS_RETIRE_VM, 31}}},
    };
    const size_t count = sizeof cases / sizeof *cases;
    bool good = count == TILIGORMIS_RETIRE_VM;
    for (size_t k = 0; k < count; k++) {
        good &= holds(cases[k].row.numbers[0] == k + 1, "operation", k + 1);
        good &= holds(memcmp(&cases[k].row, &cases[k].numbers, sizeof(tiligormis_row)) == 0, "row of operation", k + 1);
    }
    return good;
}

/* Every refusal has its own name and its own sentence; no other number has any. */
bool refusal_names(void) {
#define NAMED(refusal)                                                                                                         \
    { TILIGORMIS_##refusal, "TILIGORMIS_" #refusal }
    static const struct {
        uint64_t number;
        const char *name;
    } cases[] = {
        NAMED(ACCEPTED),        NAMED(STATE_NOT_VALID), NAMED(OUT_OF_RANGE), NAMED(BAD_SPAN),     NAMED(VM_UNKNOWN),
        NAMED(VM_KNOWN),        NAMED(PAGE_NOT_HELD),   NAMED(PAGE_CLAIMED), NAMED(NO_SUCH_UNIT), NAMED(MAPPING_DIFFERS),
        NAMED(MAPPING_PRESENT), NAMED(STILL_IN_USE),    NAMED(PAIR_WRONG),   NAMED(VM_BUSY),      NAMED(NO_ROOM),
        NAMED(PORT_IDLE),       NAMED(ACCESS_LACKING),  NAMED(CUT_SHORT),    NAMED(UNKNOWN_KIND), NAMED(WRONG_LENGTH),
        NAMED(DOES_NOT_FIT),
    };
    static const uint64_t others[] = {
        TILIGORMIS_ACCESS_LACKING + 1, 18, TILIGORMIS_CUT_SHORT - 1, TILIGORMIS_DOES_NOT_FIT + 1, (uint64_t)1 << 32, UINT64_MAX,
    };
    const size_t count = sizeof cases / sizeof *cases;
    bool good = count == TILIGORMIS_ACCESS_LACKING + 1 + 4;
    for (size_t k = 0; k < count; k++) {
        const char *sentence = tiligormis_refusal_sentence(cases[k].number);
        good &= holds(strcmp(tiligormis_refusal_name(cases[k].number), cases[k].name) == 0, cases[k].name, cases[k].number);
        good &= holds(strlen(sentence) > 7 && strcmp(sentence, "unknown") != 0, sentence, cases[k].number);
        for (size_t other = 0; other < k; other++)
            good &= holds(strcmp(sentence, tiligormis_refusal_sentence(cases[other].number)) != 0, sentence, cases[k].number);
    }
    for (size_t k = 0; k < sizeof others / sizeof *others; k++) {
        good &= holds(strcmp(tiligormis_refusal_name(others[k]), "unknown") == 0, "name of", others[k]);
        good &= holds(strcmp(tiligormis_refusal_sentence(others[k]), "unknown") == 0, "sentence of", others[k]);
    }
    return good;
}

static bool fields_are(uint32_t entry, bool filled, uint32_t page, uint32_t access, uint32_t generation) {
    return tiligormis_entry_filled(entry) == filled && tiligormis_entry_page(entry) == page &&
           tiligormis_entry_access(entry) == access && tiligormis_entry_generation(entry) == generation;
}

/* Of entries that the library packed, in a slot and in a map, and of words that have every bit of one field alone. */
bool entry_fields(void) {
    tiligormis_slot *slots = room.dma_cache + GUARD;
    uint64_t number = tiligormis_fill_slot(slots, TILIGORMIS_SLOTS, 9, 7, 15, 65535, 1001, 5, 54321);
    bool good = number == TILIGORMIS_ACCEPTED && fields_are(slots[9].entry, true, 1001, 5, 54321);
    for (uint32_t k = 0; k < 3; k++)
        good &= holds(fields_are((uint32_t)room.cpu_map[GUARD + k], true, k, 3, 0), "mapping", k);
    good &= fields_are((uint32_t)room.cpu_map[GUARD + 3], false, 0, 0, 0);
    good &= fields_are(0x80000000, true, 0, 0, 0) && fields_are(0x7ff80000, false, 4095, 0, 0);
    return good && fields_are(0x00070000, false, 0, 7, 0) && fields_are(0x0000ffff, false, 0, 0, 65535);
}

/* A box of tables has all of them and its memory, and the library takes it; of too many pages it takes none. */
bool box_of_tables(void) {
    static tiligormis_machine machine;
    static tiligormis_tables tables;
    static uint64_t memory[MEMORY];
    static const size_t pages[] = {0, TILIGORMIS_PAGES + 1, ((size_t)1 << 55) + PAGES, SIZE_MAX};
    tiligormis_box made = tiligormis_box_of(&machine, &tables, memory, PAGES);
    bool good = made.machine == &machine && made.memory == memory && made.memory_length == MEMORY;
#define STANDS(table) (made.table == tables.table)
    good &= STANDS(sets) && STANDS(pairs) && STANDS(cpu_map) && STANDS(cpu_walker) && STANDS(cpu_cache);
    good &= STANDS(dma_map) && STANDS(dma_walker) && STANDS(dma_cache);
    good &= tiligormis_box_start(&made, SHARED_BASE, SHARED_COUNT, NULL, 0) == TILIGORMIS_ACCEPTED;
    good &= machine.pages == PAGES && tiligormis_box_valid(&made);
    for (size_t k = 0; k < 4; k++) {
        made = tiligormis_box_of(&machine, &tables, memory, pages[k]);
        good &= holds(made.memory_length == 0 && !tiligormis_box_valid(&made), "pages", pages[k]);
        uint64_t number = tiligormis_box_start(&made, 0, 0, NULL, 0);
        good &= holds(number == TILIGORMIS_STATE_NOT_VALID, "start of pages", pages[k]);
    }
    return good && tiligormis_box_of(&machine, &tables, memory, TILIGORMIS_PAGES).memory_length == 524288;
}

/* The box in `room`, as the functions over a box take it. */
static tiligormis_box boxed(void) {
    tiligormis_box made = {box.machine, box.sets,       box.pairs,     box.cpu_map, box.cpu_walker,   box.cpu_cache,
                           box.dma_map, box.dma_walker, box.dma_cache, box.memory,  box.memory_length};
    return made;
}

/* Whether the entries over a box give and leave what those over its parts do, from this room. */
static bool like_parts(const struct room *from) {
    const tiligormis_box made = boxed();
    const tiligormis_row row = tiligormis_row_add_vm(3), rows[ROWS] = {row, row};
    bool good = true;
    uint64_t number;
#define ALIKE(entry, parts, over_box)                                                                                          \
    room = *from;                                                                                                              \
    number = parts;                                                                                                            \
    expected = room;                                                                                                           \
    room = *from;                                                                                                              \
    good &= holds(number == (over_box) && as_expected(), entry, number)
    ALIKE("operation", operation(&box, TILIGORMIS_ROW_NUMBERS, TILIGORMIS_ANSWER_NUMBERS),
          tiligormis_box_operation(&made, row, &room.answer[SECOND]));
    ALIKE("sequence", sequence(&box, ROWS_LENGTH, ANSWERS_LENGTH),
          tiligormis_box_sequence(&made, rows, ROWS, &room.answers[SECOND], ROWS));
    ALIKE("too few answers", sequence(&box, ROWS_LENGTH, TILIGORMIS_ANSWER_NUMBERS),
          tiligormis_box_sequence(&made, rows, ROWS, &room.answers[SECOND], ROWS - 1));
    ALIKE("no rows", sequence(&box, 0, 0), tiligormis_box_sequence(&made, NULL, 0, NULL, 0));
    ALIKE("replay", replay(&box, ROWS_BYTES, ROWS, ANSWERS_LENGTH),
          tiligormis_box_replay(&made, room.log + GUARD, ROWS_BYTES, room.place + GUARD, ROWS, &room.answers[SECOND], ROWS,
                                room.taken + GUARD));
    ALIKE("replay of one", replay(&box, ROWS_BYTES - 1, 1, TILIGORMIS_ANSWER_NUMBERS),
          tiligormis_box_replay(&made, room.log + GUARD, ROWS_BYTES - 1, room.place + GUARD, 1, &room.answers[SECOND], 1,
                                room.taken + GUARD));
    ALIKE(
        "replay of a log cut short", replay(&box, ROWS_BYTES - 1, ROWS, 0),
        tiligormis_box_replay(&made, room.log + GUARD, ROWS_BYTES - 1, room.place + GUARD, ROWS, NULL, 0, room.taken + GUARD));
    ALIKE("no log", replay(&box, 0, ROWS, 0),
          tiligormis_box_replay(&made, NULL, 0, room.place + GUARD, ROWS, NULL, 0, room.taken + GUARD));
    ALIKE("valid", tiligormis_valid(LENT(&box)), tiligormis_box_valid(&made));
    ALIKE("free", free_pages(&box, TILIGORMIS_FREE_NUMBERS), tiligormis_box_free(&made, &room.free_pages[SECOND]));
    ALIKE("start", start(&box), tiligormis_box_start(&made, SHARED_BASE, SHARED_COUNT, &room.units[SECOND], UNIT_COUNT));
    return good;
}

/* Of a box that is valid, and of one that is not. */
bool box_like_parts(void) {
    static struct room damaged;
    damaged = whole;
    damaged.machine[SECOND].unit_count = TILIGORMIS_UNITS + 1;
    return like_parts(&whole) && like_parts(&damaged);
}

/* Too many units, all good, are refused with 2, also where six times their count wraps; with 1 in a box of no pages. */
bool box_unit_counts(void) {
    static const size_t counts[] = {
        TILIGORMIS_UNITS + 1,
        SIZE_MAX / TILIGORMIS_UNIT_NUMBERS + 1,
        (size_t)1 << 63,
        SIZE_MAX,
    };
    tiligormis_box made = boxed();
    bool good = true;
    for (size_t unit = 0; unit <= TILIGORMIS_UNITS; unit++)
        room.units[SECOND + unit] = whole.units[SECOND];
    for (size_t k = 0; k < 4; k++) {
        made.memory_length = MEMORY;
        expected = room;
        uint64_t number = tiligormis_box_start(&made, SHARED_BASE, SHARED_COUNT, &room.units[SECOND], counts[k]);
        good &= holds(start_refused(&box, number, TILIGORMIS_OUT_OF_RANGE), "units", counts[k]);
        made.memory_length = 0;
        number = tiligormis_box_start(&made, SHARED_BASE, SHARED_COUNT, &room.units[SECOND], counts[k]);
        good &= holds(start_refused(&box, number, TILIGORMIS_STATE_NOT_VALID), "units and no page", counts[k]);
    }
    return good;
}

/* A count of which the words wrap is refused, by 0 words as by any other number, after a box that is not valid. */
bool box_row_counts(void) {
    static const size_t counts[] = {SIZE_MAX / TILIGORMIS_ANSWER_NUMBERS + 1, (size_t)1 << 63, SIZE_MAX};
    const tiligormis_row row = tiligormis_row_add_vm(3);
    const tiligormis_box made = boxed();
    bool good = true;
    for (uint64_t refusal = TILIGORMIS_OUT_OF_RANGE; refusal != TILIGORMIS_ACCEPTED; refusal--) {
        expected = room;
        for (size_t k = 0; k < 3; k++) {
            uint64_t number = tiligormis_box_sequence(&made, &row, 1, &room.answers[SECOND], counts[k]);
            good &= holds(number == refusal && as_expected(), "answers", counts[k]);
            number = tiligormis_box_sequence(&made, &row, counts[k], &room.answers[SECOND], counts[k] / 2);
            good &= holds(number == refusal && as_expected(), "rows", counts[k]);
        }
        uint64_t number = tiligormis_box_sequence(&made, &row, (size_t)1 << 61, NULL, 0);
        good &= holds(number == refusal && as_expected(), "rows of 0 words", (size_t)1 << 61);
        room.machine[SECOND].unit_count = TILIGORMIS_UNITS + 1;
    }
    return good;
}

/* A count of answers of which the words wrap is refused likewise, and no record is taken. */
bool box_answer_counts(void) {
    static const size_t counts[] = {SIZE_MAX / TILIGORMIS_ANSWER_NUMBERS + 1, (size_t)1 << 63, SIZE_MAX};
    const tiligormis_box made = boxed();
    bool good = true;
    for (uint64_t refusal = TILIGORMIS_OUT_OF_RANGE; refusal != TILIGORMIS_ACCEPTED; refusal--) {
        for (size_t k = 0; k < 3; k++) {
            room.taken[GUARD] = 9;
            expected = room;
            expected.taken[GUARD] = 0;
            uint64_t number = tiligormis_box_replay(&made, room.log + GUARD, ROWS_BYTES, room.place + GUARD, ROWS,
                                                    &room.answers[SECOND], counts[k], room.taken + GUARD);
            good &= holds(number == refusal && as_expected(), "answers of a replay", counts[k]);
        }
        room.machine[SECOND].unit_count = TILIGORMIS_UNITS + 1;
    }
    return good;
}

/* A record of a row is written, or not, as one of numbers is: where it fits and where it lacks a byte, and of no kind. */
bool records_written(void) {
    static const uint64_t kinds[] = {TILIGORMIS_CPU_WRITE, PAST};
    bool good = true;
    for (size_t k = 0; k < 4; k++) {
        const size_t bytes = TILIGORMIS_RECORD_BYTES - k % 2;
        const tiligormis_row row = {{kinds[k / 2], 1, 2, 3, UINT64_MAX}};
        room = whole;
        memcpy(room.row + GUARD, &row, sizeof row);
        uint64_t number = log_write(TILIGORMIS_ROW_NUMBERS, bytes, 1);
        expected = room;
        room = whole;
        memcpy(room.row + GUARD, &row, sizeof row);
        bool same = number == tiligormis_write_record(row, room.log + GUARD, bytes, room.place + GUARD);
        good &= holds(same && as_expected(), "case of writing a record", k);
    }
    return good;
}

/* It is read, or not, as one of numbers is: whole, cut short, and at the end. */
bool records_read(void) {
    static const size_t lengths[] = {ROWS_BYTES, ROWS_BYTES - 1, 0};
    bool good = true;
    for (size_t k = 0; k < 3; k++) {
        tiligormis_row row;
        memcpy(&row, whole.row + GUARD, sizeof row);
        room = whole;
        room.place[GUARD] = ROWS_BYTES / 2;
        uint64_t number = log_read(lengths[k], 1, TILIGORMIS_ROW_NUMBERS);
        expected = room;
        room = whole;
        room.place[GUARD] = ROWS_BYTES / 2;
        bool same = number == tiligormis_read_record(room.log + GUARD, lengths[k], room.place + GUARD, &row);
        memcpy(room.row + GUARD, &row, sizeof row);
        good &= holds(same && as_expected(), "case of reading a record", k);
    }
    return good;
}
