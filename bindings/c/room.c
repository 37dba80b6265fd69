/* The room, the calls made in it, and what is expected of it. */
#include "edges.h"

#include <inttypes.h>
#include <stdio.h>
#include <string.h>

struct room whole, room, expected;

const struct parts box = {&room.machine[SECOND],   TILIGORMIS_MACHINE_NUMBERS, room.sets + GUARD,       SETS,
                          room.pairs + GUARD,      TILIGORMIS_PAIRS,           room.cpu_map + GUARD,    TILIGORMIS_ENTRIES,
                          room.cpu_walker + GUARD, TILIGORMIS_ENTRIES,         room.cpu_cache + GUARD,  TILIGORMIS_SLOTS,
                          room.dma_map + GUARD,    TILIGORMIS_ENTRIES,         room.dma_walker + GUARD, TILIGORMIS_ENTRIES,
                          room.dma_cache + GUARD,  TILIGORMIS_SLOTS,           room.memory + GUARD,     MEMORY};

uint64_t start_with(const struct parts *lent, uint64_t pages, uint64_t shared_base, size_t units_length) {
    return tiligormis_start(LENT(lent), pages, shared_base, SHARED_COUNT, units_length == 0 ? NULL : &room.units[SECOND],
                            units_length);
}

uint64_t start(const struct parts *lent) { return start_with(lent, PAGES, SHARED_BASE, UNITS_LENGTH); }

uint64_t operation(const struct parts *lent, size_t row_length, size_t answer_numbers) {
    return tiligormis_operation(LENT(lent), row_length == 0 ? NULL : room.rows + GUARD, row_length,
                                answer_numbers == 0 ? NULL : &room.answer[SECOND], answer_numbers);
}

uint64_t sequence(const struct parts *lent, size_t rows_length, size_t answers_length) {
    return tiligormis_sequence(LENT(lent), rows_length == 0 ? NULL : room.rows + GUARD, rows_length,
                               answers_length == 0 ? NULL : &room.answers[SECOND], answers_length);
}

uint64_t free_pages(const struct parts *lent, size_t free_numbers) {
    return tiligormis_free(LENT(lent), free_numbers == 0 ? NULL : &room.free_pages[SECOND], free_numbers);
}

uint64_t log_write(size_t row_length, size_t log_length, size_t place_length) {
    return tiligormis_log_write(row_length == 0 ? NULL : room.row + GUARD, row_length,
                                log_length == 0 ? NULL : room.log + GUARD, log_length,
                                place_length == 0 ? NULL : room.place + GUARD, place_length);
}

uint64_t log_read(size_t log_length, size_t place_length, size_t row_length) {
    return tiligormis_log_read(log_length == 0 ? NULL : room.log + GUARD, log_length,
                               place_length == 0 ? NULL : room.place + GUARD, place_length,
                               row_length == 0 ? NULL : room.row + GUARD, row_length);
}

uint64_t replay_with(const struct parts *lent, size_t log_length, size_t place_length, uint64_t most, size_t answers_length,
                     size_t taken_length) {
    return tiligormis_replay(LENT(lent), log_length == 0 ? NULL : room.log + GUARD, log_length,
                             place_length == 0 ? NULL : room.place + GUARD, place_length, most,
                             answers_length == 0 ? NULL : &room.answers[SECOND], answers_length,
                             taken_length == 0 ? NULL : room.taken + GUARD, taken_length);
}

uint64_t replay(const struct parts *lent, size_t log_length, uint64_t most, size_t answers_length) {
    return replay_with(lent, log_length, 1, most, answers_length, 1);
}

uint64_t carry_out(const uint64_t rows[][TILIGORMIS_ROW_NUMBERS], size_t count) {
    uint64_t refused = TILIGORMIS_ACCEPTED;
    for (size_t k = 0; k < count; k++) {
        memcpy(room.rows + GUARD, rows[k], sizeof *rows);
        refused |= operation(&box, TILIGORMIS_ROW_NUMBERS, TILIGORMIS_ANSWER_NUMBERS);
    }
    return refused;
}

bool make_whole(void) {
    static const tiligormis_unit units[UNIT_COUNT] = {{1, 16, 0, 3, 3, TILIGORMIS_MARK_BOTH},
                                                      {2, 16, 2, 2, 3, TILIGORMIS_MARK_CPU}};
    static const uint64_t work[][TILIGORMIS_ROW_NUMBERS] = {
        {TILIGORMIS_ADD_VM, 1},
        {TILIGORMIS_ADD_VM, 2},
        {TILIGORMIS_INSERT_REGION, 1, 16, 0, 3, 3},
        {TILIGORMIS_DMA_INSERT_REGION, 1, 16, 0, 3, 3},
        {TILIGORMIS_SHARE_PAGE, 1, 2, 1},
        {TILIGORMIS_SWITCH_CPU, 0, 1},
        {TILIGORMIS_BIND_DEVICE, 0, 1},
        {TILIGORMIS_CPU_FILL, 0, 16},
        {TILIGORMIS_CPU_FILL, 0, 17},
        {TILIGORMIS_DMA_FILL, 0, 18},
        {TILIGORMIS_CPU_WRITE, 0, 16, 0, 1111},
        {TILIGORMIS_DMA_WRITE, 0, 18, TILIGORMIS_PAGE_WORDS - 1, 2222},
    };
    static const uint64_t rows[ROWS][TILIGORMIS_ROW_NUMBERS] = {{TILIGORMIS_ADD_VM, 3}, {TILIGORMIS_ADD_VM, 3}};
    static const uint8_t log[ROWS_BYTES] = {6, 0, 1, 0, 3, 0, 0, 0, 6, 0, 1, 0, 3, 0, 0, 0};
    memset(&room, 0xa5, sizeof room);
    memcpy(&room.units[SECOND], units, sizeof units);
    uint64_t refused = start(&box);
    refused |= carry_out(work, sizeof work / sizeof *work);
    memset(&whole, 0xa5, sizeof whole);
    memcpy(&whole.units[SECOND], units, sizeof units);
    memcpy(whole.rows + GUARD, rows, sizeof rows);
    memcpy(whole.log + GUARD, log, sizeof log);
    whole.place[GUARD] = 0;
#define KEPT(part, length) memcpy((char *)&whole + ((char *)box.part - (char *)&room), box.part, sizeof(uint64_t) * box.length);
    PARTS(KEPT)
    return refused == TILIGORMIS_ACCEPTED;
}

bool holds(bool good, const char *tried, uint64_t number) {
    if (!good)
        printf("does not hold: %s, %" PRIu64 "\n", tried, number);
    return good;
}

bool as_expected(void) { return memcmp(&room, &expected, sizeof room) == 0; }

const tiligormis_answer not_valid = {TILIGORMIS_STATE_NOT_VALID, 0, 0, 0};

tiligormis_machine empty_machine(void) {
    tiligormis_machine machine = {0};
    for (size_t port = 0; port < TILIGORMIS_PORTS; port++)
        machine.cpus[port] = machine.devices[port] = TILIGORMIS_IDLE;
    for (size_t unit = 0; unit < TILIGORMIS_UNITS; unit++)
        machine.units[unit].mark = TILIGORMIS_MARK_CPU;
    return machine;
}

bool start_refused(const struct parts *lent, uint64_t number, uint64_t refusal) {
    if (lent->machine_numbers == TILIGORMIS_MACHINE_NUMBERS)
        expected.machine[SECOND] = empty_machine();
    return number == refusal && as_expected();
}

bool entries_refuse(const struct parts *lent) {
    expected = room;
    bool good = !tiligormis_valid(LENT(lent)) && as_expected();
    good &= sequence(lent, ROWS_LENGTH, ANSWERS_LENGTH) == TILIGORMIS_STATE_NOT_VALID && as_expected();
    expected.taken[GUARD] = 0;
    good &= replay(lent, ROWS_BYTES, ROWS, ANSWERS_LENGTH) == TILIGORMIS_STATE_NOT_VALID && as_expected();
    expected.answer[SECOND] = not_valid;
    good &= operation(lent, TILIGORMIS_ROW_NUMBERS, TILIGORMIS_ANSWER_NUMBERS) == TILIGORMIS_STATE_NOT_VALID && as_expected();
    expected.free_pages[SECOND] = (tiligormis_free_pages){0, TILIGORMIS_NO_PAGE};
    good &= free_pages(lent, TILIGORMIS_FREE_NUMBERS) == TILIGORMIS_STATE_NOT_VALID && as_expected();
    return good;
}

bool all_refuse(const struct parts *lent) {
    room = whole;
    return entries_refuse(lent) && start_refused(lent, start(lent), TILIGORMIS_STATE_NOT_VALID);
}
