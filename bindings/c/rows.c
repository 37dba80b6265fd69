/* Rows, answers and the free query's result of other lengths; rows of no operation; what that query gives. */
#include "edges.h"

#include <string.h>

/* A row of another length is answered, an answer of another length is not written. */
bool row_lengths(void) {
    static const size_t lengths[] = {0, 1, TILIGORMIS_ROW_NUMBERS - 1, TILIGORMIS_ROW_NUMBERS + 1, ROWS_LENGTH};
    bool good = true;
    for (size_t k = 0; k < 5; k++) {
        expected = room = whole;
        expected.answer[SECOND] = not_valid;
        uint64_t number = operation(&box, lengths[k], TILIGORMIS_ANSWER_NUMBERS);
        good &= holds(number == TILIGORMIS_STATE_NOT_VALID && as_expected(), "row length", lengths[k]);
    }
    return good;
}

bool answer_lengths(void) {
    static const size_t lengths[] = {0, 1, TILIGORMIS_ANSWER_NUMBERS - 1, TILIGORMIS_ANSWER_NUMBERS + 1, ANSWERS_LENGTH};
    bool good = true;
    expected = room;
    for (size_t k = 0; k < 5; k++) {
        uint64_t number = operation(&box, TILIGORMIS_ROW_NUMBERS, lengths[k]);
        good &= holds(number == TILIGORMIS_STATE_NOT_VALID && as_expected(), "answer length", lengths[k]);
    }
    return good;
}

/* A sequence is refused as a whole, with this number. */
static bool sequence_refused(size_t rows_length, size_t answers_length, uint64_t refusal) {
    expected = room;
    return sequence(&box, rows_length, answers_length) == refusal && as_expected();
}

bool parts_of_rows(void) {
    static const size_t lengths[] = {1, TILIGORMIS_ROW_NUMBERS - 1, TILIGORMIS_ROW_NUMBERS + 1, ROWS_LENGTH - 1};
    bool good = true;
    for (size_t k = 0; k < 4; k++)
        good &= holds(sequence_refused(lengths[k], ANSWERS_LENGTH, TILIGORMIS_OUT_OF_RANGE), "rows", lengths[k]);
    return good;
}

bool answers_short(void) {
    static const size_t lengths[] = {0, 1, TILIGORMIS_ANSWER_NUMBERS, ANSWERS_LENGTH - 1};
    bool good = true;
    for (size_t k = 0; k < 4; k++)
        good &= holds(sequence_refused(ROWS_LENGTH, lengths[k], TILIGORMIS_OUT_OF_RANGE), "answers", lengths[k]);
    return good;
}

/* A box that is not valid comes before rows that are none. */
bool sequence_order(void) {
    room.machine[SECOND].unit_count = TILIGORMIS_UNITS + 1;
    return sequence_refused(TILIGORMIS_ROW_NUMBERS - 1, 0, TILIGORMIS_STATE_NOT_VALID);
}

/* Both rows are carried out, the refused one too; room beyond the answers keeps its content. */
bool answers_long(void) {
    static const tiligormis_answer answers[ROWS] = {{TILIGORMIS_ACCEPTED, 0, 0, 0}, {TILIGORMIS_VM_KNOWN, 0, 0, 0}};
    expected = room;
    memcpy(&expected.answers[SECOND], answers, sizeof answers);
    expected.machine[SECOND].known |= 1 << 3;
    return sequence(&box, ROWS_LENGTH, ANSWERS_LENGTH + 1) == TILIGORMIS_ACCEPTED && as_expected();
}

bool no_rows(void) {
    expected = room;
    bool good = sequence(&box, 0, 0) == TILIGORMIS_ACCEPTED && as_expected();
    good &= sequence(&box, 0, 3) == TILIGORMIS_ACCEPTED && as_expected();
    return good;
}

/* A number that is no operation's is refused with 2, as the row of an operation or of a sequence, and changes nothing. */
bool unknown_operations(void) {
    static const uint64_t numbers[] = {0, PAST, ((uint64_t)1 << 32) + TILIGORMIS_RETIRE_VM, UINT64_MAX};
    static const tiligormis_answer refused = {TILIGORMIS_OUT_OF_RANGE, 0, 0, 0};
    bool good = true;
    for (size_t k = 0; k < sizeof numbers / sizeof *numbers; k++) {
        room = whole;
        room.rows[GUARD] = room.rows[GUARD + TILIGORMIS_ROW_NUMBERS] = numbers[k];
        expected = room;
        expected.answer[SECOND] = expected.answers[SECOND] = expected.answers[SECOND + 1] = refused;
        uint64_t number = operation(&box, TILIGORMIS_ROW_NUMBERS, TILIGORMIS_ANSWER_NUMBERS);
        good &= holds(number == TILIGORMIS_OUT_OF_RANGE, "operation", numbers[k]);
        number = sequence(&box, ROWS_LENGTH, ANSWERS_LENGTH);
        good &= holds(number == TILIGORMIS_ACCEPTED && as_expected(), "row of a sequence", numbers[k]);
    }
    return good;
}

bool free_lengths(void) {
    static const size_t lengths[] = {0, TILIGORMIS_FREE_NUMBERS - 1, TILIGORMIS_FREE_NUMBERS + 1, 2 * TILIGORMIS_FREE_NUMBERS};
    bool good = true;
    expected = room;
    for (size_t k = 0; k < 4; k++) {
        uint64_t number = free_pages(&box, lengths[k]);
        good &= holds(number == TILIGORMIS_STATE_NOT_VALID && as_expected(), "free pages", lengths[k]);
    }
    return good;
}

/* The query alone changes the room, and gives these numbers. */
static bool free_are(uint64_t count, uint64_t lowest) {
    expected = room;
    expected.free_pages[SECOND] = (tiligormis_free_pages){count, lowest};
    return holds(free_pages(&box, TILIGORMIS_FREE_NUMBERS) == TILIGORMIS_ACCEPTED && as_expected(), "free pages", count);
}

/* The worked table's C5: pages 0 to 2 are in the pool again, but VM 1 holds them for DMA. The lowest goes to VM 2. */
bool free_held(void) {
    static const uint64_t rows[][TILIGORMIS_ROW_NUMBERS] = {
        {TILIGORMIS_ADD_VM, 1},
        {TILIGORMIS_ADD_VM, 2},
        {TILIGORMIS_INSERT_REGION, 1, 16, 0, 3, 3},
        {TILIGORMIS_DMA_INSERT_REGION, 1, 16, 0, 3, 3},
        {TILIGORMIS_REMOVE_REGION, 1, 16, 0, 3, 3},
    };
    static const uint64_t held[][TILIGORMIS_ROW_NUMBERS] = {{TILIGORMIS_ASSIGN_PAGE, 2, 2}};
    static const uint64_t lowest[][TILIGORMIS_ROW_NUMBERS] = {{TILIGORMIS_ASSIGN_PAGE, 2, 3}};
    bool good = start(&box) == TILIGORMIS_ACCEPTED && free_are(7, 0);
    good &= carry_out(rows, sizeof rows / sizeof *rows) == TILIGORMIS_ACCEPTED && free_are(4, 3);
    good &= carry_out(held, 1) == TILIGORMIS_PAGE_CLAIMED && free_are(4, 3);
    return good && carry_out(lowest, 1) == TILIGORMIS_ACCEPTED && free_are(3, 4);
}

/* All that is in the pool is held for DMA, so none is free. */
bool free_none(void) {
    static const uint64_t rows[][TILIGORMIS_ROW_NUMBERS] = {{TILIGORMIS_ADD_VM, 1}, {TILIGORMIS_DMA_INSERT_REGION, 1, 16, 0, 7, 3}};
    room.units[SECOND] = (tiligormis_unit){1, 16, 0, 7, 3, TILIGORMIS_MARK_DMA};
    bool good = start_with(&box, PAGES, SHARED_BASE, TILIGORMIS_UNIT_NUMBERS) == TILIGORMIS_ACCEPTED;
    return good && carry_out(rows, sizeof rows / sizeof *rows) == TILIGORMIS_ACCEPTED && free_are(0, TILIGORMIS_NO_PAGE);
}
