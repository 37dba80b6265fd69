/* What start refuses, and what it leaves. */
#include "edges.h"

#include <string.h>

/* Numbers that are no whole units come before units that are too many. */
bool start_unit_lengths(void) {
    static const struct {
        size_t length;
        uint64_t refusal;
    } cases[] = {
        {1, TILIGORMIS_STATE_NOT_VALID},
        {UNITS_LENGTH - 1, TILIGORMIS_STATE_NOT_VALID},
        {UNITS_LENGTH + 1, TILIGORMIS_STATE_NOT_VALID},
        {UNITS_ROOM, TILIGORMIS_OUT_OF_RANGE},
        {UNITS_ROOM + 1, TILIGORMIS_STATE_NOT_VALID},
    };
    bool good = true;
    for (size_t k = 0; k < 5; k++) {
        expected = room = whole;
        uint64_t number = start_with(&box, PAGES, SHARED_BASE, cases[k].length);
        good &= holds(start_refused(&box, number, cases[k].refusal), "unit numbers", cases[k].length);
    }
    return good;
}

bool start_marks(void) {
    static const uint64_t marks[] = {0, 4, UINT64_MAX};
    bool good = true;
    for (size_t k = 0; k < 3; k++) {
        room = whole;
        room.units[SECOND + UNIT_COUNT - 1].mark = marks[k];
        expected = room;
        good &= holds(start_refused(&box, start(&box), TILIGORMIS_OUT_OF_RANGE), "mark", marks[k]);
    }
    return good;
}

/* The last but one has as many words as the memory that is lent, where 512 times the pages wraps. */
bool start_pages(void) {
    static const uint64_t pages[] = {
        0, PAGES - 1, PAGES + 1, TILIGORMIS_PAGES + 1, ((uint64_t)1 << 55) + PAGES, UINT64_MAX,
    };
    bool good = true;
    for (size_t k = 0; k < 6; k++) {
        expected = room = whole;
        uint64_t number = start_with(&box, pages[k], SHARED_BASE, 0);
        good &= holds(start_refused(&box, number, TILIGORMIS_STATE_NOT_VALID), "pages", pages[k]);
    }
    return good;
}

bool start_shared_span(void) {
    static const uint64_t bases[] = {PAGES, PAGES + 1, UINT64_MAX};
    bool good = true;
    for (size_t k = 0; k < 3; k++) {
        expected = room = whole;
        uint64_t number = start_with(&box, PAGES, bases[k], 0);
        good &= holds(start_refused(&box, number, TILIGORMIS_BAD_SPAN), "shared base", bases[k]);
    }
    return good;
}

/* Accepted, with a null pointer for no units: every array that is lent is made anew, and no guard. */
bool start_without_units(void) {
    expected = room;
    expected.machine[SECOND] = empty_machine();
    expected.machine[SECOND].pages = PAGES;
    expected.machine[SECOND].shared_base = SHARED_BASE;
    expected.machine[SECOND].shared_count = SHARED_COUNT;
#define CLEAR(array, length) memset(expected.array + GUARD, 0, (length) * sizeof *expected.array)
    CLEAR(sets, SETS);
    CLEAR(pairs, TILIGORMIS_PAIRS);
    CLEAR(cpu_map, TILIGORMIS_ENTRIES);
    CLEAR(cpu_walker, TILIGORMIS_ENTRIES);
    CLEAR(cpu_cache, TILIGORMIS_SLOTS);
    CLEAR(dma_map, TILIGORMIS_ENTRIES);
    CLEAR(dma_walker, TILIGORMIS_ENTRIES);
    CLEAR(dma_cache, TILIGORMIS_SLOTS);
    CLEAR(memory, MEMORY);
    expected.sets[GUARD] = (1 << SHARED_BASE) - 1;
    expected.sets[GUARD + TILIGORMIS_SET_WORDS] = 1 << SHARED_BASE;
    return start_with(&box, PAGES, SHARED_BASE, 0) == TILIGORMIS_ACCEPTED && as_expected();
}
