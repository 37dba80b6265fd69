/* The functions over the slots of one cache. */
#include "edges.h"

/* Slot 1 of the CPU cache holds CPU 0, VM 1, guest page 17. A number is compared whole, and no slot past the last is seen. */
bool find_slot(void) {
    tiligormis_slot *slots = room.cpu_cache + GUARD;
    slots[TILIGORMIS_SLOTS + 1] = (tiligormis_slot){7, 15, 9, (uint32_t)1 << 31};
    expected = room;
    static const struct {
        size_t length;
        uint64_t port, vm, guest;
        size_t place;
    } cases[] = {
        {TILIGORMIS_SLOTS, 0, 1, 17, 1},
        {2, 0, 1, 17, 1},
        {1, 0, 1, 17, TILIGORMIS_SLOTS},
        {0, 0, 1, 17, TILIGORMIS_SLOTS},
        {TILIGORMIS_SLOTS, 1, 1, 17, TILIGORMIS_SLOTS},
        {TILIGORMIS_SLOTS, 0, 2, 17, TILIGORMIS_SLOTS},
        {TILIGORMIS_SLOTS, 0, 1, 18, TILIGORMIS_SLOTS},
        {TILIGORMIS_SLOTS, 256, 1, 17, TILIGORMIS_SLOTS},
        {TILIGORMIS_SLOTS, 0, 257, 17, TILIGORMIS_SLOTS},
        {TILIGORMIS_SLOTS, 0, 1, 65536 + 17, TILIGORMIS_SLOTS},
        {TILIGORMIS_SLOTS, 0, 0, 0, TILIGORMIS_SLOTS}, /* an empty slot is not found */
        {TILIGORMIS_SLOTS + 2, 7, 15, 9, TILIGORMIS_SLOTS},
    };
    bool good = true;
    for (size_t k = 0; k < sizeof cases / sizeof *cases; k++) {
        size_t place = tiligormis_find_slot(cases[k].length == 0 ? NULL : slots, cases[k].length, cases[k].port, cases[k].vm,
                                            cases[k].guest);
        good &= holds(place == cases[k].place && as_expected(), "case of finding a slot", k);
    }
    return good;
}

/* The numbers of a fill, place first. */
enum { FILL_NUMBERS = 7 };

static uint64_t fill(size_t slots_length, const uint64_t numbers[FILL_NUMBERS]) {
    return tiligormis_fill_slot(slots_length == 0 ? NULL : room.dma_cache + GUARD, slots_length, numbers[0], numbers[1],
                                numbers[2], numbers[3], numbers[4], numbers[5], numbers[6]);
}

/* Each number in turn at its limit and far over it is refused; all of them just below are accepted. */
bool fill_slot(void) {
    uint64_t numbers[FILL_NUMBERS] = {TILIGORMIS_SLOTS - 1,       TILIGORMIS_PORTS - 1, TILIGORMIS_VMS - 1,
                                      TILIGORMIS_GUEST_PAGES - 1, TILIGORMIS_PAGES - 1, TILIGORMIS_ACCESSES - 1,
                                      TILIGORMIS_GENERATIONS - 1};
    bool good = true;
    expected = room;
    for (size_t k = 0; k < FILL_NUMBERS; k++) {
        uint64_t largest = numbers[k];
        numbers[k] = largest + 1;
        good &= holds(fill(TILIGORMIS_SLOTS, numbers) == TILIGORMIS_OUT_OF_RANGE && as_expected(), "limit of number", k);
        numbers[k] = UINT64_MAX;
        good &= holds(fill(TILIGORMIS_SLOTS, numbers) == TILIGORMIS_OUT_OF_RANGE && as_expected(), "size of number", k);
        numbers[k] = largest;
    }
    good &= fill(0, numbers) == TILIGORMIS_STATE_NOT_VALID && as_expected();
    good &= fill(TILIGORMIS_SLOTS - 1, numbers) == TILIGORMIS_STATE_NOT_VALID && as_expected();
    good &= fill(TILIGORMIS_SLOTS + 1, numbers) == TILIGORMIS_STATE_NOT_VALID && as_expected();
    expected.dma_cache[GUARD + TILIGORMIS_SLOTS - 1] = (tiligormis_slot){7, 15, 65535, 0x9fffffff};
    return good && fill(TILIGORMIS_SLOTS, numbers) == TILIGORMIS_ACCEPTED && as_expected();
}

bool empty_slot(void) {
    tiligormis_slot *slots = room.cpu_cache + GUARD;
    expected = room;
    bool good = tiligormis_empty_slot(NULL, 0, 1) == TILIGORMIS_STATE_NOT_VALID && as_expected();
    good &= tiligormis_empty_slot(slots, TILIGORMIS_SLOTS - 1, 1) == TILIGORMIS_STATE_NOT_VALID && as_expected();
    good &= tiligormis_empty_slot(slots, TILIGORMIS_SLOTS + 1, 1) == TILIGORMIS_STATE_NOT_VALID && as_expected();
    good &= tiligormis_empty_slot(slots, TILIGORMIS_SLOTS, TILIGORMIS_SLOTS) == TILIGORMIS_OUT_OF_RANGE && as_expected();
    good &= tiligormis_empty_slot(slots, TILIGORMIS_SLOTS, UINT64_MAX) == TILIGORMIS_OUT_OF_RANGE && as_expected();
    expected.cpu_cache[GUARD + 1] = (tiligormis_slot){0, 0, 0, 0};
    good &= tiligormis_empty_slot(slots, TILIGORMIS_SLOTS, 1) == TILIGORMIS_ACCEPTED && as_expected();
    return good && tiligormis_valid(LENT(&box));
}
