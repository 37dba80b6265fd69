/* The box itself: arrays that are null, short or long, and headers that are no machine's. */
#include "edges.h"

#include <string.h>

#define PART_NUMBER(part, length) PART_##part,
#define PART_NAME(part, length) #part,
enum { PARTS(PART_NUMBER) PART_COUNT };
static const char *const part_name[] = {PARTS(PART_NAME)};

static size_t *length_of(struct parts *lent, int part) {
#define PART_LENGTH(part, length) &lent->length,
    size_t *const lengths[] = {PARTS(PART_LENGTH)};
    return lengths[part];
}

static void make_null(struct parts *lent, int part) {
    switch (part) {
#define PART_NULL(part, length)                                                                                                \
    case PART_##part:                                                                                                          \
        lent->part = NULL;                                                                                                     \
        break;
        PARTS(PART_NULL)
    }
    *length_of(lent, part) = 0;
}

/* The whole box is accepted by every entry: what other tests see refused is refused for what they changed. */
bool whole_box(void) {
    expected = room;
    bool good = tiligormis_valid(LENT(&box)) && as_expected();
    expected.free_pages[SECOND] = (tiligormis_free_pages){4, 3};
    good &= free_pages(&box, TILIGORMIS_FREE_NUMBERS) == TILIGORMIS_ACCEPTED && as_expected();
    expected.answer[SECOND] = (tiligormis_answer){TILIGORMIS_ACCEPTED, 0, 0, 0};
    expected.machine[SECOND].known |= 1 << 3;
    good &= operation(&box, TILIGORMIS_ROW_NUMBERS, TILIGORMIS_ANSWER_NUMBERS) == TILIGORMIS_ACCEPTED && as_expected();
    return good && start(&box) == TILIGORMIS_ACCEPTED;
}

bool null_arrays(void) {
    bool good = true;
    for (int part = 0; part < PART_COUNT; part++) {
        struct parts lent = box;
        make_null(&lent, part);
        good &= holds(all_refuse(&lent), part_name[part], 0);
    }
    return good;
}

bool nothing_at_all(void) {
    struct parts lent = box;
    for (int part = 0; part < PART_COUNT; part++)
        make_null(&lent, part);
    return all_refuse(&lent);
}

/* A length of 0 with a pointer that is not null. */
bool empty_arrays(void) {
    bool good = true;
    for (int part = 0; part < PART_COUNT; part++) {
        struct parts lent = box;
        *length_of(&lent, part) = 0;
        good &= holds(all_refuse(&lent), part_name[part], 0);
    }
    return good;
}

/* Every array in turn is lent with its right length changed by this. */
static bool lengths_changed(ptrdiff_t change) {
    bool good = true;
    for (int part = 0; part < PART_COUNT; part++) {
        struct parts lent = box;
        *length_of(&lent, part) += (size_t)change;
        good &= holds(all_refuse(&lent), part_name[part], *length_of(&lent, part));
    }
    return good;
}

bool short_arrays(void) { return lengths_changed(-1) && lengths_changed(-2) && lengths_changed(-GUARD); }

bool long_arrays(void) { return lengths_changed(1) && lengths_changed(2) && lengths_changed(GUARD); }

/* Arrays that are only looked at may overlap: here the walker's map is the software map. */
bool overlap_of_const(void) {
    struct parts lent = box;
    lent.cpu_walker = lent.cpu_map;
    expected = room;
    return tiligormis_valid(LENT(&lent)) && as_expected();
}

/* No number of a header that is looked at may be this large. The pages are also tried so that 512 times them wraps. */
bool header_numbers(void) {
    static const uint64_t largest = UINT64_MAX;
    const size_t looked_at = offsetof(tiligormis_machine, units[UNIT_COUNT]) / sizeof largest;
    bool good = true;
    for (size_t number = 0; number < looked_at; number++) {
        room = whole;
        memcpy((char *)&room.machine[SECOND] + number * sizeof largest, &largest, sizeof largest);
        good &= holds(entries_refuse(&box), "number of the header", number);
    }
    room = whole;
    room.machine[SECOND].pages += (uint64_t)1 << 55;
    return good && holds(entries_refuse(&box), "pages", room.machine[SECOND].pages);
}

bool unknown_marks(void) {
    static const uint64_t marks[] = {0, 4, UINT64_MAX};
    bool good = true;
    for (size_t unit = 0; unit < UNIT_COUNT; unit++)
        for (size_t k = 0; k < 3; k++) {
            room = whole;
            room.machine[SECOND].units[unit].mark = marks[k];
            good &= holds(entries_refuse(&box), "mark", marks[k]);
        }
    return good;
}

/* Units from the count on are not looked at, whatever stands there. */
bool units_past_count(void) {
    memset(&room.machine[SECOND].units[UNIT_COUNT], 0xff, sizeof(tiligormis_unit) * (TILIGORMIS_UNITS - UNIT_COUNT));
    expected = room;
    return tiligormis_valid(LENT(&box)) && as_expected();
}

/* As many units as there is room for are good; more are not, all of those that there are being good. */
bool unit_counts(void) {
    static const uint64_t counts[] = {TILIGORMIS_UNITS + 1, (uint64_t)1 << 32, UINT64_MAX};
    for (size_t unit = 0; unit < TILIGORMIS_UNITS; unit++)
        room.machine[SECOND].units[unit] = whole.machine[SECOND].units[0];
    room.machine[SECOND].unit_count = TILIGORMIS_UNITS;
    bool good = tiligormis_valid(LENT(&box));
    for (size_t k = 0; k < 3; k++) {
        room.machine[SECOND].unit_count = counts[k];
        good &= holds(entries_refuse(&box), "unit count", counts[k]);
    }
    return good;
}
