/*
 * What is left alone by not touching it: a cache of a wrong length is not read, no refusal writes a slot, and nothing behind a
 * log's end is read. Cache and log lie in pages that the processor guards, so that a byte which is touched ends the program,
 * and with it all tests.
 */
#define _DEFAULT_SOURCE
#include "edges.h"

#include <string.h>
#include <sys/mman.h>

enum { MANY = 1 << 16, SLOTS_BYTES = TILIGORMIS_SLOTS * sizeof(tiligormis_slot) };

/* A cache of MANY slots with those of the room's CPU cache first, guarded so; NULL where the system gives none. */
static tiligormis_slot *guarded(int allowed) {
    void *place = mmap(NULL, MANY * sizeof(tiligormis_slot), PROT_READ | PROT_WRITE, MAP_PRIVATE | MAP_ANONYMOUS, -1, 0);
    if (place == MAP_FAILED)
        return NULL;
    memcpy(place, room.cpu_cache + GUARD, SLOTS_BYTES);
    return mprotect(place, MANY * sizeof(tiligormis_slot), allowed) == 0 ? place : NULL;
}

/* The box with such a cache for CPUs, or for devices. */
static struct parts with_cache(bool of_devices, tiligormis_slot *cache, size_t length) {
    struct parts lent = box;
    *(of_devices ? &lent.dma_cache : &lent.cpu_cache) = cache;
    *(of_devices ? &lent.dma_cache_length : &lent.cpu_cache_length) = length;
    return lent;
}

bool wrong_cache_unread(void) {
    static const size_t wrong[] = {1, TILIGORMIS_SLOTS - 1, TILIGORMIS_SLOTS + 1, TILIGORMIS_ENTRIES, MANY};
    tiligormis_slot *cache = guarded(PROT_NONE);
    bool good = holds(cache != NULL, "pages without access", 0);
    for (size_t k = 0; good && k < 2 * (sizeof wrong / sizeof *wrong); k++) {
        size_t length = wrong[k / 2];
        struct parts lent = with_cache(k % 2 == 1, cache, length);
        good &= holds(all_refuse(&lent), "slots", length);
        good &= tiligormis_fill_slot(cache, length, 0, 0, 0, 0, 0, 0, 0) == TILIGORMIS_STATE_NOT_VALID;
        good &= tiligormis_empty_slot(cache, length, 0) == TILIGORMIS_STATE_NOT_VALID;
    }
    return good && munmap(cache, MANY * sizeof(tiligormis_slot)) == 0;
}

bool refusal_unwritten(void) {
    static const uint64_t unknown[TILIGORMIS_ROW_NUMBERS];
    tiligormis_slot *cache = guarded(PROT_READ);
    struct parts lent = with_cache(false, cache, TILIGORMIS_SLOTS);
    tiligormis_answer answer;
    bool good = holds(cache != NULL, "pages to be read alone", 0) && tiligormis_valid(LENT(&lent));
    if (!good)
        return false;
    good &= tiligormis_operation(LENT(&lent), unknown, TILIGORMIS_ROW_NUMBERS, &answer, TILIGORMIS_ANSWER_NUMBERS)
            == TILIGORMIS_OUT_OF_RANGE;
    good &= sequence(&lent, ROWS_LENGTH - 1, ANSWERS_LENGTH) == TILIGORMIS_OUT_OF_RANGE;
    good &= tiligormis_fill_slot(cache, TILIGORMIS_SLOTS, TILIGORMIS_SLOTS, 0, 0, 0, 0, 0, 0) == TILIGORMIS_OUT_OF_RANGE;
    good &= tiligormis_empty_slot(cache, TILIGORMIS_SLOTS, TILIGORMIS_SLOTS) == TILIGORMIS_OUT_OF_RANGE;
    good &= start_with(&lent, 0, SHARED_BASE, UNITS_LENGTH) == TILIGORMIS_STATE_NOT_VALID;
    return good && munmap(cache, MANY * sizeof(tiligormis_slot)) == 0;
}

/* Half of these pages may be written, the rest not be touched. */
enum { LOG_PAGES = 1 << 16 };

/* The end of the pages that may be written; NULL where the system gives none. */
static uint8_t *guarded_end(void) {
    uint8_t *pages = mmap(NULL, LOG_PAGES, PROT_READ | PROT_WRITE, MAP_PRIVATE | MAP_ANONYMOUS, -1, 0);
    if (pages == MAP_FAILED || mprotect(pages + LOG_PAGES / 2, LOG_PAGES / 2, PROT_NONE) != 0)
        return NULL;
    return pages + LOG_PAGES / 2;
}

/* Reads and replays the first `bytes` bytes of a record, which end where the guarded pages begin and may not be written. */
static bool read_before(uint8_t *end, const uint8_t *record, size_t bytes) {
    bool good = mprotect(end - LOG_PAGES / 2, LOG_PAGES / 2, PROT_READ | PROT_WRITE) == 0;
    memcpy(end - bytes, record, bytes);
    good &= mprotect(end - LOG_PAGES / 2, LOG_PAGES / 2, PROT_READ) == 0;
    const uint64_t number = bytes % TILIGORMIS_RECORD_BYTES == 0 ? TILIGORMIS_ACCEPTED : TILIGORMIS_CUT_SHORT;
    uint64_t place = 0, taken;
    tiligormis_row row;
    good &= tiligormis_read_record(end - bytes, bytes, &place, &row) == number;
    place = 0;
    good &= tiligormis_replay(LENT(&box), end - bytes, bytes, &place, 1, UINT64_MAX, NULL, 0, &taken, 1) == number;
    return good && taken == bytes / TILIGORMIS_RECORD_BYTES && place == taken * TILIGORMIS_RECORD_BYTES;
}

/* Nothing behind a log's end is read or written, whatever its records say; and what reads a log does not write it. */
bool log_unread_behind(void) {
    const tiligormis_row row = tiligormis_row_cpu_write(0, 16, 3, 0x0909090909090909);
    uint8_t record[TILIGORMIS_RECORD_BYTES], *end = guarded_end();
    bool good = holds(end != NULL, "pages with a guarded end", 0);
    for (size_t bytes = 0; good && bytes <= sizeof record; bytes++) {
        uint64_t place = 0, number = bytes < sizeof record ? TILIGORMIS_DOES_NOT_FIT : TILIGORMIS_ACCEPTED;
        good &= holds(tiligormis_write_record(row, end - bytes, bytes, &place) == number, "bytes to write", bytes);
    }
    if (good)
        memcpy(record, end - sizeof record, sizeof record);
    for (size_t bytes = 0; good && bytes <= sizeof record; bytes++)
        good &= holds(read_before(end, record, bytes), "bytes to read", bytes);
    for (size_t bytes = 1; good && bytes < 4; bytes++)
        good &= holds(read_before(end, (const uint8_t[]){0, 0, TILIGORMIS_DATA_BARRIER}, bytes), "bytes of a head", bytes);
    return good && room.memory[GUARD + 3] == 0x0909090909090909 && munmap(end - LOG_PAGES / 2, LOG_PAGES) == 0;
}
