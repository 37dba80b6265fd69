/*
 * What a call copies, and what it takes until a cache of a wrong length is refused. The library's memcpy is wrapped here
 * (-Wl,--wrap=memcpy), so that the bytes that each call copies can be counted. A copy of UNITS bytes or more holds the
 * header's units and is counted apart; of the rest no call may copy more than MOST. A time is the least of many.
 */
#define _DEFAULT_SOURCE
#include "tiligormis.h"

#include <stdio.h>
#include <stdlib.h>
#include <sys/mman.h>
#include <time.h>

enum { MACHINE_PAGES = 16, MANY = 1 << 22, MOST = 4096, UNITS = sizeof(tiligormis_unit) * TILIGORMIS_UNITS };

static size_t small, large;

void *__real_memcpy(void *to, const void *from, size_t bytes);

void *__wrap_memcpy(void *to, const void *from, size_t bytes) {
    *(bytes < UNITS ? &small : &large) += bytes;
    return __real_memcpy(to, from, bytes);
}

/* ---- The box, and the lengths that a call is told of its CPU cache and of its pairs. */
static tiligormis_machine machine;
static tiligormis_tables tables;
static uint64_t memory[TILIGORMIS_PAGE_WORDS * MACHINE_PAGES];
static tiligormis_slot *cpu_cache;
static size_t cpu_slots = TILIGORMIS_SLOTS, pair_words = TILIGORMIS_PAIRS;

#define PARTS                                                                                                              \
    &machine, TILIGORMIS_MACHINE_NUMBERS, tables.sets, TILIGORMIS_SETS *TILIGORMIS_SET_WORDS, tables.pairs, pair_words,    \
        tables.cpu_map, TILIGORMIS_ENTRIES, tables.cpu_walker, TILIGORMIS_ENTRIES, cpu_cache, cpu_slots, tables.dma_map,   \
        TILIGORMIS_ENTRIES, tables.dma_walker, TILIGORMIS_ENTRIES, tables.dma_cache, TILIGORMIS_SLOTS, memory,             \
        TILIGORMIS_PAGE_WORDS *MACHINE_PAGES

/* ---- The calls. */
static const tiligormis_unit unit = {1, 0, 2, 2, TILIGORMIS_READ, TILIGORMIS_MARK_BOTH};
static const uint64_t barrier[TILIGORMIS_ROW_NUMBERS] = {TILIGORMIS_DATA_BARRIER}, nothing[TILIGORMIS_ROW_NUMBERS] = {0};
static tiligormis_answer answer;
static tiligormis_free_pages free_pages;

static uint64_t row(const uint64_t *numbers) {
    return tiligormis_operation(PARTS, numbers, TILIGORMIS_ROW_NUMBERS, &answer, TILIGORMIS_ANSWER_NUMBERS);
}
static uint64_t rows(size_t length) {
    return tiligormis_sequence(PARTS, barrier, length, &answer, TILIGORMIS_ANSWER_NUMBERS);
}
static uint64_t start(void) { return tiligormis_start(PARTS, MACHINE_PAGES, 12, 4, &unit, TILIGORMIS_UNIT_NUMBERS); }
static uint64_t valid(void) { return !tiligormis_valid(PARTS); }
static uint64_t accepted(void) { return row(barrier); }
static uint64_t refused(void) { return row(nothing); }
static uint64_t sequence(void) { return rows(TILIGORMIS_ROW_NUMBERS); }
static uint64_t free_query(void) { return tiligormis_free(PARTS, &free_pages, TILIGORMIS_FREE_NUMBERS); }
static uint64_t fill_at(uint64_t place) {
    return tiligormis_fill_slot(cpu_cache, cpu_slots, place, 7, 15, place, 0, TILIGORMIS_READ, 0);
}
static uint64_t fill(void) { return fill_at(63); }
static uint64_t empty(void) { return tiligormis_empty_slot(cpu_cache, cpu_slots, 0); }
static uint64_t find(void) { return tiligormis_find_slot(cpu_cache, cpu_slots, 7, 15, 63); }

static void expect(const char *name, uint64_t answered, uint64_t number) {
    if (answered != number) {
        fprintf(stderr, "%s answers %llu, not %llu\n", name, (unsigned long long)answered, (unsigned long long)number);
        exit(1);
    }
}

/* ---- Bytes and times. */
static void copies(const char *name, uint64_t (*call)(void), uint64_t number) {
    small = large = 0;
    uint64_t answered = call();
    size_t bytes = small, of_units = large;
    expect(name, answered, number);
    printf("%-32s%10zu%10zu\n", name, bytes, of_units);
    if (bytes > MOST) {
        fprintf(stderr, "%s copies more than %d bytes\n", name, MOST);
        exit(1);
    }
}

static double now(void) {
    struct timespec at;
    clock_gettime(CLOCK_MONOTONIC, &at);
    return 1e9 * (double)at.tv_sec + (double)at.tv_nsec;
}

/* So many calls in a row, in nanoseconds. */
static double calls(const char *name, uint64_t (*call)(void), uint64_t number, int count) {
    uint64_t wrong = 0;
    double from = now();
    for (int n = 0; n < count; n++)
        wrong |= call() ^ number;
    double took = now() - from;
    expect(name, wrong, 0);
    return took;
}

/* The least of 200 rows of calls, each of about 20 microseconds; of fewer where one call takes long. */
static void takes(const char *name, uint64_t (*call)(void), uint64_t number) {
    double one = calls(name, call, number, 1), least = one;
    int count = one < 20e3 ? (int)(20e3 / (one + 1)) + 1 : 1;
    for (double began = now(), n = 0; n < 200 && now() - began < 2e9; n++) {
        double took = calls(name, call, number, count) / count;
        least = took < least ? took : least;
    }
    printf("%-32s%10.0f\n", name, least);
}

static void cache_of(const char *name, size_t slots) {
    cpu_slots = slots;
    takes(name, accepted, TILIGORMIS_STATE_NOT_VALID);
    cpu_slots = TILIGORMIS_SLOTS;
}

int main(void) {
    cpu_cache = mmap(NULL, MANY * sizeof(tiligormis_slot), PROT_READ | PROT_WRITE, MAP_PRIVATE | MAP_ANONYMOUS, -1, 0);
    expect("mmap", cpu_cache == MAP_FAILED, 0);
    expect("start", start(), 0);

    printf("%-32s%10s%10s\n", "bytes that a call copies", "", "units");
    copies("start", start, 0);
    copies("valid", valid, 0);
    copies("operation, accepted", accepted, 0);
    copies("operation, refused", refused, TILIGORMIS_OUT_OF_RANGE);
    copies("sequence of one row", sequence, 0);
    copies("free", free_query, 0);
    copies("fill_slot", fill, 0);
    copies("find_slot", find, 63);
    copies("empty_slot", empty, 0);
    cpu_slots = MANY;
    copies("operation, 2^22 slots", accepted, TILIGORMIS_STATE_NOT_VALID);
    cpu_slots = TILIGORMIS_SLOTS;

    printf("\n%-32s%10s\n", "what a call takes", "ns");
    for (uint64_t place = 0; place < TILIGORMIS_SLOTS; place++)
        expect("fill_slot", fill_at(place), 0);
    takes("find_slot, the last of 64", find, 63);
    expect("start", start(), 0);
    takes("operation, accepted", accepted, 0);
    cache_of("operation, 0 slots", 0);
    cache_of("operation, 63 slots", 63);
    cache_of("operation, 4096 slots", 4096);
    cache_of("operation, 2^22 slots", MANY);
    pair_words--;
    takes("operation, 127 pairs", accepted, TILIGORMIS_STATE_NOT_VALID);
    return 0;
}
