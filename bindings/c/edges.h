/*
 * What the library does at the edges that only C can reach: null pointers, lengths that are not the right ones, marks and
 * counts that no machine has. Each test looks at the number returned and at every byte: all that is lent stands in one room,
 * with guard elements before and after each array, and after a call the room must be as expected to the last byte. Also what
 * the header's inline functions give, and what its head tells.
 */
#ifndef TILIGORMIS_EDGES_H
#define TILIGORMIS_EDGES_H

#include "tiligormis.h"

enum { PAGES = 8, SHARED_BASE = 7, SHARED_COUNT = 1, UNIT_COUNT = 2 };
enum { SETS = TILIGORMIS_SETS * TILIGORMIS_SET_WORDS, MEMORY = PAGES * TILIGORMIS_PAGE_WORDS };
enum { ROWS = 2, ROWS_LENGTH = ROWS * TILIGORMIS_ROW_NUMBERS, ANSWERS_LENGTH = ROWS * TILIGORMIS_ANSWER_NUMBERS };
enum { UNITS_LENGTH = UNIT_COUNT * TILIGORMIS_UNIT_NUMBERS, UNITS_ROOM = (TILIGORMIS_UNITS + 1) * TILIGORMIS_UNIT_NUMBERS };
enum { LOG_ROOM = 400, ROWS_BYTES = ROWS * 8 }; /* bytes: room for a record of every kind, and the records of the two rows */
enum { PAST = TILIGORMIS_KINDS + 1 };           /* one past the last operation, which is the last kind of record too */

/* An array is lent from its element GUARD on; the structs of numbers from their second on. */
enum { GUARD = 8, SECOND = 1 };
#define GUARDED(count) (GUARD + (count) + GUARD)
struct room {
    tiligormis_machine machine[3];
    uint64_t sets[GUARDED(SETS)];
    uint64_t pairs[GUARDED(TILIGORMIS_PAIRS)];
    uint64_t cpu_map[GUARDED(TILIGORMIS_ENTRIES)];
    uint64_t cpu_walker[GUARDED(TILIGORMIS_ENTRIES)];
    tiligormis_slot cpu_cache[GUARDED(TILIGORMIS_SLOTS)];
    uint64_t dma_map[GUARDED(TILIGORMIS_ENTRIES)];
    uint64_t dma_walker[GUARDED(TILIGORMIS_ENTRIES)];
    tiligormis_slot dma_cache[GUARDED(TILIGORMIS_SLOTS)];
    uint64_t memory[GUARDED(MEMORY)];
    tiligormis_unit units[1 + TILIGORMIS_UNITS + 1 + 1];
    uint64_t rows[GUARDED(ROWS_LENGTH)];
    tiligormis_answer answers[1 + ROWS + 1];
    tiligormis_answer answer[3];
    tiligormis_free_pages free_pages[3];
    uint64_t row[GUARDED(TILIGORMIS_ROW_NUMBERS)];
    uint8_t log[GUARDED(LOG_ROOM)];
    uint64_t place[GUARDED(1)];
    uint64_t taken[GUARDED(1)];
};

/* The room of a machine at work; the room that calls are made in, like it before each test; what that must be afterwards. */
extern struct room whole, room, expected;

/* The parts of a box, each with its length, which need not be the right one. */
struct parts {
    tiligormis_machine *machine;
    size_t machine_numbers;
    uint64_t *sets;
    size_t sets_length;
    uint64_t *pairs;
    size_t pairs_length;
    uint64_t *cpu_map;
    size_t cpu_map_length;
    uint64_t *cpu_walker;
    size_t cpu_walker_length;
    tiligormis_slot *cpu_cache;
    size_t cpu_cache_length;
    uint64_t *dma_map;
    size_t dma_map_length;
    uint64_t *dma_walker;
    size_t dma_walker_length;
    tiligormis_slot *dma_cache;
    size_t dma_cache_length;
    uint64_t *memory;
    size_t memory_length;
};

/* The arguments that hand them on. */
#define LENT(parts)                                                                                                            \
    (parts)->machine, (parts)->machine_numbers, (parts)->sets, (parts)->sets_length, (parts)->pairs, (parts)->pairs_length,    \
        (parts)->cpu_map, (parts)->cpu_map_length, (parts)->cpu_walker, (parts)->cpu_walker_length, (parts)->cpu_cache,        \
        (parts)->cpu_cache_length, (parts)->dma_map, (parts)->dma_map_length, (parts)->dma_walker, (parts)->dma_walker_length, \
        (parts)->dma_cache, (parts)->dma_cache_length, (parts)->memory, (parts)->memory_length

/* The box in `room`, every length right. */
extern const struct parts box;

/* The parts by name, each with the name of its length. An element counts as 64 bits in all of them. */
#define PARTS(PART)                                                                                                            \
    PART(machine, machine_numbers)                                                                                             \
    PART(sets, sets_length)                                                                                                    \
    PART(pairs, pairs_length)                                                                                                  \
    PART(cpu_map, cpu_map_length)                                                                                              \
    PART(cpu_walker, cpu_walker_length)                                                                                        \
    PART(cpu_cache, cpu_cache_length)                                                                                          \
    PART(dma_map, dma_map_length)                                                                                              \
    PART(dma_walker, dma_walker_length)                                                                                        \
    PART(dma_cache, dma_cache_length)                                                                                          \
    PART(memory, memory_length)

/* Fills `whole`: something in every table, and no guard 0. False where the library refuses any of it. */
bool make_whole(void);

/* ---- Calls with what stands in `room`; of length 0 a null pointer is passed. ----------------------------------------------
 */

uint64_t start_with(const struct parts *lent, uint64_t pages, uint64_t shared_base, size_t units_length);
uint64_t start(const struct parts *lent);
uint64_t operation(const struct parts *lent, size_t row_length, size_t answer_numbers);
uint64_t sequence(const struct parts *lent, size_t rows_length, size_t answers_length);
/* Operations on the whole box, one after the other; 0 where all are accepted. */
uint64_t carry_out(const uint64_t rows[][TILIGORMIS_ROW_NUMBERS], size_t count);
uint64_t free_pages(const struct parts *lent, size_t free_numbers);
uint64_t log_write(size_t row_length, size_t log_length, size_t place_length);
uint64_t log_read(size_t log_length, size_t place_length, size_t row_length);
uint64_t replay_with(const struct parts *lent, size_t log_length, size_t place_length, uint64_t most, size_t answers_length,
                     size_t taken_length);
uint64_t replay(const struct parts *lent, size_t log_length, uint64_t most, size_t answers_length);

/* ---- What is expected -----------------------------------------------------------------------------------------------------
 */

/* Hands `good` on; where it is false, says what was tried, and with which number. */
bool holds(bool good, const char *tried, uint64_t number);

bool as_expected(void);

/* The answer of an operation that is refused with 1. */
extern const tiligormis_answer not_valid;

/* The header that a refused start leaves. */
tiligormis_machine empty_machine(void);

/* Start gave this number, and it is this refusal; all but the header is left, and that too where it has not its length. */
bool start_refused(const struct parts *lent, uint64_t number, uint64_t refusal);

/* Every entry but start refuses with 1 and leaves the room, but for the answer, the free query's result and what is taken. */
bool entries_refuse(const struct parts *lent);

/* So does start, all of them from the room of a machine at work. */
bool all_refuse(const struct parts *lent);

/* ---- The tests ------------------------------------------------------------------------------------------------------------
 */

#define TESTS(TEST)                                                                                                            \
    TEST(whole_box)                                                                                                            \
    TEST(null_arrays)                                                                                                          \
    TEST(nothing_at_all)                                                                                                       \
    TEST(empty_arrays)                                                                                                         \
    TEST(short_arrays)                                                                                                         \
    TEST(long_arrays)                                                                                                          \
    TEST(overlap_of_const)                                                                                                     \
    TEST(header_numbers)                                                                                                       \
    TEST(unknown_marks)                                                                                                        \
    TEST(units_past_count)                                                                                                     \
    TEST(unit_counts)                                                                                                          \
    TEST(row_lengths)                                                                                                          \
    TEST(answer_lengths)                                                                                                       \
    TEST(parts_of_rows)                                                                                                        \
    TEST(answers_short)                                                                                                        \
    TEST(sequence_order)                                                                                                       \
    TEST(answers_long)                                                                                                         \
    TEST(no_rows)                                                                                                              \
    TEST(unknown_operations)                                                                                                   \
    TEST(free_lengths)                                                                                                         \
    TEST(free_held)                                                                                                            \
    TEST(free_none)                                                                                                            \
    TEST(start_unit_lengths)                                                                                                   \
    TEST(start_marks)                                                                                                          \
    TEST(start_pages)                                                                                                          \
    TEST(start_shared_span)                                                                                                    \
    TEST(start_without_units)                                                                                                  \
    TEST(find_slot)                                                                                                            \
    TEST(fill_slot)                                                                                                            \
    TEST(empty_slot)                                                                                                           \
    TEST(wrong_cache_unread)                                                                                                   \
    TEST(refusal_unwritten)                                                                                                    \
    TEST(log_unread_behind)                                                                                                    \
    TEST(log_lengths)                                                                                                          \
    TEST(log_example)                                                                                                          \
    TEST(log_kinds)                                                                                                            \
    TEST(log_other_numbers)                                                                                                    \
    TEST(log_short)                                                                                                            \
    TEST(log_past)                                                                                                             \
    TEST(log_arguments)                                                                                                        \
    TEST(log_unknown_kinds)                                                                                                    \
    TEST(log_cut)                                                                                                              \
    TEST(log_wrong)                                                                                                            \
    TEST(log_end)                                                                                                              \
    TEST(replay_lengths)                                                                                                       \
    TEST(replay_pieces)                                                                                                        \
    TEST(replay_most)                                                                                                          \
    TEST(replay_answers)                                                                                                       \
    TEST(replay_unreadable)                                                                                                    \
    TEST(replay_end)                                                                                                           \
    TEST(row_constructors)                                                                                                     \
    TEST(refusal_names)                                                                                                        \
    TEST(entry_fields)                                                                                                         \
    TEST(box_of_tables)                                                                                                        \
    TEST(box_like_parts)                                                                                                       \
    TEST(box_unit_counts)                                                                                                      \
    TEST(box_row_counts)                                                                                                       \
    TEST(box_answer_counts)                                                                                                    \
    TEST(records_written)                                                                                                      \
    TEST(records_read)                                                                                                         \
    TEST(dma_pages)                                                                                                            \
    TEST(retirement)                                                                                                           \
    TEST(retirement_by_page)                                                                                                   \
    TEST(retirement_in_one_call)

#define DECLARED(test) bool test(void);
TESTS(DECLARED)

#endif
