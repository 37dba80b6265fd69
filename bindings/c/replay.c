/* Logs carried out on the box in the room. */
#include "edges.h"

#include <string.h>

enum { COUNT = 7, FILLS = 2 };

static tiligormis_row rows[COUNT];

/* Rows for the machine at work: slots of both caches are filled first, later one is dropped; one row is refused. */
static void make_rows(void) {
    const tiligormis_row made[COUNT] = {
        tiligormis_row_cpu_fill(0, 18),    tiligormis_row_dma_fill(0, 16),
        tiligormis_row_add_vm(2),          tiligormis_row_dma_write(0, 17, 3, 0x0123456789abcdef),
        tiligormis_row_cpu_read(0, 17, 3), tiligormis_row_dma_unmap(1, 18),
        tiligormis_row_assign_page(2, 5),
    };
    memcpy(rows, made, sizeof rows);
}

/* Puts their records into the log; gives the place after the first `count` of them. */
static uint64_t records(size_t count) {
    uint64_t place = 0, end = 0;
    make_rows();
    for (size_t k = 0; k < COUNT; k++) {
        tiligormis_write_record(rows[k], room.log + GUARD, LOG_ROOM, &place);
        end = k < count ? place : end;
    }
    return end;
}

/* Expects the room with its box as the sequence of the first `count` rows leaves it; gives the answers of that. */
static void expect_sequence(size_t count, tiligormis_answer answers[COUNT]) {
    static struct room before;
    before = room;
    tiligormis_sequence(LENT(&box), rows->numbers, count * TILIGORMIS_ROW_NUMBERS, answers, COUNT * TILIGORMIS_ANSWER_NUMBERS);
    expected = room;
    room = before;
}

/* A place or a count taken of another length is refused, and not even the other of the two is written. */
bool replay_lengths(void) {
    static const size_t lengths[][2] = {{0, 1}, {2, 1}, {8, 1}, {1, 0}, {1, 2}, {1, 8}, {0, 0}, {2, 2}};
    bool good = true;
    for (size_t damaged = 0; damaged < 2; damaged++) {
        expected = room;
        for (size_t k = 0; k < sizeof lengths / sizeof *lengths; k++) {
            uint64_t number = replay_with(&box, ROWS_BYTES, lengths[k][0], ROWS, ANSWERS_LENGTH, lengths[k][1]);
            good &= holds(number == TILIGORMIS_STATE_NOT_VALID && as_expected(), "lengths of a replay", k);
        }
        room.machine[SECOND].unit_count = TILIGORMIS_UNITS + 1;
    }
    return good;
}

/* However the log is cut into pieces, box and answers are what the sequence of the rows leaves and gives. */
bool replay_pieces(void) {
    tiligormis_answer answers[COUNT];
    bool good = true;
    for (size_t piece = 1; piece <= COUNT + 1; piece++) {
        room = whole;
        const uint64_t end = records(COUNT);
        expect_sequence(COUNT, answers);
        good &= holds(answers[2].number == TILIGORMIS_VM_KNOWN && answers[4].word == 0x0123456789abcdef, "answers", piece);
        for (size_t done = 0; done < COUNT; done += piece) {
            size_t left = COUNT - done < piece ? COUNT - done : piece;
            tiligormis_answer given[COUNT + 1];
            uint64_t number = tiligormis_replay(LENT(&box), room.log + GUARD, end, room.place + GUARD, 1, piece, given,
                                                (COUNT + 1) * TILIGORMIS_ANSWER_NUMBERS, room.taken + GUARD, 1);
            good &= holds(number == TILIGORMIS_ACCEPTED && room.taken[GUARD] == left, "records of a piece", piece);
            good &= holds(memcmp(given, answers + done, left * sizeof *given) == 0, "answers of a piece", piece);
        }
        expected.place[GUARD] = end;
        expected.taken[GUARD] = room.taken[GUARD];
        good &= holds(as_expected(), "box after pieces", piece);
    }
    return good;
}

/* As many records as are asked for, none of them too; more than there are end with the log. */
bool replay_most(void) {
    static const uint64_t more[] = {COUNT + 1, (uint64_t)1 << 32, UINT64_MAX};
    tiligormis_answer answers[COUNT];
    bool good = true;
    for (size_t k = 0; k <= COUNT + 3; k++) {
        uint64_t most = k <= COUNT ? k : more[k - COUNT - 1];
        size_t taken = k <= COUNT ? k : COUNT;
        room = whole;
        records(COUNT);
        expect_sequence(taken, answers);
        expected.place[GUARD] = records(taken);
        expected.taken[GUARD] = taken;
        good &= holds(replay(&box, records(COUNT), most, 0) == TILIGORMIS_ACCEPTED && as_expected(), "at most", most);
    }
    return good;
}

/* Answers are written whole or not at all, and both records are carried out with or without. */
bool replay_answers(void) {
    static const tiligormis_answer answers[ROWS] = {{TILIGORMIS_ACCEPTED, 0, 0, 0}, {TILIGORMIS_VM_KNOWN, 0, 0, 0}};
    bool good = true;
    for (size_t numbers = 0; numbers <= ANSWERS_LENGTH + TILIGORMIS_ANSWER_NUMBERS; numbers++) {
        size_t whole_ones = numbers / TILIGORMIS_ANSWER_NUMBERS < ROWS ? numbers / TILIGORMIS_ANSWER_NUMBERS : ROWS;
        expected = room = whole;
        memcpy(&expected.answers[SECOND], answers, whole_ones * sizeof *answers);
        expected.machine[SECOND].known |= 1 << 3;
        expected.place[GUARD] = ROWS_BYTES;
        expected.taken[GUARD] = ROWS;
        good &= holds(replay(&box, ROWS_BYTES, ROWS, numbers) == TILIGORMIS_ACCEPTED && as_expected(), "answers", numbers);
    }
    return good;
}

/* An unreadable record ends it, and what was done before it stands, slots that were filled or dropped too. */
bool replay_unreadable(void) {
    static const struct {
        uint8_t record[8];
        size_t bytes;
        uint64_t number;
    } cases[] = {
        {{6, 0, 1, 0, 3, 0, 0, 0}, 7, TILIGORMIS_CUT_SHORT},
        {{6}, 1, TILIGORMIS_CUT_SHORT},
        {{6, 0, PAST, 0, 3, 0, 0, 0}, 8, TILIGORMIS_UNKNOWN_KIND},
        {{5, 0, 1, 0, 3, 0, 0, 0}, 8, TILIGORMIS_WRONG_LENGTH},
    };
    static const size_t befores[] = {0, FILLS, COUNT};
    tiligormis_answer answers[COUNT];
    bool good = true;
    for (size_t k = 0; k < 3 * (sizeof cases / sizeof *cases); k++) {
        size_t which = k / 3, before = befores[k % 3];
        room = whole;
        uint64_t place = records(before);
        memcpy(room.log + GUARD + place, cases[which].record, sizeof cases[which].record);
        expect_sequence(before, answers);
        expected.place[GUARD] = place;
        expected.taken[GUARD] = before;
        uint64_t number = replay(&box, place + cases[which].bytes, UINT64_MAX, 0);
        good &= holds(number == cases[which].number && as_expected(), "record that cannot be read", k);
        bool stored = memcmp(room.cpu_cache, whole.cpu_cache, sizeof room.cpu_cache) != 0 &&
                      memcmp(room.dma_cache, whole.dma_cache, sizeof room.dma_cache) != 0;
        good &= holds(stored == (before > 0), "slots stored before it", k);
        /* it is not looked at where no more are asked for */
        number = replay(&box, place + cases[which].bytes, 0, 0);
        expected.taken[GUARD] = 0;
        good &= holds(number == TILIGORMIS_ACCEPTED && as_expected(), "none asked for", k);
    }
    return good;
}

/* At the end and past it nothing is taken, and the place stays; so it is with a log of no bytes, null here. */
bool replay_end(void) {
    static const uint64_t past[] = {0, 1, 3, (uint64_t)1 << 32, UINT64_MAX - ROWS_BYTES};
    static const size_t lengths[] = {0, ROWS_BYTES};
    bool good = true;
    for (size_t k = 0; k < 2 * (sizeof past / sizeof *past); k++) {
        size_t length = lengths[k % 2];
        room = whole;
        room.place[GUARD] = length + past[k / 2];
        expected = room;
        expected.taken[GUARD] = 0;
        uint64_t number = replay(&box, length, UINT64_MAX, ANSWERS_LENGTH);
        good &= holds(number == TILIGORMIS_ACCEPTED && as_expected(), "past the end", past[k / 2]);
    }
    return good;
}
