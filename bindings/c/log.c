/* Records written into a log and read from one. */
#include "edges.h"

#include <string.h>

/* How many arguments each operation has, by its number. */
static const size_t arguments[TILIGORMIS_KINDS + 1] = {0, 1, 1, 2, 2, 3, 3, 5, 5, 2, 2, 5, 5, 5,
                                                       5, 2, 2, 2, 2, 1, 1, 3, 3, 4, 4, 0, 0, 1};

/* Whether number k of a row of this kind is a value, of eight bytes. */
static bool is_value(uint64_t kind, size_t k) {
    return (kind == TILIGORMIS_CPU_WRITE || kind == TILIGORMIS_DMA_WRITE) && k == 4;
}

/* A row of a kind: the four bytes of each argument differ, as do the arguments, and a value has eight; the rest is `beyond`. */
static tiligormis_row row_of(uint64_t kind, uint64_t beyond) {
    tiligormis_row row = {{kind}};
    for (size_t k = 1; k < TILIGORMIS_ROW_NUMBERS; k++)
        row.numbers[k] = k <= arguments[kind] ? 0x03020100 + 0x10101010 * k : beyond;
    if (is_value(kind, 4))
        row.numbers[4] = 0xf7f6f5f4f3f2f1f0;
    return row;
}

/* The record of such a row, made byte by byte; how many bytes it has. */
static size_t record_of(const tiligormis_row *row, uint8_t *record) {
    const uint64_t kind = row->numbers[0];
    size_t bytes = 4;
    for (size_t k = 1; k <= arguments[kind]; k++)
        for (size_t byte = 0; byte < (is_value(kind, k) ? 8u : 4u); byte++)
            record[bytes++] = (uint8_t)(row->numbers[k] >> 8 * byte);
    record[0] = (uint8_t)(bytes - 2);
    record[1] = record[3] = 0;
    record[2] = (uint8_t)kind;
    return bytes;
}

static void place_row(tiligormis_row row, uint64_t place) {
    memcpy(room.row + GUARD, &row, sizeof row);
    room.place[GUARD] = place;
}

/* Writing what stands in the room gives this number, and leaves all as it was. */
static bool write_refused(size_t log_length, uint64_t number) {
    expected = room;
    return log_write(TILIGORMIS_ROW_NUMBERS, log_length, 1) == number && as_expected();
}

/* So does reading. */
static bool read_refused(size_t log_length, uint64_t number) {
    expected = room;
    return log_read(log_length, 1, TILIGORMIS_ROW_NUMBERS) == number && as_expected();
}

/* A row or a place of another length is refused before anything else, and nothing is written. */
bool log_lengths(void) {
    static const struct {
        size_t row, place;
    } lengths[] = {{0, 1}, {1, 1}, {7, 1}, {9, 1}, {16, 1}, {8, 0}, {8, 2}, {8, 8}, {0, 0}, {7, 2}};
    bool good = true;
    for (uint64_t kind = 0; kind < 2; kind++) {
        place_row((tiligormis_row){{kind, 1}}, 0);
        expected = room;
        for (size_t k = 0; k < sizeof lengths / sizeof *lengths; k++) {
            uint64_t number = log_write(lengths[k].row, LOG_ROOM, lengths[k].place);
            good &= holds(number == TILIGORMIS_STATE_NOT_VALID && as_expected(), "lengths of a write", k);
            number = log_read(ROWS_BYTES - kind, lengths[k].place, lengths[k].row);
            good &= holds(number == TILIGORMIS_STATE_NOT_VALID && as_expected(), "lengths of a read", k);
        }
    }
    return good;
}

/* The manual's example, and the record of eight bytes in a value. */
bool log_example(void) {
    static const uint8_t add_vm[] = {0x06, 0, 0x01, 0, 0x01, 0, 0, 0};
    static const uint8_t cpu_write[] = {0x16, 0, 0x17, 0, 7, 0, 0, 0, 0xff, 0xff, 0, 0, 0xff, 1, 0, 0, 8, 7, 6, 5, 4, 3, 2, 1};
    place_row(tiligormis_row_add_vm(1), 0);
    bool good = log_write(TILIGORMIS_ROW_NUMBERS, LOG_ROOM, 1) == TILIGORMIS_ACCEPTED && room.place[GUARD] == sizeof add_vm;
    place_row(tiligormis_row_cpu_write(7, 65535, 511, 0x0102030405060708), sizeof add_vm);
    good &= log_write(TILIGORMIS_ROW_NUMBERS, LOG_ROOM, 1) == TILIGORMIS_ACCEPTED;
    good &= room.place[GUARD] == sizeof add_vm + sizeof cpu_write && sizeof cpu_write == TILIGORMIS_RECORD_BYTES;
    good &= memcmp(room.log + GUARD, add_vm, sizeof add_vm) == 0;
    return good && memcmp(room.log + GUARD + sizeof add_vm, cpu_write, sizeof cpu_write) == 0;
}

/* A record of every kind, one after the other, each byte of them; then read back, and at the end a row of zeros. */
bool log_kinds(void) {
    uint8_t record[TILIGORMIS_RECORD_BYTES];
    size_t end = 0, longest = 0;
    bool good = true;
    for (uint64_t kind = 1; kind <= TILIGORMIS_KINDS; kind++) {
        tiligormis_row row = row_of(kind, 0);
        size_t bytes = record_of(&row, record);
        place_row(row, end);
        expected = room;
        memcpy(expected.log + GUARD + end, record, bytes);
        expected.place[GUARD] = end += bytes;
        longest = bytes > longest ? bytes : longest;
        good &= holds(log_write(TILIGORMIS_ROW_NUMBERS, LOG_ROOM, 1) == TILIGORMIS_ACCEPTED && as_expected(), "written", kind);
    }
    size_t place = 0;
    for (uint64_t kind = 1; kind <= TILIGORMIS_KINDS; kind++) {
        tiligormis_row row = row_of(kind, 0);
        memset(room.row + GUARD, 0xa5, sizeof row);
        room.place[GUARD] = place;
        expected = room;
        memcpy(expected.row + GUARD, &row, sizeof row);
        expected.place[GUARD] = place += record_of(&row, record);
        good &= holds(log_read(end, 1, TILIGORMIS_ROW_NUMBERS) == TILIGORMIS_ACCEPTED && as_expected(), "read", kind);
    }
    return good && place == end && longest == TILIGORMIS_RECORD_BYTES;
}

/* Numbers beyond the arguments are not written, however large, and read as 0. */
bool log_other_numbers(void) {
    bool good = true;
    for (uint64_t kind = 1; kind <= TILIGORMIS_KINDS; kind++) {
        place_row(row_of(kind, UINT64_MAX), 0);
        uint64_t number = log_write(TILIGORMIS_ROW_NUMBERS, LOG_ROOM, 1);
        tiligormis_row row = row_of(kind, 0);
        room.place[GUARD] = 0;
        number |= log_read(LOG_ROOM, 1, TILIGORMIS_ROW_NUMBERS);
        good &= holds(number == TILIGORMIS_ACCEPTED && memcmp(room.row + GUARD, &row, sizeof row) == 0, "kind", kind);
    }
    return good;
}

/* Every count of bytes that is less than the record has is too little; that count is enough, from any place on. */
bool log_short(void) {
    static const size_t places[] = {0, 1, ROWS_BYTES};
    uint8_t record[TILIGORMIS_RECORD_BYTES];
    bool good = true;
    for (uint64_t kind = 1; kind <= TILIGORMIS_KINDS; kind++)
        for (size_t k = 0; k < 3; k++) {
            tiligormis_row row = row_of(kind, 0);
            size_t bytes = record_of(&row, record);
            room = whole;
            place_row(row, places[k]);
            for (size_t room_left = 0; room_left < bytes; room_left++)
                good &= holds(write_refused(places[k] + room_left, TILIGORMIS_DOES_NOT_FIT), "bytes left", room_left);
            memcpy(expected.log + GUARD + places[k], record, bytes);
            expected.place[GUARD] += bytes;
            uint64_t number = log_write(TILIGORMIS_ROW_NUMBERS, places[k] + bytes, 1);
            good &= holds(number == TILIGORMIS_ACCEPTED && as_expected(), "bytes enough", bytes);
        }
    return good;
}

/* Nothing fits at the end or past it, also where the place after the record would wrap. */
bool log_past(void) {
    static const uint64_t places[] = {0, 1, 2, 1000, (uint64_t)1 << 32, UINT64_MAX - LOG_ROOM - 24, UINT64_MAX - LOG_ROOM};
    bool good = true;
    for (size_t k = 0; k < sizeof places / sizeof *places; k++) {
        place_row(tiligormis_row_data_barrier(), LOG_ROOM + places[k]);
        good &= holds(write_refused(LOG_ROOM, TILIGORMIS_DOES_NOT_FIT), "past the end", places[k]);
        place_row(tiligormis_row_data_barrier(), places[k]);
        good &= holds(write_refused(0, TILIGORMIS_DOES_NOT_FIT), "place of no log", places[k]);
    }
    return good;
}

/* An argument over four bytes does not fit. The machine refuses such a row too, so a log without it lacks no change. */
bool log_arguments(void) {
    static const uint64_t over[] = {(uint64_t)1 << 32, UINT64_MAX};
    bool good = true;
    for (uint64_t kind = 1; kind <= TILIGORMIS_KINDS; kind++)
        for (size_t k = 1; k <= arguments[kind]; k++)
            for (size_t which = 0; which < 2 && !is_value(kind, k); which++) {
                tiligormis_row row = row_of(kind, 0);
                room = whole;
                row.numbers[k] = over[which];
                place_row(row, 0);
                good &= holds(write_refused(LOG_ROOM, TILIGORMIS_DOES_NOT_FIT), "argument over four bytes", kind);
                memcpy(room.rows + GUARD, &row, sizeof row);
                expected = room;
                uint64_t number = operation(&box, TILIGORMIS_ROW_NUMBERS, TILIGORMIS_ANSWER_NUMBERS);
                expected.answer[SECOND] = (tiligormis_answer){number, 0, 0, 0};
                good &= holds(number != TILIGORMIS_ACCEPTED && as_expected(), "the machine's answer to it", kind);
                row.numbers[k] = UINT32_MAX;
                place_row(row, 0);
                good &= holds(log_write(TILIGORMIS_ROW_NUMBERS, LOG_ROOM, 1) == TILIGORMIS_ACCEPTED, "four bytes", kind);
            }
    return good;
}

/* A first number that is no kind comes before an argument that is too large, and before too little room. */
bool log_unknown_kinds(void) {
    static const uint64_t kinds[] = {0, PAST, 65536 + 1, ((uint64_t)1 << 32) + 1, UINT64_MAX};
    bool good = true;
    for (size_t k = 0; k < sizeof kinds / sizeof *kinds; k++) {
        place_row((tiligormis_row){{kinds[k], 1}}, 0);
        good &= holds(write_refused(LOG_ROOM, TILIGORMIS_UNKNOWN_KIND), "kind", kinds[k]);
        place_row((tiligormis_row){{kinds[k], UINT64_MAX}}, UINT64_MAX);
        good &= holds(write_refused(0, TILIGORMIS_UNKNOWN_KIND), "kind, and all else wrong", kinds[k]);
    }
    return good;
}

/* A record of every kind, cut at every byte but before its first; and up to three bytes whatever length they say. */
bool log_cut(void) {
    bool good = true;
    for (uint8_t length = 0; length < 3; length++) {
        const uint8_t head[] = {length, 0, TILIGORMIS_DATA_BARRIER};
        memcpy(room.log + GUARD, head, sizeof head);
        for (size_t left = 1; left <= sizeof head; left++)
            good &= holds(read_refused(left, TILIGORMIS_CUT_SHORT), "bytes of a head", left);
    }
    for (uint64_t kind = 1; kind <= TILIGORMIS_KINDS; kind++) {
        tiligormis_row row = row_of(kind, 0);
        size_t place = ROWS_BYTES, bytes = record_of(&row, room.log + GUARD + place);
        room.place[GUARD] = place;
        for (size_t left = 1; left < bytes; left++)
            good &= holds(read_refused(place + left, TILIGORMIS_CUT_SHORT), "bytes left", left);
    }
    return good;
}

/* What is wrong of a record, the first match first; in each of them the log has eight bytes left. */
bool log_wrong(void) {
    static const struct {
        uint8_t record[8];
        uint64_t number;
    } cases[] = {
        {{7, 0, 1, 0, 1, 0, 0, 0}, TILIGORMIS_CUT_SHORT},          /* a byte more than there is */
        {{6, 1, 1, 0, 1, 0, 0, 0}, TILIGORMIS_CUT_SHORT},          /* 256 more */
        {{0xff, 0xff, PAST, 0, 1, 0, 0, 0}, TILIGORMIS_CUT_SHORT}, /* whatever the kind */
        {{6, 0, 0, 0, 1, 0, 0, 0}, TILIGORMIS_UNKNOWN_KIND},       /* 0 */
        {{6, 0, PAST, 0, 1, 0, 0, 0}, TILIGORMIS_UNKNOWN_KIND},    /* one past the last */
        {{6, 0, 1, 1, 1, 0, 0, 0}, TILIGORMIS_UNKNOWN_KIND},       /* 257 */
        {{6, 0, 0xff, 0xff, 1, 0, 0, 0}, TILIGORMIS_UNKNOWN_KIND}, /* the largest */
        {{0, 0, PAST, 0, 1, 0, 0, 0}, TILIGORMIS_UNKNOWN_KIND},    /* whatever the length */
        {{1, 0, 0, 0, 1, 0, 0, 0}, TILIGORMIS_UNKNOWN_KIND},       {{0, 0, 1, 0, 1, 0, 0, 0}, TILIGORMIS_WRONG_LENGTH},
        {{1, 0, 1, 0, 1, 0, 0, 0}, TILIGORMIS_WRONG_LENGTH},       {{2, 0, 1, 0, 1, 0, 0, 0}, TILIGORMIS_WRONG_LENGTH},
        {{5, 0, 1, 0, 1, 0, 0, 0}, TILIGORMIS_WRONG_LENGTH},       {{6, 0, 26, 0, 1, 0, 0, 0}, TILIGORMIS_WRONG_LENGTH},
        {{6, 0, 3, 0, 1, 0, 0, 0}, TILIGORMIS_WRONG_LENGTH},
    };
    bool good = true;
    room.place[GUARD] = ROWS_BYTES;
    for (size_t k = 0; k < sizeof cases / sizeof *cases; k++) {
        memcpy(room.log + GUARD + ROWS_BYTES, cases[k].record, sizeof cases[k].record);
        good &= holds(read_refused(ROWS_BYTES + 8, cases[k].number), "case of a record", k);
    }
    for (uint64_t kind = 1; kind <= TILIGORMIS_KINDS; kind++) {
        tiligormis_row row = row_of(kind, 0);
        size_t right = record_of(&row, room.log + GUARD + ROWS_BYTES) - 2;
        for (size_t length = 0; length < 256; length++) {
            room.log[GUARD + ROWS_BYTES] = (uint8_t)length;
            if (length != right)
                good &= holds(read_refused(LOG_ROOM, TILIGORMIS_WRONG_LENGTH), "length of a record", length);
        }
    }
    return good;
}

/* At the end and past it there is a row of zeros, and the place stays; so it is with a log of no bytes, null here. */
bool log_end(void) {
    static const uint64_t past[] = {0, 1, 2, 3, 4, (uint64_t)1 << 32, UINT64_MAX - ROWS_BYTES};
    static const size_t lengths[] = {0, ROWS_BYTES};
    bool good = true;
    for (size_t k = 0; k < 2 * (sizeof past / sizeof *past); k++) {
        size_t length = lengths[k % 2];
        room = whole;
        room.place[GUARD] = length + past[k / 2];
        expected = room;
        memset(expected.row + GUARD, 0, TILIGORMIS_ROW_NUMBERS * sizeof *expected.row);
        uint64_t number = log_read(length, 1, TILIGORMIS_ROW_NUMBERS);
        good &= holds(number == TILIGORMIS_ACCEPTED && as_expected(), "past the end", past[k / 2]);
    }
    return good;
}
