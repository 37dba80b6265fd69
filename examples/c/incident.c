/*
 * The incident, told to the library from C. A converter was retired, its pages went to the next converter, and the first one's
 * card reader still wrote through a translation that nobody had taken back. Here every step of that is refused or does no harm.
 * Then the stale translation is planted by hand: the library refuses the whole box until it is taken out. The next converter
 * is retired in one call, with all that it has. Meanwhile every operation is logged, and at the end the log is replayed on a
 * second box, as support would with a customer's log.
 */
#include "tiligormis.h"

#include <inttypes.h>
#include <stdio.h>
#include <string.h>

enum { PAGES = 16, SHARED_PAGE = 15, SHARED_PAGES = 1 };
enum { A = 1, B = 2, C = A }; /* converters: B gets the pages of A, and C, under A's number, those of B */
enum { PREVIEW = 3 };         /* a guest that looks at B's page */
enum { CPU_OF_A = 0, CPU_OF_B = 1, CPU_OF_C = CPU_OF_A, CPU_OF_PREVIEW = 2, READER_OF_A = 0, READER_OF_B = 1 };
enum { GUEST_OF_A = 16, GUEST_OF_B = 64, GUEST_OF_C = GUEST_OF_A, GUEST_OF_PREVIEW = 8 };
enum { PAGE = 0, COUNT = 4, ACCESS = TILIGORMIS_READ | TILIGORMIS_WRITE };
enum { WORD = 0, GENERATION = 0, LINE = 60 };

/* Everything that the library is lent, in one piece, so that a box can be compared with what it was. */
static struct lent {
    tiligormis_machine machine;
    tiligormis_tables tables;
    uint64_t memory[PAGES * TILIGORMIS_PAGE_WORDS];
} lent;

static tiligormis_box box;

/* The operation log: a record for each operation, one behind the other. A firmware would keep it in a ring or in a file. */
static struct {
    uint8_t bytes[64 * TILIGORMIS_RECORD_BYTES];
    uint64_t end;
    uint64_t records;
} kept;

/* Logs an operation. What a box that is not valid refused is left out, since the box that it is replayed on is valid. */
static void keep(tiligormis_row row, uint64_t number) {
    if (number != TILIGORMIS_STATE_NOT_VALID &&
        tiligormis_write_record(row, kept.bytes, sizeof kept.bytes, &kept.end) == TILIGORMIS_ACCEPTED)
        kept.records++;
}

static void say(const char *what, uint64_t number) {
    printf("  %-*s ", LINE, what);
    if (number != TILIGORMIS_ACCEPTED)
        printf("refused with %" PRIu64 ", ", number);
    /* what comes after a colon tells more than a line has room for */
    const char *sentence = tiligormis_refusal_sentence(number);
    printf("%.*s", (int)strcspn(sentence, ":"), sentence);
}

static void step(const char *what, tiligormis_row row) {
    tiligormis_answer answer;
    uint64_t number = tiligormis_box_operation(&box, row, &answer);
    keep(row, number);
    say(what, number);
    if (answer.dropped != 0)
        printf(", cached translations dropped: %" PRIu64, answer.dropped);
    if (number == TILIGORMIS_ACCEPTED && row.numbers[0] == TILIGORMIS_CPU_READ)
        printf(", the word is %" PRIu64, answer.word);
    printf("\n");
}

static void free_pages(const tiligormis_box *which) {
    tiligormis_free_pages pages;
    uint64_t number = tiligormis_box_free(which, &pages);
    say("how many pages are free?", number);
    if (number == TILIGORMIS_ACCEPTED)
        printf(", %" PRIu64 " are, the lowest is %" PRIu64, pages.count, pages.lowest);
    printf("\n");
}

/* Where the reader's translation of A's first guest page is cached, and the page that it goes to. */
static void reader_slot(void) {
    size_t place = tiligormis_find_slot(box.dma_cache, TILIGORMIS_SLOTS, READER_OF_A, A, GUEST_OF_A);
    printf("  %-*s ", LINE, "which slot holds the reader's translation?");
    if (place == TILIGORMIS_SLOTS)
        printf("none\n");
    else
        printf("slot %zu, onto page %" PRIu32 "\n", place, tiligormis_entry_page(box.dma_cache[place].entry));
}

static void start(const tiligormis_box *which) {
    static const tiligormis_unit units[] = {
        {A, GUEST_OF_A, PAGE, COUNT, ACCESS, TILIGORMIS_MARK_BOTH},
        {B, GUEST_OF_B, PAGE, COUNT, ACCESS, TILIGORMIS_MARK_BOTH},
    };
    say("start, with two converters planned onto the same four pages",
        tiligormis_box_start(which, SHARED_PAGE, SHARED_PAGES, units, sizeof units / sizeof *units));
    printf("\n");
}

static void at_work(void) {
    printf("Converter A at work\n");
    step("A is added", tiligormis_row_add_vm(A));
    step("its region goes in for CPUs", tiligormis_row_insert_region(A, GUEST_OF_A, PAGE, COUNT, ACCESS));
    step("and for devices", tiligormis_row_dma_insert_region(A, GUEST_OF_A, PAGE, COUNT, ACCESS));
    step("A runs on a CPU", tiligormis_row_switch_cpu(CPU_OF_A, A));
    step("its card reader is bound to it", tiligormis_row_bind_device(READER_OF_A, A));
    step("the reader caches a translation", tiligormis_row_dma_fill(READER_OF_A, GUEST_OF_A));
    reader_slot();
    step("the reader writes a lens name, 1111", tiligormis_row_dma_write(READER_OF_A, GUEST_OF_A, WORD, 1111));
    step("A reads it", tiligormis_row_cpu_read(CPU_OF_A, GUEST_OF_A, WORD));
}

static void retired_badly(void) {
    printf("A retired badly: its region is taken from CPUs, its card reader forgotten\n");
    step("A is removed", tiligormis_row_remove_vm(A));
    step("its region is taken from CPUs", tiligormis_row_remove_region(A, GUEST_OF_A, PAGE, COUNT, ACCESS));
    free_pages(&box);
    step("the reader writes 2222, which harms nobody yet", tiligormis_row_dma_write(READER_OF_A, GUEST_OF_A, WORD, 2222));
    step("converter B is added", tiligormis_row_add_vm(B));
    step("B asks for the pages", tiligormis_row_insert_region(B, GUEST_OF_B, PAGE, COUNT, ACCESS));
}

static void retired_properly(void) {
    printf("A retired properly, and its pages given to B\n");
    step("A's region is taken from devices too", tiligormis_row_dma_remove_region(A, GUEST_OF_A, PAGE, COUNT, ACCESS));
    reader_slot();
    step("the reader writes 3333", tiligormis_row_dma_write(READER_OF_A, GUEST_OF_A, WORD, 3333));
    step("B asks for the pages", tiligormis_row_insert_region(B, GUEST_OF_B, PAGE, COUNT, ACCESS));
    step("B runs on a CPU", tiligormis_row_switch_cpu(CPU_OF_B, B));
    step("B reads the word where A's lens name was", tiligormis_row_cpu_read(CPU_OF_B, GUEST_OF_B, WORD));
    step("B writes a lens name of its own, 4444", tiligormis_row_cpu_write(CPU_OF_B, GUEST_OF_B, WORD, 4444));
    step("the reader writes 5555", tiligormis_row_dma_write(READER_OF_A, GUEST_OF_A, WORD, 5555));
    step("B reads its lens name", tiligormis_row_cpu_read(CPU_OF_B, GUEST_OF_B, WORD));
}

static void ask(const char *question, bool yes) { printf("  %-*s %s\n", LINE, question, yes ? "yes" : "no"); }

/* Writes into the cache behind the library's back, as a fault would. */
static void planted(void) {
    static struct lent before;
    const uint64_t place = 0;
    printf("The stale translation planted by hand\n");
    say("a slot is filled as it was when A was at work",
        tiligormis_fill_slot(box.dma_cache, TILIGORMIS_SLOTS, place, READER_OF_A, A, GUEST_OF_A, PAGE, ACCESS, GENERATION));
    printf("\n");
    reader_slot();
    ask("is the box valid?", tiligormis_box_valid(&box));
    before = lent;
    step("the reader writes 6666", tiligormis_row_dma_write(READER_OF_A, GUEST_OF_A, WORD, 6666));
    step("B reads its lens name", tiligormis_row_cpu_read(CPU_OF_B, GUEST_OF_B, WORD));
    free_pages(&box);
    ask("is every byte of the box as it was?", memcmp(&before, &lent, sizeof lent) == 0);
    say("the slot is emptied", tiligormis_empty_slot(box.dma_cache, TILIGORMIS_SLOTS, place));
    printf("\n");
    reader_slot();
    ask("is the box valid?", tiligormis_box_valid(&box));
    step("the reader writes 7777", tiligormis_row_dma_write(READER_OF_A, GUEST_OF_A, WORD, 7777));
    step("B reads its lens name", tiligormis_row_cpu_read(CPU_OF_B, GUEST_OF_B, WORD));
}

static void gone(void) {
    printf("A gone\n");
    step("A is removed", tiligormis_row_remove_vm(A));
    step("its CPU becomes idle", tiligormis_row_switch_cpu(CPU_OF_A, TILIGORMIS_IDLE));
    step("its reader is bound to nobody", tiligormis_row_bind_device(READER_OF_A, TILIGORMIS_IDLE));
    step("A is removed", tiligormis_row_remove_vm(A));
    step("the reader writes 8888", tiligormis_row_dma_write(READER_OF_A, GUEST_OF_A, WORD, 8888));
    step("the reader is bound to A", tiligormis_row_bind_device(READER_OF_A, A));
    step("B reads its lens name", tiligormis_row_cpu_read(CPU_OF_B, GUEST_OF_B, WORD));
}

static void preview_reads(const char *what) {
    step(what, tiligormis_row_cpu_read(CPU_OF_PREVIEW, GUEST_OF_PREVIEW, WORD));
}

static void previewed(void) {
    printf("B at work, and a preview guest that looks at its page\n");
    step("B's region goes in for devices too", tiligormis_row_dma_insert_region(B, GUEST_OF_B, PAGE, COUNT, ACCESS));
    step("its card reader is bound to it", tiligormis_row_bind_device(READER_OF_B, B));
    step("the reader caches a translation", tiligormis_row_dma_fill(READER_OF_B, GUEST_OF_B));
    step("the reader writes a lens name, 9999", tiligormis_row_dma_write(READER_OF_B, GUEST_OF_B, WORD, 9999));
    step("a preview guest is added", tiligormis_row_add_vm(PREVIEW));
    step("B lends it the page", tiligormis_row_share_page(B, PREVIEW, PAGE));
    step("the guest maps it, to read",
         tiligormis_row_cpu_map(PREVIEW, GUEST_OF_PREVIEW, PAGE, TILIGORMIS_READ, GENERATION));
    step("the guest runs on a CPU", tiligormis_row_switch_cpu(CPU_OF_PREVIEW, PREVIEW));
    step("the guest caches a translation", tiligormis_row_cpu_fill(CPU_OF_PREVIEW, GUEST_OF_PREVIEW));
    preview_reads("the guest reads the lens name");
}

/* One call takes its mappings and the guest's, the loan, both cached translations, its pages and B. */
static void retired_in_one_call(void) {
    printf("B retired in one call, and its pages given to C\n");
    step("B is retired", tiligormis_row_retire_vm(B));
    step("its CPU becomes idle", tiligormis_row_switch_cpu(CPU_OF_B, TILIGORMIS_IDLE));
    step("B is retired", tiligormis_row_retire_vm(B));
    step("its reader is bound to nobody", tiligormis_row_bind_device(READER_OF_B, TILIGORMIS_IDLE));
    step("B is retired", tiligormis_row_retire_vm(B));
    free_pages(&box);
    step("the reader writes 1234", tiligormis_row_dma_write(READER_OF_B, GUEST_OF_B, WORD, 1234));
    preview_reads("the guest reads the lens name");
    step("converter C is added, under A's number", tiligormis_row_add_vm(C));
    step("C asks for the pages", tiligormis_row_insert_region(C, GUEST_OF_C, PAGE, COUNT, ACCESS));
    step("C runs on a CPU", tiligormis_row_switch_cpu(CPU_OF_C, C));
    step("C reads the word where B's lens name was", tiligormis_row_cpu_read(CPU_OF_C, GUEST_OF_C, WORD));
}

/* A second box, started as the first was, takes the log. It ends where the first one is. */
static void replayed(void) {
    static struct lent other;
    const tiligormis_box second = tiligormis_box_of(&other.machine, &other.tables, other.memory, PAGES);
    uint64_t place = 0, taken;
    printf("The log replayed on a second machine\n");
    printf("  %-*s %" PRIu64 ", in %" PRIu64 " bytes\n", LINE, "how many records has the log?", kept.records, kept.end);
    start(&second);
    say("the log is replayed", tiligormis_box_replay(&second, kept.bytes, kept.end, &place, kept.records, NULL, 0, &taken));
    printf(", records carried out: %" PRIu64 "\n", taken);
    free_pages(&second);
    ask("is every byte of the second box as in the first?", memcmp(&other, &lent, sizeof lent) == 0);
}

int main(void) {
    box = tiligormis_box_of(&lent.machine, &lent.tables, lent.memory, PAGES);
    printf("The machine\n");
    start(&box);
    at_work();
    retired_badly();
    retired_properly();
    planted();
    gone();
    previewed();
    retired_in_one_call();
    replayed();
    return 0;
}
