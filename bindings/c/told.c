/* What the head of the header tells: where DMA pages come from, and how a VM is retired. */
#include "edges.h"

#include <string.h>

static tiligormis_machine machine;
static tiligormis_tables tables;
static uint64_t memory[MEMORY];

struct step {
    tiligormis_row row;
    uint64_t number;
};

/* A box of the header's own tables. Page 7 is shared; the one unit is of VM 1, guest pages 16 to 18 onto pages 0 to 2. */
static tiligormis_box made;

static bool started(void) {
    static const tiligormis_unit unit = {1, 16, 0, 3, 3, TILIGORMIS_MARK_BOTH};
    made = tiligormis_box_of(&machine, &tables, memory, PAGES);
    return tiligormis_box_start(&made, SHARED_BASE, SHARED_COUNT, &unit, 1) == TILIGORMIS_ACCEPTED;
}

/* Whether each row is answered so. */
static bool steps_are(const struct step *steps, size_t count) {
    bool good = true;
    for (size_t k = 0; k < count; k++) {
        tiligormis_answer answer;
        uint64_t number = tiligormis_box_operation(&made, steps[k].row, &answer);
        good &= holds(number == steps[k].number && answer.number == number, tiligormis_refusal_name(number), k);
    }
    return good;
}

/* Whether a row is accepted, and drops so many slots or gives this word. */
static bool accepted_with(tiligormis_row row, uint64_t dropped, uint64_t word) {
    tiligormis_answer answer, wanted = {TILIGORMIS_ACCEPTED, 0, dropped, word};
    uint64_t number = tiligormis_box_operation(&made, row, &answer);
    return holds(memcmp(&answer, &wanted, sizeof answer) == 0, tiligormis_refusal_name(number), row.numbers[0]);
}

/* An assigned page is no DMA page; those of a unit and of the shared span may be DMA-mapped, the span by nothing but DMA. */
bool dma_pages(void) {
    const struct step steps[] = {
        {tiligormis_row_add_vm(1), TILIGORMIS_ACCEPTED},
        {tiligormis_row_assign_page(1, 0), TILIGORMIS_ACCEPTED},
        {tiligormis_row_dma_map(1, 40, 0, 3, 0), TILIGORMIS_PAGE_NOT_HELD},
        {tiligormis_row_dma_map(1, 41, 7, 3, 0), TILIGORMIS_ACCEPTED},
        {tiligormis_row_cpu_map(1, 41, 7, 3, 0), TILIGORMIS_PAGE_NOT_HELD},
        {tiligormis_row_dma_insert_region(1, 17, 0, 3, 3), TILIGORMIS_NO_SUCH_UNIT},
        {tiligormis_row_dma_insert_region(1, 16, 0, 3, 3), TILIGORMIS_ACCEPTED},
        {tiligormis_row_dma_map(1, 40, 0, 3, 0), TILIGORMIS_ACCEPTED},
        {tiligormis_row_cpu_map(1, 40, 0, 3, 0), TILIGORMIS_ACCEPTED},
        {tiligormis_row_cpu_map(1, 42, 1, 3, 0), TILIGORMIS_PAGE_NOT_HELD},
        {tiligormis_row_assign_page(1, 1), TILIGORMIS_ACCEPTED},
        {tiligormis_row_cpu_map(1, 42, 1, 3, 0), TILIGORMIS_ACCEPTED},
    };
    return started() && steps_are(steps, sizeof steps / sizeof *steps);
}

/* VM 1 at work: it has a region on both sides, lends page 3 and borrows page 4, and both caches hold something of it. */
static bool at_work(void) {
    const struct step steps[] = {
        {tiligormis_row_add_vm(1), TILIGORMIS_ACCEPTED},
        {tiligormis_row_add_vm(2), TILIGORMIS_ACCEPTED},
        {tiligormis_row_insert_region(1, 16, 0, 3, 3), TILIGORMIS_ACCEPTED},
        {tiligormis_row_dma_insert_region(1, 16, 0, 3, 3), TILIGORMIS_ACCEPTED},
        {tiligormis_row_assign_page(1, 3), TILIGORMIS_ACCEPTED},
        {tiligormis_row_assign_page(2, 4), TILIGORMIS_ACCEPTED},
        {tiligormis_row_share_page(1, 2, 3), TILIGORMIS_ACCEPTED},
        {tiligormis_row_share_page(2, 1, 4), TILIGORMIS_ACCEPTED},
        {tiligormis_row_cpu_map(1, 40, 3, 3, 0), TILIGORMIS_ACCEPTED},
        {tiligormis_row_cpu_map(1, 41, 4, 1, 0), TILIGORMIS_ACCEPTED},
        {tiligormis_row_cpu_map(2, 50, 3, 1, 0), TILIGORMIS_ACCEPTED},
        {tiligormis_row_dma_map(1, 60, 7, 3, 0), TILIGORMIS_ACCEPTED},
        {tiligormis_row_dma_map(1, 61, 0, 3, 0), TILIGORMIS_ACCEPTED},
        {tiligormis_row_switch_cpu(0, 1), TILIGORMIS_ACCEPTED},
        {tiligormis_row_bind_device(0, 1), TILIGORMIS_ACCEPTED},
        {tiligormis_row_cpu_fill(0, 40), TILIGORMIS_ACCEPTED},
        {tiligormis_row_dma_fill(0, 16), TILIGORMIS_ACCEPTED},
    };
    return started() && steps_are(steps, sizeof steps / sizeof *steps);
}

/* It is taken down piece by piece. Steps that come too early are refused. */
bool retirement(void) {
    const struct step steps[] = {
        /* too early */
        {tiligormis_row_unshare_page(1, 2, 3), TILIGORMIS_STILL_IN_USE},
        {tiligormis_row_reclaim_page(1, 3), TILIGORMIS_STILL_IN_USE},
        {tiligormis_row_dma_remove_region(1, 16, 0, 3, 3), TILIGORMIS_STILL_IN_USE},
        {tiligormis_row_remove_vm(1), TILIGORMIS_VM_BUSY},
        /* 1: its CPUs and devices */
        {tiligormis_row_switch_cpu(0, TILIGORMIS_IDLE), TILIGORMIS_ACCEPTED},
        {tiligormis_row_bind_device(0, TILIGORMIS_IDLE), TILIGORMIS_ACCEPTED},
        /* 2: mappings made one by one */
        {tiligormis_row_cpu_unmap(1, 40), TILIGORMIS_ACCEPTED},
        {tiligormis_row_unshare_page(1, 2, 3), TILIGORMIS_STILL_IN_USE},
        {tiligormis_row_cpu_unmap(1, 41), TILIGORMIS_ACCEPTED},
        {tiligormis_row_cpu_unmap(2, 50), TILIGORMIS_ACCEPTED},
        {tiligormis_row_dma_unmap(1, 60), TILIGORMIS_ACCEPTED},
        {tiligormis_row_dma_unmap(1, 61), TILIGORMIS_ACCEPTED},
        {tiligormis_row_reclaim_page(1, 3), TILIGORMIS_STILL_IN_USE},
        /* 3: its pairs */
        {tiligormis_row_unshare_page(1, 2, 3), TILIGORMIS_ACCEPTED},
        {tiligormis_row_unshare_page(1, 2, 4), TILIGORMIS_ACCEPTED},
        /* 4: its CPU pages */
        {tiligormis_row_remove_region(1, 16, 0, 3, 3), TILIGORMIS_ACCEPTED},
        {tiligormis_row_reclaim_page(1, 3), TILIGORMIS_ACCEPTED},
        {tiligormis_row_remove_vm(1), TILIGORMIS_VM_BUSY},
        /* 5: its DMA pages, an entry of theirs put back */
        {tiligormis_row_dma_unmap(1, 17), TILIGORMIS_ACCEPTED},
        {tiligormis_row_dma_remove_region(1, 16, 0, 3, 3), TILIGORMIS_MAPPING_DIFFERS},
        {tiligormis_row_dma_map(1, 17, 1, 3, 1), TILIGORMIS_ACCEPTED},
        {tiligormis_row_dma_remove_region(1, 16, 0, 3, 3), TILIGORMIS_MAPPING_DIFFERS},
        {tiligormis_row_dma_map(1, 17, 1, 3, 0), TILIGORMIS_ACCEPTED},
        {tiligormis_row_dma_remove_region(1, 16, 0, 3, 3), TILIGORMIS_ACCEPTED},
        /* 6: the VM */
        {tiligormis_row_remove_vm(1), TILIGORMIS_ACCEPTED},
        {tiligormis_row_remove_vm(1), TILIGORMIS_VM_UNKNOWN},
    };
    return at_work() && steps_are(steps, sizeof steps / sizeof *steps);
}

/* A region of which a CPU mapping is gone, its DMA side taken out first, and the CPU given up last. */
bool retirement_by_page(void) {
    const struct step steps[] = {
        {tiligormis_row_add_vm(1), TILIGORMIS_ACCEPTED},
        {tiligormis_row_dma_insert_region(1, 16, 0, 3, 3), TILIGORMIS_ACCEPTED},
        {tiligormis_row_insert_region(1, 16, 0, 3, 3), TILIGORMIS_ACCEPTED},
        {tiligormis_row_switch_cpu(0, 1), TILIGORMIS_ACCEPTED},
        {tiligormis_row_dma_remove_region(1, 16, 0, 3, 3), TILIGORMIS_ACCEPTED},
        {tiligormis_row_cpu_unmap(1, 17), TILIGORMIS_ACCEPTED},
        {tiligormis_row_remove_region(1, 16, 0, 3, 3), TILIGORMIS_MAPPING_DIFFERS},
        {tiligormis_row_reclaim_page(1, 0), TILIGORMIS_STILL_IN_USE},
        {tiligormis_row_cpu_unmap(1, 16), TILIGORMIS_ACCEPTED},
        {tiligormis_row_cpu_unmap(1, 18), TILIGORMIS_ACCEPTED},
        {tiligormis_row_reclaim_page(1, 0), TILIGORMIS_ACCEPTED},
        {tiligormis_row_reclaim_page(1, 1), TILIGORMIS_ACCEPTED},
        {tiligormis_row_reclaim_page(1, 2), TILIGORMIS_ACCEPTED},
        {tiligormis_row_remove_vm(1), TILIGORMIS_VM_BUSY},
        {tiligormis_row_switch_cpu(0, TILIGORMIS_IDLE), TILIGORMIS_ACCEPTED},
        {tiligormis_row_remove_vm(1), TILIGORMIS_ACCEPTED},
    };
    return started() && steps_are(steps, sizeof steps / sizeof *steps);
}

/* VM 2 writes into its own page 4, VM 1 into page 3 and its device into 1; VM 2 has 4 cached, and 3, which it is lent. */
static bool words_written(void) {
    const struct step steps[] = {
        {tiligormis_row_cpu_map(2, 51, 4, 3, 0), TILIGORMIS_ACCEPTED},
        {tiligormis_row_switch_cpu(1, 2), TILIGORMIS_ACCEPTED},
        {tiligormis_row_cpu_fill(1, 50), TILIGORMIS_ACCEPTED},
        {tiligormis_row_cpu_fill(1, 51), TILIGORMIS_ACCEPTED},
        {tiligormis_row_cpu_write(1, 51, 0, 4444), TILIGORMIS_ACCEPTED},
        {tiligormis_row_cpu_write(0, 40, 0, 3333), TILIGORMIS_ACCEPTED},
        {tiligormis_row_dma_write(0, 17, 511, 1111), TILIGORMIS_ACCEPTED},
    };
    return steps_are(steps, sizeof steps / sizeof *steps);
}

/*
 * The same VM goes in one call, once its CPU and its device are idle: two slots of it and the one of VM 2 onto page 3 are
 * dropped, and all words are gone but the one of VM 2 in its own page. Every page but 4 and the shared one is free.
 */
bool retirement_in_one_call(void) {
    const struct step ports[] = {
        {tiligormis_row_retire_vm(1), TILIGORMIS_VM_BUSY},
        {tiligormis_row_switch_cpu(0, TILIGORMIS_IDLE), TILIGORMIS_ACCEPTED},
        {tiligormis_row_retire_vm(1), TILIGORMIS_VM_BUSY},
        {tiligormis_row_switch_cpu(0, 1), TILIGORMIS_ACCEPTED},
        {tiligormis_row_bind_device(0, TILIGORMIS_IDLE), TILIGORMIS_ACCEPTED},
        {tiligormis_row_retire_vm(1), TILIGORMIS_VM_BUSY},
        {tiligormis_row_switch_cpu(0, TILIGORMIS_IDLE), TILIGORMIS_ACCEPTED},
    };
    const struct step after[] = {
        {tiligormis_row_retire_vm(1), TILIGORMIS_VM_UNKNOWN},
        {tiligormis_row_retire_vm(TILIGORMIS_VMS), TILIGORMIS_OUT_OF_RANGE},
        {tiligormis_row_bind_device(0, 1), TILIGORMIS_VM_UNKNOWN},
        {tiligormis_row_cpu_read(1, 50, 0), TILIGORMIS_MAPPING_DIFFERS},
        {tiligormis_row_assign_page(2, 3), TILIGORMIS_ACCEPTED},
        {tiligormis_row_cpu_map(2, 50, 3, 1, 0), TILIGORMIS_ACCEPTED},
        {tiligormis_row_add_vm(1), TILIGORMIS_ACCEPTED},
        {tiligormis_row_unshare_page(1, 2, 3), TILIGORMIS_PAIR_WRONG},
        {tiligormis_row_unshare_page(1, 2, 4), TILIGORMIS_PAIR_WRONG},
    };
    tiligormis_free_pages pages;
    bool good = at_work() && words_written() && steps_are(ports, sizeof ports / sizeof *ports);
    good &= accepted_with(tiligormis_row_retire_vm(1), 3, 0) && tiligormis_box_valid(&made);
    good &= tiligormis_box_free(&made, &pages) == TILIGORMIS_ACCEPTED && pages.count == 6 && pages.lowest == 0;
    for (size_t word = 0; word < MEMORY; word++)
        good &= holds(memory[word] == (word == 4 * TILIGORMIS_PAGE_WORDS ? 4444 : 0), "word", word);
    good &= steps_are(after, sizeof after / sizeof *after) && accepted_with(tiligormis_row_cpu_read(1, 50, 0), 0, 0);
    /* VM 1, which is there again with nothing, may go so; VM 2 still has its own page cached */
    return good && accepted_with(tiligormis_row_retire_vm(1), 0, 0) && accepted_with(tiligormis_row_cpu_unmap(2, 51), 1, 0);
}
