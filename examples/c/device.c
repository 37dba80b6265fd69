/*
 * A card reader at work: its VM gets pages that a device may reach, the reader writes, the CPU reads it; the VM is retired in
 * order, the page goes to the next one, and the reader reaches it no more. Written from include/tiligormis.h alone.
 */
#include <stdio.h>
#include "tiligormis.h"

enum { VM = 1, NEXT = 2, CPU = 0, READER = 3, OWN = 0, PICTURE = 4, AT = 16, RW = TILIGORMIS_READ | TILIGORMIS_WRITE };

/* Static, since tables and memory take some 60 KB, too much for a stack. */
static tiligormis_machine machine;
static tiligormis_tables tables;
static uint64_t memory[8 * TILIGORMIS_PAGE_WORDS];

int main(void) {
    /* Marked both, since DMA pages come from units alone, and the CPU is to read what the device wrote. */
    const tiligormis_unit unit = {VM, AT, PICTURE, 2, RW, TILIGORMIS_MARK_BOTH};
    const struct { const char *what; tiligormis_row row; uint64_t number, dropped, word; } steps[] = {
        {"add VM 1, a converter", tiligormis_row_add_vm(VM), 0, 0, 0},
        {"assign page 0 to VM 1", tiligormis_row_assign_page(VM, OWN), 0, 0, 0},
        {"insert pages 4 and 5 for the CPU", tiligormis_row_insert_region(VM, AT, PICTURE, 2, RW), 0, 0, 0},
        {"insert pages 4 and 5 for DMA", tiligormis_row_dma_insert_region(VM, AT, PICTURE, 2, RW), 0, 0, 0},
        {"switch CPU 0 to VM 1", tiligormis_row_switch_cpu(CPU, VM), 0, 0, 0},
        {"bind device 3, the card reader, to VM 1", tiligormis_row_bind_device(READER, VM), 0, 0, 0},
        {"card reader writes 71 into word 0 of page 4", tiligormis_row_dma_write(READER, AT, 0, 71), 0, 0, 0},
        {"card reader writes 73 into word 511 of page 4", tiligormis_row_dma_write(READER, AT, 511, 73), 0, 0, 0},
        {"CPU 0 reads word 0 of page 4", tiligormis_row_cpu_read(CPU, AT, 0), 0, 0, 71},
        {"CPU 0 reads word 511 of page 4", tiligormis_row_cpu_read(CPU, AT, 511), 0, 0, 73},
        {"fill the card reader's translation into the cache", tiligormis_row_dma_fill(READER, AT), 0, 0, 0},
        {"switch CPU 0 to idle", tiligormis_row_switch_cpu(CPU, TILIGORMIS_IDLE), 0, 0, 0},
        {"bind the card reader to idle", tiligormis_row_bind_device(READER, TILIGORMIS_IDLE), 0, 0, 0},
        {"reclaim page 0", tiligormis_row_reclaim_page(VM, OWN), 0, 0, 0},
        {"remove pages 4 and 5 for the CPU", tiligormis_row_remove_region(VM, AT, PICTURE, 2, RW), 0, 0, 0},
        /* One slot is dropped, since idling the device left it: a translation goes with its mapping. */
        {"remove pages 4 and 5 for DMA", tiligormis_row_dma_remove_region(VM, AT, PICTURE, 2, RW), 0, 1, 0},
        {"remove VM 1", tiligormis_row_remove_vm(VM), 0, 0, 0},
        {"add VM 2, the next converter", tiligormis_row_add_vm(NEXT), 0, 0, 0},
        {"assign page 4 to VM 2", tiligormis_row_assign_page(NEXT, PICTURE), 0, 0, 0},
        {"CPU-map page 4 at guest page 16", tiligormis_row_cpu_map(NEXT, AT, PICTURE, RW, 0), 0, 0, 0},
        {"switch CPU 0 to VM 2", tiligormis_row_switch_cpu(CPU, NEXT), 0, 0, 0},
        {"CPU 0 reads word 0 of page 4", tiligormis_row_cpu_read(CPU, AT, 0), 0, 0, 0},
        {"card reader writes 79 into word 0 of page 4", tiligormis_row_dma_write(READER, AT, 0, 79), TILIGORMIS_PORT_IDLE, 0, 0},
        {"bind the card reader to VM 2", tiligormis_row_bind_device(READER, NEXT), 0, 0, 0},
        /* Asked once more, since VM 2 maps this guest page for CPUs, and the cache had it for the card reader. */
        {"card reader writes 79 there again", tiligormis_row_dma_write(READER, AT, 0, 79), TILIGORMIS_MAPPING_DIFFERS, 0, 0},
        {"CPU 0 reads word 0 of page 4", tiligormis_row_cpu_read(CPU, AT, 0), 0, 0, 0},
    };
    const tiligormis_box box = tiligormis_box_of(&machine, &tables, memory, 8);
    const uint64_t started = tiligormis_box_start(&box, 7, 1, &unit, 1);
    printf("start a machine of 8 pages: %s\n", tiligormis_refusal_sentence(started));
    if (started != TILIGORMIS_ACCEPTED) return 1;
    for (size_t k = 0; k < sizeof steps / sizeof *steps; k++) {
        tiligormis_answer answer;
        const uint64_t number = tiligormis_box_operation(&box, steps[k].row, &answer);
        printf("%s: %s", steps[k].what, tiligormis_refusal_sentence(number));
        if (steps[k].row.numbers[0] == TILIGORMIS_CPU_READ) printf(", %llu", (unsigned long long)answer.word);
        printf(answer.dropped ? ", a cached translation dropped\n" : "\n");
        if (number != steps[k].number || answer.index != 0) return 1;
        if (answer.dropped != steps[k].dropped || answer.word != steps[k].word) return 1;
    }
    return 0;
}
