/* Runs every test at the edges, each in the room of a machine at work, and counts. */
#include "edges.h"

#include <stdio.h>

static const struct {
    const char *name;
    bool (*run)(void);
} tests[] = {
#define LISTED(test) {#test, test},
    TESTS(LISTED)};

int main(void) {
    size_t count = sizeof tests / sizeof *tests, failed = 0;
    if (!make_whole()) {
        printf("the machine that all tests start from was refused\ntest result: FAILED. 0 passed; %zu failed;\n", count);
        return 1;
    }
    for (size_t k = 0; k < count; k++) {
        room = whole;
        if (!tests[k].run()) {
            printf("test %s ... FAILED\n", tests[k].name);
            failed++;
        }
    }
    printf("test result: %s. %zu passed; %zu failed;\n", failed == 0 ? "ok" : "FAILED", count - failed, failed);
    return failed != 0;
}
