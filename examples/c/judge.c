/* Judges the trace of ../case-b step by step, and checks the outline of ../case-i. */
#include "wiforekun.h"
#include <stdio.h>

/* policy from action on who to: read (2) only what was taken (1) and not given back (3) */
static const uint8_t edges[][WIFOREKUN_EDGE_BYTES] = {{0, 0, 1, 1, 0, 1}, {0, 1, 3, 1, 0, 0}, {0, 0, 2, 1, 0, 6}};

/* kind a b: open policy 0, create 16, take it, read it, create 17, read it, give 16 back */
static const uint32_t steps[][3] = {{1, 0, 0}, {0, 0, 16}, {0, 1, 16}, {0, 2, 16}, {0, 0, 17}, {0, 2, 17}, {0, 3, 16}};

/* kind a b of node 0, 1, 2 and on: a sandbox around a loop of end, or fresh, take, read, back */
static const uint8_t nodes[][WIFOREKUN_NODE_BYTES] = {{8, 0, 1}, {5, 2, 0}, {4, 3, 4}, {0, 0, 0}, {7, 0, 5},
                                                      {3, 6, 7}, {2, 1, 0}, {3, 8, 9}, {2, 2, 0}, {6, 1, 0}};

int main(void) {
    struct wiforekun_state state;
    wiforekun_start(&state);
    puts("line answer detail");
    for (unsigned i = 0; i < sizeof steps / sizeof *steps; i++) {
        uint32_t code = wiforekun_judge(&state, *edges, sizeof edges, WIFOREKUN_WHOLE, steps[i][0], steps[i][1], steps[i][2]);
        printf("%u %u %u\n", i + 2, (unsigned)WIFOREKUN_ANSWER(code), (unsigned)WIFOREKUN_DETAIL(code));
    }
    uint32_t code = wiforekun_check(*edges, sizeof edges, WIFOREKUN_WHOLE, *nodes, sizeof nodes);
    printf("line answer detail\n0 %u %u\n", (unsigned)WIFOREKUN_ANSWER(code), (unsigned)WIFOREKUN_DETAIL(code));
    return 0;
}
