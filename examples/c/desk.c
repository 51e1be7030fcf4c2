/* A stand's firmware at the routine desk: a routine that stays on its outline, one that strays from it, and one that is halted. */
#include "wiforekun.h"
#include <stdio.h>
#include <string.h>

/* read (2) only what was opened (1) and not closed (3) */
static const char policies[] = "policy from action on who to\n0 0 1 1 0 1\n0 1 3 1 0 0\n0 0 2 1 0 6\n";

/* in a sandbox of policy 0: a channel is created, opened, read and closed; then the same again, or the end */
static const char outline[] = "node kind a b\n0 8 0 1\n1 5 2 0\n2 4 3 4\n3 0 0 0\n4 7 0 5\n5 3 6 7\n6 2 1 0\n7 3 8 9\n8 2 2 0\n"
                              "9 3 10 11\n10 2 3 0\n11 6 1 0\n";

/* kind a b */
static const uint32_t stays[][3] = {{1, 0, 0}, {0, 0, 16}, {0, 1, 16}, {0, 2, 16}, {0, 3, 16}, {3, 16, 0}, {2, 0, 0}};
static const uint32_t strays[][3] = {{1, 0, 0}, {0, 0, 16}, {0, 1, 16}, {0, 4, 1}, {0, 2, 16}, {2, 0, 0}};
static const uint32_t halted[][3] = {{1, 0, 0}, {0, 0, 16}, {0, 2, 16}, {0, 3, 16}};

/* The desk: plain bytes, zero at first. */
static uint8_t desk[WIFOREKUN_DESK_STATE];

static void loaded(const char *what, uint32_t code) {
    if (WIFOREKUN_ANSWER(code) == WIFOREKUN_REFUSED)
        printf("%s refused at line %u with %u\n", what, (unsigned)WIFOREKUN_LINE(code), (unsigned)WIFOREKUN_DETAIL(code));
    else if (WIFOREKUN_ANSWER(code) == WIFOREKUN_VIOLATED)
        printf("%s loaded; a run of it can break policy %u\n", what, (unsigned)WIFOREKUN_DETAIL(code));
    else
        printf("%s loaded\n", what);
}

static void run(const char *name, const uint32_t (*steps)[3], size_t count) {
    printf("%s\n", name);
    loaded("outline", wiforekun_desk_outline(desk, sizeof desk, (const uint8_t *)outline, strlen(outline)));
    for (size_t i = 0; i < count; i++) {
        uint32_t code = wiforekun_desk_step(desk, sizeof desk, steps[i][0], steps[i][1], steps[i][2]);
        unsigned answer = (unsigned)WIFOREKUN_ANSWER(code), detail = (unsigned)WIFOREKUN_DETAIL(code);
        const char *judge = answer == WIFOREKUN_REFUSED ? "" : WIFOREKUN_IS_LEAN(code) ? ", lean" : ", full";
        printf("  %u %u %u: %u %u%s\n", (unsigned)steps[i][0], (unsigned)steps[i][1], (unsigned)steps[i][2], answer, detail, judge);
    }
}

int main(void) {
    loaded("policies", wiforekun_desk_policies(desk, sizeof desk, (const uint8_t *)policies, strlen(policies)));
    run("stays", stays, sizeof stays / sizeof *stays);
    run("strays", strays, sizeof strays / sizeof *strays);
    run("is halted", halted, sizeof halted / sizeof *halted);
    return 0;
}
