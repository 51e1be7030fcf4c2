/* A counterexample takes no more stack than wiforekun.h tells: it is written on a stack of that size above a page that can't be touched,
 * for outlines whose trace has the most steps that are shown, 200, each inside the one before it. */
#define _XOPEN_SOURCE 700
#define _DEFAULT_SOURCE
#include "wiforekun.h"
#include <stdio.h>
#include <stdlib.h>
#include <string.h>
#include <sys/mman.h>
#include <ucontext.h>
#include <unistd.h>

#define MARK 0xa5
#define SANDBOXES 32
#define STATES_PASSED 6

static ucontext_t here, there;
static uint8_t edges[STATES_PASSED][WIFOREKUN_EDGE_BYTES], nodes[WIFOREKUN_MOST_NODES][WIFOREKUN_NODE_BYTES];
static size_t count;
static uint32_t trace[WIFOREKUN_COUNTEREXAMPLE_ROOM], code, local;

static void node(uint8_t kind, size_t a, size_t b) {
    uint8_t fields[] = {kind, (uint8_t)a, (uint8_t)b};
    memcpy(nodes[count++], fields, sizeof fields);
}

/* Two events, and then a loop: sandboxes in each other, an event that leads on, and back, until policy 0 is broken. */
static void make(void) {
    for (uint8_t state = 0; state < STATES_PASSED; state++) {
        uint8_t edge[] = {0, state, 1, 1, 0, (uint8_t)(state + 1)};
        memcpy(edges[state], edge, sizeof edge);
    }
    node(3, 1, 2);
    node(1, 2, 0);
    node(3, 3, 4);
    node(1, 2, 0);
    node(5, 5, 0);
    for (int i = 0; i < SANDBOXES; i++) node(8, i == 0 ? 0 : 1, count + 1);
    node(3, count + 1, count + 2);
    node(1, 1, 0);
    node(6, 4, 0);
}

static void call(void) {
    code = wiforekun_counterexample(*edges, sizeof edges, local, *nodes, count * WIFOREKUN_NODE_BYTES, trace, WIFOREKUN_COUNTEREXAMPLE_ROOM);
}

/* The bytes that it took of a stack of so many. */
static size_t taken(size_t size) {
    size_t page = (size_t)sysconf(_SC_PAGESIZE);
    uint8_t *ground = mmap(NULL, page + size, PROT_READ | PROT_WRITE, MAP_PRIVATE | MAP_ANONYMOUS, -1, 0);
    if (ground == MAP_FAILED || mprotect(ground, page, PROT_NONE) || getcontext(&there)) exit(1);
    uint8_t *stack = ground + page;
    memset(stack, MARK, size);
    there.uc_stack.ss_sp = stack;
    there.uc_stack.ss_size = size;
    there.uc_link = &here;
    makecontext(&there, call, 0);
    if (swapcontext(&here, &there)) exit(1);
    size_t left = 0;
    while (left < size && stack[left] == MARK) left++;
    munmap(ground, page + size);
    return size - left;
}

int main(void) {
    make();
    size_t most = 0;
    for (local = WIFOREKUN_WHOLE; local <= WIFOREKUN_LOCAL; local++) {
        size_t bytes = taken(WIFOREKUN_COUNTEREXAMPLE_STACK);
        if (code != 200 * 65536 + 256) {
            fprintf(stderr, "tests/api/deepest: the code is %u\n", code);
            return 1;
        }
        if (bytes > most) most = bytes;
    }
    printf("tests/api/deepest: a counterexample of 200 steps took %zu of %d bytes\n", most, WIFOREKUN_COUNTEREXAMPLE_STACK);
    return 0;
}
