/* A firmware at the routine desk, for a board without an operating system: no library at all but the archive, and memcpy and memset, which are here.
 * tests/api/board links it so, and runs it: its status is 0 where every answer is the one that is due. */
#include "wiforekun.h"

/* what the archive asks of who links it */
void *memcpy(void *to, const void *from, size_t size) {
    unsigned char *at = to;
    const unsigned char *of = from;
    while (size--) *at++ = *of++;
    return to;
}

void *memset(void *to, int value, size_t size) {
    unsigned char *at = to;
    while (size--) *at++ = (unsigned char)value;
    return to;
}

static uint8_t desk[WIFOREKUN_DESK_STATE];

static const char policies[] = "policy from action on who to\n0 0 1 1 0 1\n0 0 2 1 0 6\n";
static const char outline[] = "node kind a b\n0 8 0 1\n1 3 2 3\n2 1 1 3\n3 1 2 3\n";

static const struct {
    uint32_t step[3], due;
} routine[] = {
    {{1, 0, 0}, 65536}, {{0, 1, 3}, 65536}, {{0, 2, 3}, 65536}, {{0, 2, 3}, 0}, {{0, 2, 4}, 256}, {{2, 0, 0}, 512 + WIFOREKUN_REFUSED_HALTED},
};

static int run(void) {
    if (wiforekun_desk_policies(desk, sizeof desk, (const uint8_t *)policies, sizeof policies - 1) != 0) return 1;
    if (wiforekun_desk_outline(desk, sizeof desk, (const uint8_t *)outline, sizeof outline - 1) != 0) return 2;
    for (int i = 0; i < (int)(sizeof routine / sizeof *routine); i++) {
        const uint32_t *step = routine[i].step;
        if (wiforekun_desk_step(desk, sizeof desk, step[0], step[1], step[2]) != routine[i].due) return 3 + i;
    }
    return 0;
}

/* There is nothing to return to. To be tried here the status is handed to the kernel. */
void board(void) {
    long status = run();
    __asm__ volatile("syscall" : : "a"(60L), "D"(status) : "rcx", "r11", "memory");
    for (;;) {
    }
}

__asm__(".globl _start\n_start:\n    and $-16, %rsp\n    call board\n");
