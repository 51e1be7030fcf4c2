/* stack CASE..: how much stack each function takes on the sheets of these cases: it runs on a painted stack of its own, of which the lowest
 * byte that was touched is looked for. A CASE is POLICIES:OTHER:KIND, two files, and t for a trace, o for an outline or e for an
 * expression. Prints a line for each function: its name and the bytes. */
#define _DEFAULT_SOURCE
#include "wiforekun.h"
#include <stdint.h>
#include <stdio.h>
#include <stdlib.h>
#include <string.h>
#include <sys/mman.h>
#include <ucontext.h>

#define SIZE ((size_t)1 << 21)
#define PAINT 0xa5
#define MOST 40000

static uint8_t *stack;
static ucontext_t here, there;
static void (*task)(void);

static uint8_t policies[MOST], other[MOST], edges[6 * 256], nodes[WIFOREKUN_NODES_ROOM], out[WIFOREKUN_SHEET_ROOM];
static size_t policies_length, other_length, edges_length, nodes_length;
static uint32_t local, steps[3 * 2000], trace[WIFOREKUN_COUNTEREXAMPLE_ROOM];
static size_t step_count;
static struct wiforekun_state state;
static uint64_t marks[WIFOREKUN_MARKS_LENGTH], refusal[WIFOREKUN_REFUSAL_LENGTH];
static uint8_t desk[WIFOREKUN_DESK_STATE];

static void enter(void) {
    task();
}

/* The bytes of stack that the task took. */
static size_t taken(void (*of)(void)) {
    memset(stack, PAINT, SIZE);
    task = of;
    if (getcontext(&there) != 0) exit(1);
    there.uc_stack.ss_sp = stack;
    there.uc_stack.ss_size = SIZE;
    there.uc_link = &here;
    makecontext(&there, enter, 0);
    if (swapcontext(&here, &there) != 0) exit(1);
    size_t at = 0;
    while (at < SIZE && stack[at] == PAINT) at++;
    return SIZE - at;
}

static void nothing(void) {
}

static void start(void) {
    wiforekun_start(&state);
}

static void judge(void) {
    wiforekun_start(&state);
    for (size_t i = 0; i < step_count; i++)
        (void)wiforekun_judge(&state, edges, edges_length, local, steps[3 * i], steps[3 * i + 1], steps[3 * i + 2]);
}

static void check(void) {
    (void)wiforekun_check(edges, edges_length, local, nodes, nodes_length);
}

static void counterexample(void) {
    (void)wiforekun_counterexample(edges, edges_length, local, nodes, nodes_length, trace, WIFOREKUN_COUNTEREXAMPLE_ROOM);
}

static void summary(void) {
    (void)wiforekun_summary(edges, edges_length, local, nodes, nodes_length, marks, WIFOREKUN_MARKS_LENGTH);
}

/* every policy is looked at at each event and opening */
static void judge_lean(void) {
    for (size_t p = 0; p < WIFOREKUN_MARKS_LENGTH; p++) marks[p] = UINT64_MAX;
    wiforekun_start(&state);
    for (size_t i = 0; i < step_count; i++)
        (void)wiforekun_judge_lean(&state, marks, edges, edges_length, local, steps[3 * i], steps[3 * i + 1], steps[3 * i + 2]);
}

static void write_policies(void) {
    (void)wiforekun_write_policies(policies, policies_length, out, sizeof out, refusal);
}

static void read_expression(void) {
    (void)wiforekun_read_expression(other, other_length, nodes, sizeof nodes);
}

static void report_expression(void) {
    (void)wiforekun_report_expression(other, other_length, out, sizeof out);
}

static void report_summary(void) {
    (void)wiforekun_report_summary(policies, policies_length, other, other_length, out, sizeof out);
}

static void report_trace(void) {
    (void)wiforekun_report_trace(policies, policies_length, other, other_length, out, sizeof out);
}

static void report_outline(void) {
    (void)wiforekun_report_outline(policies, policies_length, other, other_length, out, sizeof out);
}

static void report_counterexample(void) {
    (void)wiforekun_report_counterexample(policies, policies_length, other, other_length, out, sizeof out);
}

static void empty_desk(void) {
    memset(desk, 0, sizeof desk);
}

static void desk_policies(void) {
    (void)wiforekun_desk_policies(desk, sizeof desk, policies, policies_length);
}

/* the policies of the case are loaded */
static void desk_with_policies(void) {
    empty_desk();
    desk_policies();
}

static void desk_outline(void) {
    (void)wiforekun_desk_outline(desk, sizeof desk, other, other_length);
}

/* and its outline; for a trace one that has every kind of node, at which several positions are listed */
static void desk_with_outline(void) {
    static const uint8_t kinds[] = "node kind a b\n0 8 0 1\n1 5 2 0\n2 4 3 4\n3 0 0 0\n4 7 0 5\n5 3 6 7\n6 2 1 0\n7 3 8 9\n8 1 2 3\n9 6 1 0\n";
    desk_with_policies();
    desk_outline();
    (void)wiforekun_desk_outline(desk, sizeof desk, kinds, sizeof kinds - 1);
}

static void desk_steps(void) {
    for (size_t i = 0; i < step_count; i++)
        (void)wiforekun_desk_step(desk, sizeof desk, steps[3 * i], steps[3 * i + 1], steps[3 * i + 2]);
}

/* one that the outline may have */
static void desk_step(void) {
    static const uint32_t any[][3] = {{1, 0, 0}, {0, 0, 16}, {0, 1, 16}, {0, 2, 3}, {3, 16, 0}, {2, 0, 0}, {9, 0, 0}};
    for (size_t i = 0; i < sizeof any / sizeof *any; i++) (void)wiforekun_desk_step(desk, sizeof desk, any[i][0], any[i][1], any[i][2]);
}

static void desk_with_own_outline(void) {
    desk_with_policies();
    desk_outline();
}

static struct {
    const char *name;
    void (*of)(void);
    char kind;             /* on which sheets it works */
    void (*before)(void); /* what is done first, and not measured */
    size_t most;
} functions[] = {
    {"wiforekun_start_parts", start, 'b', nothing, 0},
    {"wiforekun_judge_parts", judge, 't', nothing, 0},
    {"wiforekun_check", check, 'o', nothing, 0},
    {"wiforekun_counterexample", counterexample, 'o', nothing, 0},
    {"wiforekun_report_trace", report_trace, 't', nothing, 0},
    {"wiforekun_report_outline", report_outline, 'o', nothing, 0},
    {"wiforekun_report_counterexample", report_counterexample, 'o', nothing, 0},
    {"wiforekun_summary", summary, 'o', nothing, 0},
    {"wiforekun_judge_lean_parts", judge_lean, 't', nothing, 0},
    {"wiforekun_report_summary", report_summary, 'o', nothing, 0},
    {"wiforekun_write_policies", write_policies, 'b', nothing, 0},
    {"wiforekun_read_expression", read_expression, 'e', nothing, 0},
    {"wiforekun_report_expression", report_expression, 'e', nothing, 0},
    {"wiforekun_desk_policies", desk_policies, 'b', empty_desk, 0},
    {"wiforekun_desk_outline", desk_outline, 'o', desk_with_policies, 0},
    {"wiforekun_desk_step", desk_steps, 't', desk_with_outline, 0},
    {"wiforekun_desk_step", desk_step, 'o', desk_with_own_outline, 0},
};

static size_t load(const char *path, uint8_t *to) {
    FILE *file = fopen(path, "rb");
    if (!file) return 0;
    size_t length = fread(to, 1, MOST, file);
    fclose(file);
    return length;
}

/* The values of a sheet's lines after the first, as far as they are numbers. */
static size_t values(const uint8_t *text, size_t length, uint32_t *to, size_t most) {
    size_t at = 0, count = 0;
    while (at < length && text[at] != '\n') at++;
    while (at < length && count < most) {
        if (text[at] >= '0' && text[at] <= '9') {
            uint32_t value = 0;
            while (at < length && text[at] >= '0' && text[at] <= '9') value = 10 * value + (text[at++] - '0');
            to[count++] = value;
        } else {
            at++;
        }
    }
    return count;
}

static void tables(char kind) {
    static uint32_t found[8000];
    size_t count = values(policies, policies_length, found, 6 * 256);
    local = policies_length > 0 && policies[0] == 'l' ? WIFOREKUN_LOCAL : WIFOREKUN_WHOLE;
    edges_length = count / 6 * 6;
    for (size_t i = 0; i < edges_length; i++) edges[i] = (uint8_t)found[i];
    if (kind == 't') {
        step_count = values(other, other_length, steps, 3 * 2000) / 3;
    } else if (kind == 'o') {
        count = values(other, other_length, found, 4 * 64) / 4;
        nodes_length = 3 * count;
        for (size_t i = 0; i < nodes_length; i++) nodes[i] = (uint8_t)found[4 * (i / 3) + 1 + i % 3];
    }
}

int main(int count, char **cases) {
    stack = mmap(NULL, SIZE, PROT_READ | PROT_WRITE, MAP_PRIVATE | MAP_ANONYMOUS, -1, 0);
    if (stack == MAP_FAILED) return 1;
    size_t empty = taken(nothing);
    for (int i = 1; i < count; i++) {
        char *second = strchr(cases[i], ':'), *kind = second ? strchr(second + 1, ':') : NULL;
        if (!kind) return 2;
        *second++ = *kind++ = 0;
        policies_length = load(cases[i], policies);
        other_length = load(second, other);
        tables(*kind);
        for (size_t f = 0; f < sizeof functions / sizeof *functions; f++) {
            if (functions[f].kind != *kind && functions[f].kind != 'b') continue;
            functions[f].before();
            size_t used = taken(functions[f].of) - empty;
            if (used > functions[f].most && used < SIZE) functions[f].most = used;
        }
    }
    for (size_t f = 0; f < sizeof functions / sizeof *functions; f++) printf("%s %zu\n", functions[f].name, functions[f].most);
    return 0;
}
