/* The monitor and the checker for programs in C: the functions that the proved code exports.
 *
 *   tests/archives api_c  proves all functions and writes them to target/staticlib/libapi_c.a
 *   cc -Iapi program.c target/staticlib/libapi_c.a
 *
 * They are for x86-64 Linux. No function keeps anything between calls, allocates, reads or writes anything but what it is lent, or has a
 * case in which it does not return. The archive needs memcpy and memset of who links it. They may be called from several threads, each
 * with a state of its own.
 *
 * Stack: each function takes less than the bytes that WIFOREKUN_..._STACK tells, memcpy and memset aside. tests/api measures them with a
 * painted stack on all stored cases. Three calls go deep: a counterexample is written by a function that calls itself once for each of at
 * most 200 steps, with less than 640 bytes each time, and tests/api/deepest goes as deep as that; the readers of an expression call each
 * other once for each of at most 32 brackets, with less than 3,400 bytes each time, and the stored cases go as deep as that; and a number is
 * printed digit by digit, at most 20. Of what is told for the check of an outline, 129,024 bytes are the three tables for two watched
 * resources, which no policy asks for yet.
 *
 * Asked of every call, and not tested: a pointer is not null and points to as many elements as is told, also where that is 0; it has its
 * type's alignment; and an array that is lent to be changed overlaps no other.
 *
 * docs/SHEETS.md has the meaning of all values and numbers, wiforekun_numbers.h their names. tests/api holds the lengths below to the
 * proved code. */
#ifndef WIFOREKUN_H
#define WIFOREKUN_H

#include "wiforekun_numbers.h"
#include <stddef.h>
#include <stdint.h>

#define WIFOREKUN_START_STACK 512
#define WIFOREKUN_JUDGE_STACK 4096
#define WIFOREKUN_CHECK_STACK 163840
#define WIFOREKUN_COUNTEREXAMPLE_STACK 262144
#define WIFOREKUN_REPORT_TRACE_STACK 131072
#define WIFOREKUN_REPORT_OUTLINE_STACK 196608
#define WIFOREKUN_REPORT_COUNTEREXAMPLE_STACK 294912
#define WIFOREKUN_SUMMARY_STACK 163840
#define WIFOREKUN_JUDGE_LEAN_STACK 4096
#define WIFOREKUN_REPORT_SUMMARY_STACK 163840
#define WIFOREKUN_READ_EXPRESSION_STACK 131072
#define WIFOREKUN_REPORT_EXPRESSION_STACK 131072
#define WIFOREKUN_WRITE_POLICIES_STACK 65536
#define WIFOREKUN_DESK_POLICIES_STACK 65536
#define WIFOREKUN_DESK_OUTLINE_STACK 163840
#define WIFOREKUN_DESK_STEP_STACK 8192

#ifdef __cplusplus
extern "C" {
#endif

/* A table of edges: six bytes for each (policy, from, action, on, who, to), in the order of the sheet. */
#define WIFOREKUN_EDGE_BYTES 6
#define WIFOREKUN_MOST_EDGES 256
/* Which past the policies of the table see, a number that is lent beside it: the whole past, also what was before a sandbox was opened; or,
 * as for a sheet whose names line begins with `local`, only the past since their sandbox was opened. Another number is refused with 41. */
#define WIFOREKUN_WHOLE 0u
#define WIFOREKUN_LOCAL 1u
/* A table of nodes: three bytes for each (kind, a, b), node 0 first. */
#define WIFOREKUN_NODE_BYTES 3
#define WIFOREKUN_MOST_NODES 64

/* The state of the monitor: plain data, with no pointer in it. It may be copied, compared, kept and given on, as bytes too. One state goes
 * with one table of edges and one choice of past for its life: under others it is judged by the sets that it holds, which mean nothing
 * there. Below are the lengths of its arrays, in elements, and their alignments, in bytes. */
#define WIFOREKUN_SETS_LENGTH 656
#define WIFOREKUN_SETS_ALIGN 1
#define WIFOREKUN_PAIRS_LENGTH 13448
#define WIFOREKUN_PAIRS_ALIGN 1
#define WIFOREKUN_POSSIBLE_LENGTH 8
#define WIFOREKUN_POSSIBLE_ALIGN 1
#define WIFOREKUN_CREATED_LENGTH 64
#define WIFOREKUN_CREATED_ALIGN 4
#define WIFOREKUN_UNCLOSED_LENGTH 8
#define WIFOREKUN_UNCLOSED_ALIGN 1
#define WIFOREKUN_ORDER_LENGTH 64
#define WIFOREKUN_ORDER_ALIGN 1
#define WIFOREKUN_NUMBERS_LENGTH 4
#define WIFOREKUN_NUMBERS_ALIGN 8

struct wiforekun_state {
    uint8_t sets[WIFOREKUN_SETS_LENGTH];         /* the states that each instance may be in, as bits */
    uint8_t pairs[WIFOREKUN_PAIRS_LENGTH];       /* sets of the policies about two resources; none can be written yet */
    uint8_t possible[WIFOREKUN_POSSIBLE_LENGTH]; /* for each policy the states that any of its instances may be in, as bits */
    uint32_t created[WIFOREKUN_CREATED_LENGTH];  /* the live dynamic resources, in the order of their creation */
    uint8_t unclosed[WIFOREKUN_UNCLOSED_LENGTH]; /* for each policy its openings that are not closed */
    uint8_t order[WIFOREKUN_ORDER_LENGTH];       /* the policies of the openings that are not closed, the oldest first */
    uint64_t numbers[WIFOREKUN_NUMBERS_LENGTH];  /* how many are live; 1 where the run is halted, else 0; how many are in
                                                  * `order`; the highest number that was created, live or retired, or 0 */
};

/* The start, whatever the arrays held: each instance in state 0 (the set with bit 0 alone), and so each policy; nothing created, nothing
 * open, not halted. */
void wiforekun_start_parts(uint8_t *sets, uint8_t *pairs, uint8_t *possible, uint32_t *created, uint8_t *unclosed, uint8_t *order,
                           uint64_t *numbers);

static inline void wiforekun_start(struct wiforekun_state *state) {
    wiforekun_start_parts(state->sets, state->pairs, state->possible, state->created, state->unclosed, state->order, state->numbers);
}

/* An answer: WIFOREKUN_ALLOWED (0; of a check: accepted), WIFOREKUN_VIOLATED (1; of a check: refused with a policy) or WIFOREKUN_REFUSED
 * (2, with a number). Its detail: 0, the policy or the number, WIFOREKUN_REFUSED_... by name. Of wiforekun_counterexample also the length
 * of what was written, in steps. */
#define WIFOREKUN_LENGTH(code) ((code) / 65536u)
#define WIFOREKUN_ANSWER(code) ((code) / 256u % 256u)
#define WIFOREKUN_DETAIL(code) ((code) % 256u)

/* One step of the monitor, under a table of edges (its length in bytes). The state's arrays are lent one by one. Where the step is
 * allowed they hold the new state; where it is violated only the halted flag changes, to 1; where it is refused with a number nothing
 * changes. Of the numbers 40 to 42: 41 where no accepted sheet gives the table, or `local` is neither; 42 where the state has more than
 * 64 live resources, one twice or outside 16 to 4294967295; a highest number below a live one, or above 4294967295; an order longer than 64,
 * with an entry above 7, or with some policy in it another number of times than `unclosed` tells; or a halted flag other than 0 and 1. A
 * state that passes but was never reached is judged by the sets that it holds: an event by `sets`, from which it gathers `possible`
 * anew; an opening, a closing or a retiring by `possible` as it is, that of a policy which goes back to state 0 aside. Elements of
 * `created` from the count on, and of `order` from its length on, are not looked at.
 * Of each policy `sets` has 82 places in turn: the static resources, one that never occurs, the retired ones in one set, and the live ones in
 * the order of `created`. A retiring joins the resource's set to that of the retired; the live ones behind it move up by one place, in
 * `created` and in `sets`, and the last place keeps what it held. `pairs` has two blocks of 82 times 82 places; one that no policy has, as none can yet, is
 * left as it was. */
uint32_t wiforekun_judge_parts(const uint8_t *edges, size_t edges_length, uint32_t local, uint8_t *sets, uint8_t *pairs,
                               uint8_t *possible, uint32_t *created, uint8_t *unclosed, uint8_t *order, uint64_t *numbers,
                               uint32_t kind, uint32_t a, uint32_t b);

static inline uint32_t wiforekun_judge(struct wiforekun_state *state, const uint8_t *edges, size_t edges_length, uint32_t local,
                                       uint32_t kind, uint32_t a, uint32_t b) {
    return wiforekun_judge_parts(edges, edges_length, local, state->sets, state->pairs, state->possible, state->created,
                                 state->unclosed, state->order, state->numbers, kind, a, b);
}

/* The check of a table of nodes under a table of edges (lengths in bytes). 41 where no accepted sheet gives one of the tables, or `local` is
 * neither. */
uint32_t wiforekun_check(const uint8_t *edges, size_t edges_length, uint32_t local, const uint8_t *nodes, size_t nodes_length);

/* The same check, with a counterexample. Where it names a policy and a trace of at most 200 steps leaves that policy open and not respected,
 * a shortest such trace is written to `trace`: three numbers for each step (kind, a, b), the oldest step first, fresh resources numbered 16,
 * 17 and on as they are created. WIFOREKUN_LENGTH tells its steps; numbers after it keep their contents. Which of several shortest traces
 * it is, is left free. The length is 0, and nothing is written, where the outline is accepted, where a number refuses the call, and where
 * the policy is named but every such trace is longer.
 * `trace_length` is in numbers, not in bytes. 40 where it is below the room, before 41. */
#define WIFOREKUN_STEP_NUMBERS 3
#define WIFOREKUN_COUNTEREXAMPLE_ROOM 600
uint32_t wiforekun_counterexample(const uint8_t *edges, size_t edges_length, uint32_t local, const uint8_t *nodes, size_t nodes_length,
                                  uint32_t *trace, size_t trace_length);

/* The exact summary of a table of nodes under a table of edges: eight numbers, one for each policy, are written to `marks`. Bit a, 0 to 31,
 * of policy p's number is set exactly where an event with action a (a create is 0), and bit 32 where p's own opening, can be the last step
 * of a trace that leaves p open and not respected; no other bit is. Of an accepted outline all are 0. `marks_length` is in numbers; those
 * after the eighth keep their contents. The answer is 0, or refused with 40 where there is no room, then 41 as for the check; then nothing is
 * written. */
#define WIFOREKUN_MARKS_LENGTH 8
#define WIFOREKUN_MARKS_ALIGN 8
#define WIFOREKUN_OPENING_BIT 32
uint32_t wiforekun_summary(const uint8_t *edges, size_t edges_length, uint32_t local, const uint8_t *nodes, size_t nodes_length,
                           uint64_t *marks, size_t marks_length);

/* One step of the lean monitor: as wiforekun_judge_parts, but that an event is judged only by the policies whose number has its action's bit,
 * an opening by its own policy alone and only where that has bit 32, and a closing or a retiring by none. The state moves alike. Any eight
 * numbers will do; with the exact summary of an outline the answers are those of the full monitor, from the start on, for the steps of a
 * trace of that outline, with or without retirings among them, and for as long as the steps that are not refused are such a trace. */
uint32_t wiforekun_judge_lean_parts(const uint64_t *marks, const uint8_t *edges, size_t edges_length, uint32_t local, uint8_t *sets,
                                    uint8_t *pairs, uint8_t *possible, uint32_t *created, uint8_t *unclosed, uint8_t *order,
                                    uint64_t *numbers, uint32_t kind, uint32_t a, uint32_t b);

static inline uint32_t wiforekun_judge_lean(struct wiforekun_state *state, const uint64_t marks[WIFOREKUN_MARKS_LENGTH],
                                            const uint8_t *edges, size_t edges_length, uint32_t local, uint32_t kind, uint32_t a,
                                            uint32_t b) {
    return wiforekun_judge_lean_parts(marks, edges, edges_length, local, state->sets, state->pairs, state->possible, state->created,
                                      state->unclosed, state->order, state->numbers, kind, a, b);
}

/* What the programs print, from the bytes of the sheets: the text is written to `out`, and its length is the answer. Bytes after it
 * keep their contents. Where `out` is shorter than the room below, nothing is written and the answer is 0. */
#define WIFOREKUN_TRACE_ROOM 20019
#define WIFOREKUN_OUTLINE_ROOM 28
#define WIFOREKUN_COUNTEREXAMPLE_TEXT_ROOM 1809
#define WIFOREKUN_SUMMARY_TEXT_ROOM 1334
size_t wiforekun_report_trace(const uint8_t *policies, size_t policies_length, const uint8_t *trace, size_t trace_length, uint8_t *out,
                              size_t out_length);
size_t wiforekun_report_outline(const uint8_t *policies, size_t policies_length, const uint8_t *outline, size_t outline_length,
                                uint8_t *out, size_t out_length);
size_t wiforekun_report_counterexample(const uint8_t *policies, size_t policies_length, const uint8_t *outline, size_t outline_length,
                                       uint8_t *out, size_t out_length);
size_t wiforekun_report_summary(const uint8_t *policies, size_t policies_length, const uint8_t *outline, size_t outline_length,
                                uint8_t *out, size_t out_length);

/* The table of nodes of an outline that is typed as an expression, from its bytes: the nodes are written to `table`, and how many there are,
 * 1 to 64, is the answer. Bytes after them keep their contents. A refusal writes nothing and answers 512 and its number, and 65536 more where
 * its line is 1; 15, 16, 17, 3, 7 and 8 have line 1, 5 and 40 have none. 40 where `table` is shorter than the room, before all others. */
#define WIFOREKUN_NODES_ROOM 192
#define WIFOREKUN_IS_READ(answer) ((answer) < 512u)
size_t wiforekun_read_expression(const uint8_t *text, size_t text_length, uint8_t *table, size_t table_length);

/* The outline sheet of an expression, or its refusal, as the program expression_reader prints it: written to `out`, as above. */
#define WIFOREKUN_EXPRESSION_TEXT_ROOM 718
size_t wiforekun_report_expression(const uint8_t *text, size_t text_length, uint8_t *out, size_t out_length);

/* A policy sheet written again, as there is one way to write it: with its own names line, single spaces, no leading zeros, the edges in
 * rising order of their six numbers from the left and none twice. `out` gets the sheet, and its length is the answer; bytes after it keep
 * their contents, and `refusal` is not touched. It has the same edges, so every verdict under it is the same; to write it again changes no
 * byte; and two sheets with the same names line give equal bytes exactly where they have the same edges.
 * Where the sheet is refused the answer is 0, which no sheet has, nothing is written to `out`, and `refusal` gets the line, 0 where it is
 * none, and the number: 40 where `out` is shorter than the room below, else the number of the sheet. */
#define WIFOREKUN_SHEET_ROOM 32768
#define WIFOREKUN_REFUSAL_LENGTH 2
size_t wiforekun_write_policies(const uint8_t *text, size_t text_length, uint8_t *out, size_t out_length, uint64_t *refusal);

/* The routine desk: policies, an outline and the monitor's state as one object of WIFOREKUN_DESK_STATE bytes, all zero at first:
 *
 *   static uint8_t desk[WIFOREKUN_DESK_STATE];
 *   wiforekun_desk_policies(desk, sizeof desk, policies, policies_length);
 *   wiforekun_desk_outline(desk, sizeof desk, outline, outline_length);
 *   wiforekun_desk_step(desk, sizeof desk, kind, a, b);
 *
 * It is plain data, without a pointer or an alignment: it may be copied, kept and taken up again. docs/DESK.md has its layout. Bytes behind the
 * length are not looked at and keep their contents.
 * An answer is one number. WIFOREKUN_ANSWER and WIFOREKUN_DETAIL take it apart as for the monitor and the checker; WIFOREKUN_LINE is the line of
 * a refused sheet, 0 where there is none, and WIFOREKUN_IS_LEAN is 1 where a step is not refused and the lean monitor gave the answer, else 0.
 * A refused call changes no byte. Of the numbers these come first, in this order: 40 where the state is shorter than the length, 42 where its bytes
 * encode no desk state, 50 a step before policies are loaded, 51 an outline before policies are, 52 a load while a sandbox is open and the run is
 * not halted. A state that passes 42 but that no desk has written is answered by what it holds. */
#define WIFOREKUN_DESK_STATE 37000
#define WIFOREKUN_IS_LEAN(code) ((code) / 65536u % 2u)
#define WIFOREKUN_LINE(code) ((code) / 131072u)

/* Loads a policy sheet from its bytes, drops the outline and starts the monitor afresh. */
uint32_t wiforekun_desk_policies(uint8_t *state, size_t state_length, const uint8_t *text, size_t text_length);

/* Loads an outline sheet from its bytes, starts the monitor afresh and answers with the check's verdict; the outline is kept either way. */
uint32_t wiforekun_desk_outline(uint8_t *state, size_t state_length, const uint8_t *text, size_t text_length);

/* One step. It is handed to the lean monitor while the routine stays on the outline, from the first stray step on, or once there are more than 64
 * places of the outline at which the routine may be or one with more than 16 parts still to run, to the full one. The answers are those of the
 * full monitor started at the last load. */
uint32_t wiforekun_desk_step(uint8_t *state, size_t state_length, uint32_t kind, uint32_t a, uint32_t b);

#ifdef __cplusplus
}
#endif
#endif
