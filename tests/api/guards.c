/* The exported functions keep to the lengths and need no more than the alignments of wiforekun.h. Each lent array lies in pages of its own
 * between two pages that can't be touched: at their end, at their beginning, and inside at the least alignment; the rest of them is a mark
 * that must stay. Tables that are lent to be read lie at the end of a page that can't be written to. A run beside, on a plain state, must
 * give the same answers and states. */
#include "lend_state.h"

#define STEPS 12000
/* so many steps with openings, then so many without, and so on */
#define PHASE 1500

static uint32_t seed;

static uint32_t below(uint32_t most) {
    seed ^= seed << 13;
    seed ^= seed >> 17;
    seed ^= seed << 5;
    return seed % most;
}

/* The unclosed openings, followed beside the proved code. */
struct openings {
    uint8_t order[WIFOREKUN_ORDER_LENGTH];
    uint8_t unclosed[WIFOREKUN_UNCLOSED_LENGTH];
    size_t depth;
};

/* What an opening or a closing of a policy must be answered, where no policy is broken; an allowed one is followed. */
static uint32_t followed(struct openings *openings, uint32_t kind, uint32_t policy) {
    if (kind == 1) {
        if (openings->depth == WIFOREKUN_ORDER_LENGTH) return 512 + 32;
        openings->order[openings->depth++] = (uint8_t)policy;
        openings->unclosed[policy]++;
        return 0;
    }
    if (openings->unclosed[policy] == 0) return 512 + 25;
    if (openings->order[openings->depth - 1] != policy) return 512 + 26;
    openings->depth--;
    openings->unclosed[policy]--;
    return 0;
}

/* The live resources, followed in the same way. */
struct live {
    uint32_t numbers[WIFOREKUN_CREATED_LENGTH];
    size_t count;
    uint32_t highest;
};

/* What a create must be answered, and a retiring. */
static uint32_t created(struct live *live, uint32_t number) {
    if (number < 16) return 512 + 22;
    if (number <= live->highest) return 512 + 27;
    if (live->count == WIFOREKUN_CREATED_LENGTH) return 512 + 30;
    live->numbers[live->count++] = live->highest = number;
    return 0;
}

static uint32_t retired(struct live *live, uint32_t number) {
    for (size_t i = 0; i < live->count; i++)
        if (live->numbers[i] == number) {
            live->count--;
            memmove(live->numbers + i, live->numbers + i + 1, (live->count - i) * sizeof *live->numbers);
            return 0;
        }
    return 512 + 28;
}

/* A step of any kind, refused ones too. Of the closings every other one is of the newest unclosed opening, of the creates most are above the
 * highest number, and of the retirings, where there are to be some, some are of a live one. */
static void make(uint32_t step[3], const struct openings *openings, const struct live *live, int opening, int retiring) {
    step[0] = below(5);
    if (step[0] == 1 && !opening) step[0] = 2;
    step[1] = below(9);
    step[2] = step[0] == 0 || below(9) == 0 ? below(120) : 0;
    if (step[0] == 2 && openings->depth > 0 && below(2)) step[1] = openings->order[openings->depth - 1];
    if (step[0] == 0 && step[1] == 0 && below(4)) step[2] = (live->highest < 16 ? 15 : live->highest) + 1 + below(3);
    if (step[0] == 0 && step[1] > 0 && live->count > 0 && below(2)) step[2] = live->numbers[below((uint32_t)live->count)];
    if (step[0] == 3 && retiring && live->count > 0 && below(6) == 0) step[1] = live->numbers[below((uint32_t)live->count)];
}

/* Is an opening of this policy to put it back to state 0? */
static int puts_back(const struct openings *openings, uint32_t local, const uint32_t step[3]) {
    return local == WIFOREKUN_LOCAL && step[0] == 1 && openings->unclosed[step[1]] == 0;
}

/* A run of many kinds of step, lent and plain. No edge leads to an offending state, so it is never halted. */
static void run(enum place place, uint32_t local) {
    uint8_t edges[WIFOREKUN_MOST_EDGES][WIFOREKUN_EDGE_BYTES];
    for (unsigned i = 0; i < WIFOREKUN_MOST_EDGES; i++) {
        uint8_t on = (uint8_t)below(3), to = (uint8_t)below(6);
        uint8_t edge[] = {(uint8_t)below(8), (uint8_t)below(6), (uint8_t)below(8), on, on ? 0 : (uint8_t)below(16), to};
        memcpy(edges[i], edge, sizeof edge);
    }
    struct wiforekun_state plain;
    wiforekun_start(&plain);
    struct lent table = lend_to_read(edges, sizeof edges);
    struct parts parts = lend_state(&plain, place);
    struct openings openings = {{0}, {0}, 0};
    struct live live = {{0}, 0, 0};
    int last_live = 0, last_open = 0, joined = 0;
    int last_set = 0, last_possible = 0, last_unclosed = 0, emptied = 0, put_back = 0;
    unsigned refused[43] = {0};
    for (unsigned i = 0; i < STEPS; i++) {
        uint32_t step[3];
        make(step, &openings, &live, i / PHASE % 2 == 0, i > STEPS / 2);
        struct wiforekun_state before = plain;
        uint32_t code = judge_under(&parts, table, local, step);
        REQUIRE(code == wiforekun_judge(&plain, *edges, sizeof edges, local, step[0], step[1], step[2]));
        REQUIRE(same(&parts, &plain));
        REQUIRE(WIFOREKUN_ANSWER(code) != 2 || same(&parts, &before));
        if (WIFOREKUN_ANSWER(code) == 2) refused[WIFOREKUN_DETAIL(code)]++;
        if ((step[0] == 1 || step[0] == 2) && step[1] < 8 && step[2] == 0) {
            int back = puts_back(&openings, local, step);
            REQUIRE(code == followed(&openings, step[0], step[1]));
            /* an opening or a closing moves no set but those that go back to state 0 */
            if (back && code == 0) {
                put_back |= before.possible[step[1]] != 1;
                before.possible[step[1]] = 1;
            }
            REQUIRE(!memcmp(plain.possible, before.possible, sizeof before.possible));
            REQUIRE((back && code == 0) || !memcmp(plain.sets, before.sets, sizeof before.sets));
        }
        if (step[0] == 0 && step[1] == 0) REQUIRE(code == created(&live, step[2]));
        if (step[0] == 3 && step[2] == 0) {
            REQUIRE(code == retired(&live, step[1]));
            /* a retiring gathers nothing */
            REQUIRE(!memcmp(plain.possible, before.possible, sizeof before.possible));
            joined |= code == 0 && memcmp(plain.sets, before.sets, sizeof before.sets) != 0;
        }
        REQUIRE(plain.numbers[0] == live.count && plain.numbers[3] == live.highest);
        REQUIRE(!memcmp(plain.created, live.numbers, live.count * sizeof *live.numbers));
        last_live |= live.count == WIFOREKUN_CREATED_LENGTH;
        last_open |= openings.depth == WIFOREKUN_ORDER_LENGTH;
        REQUIRE(plain.numbers[2] == openings.depth && !memcmp(plain.unclosed, openings.unclosed, sizeof openings.unclosed));
        REQUIRE(!memcmp(plain.order, openings.order, sizeof openings.order));
        emptied |= i > PHASE && openings.depth == 0;
        last_set |= plain.sets[WIFOREKUN_SETS_LENGTH - 1] != 1;
        last_possible |= plain.possible[WIFOREKUN_POSSIBLE_LENGTH - 1] != 1;
        last_unclosed |= plain.unclosed[WIFOREKUN_UNCLOSED_LENGTH - 1] > 0;
    }
    /* the whole of each array is in use */
    REQUIRE(last_live && plain.created[WIFOREKUN_CREATED_LENGTH - 1] >= 16 && joined);
    REQUIRE(last_set && last_possible && last_unclosed && last_open);
    REQUIRE(refused[21] && refused[22] && !refused[23] && refused[24] && refused[27] && refused[28] && refused[30]);
    REQUIRE(refused[25] && refused[26] && refused[32] && emptied && put_back == (local == WIFOREKUN_LOCAL));
    give_state_back(&parts);
    give_back(table);
}

/* The start fills its arrays, whatever they held, and nothing else. */
static void starts(enum place place) {
    struct wiforekun_state any, plain;
    memset(&any, 0x5a, sizeof any);
    struct parts parts = lend_state(&any, place);
    wiforekun_start_parts(parts.sets.bytes, parts.pairs.bytes, parts.possible.bytes, (uint32_t *)parts.created.bytes, parts.unclosed.bytes,
                          parts.order.bytes, (uint64_t *)parts.numbers.bytes);
    memset(&plain, 0, sizeof plain);
    memset(plain.sets, 1, sizeof plain.sets);
    memset(plain.pairs, 1, sizeof plain.pairs);
    memset(plain.possible, 1, sizeof plain.possible);
    REQUIRE(same(&parts, &plain));
    wiforekun_start(&any);
    REQUIRE(same(&parts, &any));
    give_state_back(&parts);
}

/* The check reads no more than its tables. */
static void outlines(void) {
    static const uint8_t edges[] = {0, 0, 2, 1, 0, 6}, nodes[] = {8, 0, 1, 1, 2, 3};
    struct lent table = lend_to_read(edges, sizeof edges), tree = lend_to_read(nodes, sizeof nodes);
    for (uint32_t local = WIFOREKUN_WHOLE; local <= WIFOREKUN_LOCAL; local++) {
        REQUIRE(wiforekun_check(table.bytes, table.size, local, tree.bytes, tree.size) == 256);
        REQUIRE(wiforekun_check(table.bytes, 0, local, tree.bytes, tree.size) == 0);
        REQUIRE(wiforekun_check(table.bytes, table.size, local, tree.bytes, tree.size - 1) == 512 + 41);
        REQUIRE(wiforekun_check(table.bytes, table.size, local, tree.bytes, 0) == 512 + 41);
        REQUIRE(wiforekun_check(table.bytes, table.size - 1, local, tree.bytes, tree.size) == 512 + 41);
    }
    REQUIRE(wiforekun_check(table.bytes, table.size, 2, tree.bytes, tree.size) == 512 + 41);
    REQUIRE(wiforekun_check(table.bytes, table.size, UINT32_MAX, tree.bytes, tree.size) == 512 + 41);
}

/* What the numbers after a counterexample of so many steps must hold: what they held before. */
static int kept(const struct lent *trace, const uint32_t *before, size_t steps) {
    size_t from = steps * WIFOREKUN_STEP_NUMBERS * sizeof *before;
    return !memcmp(trace->bytes + from, (const uint8_t *)before + from, trace->size - from);
}

/* The counterexample is written into its table alone, as many steps of it as is told. */
static void counterexamples(enum place place, uint32_t local) {
    static const uint8_t edges[] = {5, 0, 2, 1, 0, 6}, none[] = {0};
    static const uint8_t nodes[] = {8, 5, 1, 1, 2, 3}, accepted[] = {8, 5, 1, 1, 3, 3}, unopened[] = {3, 1, 2, 1, 2, 3, 8, 5, 3, 0, 0, 0};
    static const uint32_t steps[] = {1, 5, 0, 0, 2, 3}, opened_last[] = {0, 2, 3, 1, 5, 0};
    const size_t room = WIFOREKUN_COUNTEREXAMPLE_ROOM;
    uint32_t before[WIFOREKUN_COUNTEREXAMPLE_ROOM];
    for (uint32_t i = 0; i < room; i++) before[i] = 0x01020304u * (i + 1);
    struct lent table = lend_to_read(edges, sizeof edges), tree = lend_to_read(nodes, sizeof nodes);
    struct lent other = lend_to_read(accepted, sizeof accepted), late = lend_to_read(unopened, sizeof unopened);
    struct lent trace = lend(before, sizeof before, sizeof *before, place);
    uint32_t *numbers = (uint32_t *)trace.bytes;
    uint32_t code = wiforekun_counterexample(table.bytes, table.size, local, other.bytes, other.size, numbers, room);
    REQUIRE(code == 0 && kept(&trace, before, 0));
    code = wiforekun_counterexample(table.bytes, table.size, local, tree.bytes, tree.size - 1, numbers, room);
    REQUIRE(code == 512 + 41 && kept(&trace, before, 0));
    code = wiforekun_counterexample(table.bytes, table.size, local + 2, tree.bytes, tree.size, numbers, room);
    REQUIRE(code == 512 + 41 && kept(&trace, before, 0));
    code = wiforekun_counterexample(table.bytes, table.size, local, tree.bytes, tree.size, numbers, room - 1);
    REQUIRE(code == 512 + 40 && kept(&trace, before, 0));
    code = wiforekun_counterexample(none, 1, local + 2, none, 1, numbers, 0);
    REQUIRE(code == 512 + 40 && kept(&trace, before, 0));
    code = wiforekun_counterexample(table.bytes, table.size, local, tree.bytes, tree.size, numbers, room);
    REQUIRE(WIFOREKUN_LENGTH(code) == 2 && WIFOREKUN_ANSWER(code) == 1 && WIFOREKUN_DETAIL(code) == 5);
    REQUIRE(!memcmp(numbers, steps, sizeof steps) && kept(&trace, before, 2));
    /* what was before the sandbox counts for the whole past alone */
    code = wiforekun_counterexample(table.bytes, table.size, local, late.bytes, late.size, numbers, room);
    const uint32_t *due = local == WIFOREKUN_LOCAL ? steps : opened_last;
    REQUIRE(code == (local == WIFOREKUN_LOCAL ? 0 : 2 * 65536 + 256 + 5));
    REQUIRE(!memcmp(numbers, due, sizeof steps) && kept(&trace, before, 2));
    give_back(trace);
}

/* The report writes no more than it tells, and nothing where the room is one byte less than the header tells. */
static void reports(void) {
    static const char policies[] = "policy from action on who to\n0 0 2 1 0 6\n", trace[] = "kind a b\n1 0 0\n0 2 3\n";
    static const char local[] = "local from action on who to\n0 0 2 1 0 6\n", late[] = "kind a b\n0 2 3\n1 0 0\n";
    static const char allowed[] = "line answer detail\n2 0 0\n3 0 0\n";
    static const char outline[] = "node kind a b\n0 8 0 1\n1 1 2 3\n";
    static const char judged[] = "line answer detail\n2 0 0\n3 1 0\n", checked[] = "line answer detail\n0 1 0\n";
    static const char shown[] = "kind a b\n1 0 0\n0 2 3\n";
    static const char marked[] = "policy action\n0 2\n", refused[] = "line answer detail\n1 5 1\n";
    uint8_t *out = malloc(WIFOREKUN_TRACE_ROOM);
    REQUIRE(out != NULL);
    memset(out, MARK, WIFOREKUN_TRACE_ROOM);
    struct lent p = lend_to_read(policies, strlen(policies)), t = lend_to_read(trace, strlen(trace));
    struct lent o = lend_to_read(outline, strlen(outline));
    REQUIRE(wiforekun_report_trace(p.bytes, p.size, t.bytes, t.size, out, WIFOREKUN_TRACE_ROOM - 1) == 0);
    REQUIRE(wiforekun_report_outline(p.bytes, p.size, o.bytes, o.size, out, WIFOREKUN_OUTLINE_ROOM - 1) == 0);
    REQUIRE(wiforekun_report_counterexample(p.bytes, p.size, o.bytes, o.size, out, WIFOREKUN_COUNTEREXAMPLE_TEXT_ROOM - 1) == 0);
    REQUIRE(wiforekun_report_summary(p.bytes, p.size, o.bytes, o.size, out, WIFOREKUN_SUMMARY_TEXT_ROOM - 1) == 0);
    for (size_t i = 0; i < WIFOREKUN_TRACE_ROOM; i++) REQUIRE(out[i] == MARK);
    REQUIRE(wiforekun_report_trace(p.bytes, p.size, t.bytes, t.size, out, WIFOREKUN_TRACE_ROOM) == strlen(judged));
    REQUIRE(!memcmp(out, judged, strlen(judged)) && out[strlen(judged)] == MARK);
    REQUIRE(wiforekun_report_outline(p.bytes, p.size, o.bytes, o.size, out, WIFOREKUN_OUTLINE_ROOM) == strlen(checked));
    REQUIRE(!memcmp(out, checked, strlen(checked)) && out[strlen(checked)] == judged[strlen(checked)]);
    struct lent l = lend_to_read(local, strlen(local)), u = lend_to_read(late, strlen(late));
    REQUIRE(wiforekun_report_trace(p.bytes, p.size, u.bytes, u.size, out, WIFOREKUN_TRACE_ROOM) == strlen(judged));
    REQUIRE(!memcmp(out, judged, strlen(judged)));
    REQUIRE(wiforekun_report_trace(l.bytes, l.size, u.bytes, u.size, out, WIFOREKUN_TRACE_ROOM) == strlen(allowed));
    REQUIRE(!memcmp(out, allowed, strlen(allowed)));
    memset(out, MARK, WIFOREKUN_TRACE_ROOM);
    REQUIRE(wiforekun_report_counterexample(p.bytes, p.size, o.bytes, o.size, out, WIFOREKUN_COUNTEREXAMPLE_TEXT_ROOM) == strlen(shown));
    REQUIRE(!memcmp(out, shown, strlen(shown)) && out[strlen(shown)] == MARK);
    memset(out, MARK, WIFOREKUN_TRACE_ROOM);
    REQUIRE(wiforekun_report_summary(p.bytes, p.size, o.bytes, o.size, out, WIFOREKUN_SUMMARY_TEXT_ROOM) == strlen(marked));
    REQUIRE(!memcmp(out, marked, strlen(marked)) && out[strlen(marked)] == MARK);
    REQUIRE(wiforekun_report_summary(p.bytes, p.size, t.bytes, t.size, out, WIFOREKUN_SUMMARY_TEXT_ROOM) == strlen(refused));
    REQUIRE(!memcmp(out, refused, strlen(refused)) && out[strlen(refused)] == MARK);
}

int main(void) {
    page = (size_t)sysconf(_SC_PAGESIZE);
    REQUIRE(sizeof(uint32_t) == WIFOREKUN_CREATED_ALIGN && sizeof(uint64_t) == WIFOREKUN_NUMBERS_ALIGN);
    for (enum place place = END; place < PLACES; place++) {
        starts(place);
        seed = 2463534242u + place;
        run(place, WIFOREKUN_WHOLE);
        run(place, WIFOREKUN_LOCAL);
    }
    outlines();
    for (enum place place = END; place < PLACES; place++) {
        counterexamples(place, WIFOREKUN_WHOLE);
        counterexamples(place, WIFOREKUN_LOCAL);
    }
    reports();
    puts("tests/api/guards: no byte outside of what was lent was touched");
    return 0;
}
