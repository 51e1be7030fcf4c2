/* The routine desk: its state lies between two pages that can't be touched, at their end, at their beginning and at an odd place, its sheets at the
 * end of a page that can't be written to. What each call answers, worked by hand; that a refused call changes no byte, and none behind the state. */
#include "lend_wide.h"

#define LENGTH WIFOREKUN_DESK_STATE
#define RANDOM_CALLS 20000

static const char policies[] = "policy from action on who to\n0 0 1 1 0 1\n0 1 3 1 0 0\n0 0 2 1 0 6\n";
static const char outline[] = "node kind a b\n0 8 0 1\n1 5 2 0\n2 4 3 4\n3 0 0 0\n4 7 0 5\n5 3 6 7\n6 2 1 0\n7 3 8 9\n8 2 2 0\n9 6 1 0\n";
/* what the check names policy 0 for */
static const char broken[] = "node kind a b\n0 8 0 1\n1 1 2 3\n";

/* A state that is lent, and a plain one that must become the same. */
struct desk {
    struct wide lent;
    uint8_t plain[LENGTH];
};

static struct desk begin(enum place place) {
    struct desk desk = {lend_wide(LENGTH, place), {0}};
    memset(desk.lent.bytes, 0, LENGTH);
    return desk;
}

static uint32_t call(uint8_t *state, size_t length, const char *sheet, size_t size, int is_outline) {
    const uint8_t *text = (const uint8_t *)sheet;
    return is_outline ? wiforekun_desk_outline(state, length, text, size) : wiforekun_desk_policies(state, length, text, size);
}

/* Both states are answered the same, and left the same; refused, they are as they were. */
static uint32_t agreed(struct desk *desk, uint32_t code, uint32_t beside, const uint8_t *before) {
    REQUIRE(code == beside && !memcmp(desk->lent.bytes, desk->plain, LENGTH));
    REQUIRE(WIFOREKUN_ANSWER(code) != WIFOREKUN_REFUSED || !memcmp(desk->plain, before, LENGTH));
    return code;
}

static uint32_t load(struct desk *desk, const char *sheet, int is_outline) {
    static uint8_t before[LENGTH];
    memcpy(before, desk->plain, LENGTH);
    size_t size = strlen(sheet);
    struct lent text = lend_to_read(sheet, size);
    uint32_t code = call(desk->lent.bytes, LENGTH, (const char *)text.bytes, size, is_outline);
    give_back(text);
    return agreed(desk, code, call(desk->plain, LENGTH, sheet, size, is_outline), before);
}

static uint32_t step(struct desk *desk, uint32_t kind, uint32_t a, uint32_t b) {
    static uint8_t before[LENGTH];
    memcpy(before, desk->plain, LENGTH);
    uint32_t code = wiforekun_desk_step(desk->lent.bytes, LENGTH, kind, a, b);
    return agreed(desk, code, wiforekun_desk_step(desk->plain, LENGTH, kind, a, b), before);
}

/* the parts of an answer */
#define REFUSED(number) (512u + (number))
#define LEAN 65536u
#define LINE(line) (131072u * (line))

static void worked(enum place place) {
    struct desk desk = begin(place);
    REQUIRE(step(&desk, 1, 0, 0) == REFUSED(WIFOREKUN_REFUSED_STEP_BEFORE_POLICIES));
    REQUIRE(step(&desk, 9, 9, 9) == REFUSED(50));
    REQUIRE(load(&desk, outline, 1) == REFUSED(WIFOREKUN_REFUSED_OUTLINE_BEFORE_POLICIES));
    REQUIRE(load(&desk, "", 1) == REFUSED(51));
    REQUIRE(load(&desk, "policy from action on who to\n0 0 1 1 0 8\n", 0) == REFUSED(3) + LINE(2));
    REQUIRE(load(&desk, "", 0) == REFUSED(1) + LINE(1));
    REQUIRE(load(&desk, policies, 0) == 0);
    REQUIRE(step(&desk, 0, 2, 3) == 0);
    REQUIRE(load(&desk, "node kind a b\n0 3 1 2\n", 1) == REFUSED(6) + LINE(2));
    REQUIRE(load(&desk, outline, 1) == 0);
    /* on the outline: refused steps and retirings lead nowhere else */
    REQUIRE(step(&desk, 3, 16, 0) == REFUSED(28));
    REQUIRE(step(&desk, 1, 0, 0) == LEAN);
    REQUIRE(step(&desk, 0, 0, 16) == LEAN);
    REQUIRE(step(&desk, 0, 0, 16) == REFUSED(27));
    REQUIRE(step(&desk, 0, 1, 16) == LEAN);
    REQUIRE(step(&desk, 0, 2, 16) == LEAN);
    REQUIRE(step(&desk, 3, 16, 0) == LEAN);
    REQUIRE(load(&desk, policies, 0) == REFUSED(WIFOREKUN_REFUSED_LOAD_WHILE_OPEN));
    REQUIRE(load(&desk, "", 0) == REFUSED(52));
    REQUIRE(load(&desk, outline, 1) == REFUSED(52));
    /* strays, and is halted */
    REQUIRE(step(&desk, 0, 1, 3) == 0);
    REQUIRE(step(&desk, 0, 0, 17) == 0);
    REQUIRE(step(&desk, 0, 2, 17) == 256);
    REQUIRE(step(&desk, 2, 0, 0) == REFUSED(20));
    /* halted, it is loaded over; the outline is kept though the check names a policy */
    REQUIRE(load(&desk, broken, 1) == 256);
    REQUIRE(step(&desk, 1, 0, 0) == LEAN);
    REQUIRE(step(&desk, 0, 2, 3) == LEAN + 256);
    REQUIRE(step(&desk, 9, 0, 0) == REFUSED(20));
    /* policies drop the outline */
    REQUIRE(load(&desk, policies, 0) == 0);
    REQUIRE(step(&desk, 1, 0, 0) == 0);
    REQUIRE(step(&desk, 0, 32, 0) == REFUSED(21));
    give_wide_back(desk.lent, desk.lent.bytes, LENGTH);
}

/* A state that is shorter is refused with 40 before all else, and not read; one that is longer keeps what is behind. */
static void lengths(void) {
    size_t shorter[] = {0, 1, LENGTH - 1};
    for (size_t i = 0; i < sizeof shorter / sizeof *shorter; i++) {
        struct wide lent = lend_wide(shorter[i], END);
        REQUIRE(call(lent.bytes, lent.size, policies, strlen(policies), 0) == REFUSED(40));
        REQUIRE(call(lent.bytes, lent.size, "", 0, 1) == REFUSED(40));
        REQUIRE(wiforekun_desk_step(lent.bytes, lent.size, 9, 0, 0) == REFUSED(40));
        give_wide_back(lent, lent.bytes, 0);
    }
    for (enum place place = END; place < PLACES; place++) {
        struct wide lent = lend_wide(LENGTH + 3, place);
        memset(lent.bytes, 0, LENGTH);
        REQUIRE(call(lent.bytes, lent.size, policies, strlen(policies), 0) == 0);
        REQUIRE(call(lent.bytes, lent.size, outline, strlen(outline), 1) == 0);
        REQUIRE(wiforekun_desk_step(lent.bytes, lent.size, 1, 0, 0) == LEAN);
        give_wide_back(lent, lent.bytes, LENGTH);
    }
}

/* 42: the first numbers of the state beyond what they can be. */
static void damaged(void) {
    static const struct {
        size_t at;
        uint8_t value;
    } bytes[] = {{0, 3}, {3, 1}, {5, 2}, {8, 65}, {12, 66}, {16, 2}, {20, 65}, {28, 65}, {32, 8}, {1568, 9}, {2088, 1}, {16264, 17}};
    static uint8_t state[LENGTH], before[LENGTH];
    REQUIRE(call(state, LENGTH, policies, strlen(policies), 0) == 0);
    REQUIRE(call(state, LENGTH, outline, strlen(outline), 1) == 0);
    for (size_t i = 0; i < sizeof bytes / sizeof *bytes; i++) {
        uint8_t kept = state[bytes[i].at];
        state[bytes[i].at] = bytes[i].value;
        memcpy(before, state, LENGTH);
        REQUIRE(wiforekun_desk_step(state, LENGTH, 1, 0, 0) == REFUSED(42));
        REQUIRE(call(state, LENGTH, "", 0, 0) == REFUSED(42) && call(state, LENGTH, "", 0, 1) == REFUSED(42));
        REQUIRE(!memcmp(state, before, LENGTH));
        state[bytes[i].at] = kept;
    }
    REQUIRE(wiforekun_desk_step(state, LENGTH, 1, 0, 0) == LEAN);
}

static uint32_t seed = 2463534242u;

static uint32_t below(uint32_t most) {
    seed ^= seed << 13;
    seed ^= seed >> 17;
    seed ^= seed << 5;
    return seed % most;
}

/* Step i of the outline: the opening, and then a create, an opening and a reading of one channel after the other. */
static uint32_t next_step(struct desk *desk, uint32_t i) {
    return i == 0 ? step(desk, 1, 0, 0) : step(desk, 0, (i - 1) % 3, 16 + (i - 1) / 3);
}

/* Calls of all kinds, on damaged bytes too: a state that is lent and a plain one are the same. */
static void random_calls(enum place place) {
    struct desk desk = begin(place);
    unsigned refused = 0, lean = 0, full = 0;
    uint32_t taken = 0;
    for (unsigned i = 0; i < RANDOM_CALLS; i++) {
        uint32_t code;
        if (below(40) == 0) {
            size_t at = below(4) ? below(2900) : below(LENGTH);
            desk.plain[at] = desk.lent.bytes[at] = (uint8_t)below(below(2) ? 4 : 256);
        }
        switch (below(16)) {
        case 0: code = load(&desk, policies, 0); break;
        case 1: code = load(&desk, below(9) ? outline : broken, 1); break;
        case 2: code = load(&desk, "kind a b\n", (int)below(2)); break;
        case 3: code = step(&desk, below(5), below(5), below(2) ? 0 : 16 + below(8)); break;
        case 4: code = step(&desk, 2, 0, 0); break;
        default: code = next_step(&desk, taken);
        }
        /* an allowed step is followed by the next one, and a load by the first */
        taken = code % 65536 ? taken : WIFOREKUN_IS_LEAN(code) ? taken + 1 : 0;
        int strays = WIFOREKUN_ANSWER(code) != WIFOREKUN_REFUSED && !WIFOREKUN_IS_LEAN(code);
        refused += WIFOREKUN_ANSWER(code) == WIFOREKUN_REFUSED;
        lean += WIFOREKUN_IS_LEAN(code);
        full += (unsigned)strays;
        if (code == REFUSED(42) || code == REFUSED(20) || (strays && below(4) == 0)) {
            memset(desk.lent.bytes, 0, LENGTH);
            memset(desk.plain, 0, LENGTH);
            taken = 0;
            REQUIRE(load(&desk, policies, 0) == 0 && load(&desk, outline, 1) == 0);
        }
    }
    REQUIRE(refused > 1000 && lean > 1000 && full > 1000);
    give_wide_back(desk.lent, desk.lent.bytes, LENGTH);
}

int main(void) {
    page = (size_t)sysconf(_SC_PAGESIZE);
    for (enum place place = END; place < PLACES; place++) {
        worked(place);
        random_calls(place);
    }
    lengths();
    damaged();
    puts("tests/api/desk: the desk keeps to its state");
    return 0;
}
