/* One step of the judge in C, by the method of src/monitor.rs: what a plain program of another language takes. Lent what
 * wiforekun_judge_parts is lent, but for the sets of pairs, which no step changes. */
#include <stdbool.h>
#include <stddef.h>
#include <stdint.h>
#include <string.h>

enum { POLICIES = 8, INSTANCES = 82, NEVER = 16, RETIRED = 17, FIRST_LIVE = 18, MOST_CREATED = 64, MOST_UNCLOSED = 64, EDGE = 6, BLOCK = 48 };

struct state {
    uint8_t *sets, *possible;
    uint32_t *created;
    uint8_t *unclosed, *order;
    size_t count, depth;
    uint32_t highest;
    bool halted;
};

static uint32_t violated(unsigned policy) { return 256 + policy; }
static uint32_t refused(unsigned number) { return 512 + number; }

static bool edge_ok(const uint8_t *edge) {
    if (edge[0] >= 8 || edge[1] >= 8 || edge[2] >= 32 || edge[3] > 2 || edge[5] >= 8) return false;
    return edge[3] == 0 ? edge[4] < 16 : edge[4] == 0;
}

/* For each byte of eight edges its highest number, and all bits where it is `on`, which is 0 or the next byte is. */
#define EIGHT(...) {__VA_ARGS__, __VA_ARGS__, __VA_ARGS__, __VA_ARGS__, __VA_ARGS__, __VA_ARGS__, __VA_ARGS__, __VA_ARGS__}
static const uint8_t MOST[BLOCK] = EIGHT(7, 7, 31, 2, 15, 7);
static const uint8_t PAIRED[BLOCK] = EIGHT(0, 0, 0, 255, 0, 0);

/* Eight edges and a byte beyond them, without a branch, so that several bytes are compared at once. */
static bool block_ok(const uint8_t *bytes) {
    uint8_t bad = 0;
    for (int j = 0; j < BLOCK; j++) {
        uint8_t less = bytes[j] < bytes[j + 1] ? bytes[j] : bytes[j + 1];
        bad |= (bytes[j] > MOST[j] ? 255 : 0) | (less & PAIRED[j]);
    }
    return bad == 0;
}

static bool edges_ok(const uint8_t *edges, size_t length) {
    if (length % EDGE != 0 || length / EDGE > 256) return false;
    size_t blocks = length == 0 ? 0 : (length - 1) / BLOCK;
    for (size_t i = 0; i < blocks; i++)
        if (!block_ok(edges + BLOCK * i)) return false;
    for (size_t i = BLOCK * blocks; i < length; i += EDGE)
        if (!edge_ok(edges + i)) return false;
    return true;
}

/* No early exit, so that several are compared at once. */
static bool rising(const uint32_t *numbers, size_t count) {
    uint32_t falls = 0;
    for (size_t i = 1; i < count; i++) falls |= numbers[i - 1] >= numbers[i];
    return falls == 0;
}

/* A number is compared with later ones only where one of them has its last bits. */
static bool distinct(const uint32_t *numbers, size_t count) {
    bool seen[1024] = {false};
    for (size_t i = count; i-- > 0;) {
        if (seen[numbers[i] % 1024]) {
            bool found = false;
            for (size_t j = i + 1; j < count; j++) found |= numbers[i] == numbers[j];
            if (found) return false;
        }
        seen[numbers[i] % 1024] = true;
    }
    return true;
}

static bool in_range(uint32_t number, uint32_t highest) { return number >= 16 && number <= highest; }

static bool created_ok(const uint32_t *created, size_t count, uint32_t highest) {
    if (count > MOST_CREATED) return false;
    if (rising(created, count)) return count == 0 || (created[0] >= 16 && in_range(created[count - 1], highest));
    for (size_t i = 0; i < count; i++)
        if (!in_range(created[i], highest)) return false;
    return distinct(created, count);
}

static bool order_ok(const struct state *s) {
    uint8_t counts[POLICIES] = {0};
    if (s->depth > MOST_UNCLOSED) return false;
    for (size_t i = 0; i < s->depth; i++) {
        if (s->order[i] >= POLICIES) return false;
        counts[s->order[i]]++;
    }
    return memcmp(counts, s->unclosed, POLICIES) == 0;
}

static size_t place(const struct state *s, uint32_t resource) {
    if (resource < 16) return resource;
    for (size_t i = 0; i < s->count; i++)
        if (s->created[i] == resource) return FIRST_LIVE + i;
    return NEVER;
}

/* The lowest policy that is open and not respected, or 8. */
static unsigned broken(const struct state *s, const uint8_t *possible) {
    unsigned bad = 0;
    for (int p = 0; p < POLICIES; p++) bad |= (unsigned)((s->unclosed[p] != 0) & (possible[p] >= 64)) << p;
    return bad == 0 ? POLICIES : (unsigned)__builtin_ctz(bad);
}

/* What 64 rows are that leave every state where it is. */
static const uint8_t STAYS[64] = EIGHT(1, 2, 4, 8, 16, 32, 64, 128);

static void stay(uint8_t rows[64]) {
    for (int i = 0; i < 64; i++) {
        const uint8_t row = rows[i];
        rows[i] = row == 0 ? STAYS[i] : row;
    }
}

static void fill_rows(const uint8_t *edges, size_t length, uint32_t action, uint32_t resource, uint8_t own[64], uint8_t other[64]) {
    memset(own, 0, 64);
    memset(other, 0, 64);
    for (const uint8_t *edge = edges; edge < edges + length; edge += EDGE) {
        if (edge[2] != action) continue;
        int at = edge[0] * 8 + edge[1];
        uint8_t end = (uint8_t)(1 << edge[5]);
        if (edge[3] == 0 ? edge[4] == resource : edge[3] == 1) own[at] |= end;
        if (edge[3] == 0 ? edge[4] == resource : edge[3] == 2) other[at] |= end;
    }
    stay(own);
    stay(other);
}

static uint8_t image(uint8_t set, const uint8_t rows[8]) {
    uint8_t moved = 0;
    for (int q = 0; q < 8; q++) moved |= (set >> q & 1) ? rows[q] : 0;
    return moved;
}

/* Moves the sets by the rows, state by state, so that several sets are moved at once. */
static void move_all(uint8_t *restrict sets, size_t used, const uint8_t rows[8]) {
    uint8_t moved[INSTANCES] = {0};
    for (int q = 0; q < 8; q++) {
        const uint8_t state = STAYS[q], row = rows[q];
        for (size_t i = 0; i < used; i++) moved[i] |= (sets[i] & state) != 0 ? row : 0;
    }
    memcpy(sets, moved, used);
}

/* The union of the moved sets: the one at `at` moves by the rows `own`, the others by `other`. */
static uint8_t move_policy(uint8_t *restrict sets, size_t used, size_t at, const uint8_t own[8], const uint8_t other[8]) {
    uint8_t moved = memcmp(own, STAYS, 8) == 0 ? sets[at] : image(sets[at], own), all = 0;
    /* the empty set moves to the empty set */
    sets[at] = 0;
    if (memcmp(other, STAYS, 8) != 0) move_all(sets, used, other);
    for (size_t i = 0; i < used; i++) all |= sets[i];
    sets[at] = moved;
    return all | moved;
}

static uint32_t event(struct state *s, const uint8_t *edges, size_t length, uint32_t action, uint32_t resource) {
    size_t at = place(s, resource), used = FIRST_LIVE + s->count;
    if (action == 0) {
        if (resource < 16) return refused(22);
        if (resource <= s->highest) return refused(27);
        if (s->count >= MOST_CREATED) return refused(30);
        at = used++;
    } else if (at == NEVER) {
        return refused(24);
    }
    uint8_t before[POLICIES * INSTANCES], own[64], other[64], possible[POLICIES];
    memcpy(before, s->sets, sizeof before);
    if (action == 0)
        for (int p = 0; p < POLICIES; p++) s->sets[INSTANCES * p + at] = s->sets[INSTANCES * p + NEVER];
    fill_rows(edges, length, action, resource, own, other);
    for (int p = 0; p < POLICIES; p++) possible[p] = move_policy(s->sets + INSTANCES * p, used, at, own + 8 * p, other + 8 * p);
    unsigned bad = broken(s, possible);
    if (bad < POLICIES) {
        memcpy(s->sets, before, sizeof before);
        s->halted = true;
        return violated(bad);
    }
    memcpy(s->possible, possible, sizeof possible);
    if (action == 0) s->created[s->count++] = s->highest = resource;
    return 0;
}

static uint32_t opening(struct state *s, bool local, uint8_t policy) {
    if (s->depth >= MOST_UNCLOSED) return refused(32);
    bool reset = local && s->unclosed[policy] == 0;
    uint8_t possible[POLICIES];
    memcpy(possible, s->possible, sizeof possible);
    if (reset) possible[policy] = 1;
    s->unclosed[policy]++;
    unsigned bad = broken(s, possible);
    if (bad < POLICIES) {
        s->unclosed[policy]--;
        s->halted = true;
        return violated(bad);
    }
    if (reset) {
        s->possible[policy] = 1;
        memset(s->sets + INSTANCES * policy, 1, FIRST_LIVE + s->count);
    }
    s->order[s->depth++] = policy;
    return 0;
}

static uint32_t closing(struct state *s, uint8_t policy) {
    if (s->unclosed[policy] == 0) return refused(25);
    if (s->order[s->depth - 1] != policy) return refused(26);
    s->unclosed[policy]--;
    unsigned bad = broken(s, s->possible);
    if (bad < POLICIES) {
        s->unclosed[policy]++;
        s->halted = true;
        return violated(bad);
    }
    s->depth--;
    return 0;
}

static uint32_t retiring(struct state *s, uint32_t resource) {
    size_t at = place(s, resource), used = FIRST_LIVE + s->count;
    if (at < FIRST_LIVE) return refused(28);
    unsigned bad = broken(s, s->possible);
    if (bad < POLICIES) {
        s->halted = true;
        return violated(bad);
    }
    for (int p = 0; p < POLICIES; p++) {
        uint8_t *sets = s->sets + INSTANCES * p;
        sets[RETIRED] |= sets[at];
        memmove(sets + at, sets + at + 1, used - at - 1);
    }
    memmove(s->created + (at - FIRST_LIVE), s->created + (at - FIRST_LIVE) + 1, (used - at - 1) * sizeof *s->created);
    s->count--;
    return 0;
}

uint32_t c_judge(const uint8_t *edges, size_t edges_length, uint32_t local, uint8_t *sets, uint8_t *possible, uint32_t *created, uint8_t *unclosed,
                 uint8_t *order, uint64_t *numbers, uint32_t kind, uint32_t a, uint32_t b) {
    struct state s = {sets, possible, created, unclosed, order, numbers[0], numbers[2], (uint32_t)numbers[3], numbers[1] == 1};
    if (local > 1 || !edges_ok(edges, edges_length)) return refused(41);
    if (numbers[1] > 1 || numbers[3] > UINT32_MAX || !created_ok(created, s.count, s.highest) || !order_ok(&s)) return refused(42);
    if (s.halted) return refused(20);
    uint32_t code = refused(21);
    if (kind == 0 && a < 32) code = event(&s, edges, edges_length, a, b);
    else if (kind == 1 && a < POLICIES && b == 0) code = opening(&s, local == 1, (uint8_t)a);
    else if (kind == 2 && a < POLICIES && b == 0) code = closing(&s, (uint8_t)a);
    else if (kind == 3 && b == 0) code = retiring(&s, a);
    if (code < 512) {
        numbers[0] = s.count;
        numbers[1] = s.halted;
        numbers[2] = s.depth;
        numbers[3] = s.highest;
    }
    return code;
}
