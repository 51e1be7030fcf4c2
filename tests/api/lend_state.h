/* States in memory that is lent. */
#include "lend.h"

/* A state, its arrays lent one by one. */
struct parts {
    struct lent sets, pairs, possible, created, unclosed, order, numbers;
};

static struct parts lend_state(const struct wiforekun_state *state, enum place place) {
    struct parts parts = {
        lend(state->sets, sizeof state->sets, WIFOREKUN_SETS_ALIGN, place),
        lend(state->pairs, sizeof state->pairs, WIFOREKUN_PAIRS_ALIGN, place),
        lend(state->possible, sizeof state->possible, WIFOREKUN_POSSIBLE_ALIGN, place),
        lend(state->created, sizeof state->created, WIFOREKUN_CREATED_ALIGN, place),
        lend(state->unclosed, sizeof state->unclosed, WIFOREKUN_UNCLOSED_ALIGN, place),
        lend(state->order, sizeof state->order, WIFOREKUN_ORDER_ALIGN, place),
        lend(state->numbers, sizeof state->numbers, WIFOREKUN_NUMBERS_ALIGN, place),
    };
    return parts;
}

static int same(const struct parts *parts, const struct wiforekun_state *state) {
    return !memcmp(parts->sets.bytes, state->sets, sizeof state->sets) &&
           !memcmp(parts->pairs.bytes, state->pairs, sizeof state->pairs) &&
           !memcmp(parts->possible.bytes, state->possible, sizeof state->possible) &&
           !memcmp(parts->created.bytes, state->created, sizeof state->created) &&
           !memcmp(parts->unclosed.bytes, state->unclosed, sizeof state->unclosed) &&
           !memcmp(parts->order.bytes, state->order, sizeof state->order) &&
           !memcmp(parts->numbers.bytes, state->numbers, sizeof state->numbers);
}

static uint32_t judge_under(const struct parts *parts, struct lent edges, uint32_t local, const uint32_t step[3]) {
    return wiforekun_judge_parts(edges.bytes, edges.size, local, parts->sets.bytes, parts->pairs.bytes, parts->possible.bytes,
                                 (uint32_t *)parts->created.bytes, parts->unclosed.bytes, parts->order.bytes,
                                 (uint64_t *)parts->numbers.bytes, step[0], step[1], step[2]);
}

static void give_state_back(const struct parts *parts) {
    give_back(parts->sets);
    give_back(parts->pairs);
    give_back(parts->possible);
    give_back(parts->created);
    give_back(parts->unclosed);
    give_back(parts->order);
    give_back(parts->numbers);
}
