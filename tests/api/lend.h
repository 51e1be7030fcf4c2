/* Memory to lend: each array in pages of its own between two pages that can't be touched. */
#define _DEFAULT_SOURCE
#include "wiforekun.h"
#include <stdint.h>
#include <stdio.h>
#include <stdlib.h>
#include <string.h>
#include <sys/mman.h>
#include <unistd.h>

#define MARK 0xa5

static size_t page;

#define REQUIRE(fact)                                                          \
    do {                                                                       \
        if (!(fact)) {                                                         \
            fprintf(stderr, "%s:%d: not so: %s\n", __FILE__, __LINE__, #fact); \
            exit(1);                                                           \
        }                                                                      \
    } while (0)

enum place { END, BEGINNING, LEAST_ALIGNED, PLACES };

struct lent {
    uint8_t *ground; /* the pages, between two that can't be touched */
    size_t room;     /* their bytes */
    uint8_t *bytes;
    size_t size;
};

static uint8_t *ground(size_t room) {
    uint8_t *all = mmap(NULL, room + 2 * page, PROT_NONE, MAP_PRIVATE | MAP_ANONYMOUS, -1, 0);
    REQUIRE(all != MAP_FAILED);
    REQUIRE(mprotect(all + page, room, PROT_READ | PROT_WRITE) == 0);
    memset(all + page, MARK, room);
    return all + page;
}

static struct lent lend(const void *from, size_t size, size_t align, enum place place) {
    size_t room = (size + 2 * align + page - 1) / page * page;
    struct lent lent = {ground(room), room, NULL, size};
    lent.bytes = place == END ? lent.ground + room - size : place == BEGINNING ? lent.ground : lent.ground + align;
    REQUIRE((uintptr_t)lent.bytes % align == 0);
    /* no more than its alignment */
    REQUIRE(place != LEAST_ALIGNED || (uintptr_t)lent.bytes % (2 * align) != 0);
    memcpy(lent.bytes, from, size);
    return lent;
}

static void give_back(struct lent lent) {
    for (uint8_t *at = lent.ground; at < lent.ground + lent.room; at++)
        REQUIRE((at >= lent.bytes && at < lent.bytes + lent.size) || *at == MARK);
    REQUIRE(munmap(lent.ground - page, lent.room + 2 * page) == 0);
}

static struct lent lend_to_read(const void *from, size_t size) {
    struct lent lent = lend(from, size, 1, END);
    REQUIRE(mprotect(lent.ground, lent.room, PROT_READ) == 0);
    return lent;
}
