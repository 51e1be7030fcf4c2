/* Memory to lend that is wider than a page: pages of its own between two that can't be touched. */
#include "lend.h"

struct wide {
    uint8_t *whole; /* all pages, the two that can't be touched too */
    size_t pages;   /* how many can be */
    uint8_t *bytes;
    size_t size;
};

/* So many bytes at the end of their pages, at the beginning, or at an odd place; all pages hold the mark. */
static struct wide lend_wide(size_t size, enum place place) {
    struct wide wide = {NULL, (size + page) / page, NULL, size};
    wide.whole = mmap(NULL, (wide.pages + 2) * page, PROT_NONE, MAP_PRIVATE | MAP_ANONYMOUS, -1, 0);
    REQUIRE(wide.whole != MAP_FAILED);
    REQUIRE(mprotect(wide.whole + page, wide.pages * page, PROT_READ | PROT_WRITE) == 0);
    memset(wide.whole + page, MARK, wide.pages * page);
    wide.bytes = wide.whole + page + (place == END ? wide.pages * page - size : place == BEGINNING ? 0 : 1);
    return wide;
}

/* Of the bytes around those that may be changed none is. */
static void give_wide_back(struct wide wide, const uint8_t *from, size_t length) {
    for (uint8_t *at = wide.whole + page; at < wide.whole + (wide.pages + 1) * page; at++)
        REQUIRE((at >= from && at < from + length) || *at == MARK);
    REQUIRE(munmap(wide.whole, (wide.pages + 2) * page) == 0);
}
