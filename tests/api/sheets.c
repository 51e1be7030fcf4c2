/* A policy sheet written again: the lent sheet lies between two pages that can't be touched, at its end or at its beginning; what comes
 * after the text, and what is refused, keeps its marks. */
#include "lend_wide.h"

#define ROOM WIFOREKUN_SHEET_ROOM

/* One call: what is written must be `expected`, or nothing where there is none, with the refusal told. */
static void called(const char *sheet, size_t room, const char *expected, uint64_t line, uint64_t number) {
    for (enum place place = END; place < LEAST_ALIGNED; place++) {
        size_t length = expected ? strlen(expected) : 0;
        struct wide lent = lend_wide(room, place);
        uint8_t *out = lent.bytes;
        struct lent text = lend_to_read(sheet, strlen(sheet));
        const uint64_t before[WIFOREKUN_REFUSAL_LENGTH] = {77, 88};
        struct lent told = lend(before, sizeof before, sizeof *before, place);
        REQUIRE(wiforekun_write_policies(text.bytes, text.size, out, room, (uint64_t *)told.bytes) == length);
        REQUIRE(!expected || !memcmp(out, expected, length));
        const uint64_t *refusal = (const uint64_t *)told.bytes;
        REQUIRE(refusal[0] == (expected ? 77 : line) && refusal[1] == (expected ? 88 : number));
        give_back(told);
        give_back(text);
        give_wide_back(lent, out, length);
    }
}

int main(void) {
    page = (size_t)sysconf(_SC_PAGESIZE);
    const char *any = "policy from action on who to\n0 0 10 1 0 1\n00  0 2 1 0 00006\n0 0 2 1 0 1\n0 0 10 1 0 1\n";
    const char *tidy = "policy from action on who to\n0 0 2 1 0 1\n0 0 2 1 0 6\n0 0 10 1 0 1\n";
    const char *local = "local from action on who to\n";
    called(any, ROOM, tidy, 0, 0);
    called(tidy, ROOM, tidy, 0, 0);
    called(any, ROOM + 1, tidy, 0, 0);
    called(local, ROOM, local, 0, 0);
    called(any, ROOM - 1, NULL, 0, 40);
    called("", ROOM, NULL, 1, 1);
    called("", ROOM - 1, NULL, 0, 40);
    called("policy from action on who to\n0 0 2 1 0 1\n0 0 2 1 0 1 \n", ROOM, NULL, 3, 2);
    called("local from action on who to\n0 0 2 1 0 8\n", ROOM, NULL, 2, 3);
    called("local from action on who to\n0 0 2 1 0 7", ROOM, NULL, 2, 13);
    puts("tests/api/sheets: sheets are written within what is lent");
    return 0;
}
