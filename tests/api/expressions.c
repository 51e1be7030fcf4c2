/* Expressions read into tables that are lent as in guards.c: what is answered, and what is left of a table. */
#include "lend.h"

/* The nodes and the mark behind them, in a table of just enough room at each place of its page. */
static void stored(enum place place) {
    static const char text[] = "1(s3)+0\n";
    static const uint8_t nodes[] = {4, 1, 2, 1, 1, 3, 0, 0, 0};
    uint8_t empty[WIFOREKUN_NODES_ROOM];
    memset(empty, 7, sizeof empty);
    struct lent t = lend_to_read(text, strlen(text)), table = lend(empty, sizeof empty, 1, place);
    size_t answer = wiforekun_read_expression(t.bytes, t.size, table.bytes, table.size);
    REQUIRE(WIFOREKUN_IS_READ(answer) && answer * WIFOREKUN_NODE_BYTES == sizeof nodes);
    REQUIRE(!memcmp(table.bytes, nodes, sizeof nodes));
    REQUIRE(!memcmp(table.bytes + sizeof nodes, empty, sizeof empty - sizeof nodes));
    give_back(table);
    give_back(t);
}

/* A refusal leaves the table as it was. */
static void refused(const char *text, size_t room, size_t answer) {
    uint8_t empty[WIFOREKUN_NODES_ROOM];
    memset(empty, 7, sizeof empty);
    struct lent t = lend_to_read(text, strlen(text)), table = lend(empty, room, 1, END);
    REQUIRE(wiforekun_read_expression(t.bytes, t.size, table.bytes, table.size) == answer);
    REQUIRE(!memcmp(table.bytes, empty, room));
    give_back(table);
    give_back(t);
}

/* What is printed, and nothing where the room is one byte less than the header tells. */
static void printed(void) {
    static const char text[] = "0\n", sheet[] = "node kind a b\n0 0 0 0\n";
    uint8_t out[WIFOREKUN_EXPRESSION_TEXT_ROOM];
    memset(out, MARK, sizeof out);
    const uint8_t *bytes = (const uint8_t *)text;
    REQUIRE(wiforekun_report_expression(bytes, strlen(text), out, sizeof out - 1) == 0 && out[0] == MARK);
    REQUIRE(wiforekun_report_expression(bytes, strlen(text), out, sizeof out) == strlen(sheet));
    REQUIRE(!memcmp(out, sheet, strlen(sheet)) && out[strlen(sheet)] == MARK);
}

int main(void) {
    page = (size_t)sysconf(_SC_PAGESIZE);
    for (enum place place = END; place < PLACES; place++) stored(place);
    refused("", WIFOREKUN_NODES_ROOM, 65536 + 512 + 15);
    refused("0(s3)\n", WIFOREKUN_NODES_ROOM, 65536 + 512 + 3);
    refused("h1\n", WIFOREKUN_NODES_ROOM, 65536 + 512 + 7);
    refused("1(n0)\n", WIFOREKUN_NODES_ROOM, 65536 + 512 + 8);
    refused("0\n", WIFOREKUN_NODES_ROOM - 1, 512 + 40);
    printed();
    puts("tests/api/expressions: all as they must be");
    return 0;
}
