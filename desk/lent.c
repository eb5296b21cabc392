/* Tests what include/stagecheck.h says of lent pointers: null with length 0, room that is too short, and what keeps its
 * values. Ends with status 1 and a line for each failure.
 */
#include "stagecheck.h"

#include <stdio.h>
#include <string.h>

static uint64_t tables[STAGECHECK_TABLE_WORDS];
static uint64_t answer[STAGECHECK_ANSWER_WORDS];
static uint8_t text[STAGECHECK_TEXT_BYTES];
static int failed;

static void expect(const char *what, int holds)
{
    if (!holds) {
        printf("desk/lent.c: %s\n", what);
        failed = 1;
    }
}

static int answer_is(size_t words, uint64_t number, uint64_t second, uint64_t third)
{
    return words >= 3 && answer[0] == number && answer[1] == second && answer[2] == third;
}

static const uint8_t *bytes(const char *string)
{
    return (const uint8_t *)string;
}

static void check_null(void)
{
    const char *one = "(module 8 8 6 0 0 8 9\n(chunk 0\n(op Return)\n)\n)\n";
    const char *none = "(module 8 8 6 0 0 8 9\n)\n";
    uint8_t sheet[1] = {9};
    expect("no listing, no sheets", answer_is(stagecheck_check(NULL, 0, NULL, 0, NULL, 0, answer), 1, 0, 0));
    expect("no listing, no sheets, lent tables",
           answer_is(stagecheck_check_in(NULL, 0, tables, NULL, 0, NULL, 0, answer), 1, 0, 0));
    expect("no sheet of marks",
           answer_is(stagecheck_check(bytes(one), strlen(one), sheet, 1, NULL, 0, answer), 4, 0, 1));
    expect("the other sheet is zero", sheet[0] == 0);
    sheet[0] = 9;
    expect("no sheet of heights, lent tables",
           answer_is(stagecheck_check_in(bytes(one), strlen(one), tables, NULL, 0, sheet, 1, answer), 4, 0, 1));
    expect("the other sheet is zero, lent tables", sheet[0] == 0);
    expect("no instructions, no sheets",
           answer_is(stagecheck_check(bytes(none), strlen(none), NULL, 0, NULL, 0, answer), 0, 0, 0));
    expect("no instructions, no sheets, lent tables",
           answer_is(stagecheck_check_in(bytes(none), strlen(none), tables, NULL, 0, NULL, 0, answer), 0, 0, 0));
    expect("no listing to be read", answer_is(stagecheck_read(NULL, 0, tables, answer), 1, 0, 0));
    expect("the text of no listing", stagecheck_text(NULL, 0, text) == 14 && memcmp(text, "refused 1 0 0\n", 14) == 0);
}

/* Of every room that is too short: what fits is written, nothing past it, and the length is that of the whole. */
static void check_room(void)
{
    const char *refused = "(module 8 8 6 0 0 8 9\n(chunk 0\n(op Add)\n)\n)\n";
    uint8_t heights[1], blinds[1], whole[4096], part[4097];
    stagecheck_check(bytes(refused), strlen(refused), heights, 1, blinds, 1, answer);
    expect("the listing is refused", answer[0] == 5);
    size_t length =
        stagecheck_explain(bytes(refused), strlen(refused), heights, 1, blinds, 1, answer, whole, sizeof whole);
    expect("the explanation has some bytes", length > 0 && length <= sizeof whole);
    for (size_t room = 0; room <= length && room <= sizeof whole; room++) {
        memset(part, 0xEE, sizeof part);
        size_t again = stagecheck_explain(bytes(refused), strlen(refused), heights, 1, blinds, 1, answer,
                                          room > 0 ? part : NULL, room);
        expect("the explanation's length, whatever the room", again == length);
        expect("what fits of the explanation", memcmp(part, whole, room) == 0 && part[room] == 0xEE);
    }
    expect("the explanation without sheets and listing ends",
           stagecheck_explain(NULL, 0, NULL, 0, NULL, 0, answer, NULL, 0) < sizeof whole);
    expect("the line", stagecheck_line(bytes(refused), strlen(refused), answer) == 3);
    expect("the line in no listing", stagecheck_line(NULL, 0, answer) == 0);
}

static int is_filled(const uint8_t *from, size_t length, uint8_t byte)
{
    for (size_t i = 0; i < length; i++) {
        if (from[i] != byte) {
            return 0;
        }
    }
    return 1;
}

/* The words of an answer, all of them, of which the call gave the first. */
static int words_are(size_t given, size_t words, uint64_t first, uint64_t second, uint64_t third, uint64_t fourth)
{
    const uint64_t wanted[STAGECHECK_ANSWER_WORDS] = {first, second, third, fourth};
    return given == words && memcmp(answer, wanted, sizeof answer) == 0;
}

static size_t read_string(const char *string)
{
    memset(answer, 0xEE, sizeof answer);
    return stagecheck_read(bytes(string), strlen(string), tables, answer);
}

static size_t write_into(const uint64_t *from, uint8_t *out, size_t length)
{
    memset(answer, 0xEE, sizeof answer);
    return stagecheck_write(from, out, length, answer);
}

/* A listing that a check refuses, read into used tables, kept elsewhere, and written from there into every room up to
 * some bytes more than it needs. */
static void check_written(void)
{
    const char *listing = "(module 8 0 6 0 0 8 9\n(native (scalar 5))\n(chunk 3\n(const 255)\n(op EndLoop 7)\n)\n)\n";
    static uint64_t kept[STAGECHECK_TABLE_WORDS], before[STAGECHECK_TABLE_WORDS];
    const size_t length = strlen(listing);
    uint8_t out[128];
    memset(tables, 0xEE, sizeof tables);
    expect("the listing is read", words_are(read_string(listing), 3, STAGECHECK_ACCEPTED, 1, 1, 0));
    memcpy(kept, tables, sizeof kept);
    memcpy(before, tables, sizeof before);
    expect("no room", words_are(write_into(kept, NULL, 0), 3, STAGECHECK_BUFFER_TOO_SHORT, 0, length, 0));
    for (size_t room = 0; room < sizeof out; room++) {
        memset(out, 0xEE, sizeof out);
        size_t words = write_into(kept, out, room);
        if (room < length) {
            expect("too little room", words_are(words, 3, STAGECHECK_BUFFER_TOO_SHORT, 0, length, 0));
            expect("too little room is left as it is", is_filled(out, sizeof out, 0xEE));
        } else {
            expect("the length", words_are(words, 2, STAGECHECK_ACCEPTED, length, 0, 0));
            expect("the listing is written back", memcmp(out, listing, length) == 0);
            expect("what follows it is left as it is", is_filled(out + length, sizeof out - length, 0xEE));
        }
    }
    expect("the tables are only read", memcmp(kept, before, sizeof kept) == 0);
}

/* 1 and not 20, whatever room there is, and the buffer is left as it is. */
static void expect_no_listing(const char *what)
{
    uint8_t out[128];
    for (size_t room = 0; room < sizeof out; room++) {
        memset(out, 0xEE, sizeof out);
        size_t words = write_into(tables, room > 0 ? out : NULL, room);
        expect(what, words_are(words, 3, STAGECHECK_CANNOT_FOLLOW, 0, 0, 0) && is_filled(out, sizeof out, 0xEE));
    }
}

/* Tables that no listing gives: of one byte throughout, with equal trap codes, and after a listing that does not read.
 * The word of the second trap code is the one in which two listings differ. */
static void check_no_listing(void)
{
    static uint64_t other[STAGECHECK_TABLE_WORDS];
    size_t at = 0;
    memset(tables, 0, sizeof tables);
    expect_no_listing("words of 0");
    memset(tables, 0xEE, sizeof tables);
    expect_no_listing("words of other bytes");
    read_string("(module 8 8 6 0 0 8 9\n)\n");
    memcpy(other, tables, sizeof other);
    read_string("(module 8 8 6 0 0 8 7\n)\n");
    while (at + 1 < STAGECHECK_TABLE_WORDS && tables[at] == other[at]) {
        at++;
    }
    expect("the word of the second trap code", tables[at] == 7 && other[at] == 9);
    tables[at] = 8;
    expect_no_listing("equal trap codes");
    read_string("(module 8 8 6 0 0 8 9\n");
    expect_no_listing("a listing whose end is missing");
    read_string("(module 8 8 6 0 0 8 9\n(chunk 33\n");
    expect_no_listing("a listing over a limit");
}

/* What does not read is refused as a check refuses it; what a check refuses later is read. */
static void check_read(void)
{
    static uint8_t zeros[STAGECHECK_MOST_BYTES + 1];
    expect("a line that cannot follow",
           words_are(read_string("(module 8 8 6 0 0 8 9\n(op Add)\n"), 3, STAGECHECK_CANNOT_FOLLOW, 0, 1, 0));
    expect("too many locals",
           words_are(read_string("(module 8 8 6 0 0 8 9\n(chunk 33\n"), 4, STAGECHECK_LIMIT_PASSED, 0, 0, 3));
    memset(answer, 0xEE, sizeof answer);
    expect("too many bytes", words_are(stagecheck_read(zeros, sizeof zeros, tables, answer), 4,
                                       STAGECHECK_LIMIT_PASSED, 0, 0, 1));
    expect_no_listing("a listing of too many bytes");
    expect("a shared slot without its line",
           words_are(read_string("(module 8 8 6 0 0 8 9\n(slot shared)\n)\n"), 3, STAGECHECK_ACCEPTED, 0, 0, 0));
}

static int is_named(uint64_t number, const char *name)
{
    uint8_t given[64];
    size_t length = stagecheck_name(number, given, sizeof given);
    return length == strlen(name) && memcmp(given, name, length) == 0;
}

static void check_names(void)
{
    uint8_t part[8];
    memset(part, 0xEE, sizeof part);
    expect("the name in too little room", stagecheck_name(6, part, 6) == 17 && memcmp(part, "Offset\xEE", 7) == 0);
    expect("the name in no room", stagecheck_name(6, NULL, 0) == 17);
    expect("the name of 6", is_named(6, "OffsetOutOfBounds"));
    expect("the name of 20", is_named(20, "BufferTooShort"));
    expect("the name of an acceptance", is_named(0, "accepted"));
    expect("the name of no refusal", is_named(UINT64_MAX, "refusal 18446744073709551615"));
}

int main(void)
{
    check_null();
    check_room();
    check_written();
    check_no_listing();
    check_read();
    check_names();
    return failed;
}
