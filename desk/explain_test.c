/* Tests stagecheck_explain, stagecheck_line and stagecheck_name: explain_test FILE.listing ..
 *
 * The text for each listing is held to FILE.explained, which `stagecheck --explain FILE.listing` writes; that for words which no check
 * gives to made_up.explained beside the first, which `explain_test --made-up` writes.
 * Each text is also asked for in shorter room: what is written agrees, and nothing behind it is touched. Then random words and bytes.
 */
#include "../include/stagecheck.h"
#include <stdio.h>
#include <stdlib.h>
#include <string.h>

#define ROOM 4000000
#define LAST_REFUSAL 20

static uint8_t listing[100000], heights[4096], blinds[4096], text[ROOM], part[ROOM + 1], stored[ROOM];
static size_t length, failures;

static void fail(const char *where, const char *what) {
    fprintf(stderr, "explain_test: %s: %s\n", where, what);
    failures++;
}

static size_t read_file(const char *name, uint8_t *into, size_t room) {
    FILE *file = fopen(name, "rb");
    if (file == NULL) {
        fail(name, "cannot be read");
        return 0;
    }
    size_t count = fread(into, 1, room, file);
    fclose(file);
    return count;
}

static size_t explain(const uint64_t *answer, uint8_t *into, size_t room) {
    return stagecheck_explain(listing, length, heights, 4096, blinds, 4096, answer, into, room);
}

/* The same call with room for `room` bytes of a text that has `whole`. */
static void shorter(const char *where, const uint64_t *answer, size_t whole, size_t room) {
    size_t written = room < whole ? room : whole;
    memset(part, 0xa5, written + 1);
    if (explain(answer, part, room) != whole) fail(where, "another length in shorter room");
    if (memcmp(part, text, written) != 0) fail(where, "another text in shorter room");
    if (part[written] != 0xa5) fail(where, "written past the end");
}

static void printable(const char *where, size_t whole) {
    for (size_t i = 0; i < whole; i++)
        if (text[i] != '\n' && (text[i] < 32 || text[i] > 126)) {
            fail(where, "a byte that is not for a terminal");
            return;
        }
}

/* What stagecheck_line and stagecheck_name say stands in the text of a refusal. */
static void line_and_name(const char *where, const uint64_t *answer, size_t whole) {
    uint8_t name[64];
    char begin[32];
    size_t line = stagecheck_line(listing, length, answer), at = 0;
    size_t name_length = stagecheck_name(answer[0], name, sizeof name);
    if (line != 0) {
        int n = snprintf(begin, sizeof begin, "line %zu: ", line);
        if (memcmp(text, begin, (size_t)n) != 0) fail(where, "the text does not begin with the line");
        while (at < whole && text[at] != '\n') at++;
        at++;
    }
    if (name_length >= sizeof name || memcmp(text + at, name, name_length) != 0 || text[at + name_length] != ':')
        fail(where, "the text does not go on with the name");
}

static size_t held_to(const char *where, const uint64_t *answer) {
    size_t whole = explain(answer, text, ROOM);
    if (whole > ROOM) {
        fail(where, "longer than this test has room for");
        return 0;
    }
    printable(where, whole);
    line_and_name(where, answer, whole);
    return whole;
}

static void stored_text(const char *name) {
    char other[4096];
    uint64_t answer[STAGECHECK_ANSWER_WORDS];
    size_t stem = strlen(name) - strlen("listing");
    length = read_file(name, listing, sizeof listing);
    stagecheck_check(listing, length, heights, 4096, blinds, 4096, answer);
    size_t whole = held_to(name, answer), step = whole < 5000 ? 1 : whole / 50;
    for (size_t room = 0; room <= whole + 1; room += step) shorter(name, answer, whole, room);
    snprintf(other, sizeof other, "%.*sexplained", (int)stem, name);
    size_t count = read_file(other, stored, sizeof stored);
    if (count != whole || memcmp(stored, text, whole) != 0) fail(other, "the text differs");
}

/* Words that no check gives for `listing`: refusals 4 and 20, numbers, limits and reasons that are not known, and the largest words. */
static size_t made_up(uint8_t *into) {
    static const uint64_t answers[][STAGECHECK_ANSWER_WORDS] = {
        {4, 0, 3, 2}, {4, 0, 1, 0}, {20, 0, 24}, {20, 0, 1}, {77, 1, 2, 3}, {LAST_REFUSAL + 1},
        {2, 0, 0, 0}, {2, 0, 0, 7}, {2, 0, 0, 2}, {2, 0, 0, 3},
        {18, 0, 0, 1, 0}, {18, 0, 0, 1, 5}, {19, 0, 1, 2, 0}, {19, 0, 1, 2, 3}, {6, 0, 3, 9, 17, 16}, {6, 1, 0, 9, 17, 1},
    };
    size_t at = 0;
    for (size_t i = 0; i < sizeof answers / sizeof answers[0]; i++) {
        size_t whole = held_to("made up", answers[i]);
        memcpy(into + at, text, whole);
        at += whole;
    }
    for (uint64_t number = 1; number <= LAST_REFUSAL + 1; number++) {
        uint64_t largest[STAGECHECK_ANSWER_WORDS];
        for (int i = 0; i < STAGECHECK_ANSWER_WORDS; i++) largest[i] = UINT64_MAX;
        largest[0] = number <= LAST_REFUSAL ? number : UINT64_MAX;
        size_t whole = held_to("largest words", largest);
        memcpy(into + at, text, whole);
        at += whole;
    }
    return at;
}

static void accepted_listing(void) {
    static const char form[] = "(module 8 8 6 0 0 8 9\n(sig (top) (top) (flat 0 16))\n(chunk 1\n(op GetLocal 0)\n(op Return)\n)\n)\n";
    length = sizeof form - 1;
    memcpy(listing, form, length);
}

static uint64_t state = 88172645463325252u;

static uint64_t any(uint64_t below) {
    state ^= state << 13;
    state ^= state >> 7;
    state ^= state << 17;
    return state % below;
}

/* Random bytes, whole forms among them, with random words and sheets. */
static void random_call(void) {
    static const char *const forms[] = {"(slot shared)\n", "(slot private)\n", "(shared 0 3 0)\n", "(private 0 0)\n", "(sig (top) (top))\n",
                                        "(chunk 33\n", "(chunk 2\n", "(op Dup)\n", "(op Return)\n", ")\n", "(const 3)\n", "\n"};
    uint64_t answer[STAGECHECK_ANSWER_WORDS];
    length = 0;
    for (uint64_t pieces = any(40); pieces > 0; pieces--) {
        const char *form = forms[any(sizeof forms / sizeof forms[0])];
        size_t n = strlen(form);
        memcpy(listing + length, form, n);
        for (uint64_t damaged = any(8); damaged > 6; damaged--) listing[length + any(n)] = (uint8_t)any(256);
        length += n;
    }
    for (int i = 0; i < STAGECHECK_ANSWER_WORDS; i++) answer[i] = any(4) == 0 ? state : any(i == 0 ? LAST_REFUSAL + 2 : 6);
    for (int i = 0; i < 40; i++) heights[i] = (uint8_t)any(256), blinds[i] = (uint8_t)any(2);
    size_t whole = answer[0] == 0 ? explain(answer, text, ROOM) : held_to("random", answer);
    printable("random", whole);
    for (int i = 0; i < 3; i++) shorter("random", answer, whole, any(whole + 2));
    shorter("random", answer, whole, 0);
}

int main(int count, char **names) {
    if (count == 2 && strcmp(names[1], "--made-up") == 0) {
        accepted_listing();
        return fwrite(stored, 1, made_up(stored), stdout) == 0;
    }
    for (int i = 1; i < count; i++) stored_text(names[i]);
    accepted_listing();
    const char *slash = count > 1 ? strrchr(names[1], '/') : NULL;
    char name[4096];
    snprintf(name, sizeof name, "%.*smade_up.explained", slash == NULL ? 0 : (int)(slash + 1 - names[1]), count > 1 ? names[1] : "");
    size_t whole = made_up(part), kept = read_file(name, stored, sizeof stored);
    if (whole != kept || memcmp(part, stored, whole) != 0) fail(name, "the text differs");
    for (int i = 0; i < 20000; i++) random_call();
    printf("explain_test: %d listings, %zu failures\n", count - 1, failures);
    return failures != 0;
}
