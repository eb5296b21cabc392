/* check FILE: checks a listing and says the verdict in words.
 * Exit status: 0 accepted, 1 refused, 2 the file cannot be read.
 */
#include "stagecheck.h"

#include <stdio.h>

/* One byte more than a listing may have, so that a longer file is refused as such (limit 1). */
static uint8_t listing[STAGECHECK_MOST_BYTES + 1];
static uint8_t heights[STAGECHECK_MOST_INSTRUCTIONS];
static uint8_t blinds[STAGECHECK_MOST_INSTRUCTIONS];

/* The words for each refusal, and the names of its fields in order. */
struct refusal {
    const char *words;
    const char *fields[4];
};

static const struct refusal refusals[] = {
    [STAGECHECK_CANNOT_FOLLOW] = {"a line cannot follow", {"lines before it"}},
    [STAGECHECK_LIMIT_PASSED] = {"a limit is passed", {"ip", "limit"}},
    [STAGECHECK_NOT_NESTED] = {"a rule of nesting is broken", {"ip"}},
    [STAGECHECK_SHEET_TOO_SHORT] = {"a sheet is too short", {"instructions", "length"}},
    [STAGECHECK_STACK_UNDERFLOW] = {"operands are missing", {"ip"}},
    [STAGECHECK_OFFSET_OUT_OF_BOUNDS] = {"a read goes past its composite", {"ip", "offset", "need", "size"}},
    [STAGECHECK_EXPECTED_COMPOSITE] = {"a scalar is read as a composite", {"ip"}},
    [STAGECHECK_NEW_COMPOSITE_SIZE_MISMATCH] = {"a new composite has another size", {"ip", "baked", "computed"}},
    [STAGECHECK_TEXT_FIELD_MISMATCH] = {"a text is read where none is", {"ip", "offset"}},
    [STAGECHECK_BRANCH_HEIGHT_MISMATCH] = {"branches leave different heights", {"ip", "then_height", "else_height"}},
    [STAGECHECK_LOOP_NOT_NEUTRAL] = {"a loop changes the height", {"ip", "entry_height", "exit_height"}},
    [STAGECHECK_LOOP_FLOOR_BREACH] = {"a loop takes from below it", {"ip", "floor", "available", "required"}},
    [STAGECHECK_LOCAL_TYPE_MISMATCH] = {"a parameter gets another shape", {"ip", "slot"}},
    [STAGECHECK_CALL_ARG_MISMATCH] = {"an argument has another shape", {"ip", "callee", "arg"}},
    [STAGECHECK_ARRAY_STRIDE_MISMATCH] = {"elements do not fit an array", {"ip", "element_size", "array_size"}},
    [STAGECHECK_SHARED_SLOT_OUT_OF_BOUNDS] = {"a shared slot is outside", {"slot", "offset", "size", "buffer"}},
    [STAGECHECK_ENUM_BODY_SIZE_MISMATCH] = {"an enum has another size", {"ip", "baked"}},
    [STAGECHECK_PRIVATE_COMPOSITE_LAYOUT_INVALID] = {"a private slot is wrong", {"index", "slot", "reason"}},
    [STAGECHECK_SHARED_LAYOUT_COUNT_MISMATCH] = {"shared slots are wrong", {"shared_slots", "layout_len", "reason"}},
};

/* Reads a file into `listing`, as much as has room. Gives whether that went well. */
static int read_listing(const char *name, size_t *length)
{
    FILE *file = fopen(name, "rb");
    if (file == NULL) {
        return 0;
    }
    *length = fread(listing, 1, sizeof listing, file);
    int read_well = !ferror(file);
    fclose(file);
    return read_well;
}

static void print_accepted(const uint64_t *answer)
{
    unsigned most = 0;
    unsigned blind = 0;
    for (uint64_t i = 0; i < answer[2]; i++) {
        if (heights[i] > most) {
            most = heights[i];
        }
        blind += blinds[i];
    }
    /* An entry is one more than the height, and 0 where there is none. */
    printf("accepted: chunks %llu, instructions %llu, greatest height %u, blind reads %u\n",
           (unsigned long long)answer[1], (unsigned long long)answer[2], most > 0 ? most - 1 : 0, blind);
}

static void print_refused(const uint64_t *answer, size_t words)
{
    const struct refusal *refusal = &refusals[answer[0]];
    printf("refused: %s, chunk %llu", refusal->words, (unsigned long long)answer[1]);
    for (size_t i = 2; i < words; i++) {
        printf(", %s %llu", refusal->fields[i - 2], (unsigned long long)answer[i]);
    }
    printf("\n");
}

int main(int argc, char **argv)
{
    size_t length;
    if (argc != 2) {
        fprintf(stderr, "usage: check FILE\n");
        return 2;
    }
    if (!read_listing(argv[1], &length)) {
        fprintf(stderr, "check: %s cannot be read\n", argv[1]);
        return 2;
    }
    uint64_t answer[STAGECHECK_ANSWER_WORDS];
    size_t words = stagecheck_check(listing, length, heights, sizeof heights, blinds, sizeof blinds, answer);
    if (answer[0] == STAGECHECK_ACCEPTED) {
        print_accepted(answer);
        return 0;
    }
    print_refused(answer, words);
    return 1;
}
