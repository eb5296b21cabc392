/* stagecheck [--explain | --json | --quiet] [FILE ..]: checks listings and tells by its exit status what came of it.
 * stagecheck --rewrite [FILE]: reads a listing and writes it back. desk/stagecheck.1 says what is printed. Every
 * answer, text, name, line and listing comes from the static library; what is here are arguments, files, the form of
 * JSON, and the exit status.
 */
#define _POSIX_C_SOURCE 200809L /* SIGPIPE */

#include "stagecheck.h"

#include <errno.h>
#include <inttypes.h>
#include <signal.h>
#include <stdbool.h>
#include <stdio.h>
#include <stdlib.h>
#include <string.h>

#define USAGE "usage: stagecheck [--explain | --json | --quiet] [FILE ..], or stagecheck --rewrite [FILE]"

/* The exit status; with several files the greatest of theirs. */
enum status { ACCEPTED = 0, REFUSED = 1, FAILED = 2 };

enum mode { PLAIN, EXPLAIN, JSON, QUIET, REWRITE, HELP, VERSION, MODES };

static const char *const options[MODES] = {
    [EXPLAIN] = "--explain", [JSON] = "--json", [QUIET] = "--quiet",
    [REWRITE] = "--rewrite", [HELP] = "--help", [VERSION] = "--version",
};

static const char help[] =
    USAGE "\n"
    "Checks listings of Keleusma bytecode, from each FILE or from standard input (- or no FILE).\n"
    "\n"
    "  (no option)  print the verdict and, where accepted, a line for each instruction\n"
    "  --explain    say it in words, with the line at fault\n"
    "  --json       print a JSON object for each file, one on a line\n"
    "  --quiet      print nothing\n"
    "  --rewrite    check nothing: read one listing and write it back, byte for byte\n"
    "  --help       print this\n"
    "  --version    print the version\n"
    "  --           what follows are files\n"
    "\n"
    "Exit status: 0 all accepted, or written back; 1 some refused; 2 something could not be read, written or\n"
    "understood.\n";

/* What the fields of a refusal are called, in the order of its values: include/stagecheck.h. */
static const char *const fields[][4] = {
    [STAGECHECK_CANNOT_FOLLOW] = {"lines"},
    [STAGECHECK_LIMIT_PASSED] = {"ip", "limit"},
    [STAGECHECK_NOT_NESTED] = {"ip"},
    [STAGECHECK_SHEET_TOO_SHORT] = {"instructions", "length"},
    [STAGECHECK_STACK_UNDERFLOW] = {"ip"},
    [STAGECHECK_OFFSET_OUT_OF_BOUNDS] = {"ip", "offset", "need", "size"},
    [STAGECHECK_EXPECTED_COMPOSITE] = {"ip"},
    [STAGECHECK_NEW_COMPOSITE_SIZE_MISMATCH] = {"ip", "baked", "computed"},
    [STAGECHECK_TEXT_FIELD_MISMATCH] = {"ip", "offset"},
    [STAGECHECK_BRANCH_HEIGHT_MISMATCH] = {"ip", "then_height", "else_height"},
    [STAGECHECK_LOOP_NOT_NEUTRAL] = {"ip", "entry_height", "exit_height"},
    [STAGECHECK_LOOP_FLOOR_BREACH] = {"ip", "floor", "available", "required"},
    [STAGECHECK_LOCAL_TYPE_MISMATCH] = {"ip", "slot"},
    [STAGECHECK_CALL_ARG_MISMATCH] = {"ip", "callee", "arg"},
    [STAGECHECK_ARRAY_STRIDE_MISMATCH] = {"ip", "element_size", "array_size"},
    [STAGECHECK_SHARED_SLOT_OUT_OF_BOUNDS] = {"slot", "offset", "size", "buffer"},
    [STAGECHECK_ENUM_BODY_SIZE_MISMATCH] = {"ip", "baked"},
    [STAGECHECK_PRIVATE_COMPOSITE_LAYOUT_INVALID] = {"index", "slot", "reason"},
    [STAGECHECK_SHARED_LAYOUT_COUNT_MISMATCH] = {"shared_slots", "layout_len", "reason"},
    [STAGECHECK_BUFFER_TOO_SHORT] = {"needed"},
};

/* The listing at hand. One byte more than it may have is enough: whatever follows, the answer is the same. */
static uint8_t listing[STAGECHECK_MOST_BYTES + 1];
static size_t listing_length;

/* What the library is lent, and what it gives. */
static uint64_t tables[STAGECHECK_TABLE_WORDS];
static uint8_t heights[STAGECHECK_MOST_INSTRUCTIONS];
static uint8_t blinds[STAGECHECK_MOST_INSTRUCTIONS];
static uint64_t answer[STAGECHECK_ANSWER_WORDS];

/* Why standard output could not be written, 0 as long as it could. */
static int write_error;

/* A name is shown without control characters, so that it can neither end a line nor steer a terminal. */
static char visible(char byte)
{
    return (unsigned char)byte < ' ' || byte == 127 ? '?' : byte;
}

/* The one line on standard error that goes with status 2. */
static void complain(const char *name, const char *reason)
{
    fputs("stagecheck: ", stderr);
    for (; *name != '\0'; name++) {
        fputc(visible(*name), stderr);
    }
    fprintf(stderr, ": %s\n", reason);
}

/* The first error is the one that is told. */
static void note(bool is_written)
{
    if (!is_written && write_error == 0) {
        write_error = errno != 0 ? errno : EIO;
    }
}

static void put(const void *bytes, size_t length)
{
    note(fwrite(bytes, 1, length, stdout) == length);
}

static void put_words(const char *words)
{
    put(words, strlen(words));
}

static void put_number(uint64_t number)
{
    char digits[24];
    int length = snprintf(digits, sizeof digits, "%" PRIu64, number);
    put(digits, (size_t)length);
}

/* A text as it is, or, where `name` is not null, with the name before each of its lines. */
static void put_lines(const char *name, const uint8_t *text, size_t length)
{
    while (name != NULL && length > 0) {
        const uint8_t *end = memchr(text, '\n', length);
        size_t line = end != NULL ? (size_t)(end - text) + 1 : length;
        for (const char *byte = name; *byte != '\0'; byte++) {
            char shown = visible(*byte);
            put(&shown, 1);
        }
        put_words(": ");
        put(text, line);
        text += line;
        length -= line;
    }
    put(text, length);
}

/* How many words the answer has. */
static size_t check(void)
{
    return stagecheck_check_in(listing, listing_length, tables, heights, sizeof heights, blinds, sizeof blinds, answer);
}

static enum status verdict(void)
{
    return answer[0] == STAGECHECK_ACCEPTED ? ACCEPTED : REFUSED;
}

static enum status print_plain(const char *heading)
{
    static const char accepted[] = "accepted ";
    static uint8_t text[STAGECHECK_TEXT_BYTES];
    size_t length = stagecheck_text(listing, listing_length, text);
    put_lines(heading, text, length);
    return memcmp(text, accepted, strlen(accepted)) == 0 ? ACCEPTED : REFUSED;
}

static size_t explain(uint8_t *text, size_t length)
{
    return stagecheck_explain(listing, listing_length, heights, sizeof heights, blinds, sizeof blinds, answer, text,
                              length);
}

/* The whole explanation of the answer, to be freed, or null where there is no memory for it. */
static uint8_t *explanation(const char *name, size_t *length)
{
    *length = explain(NULL, 0);
    uint8_t *text = malloc(*length + 1);
    if (text == NULL) {
        complain(name, strerror(ENOMEM));
        return NULL;
    }
    explain(text, *length);
    return text;
}

static enum status print_explained(const char *name, const char *heading)
{
    size_t length;
    check();
    uint8_t *text = explanation(name, &length);
    if (text == NULL) {
        return FAILED;
    }
    put_lines(heading, text, length);
    free(text);
    return verdict();
}

/* Standard output is for the listing alone: why there is none is said on standard error. */
static enum status rewrite(const char *name)
{
    static uint8_t written[STAGECHECK_MOST_BYTES];
    size_t length;
    stagecheck_read(listing, listing_length, tables, answer);
    if (verdict() == ACCEPTED) {
        stagecheck_write(tables, written, sizeof written, answer);
    }
    if (verdict() == ACCEPTED) {
        put(written, answer[1]);
        return ACCEPTED;
    }
    uint8_t *text = explanation(name, &length);
    if (text == NULL) {
        return FAILED;
    }
    fwrite(text, 1, length, stderr);
    free(text);
    return REFUSED;
}

/* How many bytes the UTF-8 character has that begins here, of two bytes or more; 0 where none does. */
static size_t character_length(const uint8_t *at)
{
    size_t length = at[0] < 0xE0 ? 2 : at[0] < 0xF0 ? 3 : 4;
    if (at[0] < 0xC2 || at[0] > 0xF4) {
        return 0;
    }
    for (size_t i = 1; i < length; i++) {
        if ((at[i] & 0xC0) != 0x80) {
            return 0;
        }
    }
    /* Longer than it need be, a surrogate, or past the last character. */
    bool is_other = (at[0] == 0xE0 && at[1] < 0xA0) || (at[0] == 0xED && at[1] > 0x9F) ||
                    (at[0] == 0xF0 && at[1] < 0x90) || (at[0] == 0xF4 && at[1] > 0x8F);
    return is_other ? 0 : length;
}

/* A byte that is of no UTF-8 character becomes U+FFFD: JSON has no bytes, and every parser takes that. */
static void put_json_string(const char *string)
{
    const uint8_t *at = (const uint8_t *)string;
    put_words("\"");
    while (*at != '\0') {
        size_t length = *at < 0x80 ? 1 : character_length(at);
        if (length == 0) {
            put_words("\\ufffd");
            length = 1;
        } else if (*at < ' ') {
            char escape[8];
            snprintf(escape, sizeof escape, "\\u%04x", *at);
            put_words(escape);
        } else {
            if (*at == '"' || *at == '\\') {
                put_words("\\");
            }
            put(at, length);
        }
        at += length;
    }
    put_words("\"");
}

static void put_json_number(const char *key, bool is_known, uint64_t number)
{
    put_words(key);
    if (is_known) {
        put_number(number);
    } else {
        put_words("null");
    }
}

static void put_json_accepted(void)
{
    put_json_number(",\"accepted\":true,\"chunks\":", true, answer[1]);
    put_json_number(",\"instructions\":", true, answer[2]);
    put_words(",\"heights\":[");
    /* An entry is one more than the height, and 0 where the walk did not come. */
    for (size_t i = 0; i < answer[2]; i++) {
        put_json_number(i > 0 ? "," : "", heights[i] > 0, heights[i] - UINT64_C(1));
    }
    put_words("],\"marks\":[");
    for (size_t i = 0; i < answer[2]; i++) {
        put_words(i > 0 ? "," : "");
        put_words(blinds[i] != 0 ? "true" : "false");
    }
    put_words("]");
}

/* The name of the refusal's value in a word of the answer. */
static const char *field_name(size_t word)
{
    bool has_row = answer[0] < sizeof fields / sizeof fields[0];
    const char *name = has_row ? fields[answer[0]][word - 2] : NULL;
    return name != NULL ? name : "";
}

/* Whether an instruction is at fault, and with it a chunk: the refusal has an ip, and is none of limits 1 to 3. */
static bool is_at_instruction(void)
{
    bool is_of_reading = answer[0] == STAGECHECK_LIMIT_PASSED && answer[3] <= 3;
    return strcmp(field_name(2), "ip") == 0 && !is_of_reading;
}

static void put_json_refused(size_t words)
{
    uint8_t name[64];
    size_t name_length = stagecheck_name(answer[0], name, sizeof name);
    uint64_t line = stagecheck_line(listing, listing_length, answer);
    put_json_number(",\"accepted\":false,\"number\":", true, answer[0]);
    put_words(",\"name\":\"");
    put(name, name_length < sizeof name ? name_length : sizeof name);
    put_json_number("\",\"chunk\":", is_at_instruction(), answer[1]);
    put_json_number(",\"ip\":", is_at_instruction(), answer[2]);
    put_json_number(",\"line\":", line > 0, line);
    put_words(",\"values\":[");
    for (size_t i = 2; i < words; i++) {
        put_json_number(i > 2 ? "," : "", true, answer[i]);
    }
    put_words("],\"named\":{");
    for (size_t i = 2; i < words; i++) {
        put_words(i > 2 ? "," : "");
        put_json_string(field_name(i));
        put_json_number(":", true, answer[i]);
    }
    put_words("}");
}

static enum status print_json(const char *name)
{
    size_t words = check();
    put_words("{\"file\":");
    put_json_string(name);
    if (verdict() == ACCEPTED) {
        put_json_accepted();
    } else {
        put_json_refused(words);
    }
    put_words("}\n");
    return verdict();
}

/* Reads a file into `listing`, as much as has room, or says why not. */
static bool read_listing(const char *name)
{
    bool is_input = strcmp(name, "-") == 0;
    FILE *file = is_input ? stdin : fopen(name, "rb");
    if (file == NULL) {
        complain(name, strerror(errno));
        return false;
    }
    listing_length = fread(listing, 1, sizeof listing, file);
    int reason = errno;
    bool is_read = !ferror(file);
    if (!is_input) {
        fclose(file);
    }
    if (!is_read) {
        complain(is_input ? "standard input" : name, strerror(reason));
    }
    return is_read;
}

static enum status check_file(enum mode mode, const char *name, bool is_one_of_several)
{
    const char *heading = is_one_of_several ? name : NULL;
    if (!read_listing(name)) {
        return FAILED;
    }
    switch (mode) {
    case EXPLAIN:
        return print_explained(name, heading);
    case JSON:
        return print_json(name);
    case QUIET:
        check();
        return verdict();
    case REWRITE:
        return rewrite(name);
    default:
        return print_plain(heading);
    }
}

/* The greatest status of all files. What comes after output that cannot be written is not checked. */
static enum status check_files(enum mode mode, int count, char **names)
{
    enum status status = ACCEPTED;
    for (int i = 0; i < count && write_error == 0; i++) {
        enum status one = check_file(mode, names[i], count > 1);
        status = one > status ? one : status;
        note(fflush(stdout) == 0);
    }
    return status;
}

static bool take_option(const char *option, enum mode *mode)
{
    for (enum mode i = EXPLAIN; i < MODES; i++) {
        if (strcmp(option, options[i]) != 0) {
            continue;
        }
        if (*mode != PLAIN && *mode != i) {
            complain(option, "cannot stand beside another option; " USAGE);
            return false;
        }
        *mode = i;
        return true;
    }
    complain(option, "unknown option; " USAGE);
    return false;
}

/* Gathers the files' names at the start of `arguments` and gives how many there are, or -1 where an option is wrong. */
static int take_arguments(int count, char **arguments, enum mode *mode)
{
    int files = 0;
    bool are_options_over = false;
    for (int i = 1; i < count; i++) {
        char *argument = arguments[i];
        if (are_options_over || argument[0] != '-' || argument[1] == '\0') {
            arguments[files++] = argument;
        } else if (strcmp(argument, "--") == 0) {
            are_options_over = true;
        } else if (!take_option(argument, mode)) {
            return -1;
        }
    }
    return files;
}

int main(int argc, char **argv)
{
    static char *standard_input[] = {"-"};
    enum mode mode = PLAIN;
    enum status status = ACCEPTED;
    /* A reader that has gone is a write error like any other, so that the status is always one of three. */
    signal(SIGPIPE, SIG_IGN);
    int files = take_arguments(argc, argv, &mode);
    if (files < 0) {
        return FAILED;
    }
    if (mode == HELP) {
        put_words(help);
    } else if (mode == VERSION) {
        put_words("stagecheck " STAGECHECK_VERSION "\n");
    } else if (mode == REWRITE && files > 1) {
        /* Listings one after the other are no listing, so nobody could read what came out. */
        complain(options[mode], "takes one file; " USAGE);
        return FAILED;
    } else {
        status = files > 0 ? check_files(mode, files, argv) : check_files(mode, 1, standard_input);
    }
    /* Some file systems say only now that they have no room; where nothing is printed, none is asked. */
    if (mode != QUIET) {
        note(fclose(stdout) == 0);
    }
    if (write_error != 0) {
        complain("standard output", strerror(write_error));
        return FAILED;
    }
    return (int)status;
}
