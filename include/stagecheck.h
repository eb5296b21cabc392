/* The typed check of Keleusma modules, for programs in C and C++.
 *
 * Link: `cc prog.c -lstagecheck` after `./install PREFIX` (with -I PREFIX/include -L PREFIX/lib, or with what
 * `pkg-config --cflags --libs stagecheck` gives), or `cc -I include prog.c target/staticlib/libstagecheck_c.a` in the
 * repository. The library needs memcpy and memset and nothing else. It is built and tested for x86-64 Linux alone.
 *
 * Two functions check a listing; they differ in where the tables are. One reads a listing into tables, and one writes
 * what tables hold back as a listing. Four turn a listing or an answer into words. All of them allocate nothing, read
 * and write nothing but what is lent, keep nothing between calls, and end for every input. Calls from several threads
 * are free of each other where what they lend is. What the answer, the sheets, the text and the listing that is written
 * are is proved (docs/PROMISES.md); what follows here in words is that of documents 01 and 02.
 *
 * Floats: a listing whose first line says F 0 is one for a controller without floats. Kind 5, the float, is then a kind
 * that is not known: an op that names it is refused with 1, a shared entry of it with 16, and a shape or a constant of
 * it is unknown, so that reads of it are blind (docs/LISTING.md, section 2). Before version 2.0.0 such a first line was
 * refused with 1.
 *
 * Time: no limit of time is built in. Loops in loops multiply the passes of the walk, and a listing that keeps all
 * limits can keep a check busy practically for ever (docs/BENCH.md). A controller needs a limit of its own: a watchdog,
 * or a process that it can end. A later version brings one. stagecheck_read and stagecheck_write walk nothing.
 *
 * Stack: allow 1 MiB. Measured, the whole program's: eight nested loops 372 KiB, with lent tables 200; eight nested Ifs
 * 260 KiB, with lent tables 84 (docs/BENCH.md). stagecheck_text has its tables on the stack too, and two sheets, 8 KiB
 * more. Some C libraries give a thread less: musl 128 KiB, too little for any call with tables of its own, and with lent
 * ones for nested loops. Make such a thread with a larger stack. A stack that is too small ends the program at the
 * guard page: each frame touches its pages in turn, so that none passes over it.
 *
 * Pointers: the caller sees to it that
 *   - each pointer is good for its length; it may be null where the length is 0;
 *   - `answer`, `tables` and the `text` of stagecheck_text have a fixed length and are never null; `answer` and
 *     `tables` are aligned as uint64_t is;
 *   - what is written (sheets, answer, tables, text, out) overlaps nothing else that is lent, and nobody else writes to
 *     what is lent, or reads what is written, before the call returns.
 */
#ifndef STAGECHECK_H
#define STAGECHECK_H

#include <stddef.h>
#include <stdint.h>

#ifdef __cplusplus
extern "C" {
#endif

/* The version of this header and of the library, as in the file VERSION. */
#define STAGECHECK_VERSION "2.1.0"
/* The words of an answer. */
#define STAGECHECK_ANSWER_WORDS 8
/* The words of the tables, 174 KiB. */
#define STAGECHECK_TABLE_WORDS 22232
/* The most bytes of a listing; a longer one is refused with 2, limit 1, and a buffer of so many is never too short. */
#define STAGECHECK_MOST_BYTES 65536
/* The most instructions of a listing: sheets of so many entries are never too short. */
#define STAGECHECK_MOST_INSTRUCTIONS 4096
/* The bytes that the longest text of stagecheck_text has room in. */
#define STAGECHECK_TEXT_BYTES 73746

/* Word 0 of an answer. 5 to 19 bear the names of the Rust's errors. No check gives 20.
 *
 * Word 1 of a refusal is the chunk, counted from 0; it is 0 where no chunk is at fault: for 1, for 2 with limits 1
 * to 3, and for 4, 16, 18, 19 and 20. The further words, in this order:
 *
 *   number, name                       word 2         word 3         word 4         word 5
 *    1 CannotFollow                    lines
 *    2 LimitPassed                     ip             limit
 *    3 NotNested                       ip
 *    4 SheetTooShort                   instructions   length
 *    5 StackUnderflow                  ip
 *    6 OffsetOutOfBounds               ip             offset         need           size
 *    7 ExpectedComposite               ip
 *    8 NewCompositeSizeMismatch        ip             baked          computed
 *    9 TextFieldMismatch               ip             offset
 *   10 BranchHeightMismatch            ip             then_height    else_height
 *   11 LoopNotNeutral                  ip             entry_height   exit_height
 *   12 LoopFloorBreach                 ip             floor          available      required
 *   13 LocalTypeMismatch               ip             slot
 *   14 CallArgMismatch                 ip             callee         arg
 *   15 ArrayStrideMismatch             ip             element_size   array_size
 *   16 SharedSlotOutOfBounds           slot           offset         size           buffer
 *   17 EnumBodySizeMismatch            ip             baked
 *   18 PrivateCompositeLayoutInvalid   index          slot           reason
 *   19 SharedLayoutCountMismatch       shared_slots   layout_len     reason
 *   20 BufferTooShort                  needed
 */
enum stagecheck_number {
    /* Accepted, or read. Word 1: how many chunks. Word 2: how many instructions, of all chunks. Or written. Word 1: how
     * many bytes. */
    STAGECHECK_ACCEPTED = 0,
    /* A line cannot follow, or the end is missing. lines: how many lines stand before it. An op that names kind 5 where
     * F is 0 cannot follow. Of a write: no listing gives what the tables hold; lines is 0. */
    STAGECHECK_CANNOT_FOLLOW = 1,
    /* A limit is passed. ip: the instruction in its chunk, 0 for limits 1 to 3. limit:
     *   1  the listing has more than 65,536 bytes
     *   2  a table is overfull: 256 each of slots, shared and private entries; 64 each of enums, natives, signatures
     *      and chunks; 16 parameters of a signature; 1,024 constants and 4,096 instructions in all
     *   3  a chunk has more than 32 locals
     *   4  more than 8 blocks are open at once
     *   5  there are more than 64 operands after the instruction
     *   6  a new composite has more than 16 known text places
     */
    STAGECHECK_LIMIT_PASSED = 2,
    /* The first instruction that breaks a rule of nesting. */
    STAGECHECK_NOT_NESTED = 3,
    /* A sheet has fewer entries than the listing has instructions. length: that of the shorter sheet. */
    STAGECHECK_SHEET_TOO_SHORT = 4,
    /* The instruction needs more operands than there are. */
    STAGECHECK_STACK_UNDERFLOW = 5,
    /* A flat read from offset on ends at byte `need` of a composite of `size` bytes. */
    STAGECHECK_OFFSET_OUT_OF_BOUNDS = 6,
    /* A flat read, or a flat index, of a scalar. */
    STAGECHECK_EXPECTED_COMPOSITE = 7,
    /* A new composite says `baked` bytes; its operands have `computed`. */
    STAGECHECK_NEW_COMPOSITE_SIZE_MISMATCH = 8,
    /* A text is read at an offset where the composite has none. */
    STAGECHECK_TEXT_FIELD_MISMATCH = 9,
    /* Arms of an If, or breaks of a loop, leave different heights. ip: the If or the Loop. */
    STAGECHECK_BRANCH_HEIGHT_MISMATCH = 10,
    /* A loop's body does not end at the height at which it began. ip: the Loop. */
    STAGECHECK_LOOP_NOT_NEUTRAL = 11,
    /* In a loop that was entered at height `floor`, over 0, an instruction that needs `required` operands finds
     * `available` in all, those below the floor included: fewer than floor + required. */
    STAGECHECK_LOOP_FLOOR_BREACH = 12,
    /* A value that does not fit is stored to a parameter: a scalar where a composite is declared, or the other way, or
     * a composite of another kind or size. slot: the SetLocal's operand, which may lie past the locals. */
    STAGECHECK_LOCAL_TYPE_MISMATCH = 13,
    /* A call passes a value that does not fit its parameter, as in 13. callee: the signature; arg: the argument, from 0. */
    STAGECHECK_CALL_ARG_MISMATCH = 14,
    /* Elements of `element_size` bytes do not divide an array of `array_size`. */
    STAGECHECK_ARRAY_STRIDE_MISMATCH = 15,
    /* A shared entry ends past the shared bytes, or its KIND is no scalar and no composite: 8 to 127, and 5 where F is
     * 0; then size is 0. slot: the entry; buffer: the shared bytes. */
    STAGECHECK_SHARED_SLOT_OUT_OF_BOUNDS = 16,
    /* A new enum says `baked` bytes, which no enum line allows. */
    STAGECHECK_ENUM_BODY_SIZE_MISMATCH = 17,
    /* A private entry is wrong. index: the entry; slot: the slot that it names. reason:
     *   1  there is no such slot
     *   2  the offset is outside the pool
     *   3  the slot is not above that of the entry before
     *   4  the offset is not above that of the entry before
     */
    STAGECHECK_PRIVATE_COMPOSITE_LAYOUT_INVALID = 18,
    /* shared_slots: how many slots are shared; layout_len: how many shared entries there are. reason:
     *   1  the shared slots do not come first
     *   2  the two numbers differ
     */
    STAGECHECK_SHARED_LAYOUT_COUNT_MISMATCH = 19,
    /* The buffer that a write was lent has fewer than `needed` bytes, the length of the listing. */
    STAGECHECK_BUFFER_TOO_SHORT = 20
};

/* Checks a listing.
 *
 * listing, listing_length    the listing's bytes, any; only read.
 * heights, heights_length    the height sheet, an entry for each instruction, in listing order over all chunks.
 *                            Whatever it holds is overwritten. Accepted: 1 + the number of operands before the
 *                            instruction, or 0 where the walk does not examine it (Else, EndIf and EndLoop are never
 *                            examined); 0 past the last instruction. Refused: all 0.
 * blinds, blinds_length      the blind sheet, likewise. Accepted: 1 where a flat read or a flat index met an operand of
 *                            unknown shape, else 0. Refused: all 0.
 * answer                     room for STAGECHECK_ANSWER_WORDS words, all of them written. Words that the answer does
 *                            not have are 0.
 *
 * Returns how many words the answer has: 3 for an acceptance, 3 to 6 for a refusal.
 * Sheets may have any length, unequal ones too; one that is too short is refusal 4.
 */
size_t stagecheck_check(const uint8_t *listing, size_t listing_length,
                        uint8_t *heights, size_t heights_length,
                        uint8_t *blinds, size_t blinds_length,
                        uint64_t *answer);

/* The same with tables that the caller lends, in which the call keeps what it reads. stagecheck_check has them on its
 * stack and sets them to zero first; for a short listing that is most of its time.
 *
 * tables                     room for STAGECHECK_TABLE_WORDS words, aligned as uint64_t is. Whatever they hold is of
 *                            no account; what they hold after the call is not promised.
 */
size_t stagecheck_check_in(const uint8_t *listing, size_t listing_length,
                           uint64_t *tables,
                           uint8_t *heights, size_t heights_length,
                           uint8_t *blinds, size_t blinds_length,
                           uint64_t *answer);

/* Reads a listing into tables, and checks nothing else: neither nesting nor data layout, and nothing is walked. So what
 * a check refuses by 3 to 19, or by limits 4 to 6, is read.
 *
 * listing, length            the listing's bytes, any; only read.
 * tables                     room for STAGECHECK_TABLE_WORDS words. Whatever they hold is of no account. Where the
 *                            listing is read they hold its module afterwards; after a refusal they hold none, so that
 *                            stagecheck_write refuses them with 1. The words may be kept, copied and handed on, to
 *                            another process too. What each of them says may change with the version of the library:
 *                            keep words only as long as one version reads and writes them, and listings for longer.
 * answer                     as for a check: STAGECHECK_ACCEPTED, chunks and instructions; or 1, or 2 with one of the
 *                            limits 1 to 3, exactly as a check of the same listing refuses it.
 *
 * Returns how many words the answer has: 3, and 4 for refusal 2.
 */
size_t stagecheck_read(const uint8_t *listing, size_t length,
                       uint64_t *tables,
                       uint64_t *answer);

/* Writes the module that tables hold as its listing. What stagecheck_read has read is written as the same bytes, and
 * what is written is read as the same module.
 *
 * tables                     STAGECHECK_TABLE_WORDS words, any; only read.
 * out, out_length            the buffer, of any length. The listing is written at its front, without a zero byte at its
 *                            end; bytes past it keep their values. After a refusal all of them do.
 * answer                     room for STAGECHECK_ANSWER_WORDS words, all of them written; those that it does not have
 *                            are 0. STAGECHECK_ACCEPTED and the length of the listing; or 1, chunk 0 and 0 lines, where
 *                            no listing gives what the tables hold; or else 20, chunk 0 and the length that the listing
 *                            needs, where out_length is less. With out_length 0 it is only measured.
 *
 * Words that stagecheck_read did not leave are safe too. They are refused with 1 where one that counts says what no
 * listing may say, and no word is cut to what it may: a number past its range, a count past its table, an op that does
 * not exist, chunks whose rows overlap or leave gaps, equal trap codes, or a listing of more than 65,536 bytes.
 *
 * Returns how many words the answer has: 2 where it is written, 3 for a refusal.
 */
size_t stagecheck_write(const uint64_t *tables,
                        uint8_t *out, size_t out_length,
                        uint64_t *answer);

/* Checks a listing with sheets of 4,096 entries and writes what the program of document 01 prints for it: `accepted
 * CHUNKS INSTRUCTIONS` and a line for each instruction, or `refused` and the refusal's numbers in one line; each line
 * with its LF. So the first byte tells the verdict: `a` or `r`.
 *
 * text                       room for STAGECHECK_TEXT_BYTES bytes. Those past the text are of no account.
 *
 * Returns how many bytes the text has. That text and length equal the definition's is proved.
 */
size_t stagecheck_text(const uint8_t *listing, size_t listing_length,
                       uint8_t *text);

/* Says an answer in words. For a refusal: the line of the listing that is at fault, where there is one, the refusal's
 * name and a sentence with its values. For an acceptance: the lines of the listing, with height and mark beside each
 * instruction. It does not check: it is lent the listing, and the sheets and the answer that a check left for it, or a
 * refusal of stagecheck_read. With others, and so with an answer of stagecheck_write, it is as safe, and what it says is
 * of no account.
 *
 * text, text_length          room for the explanation, of any length. As much is written as has room; the explanation
 *                            does not end in a zero byte.
 *
 * Returns how many bytes the whole explanation has, whatever room there is: with room 0 it is only counted, as by
 * snprintf. That the call is safe and ends is proved; what it says is tested.
 */
size_t stagecheck_explain(const uint8_t *listing, size_t listing_length,
                          const uint8_t *heights, size_t heights_length,
                          const uint8_t *blinds, size_t blinds_length,
                          const uint64_t *answer,
                          uint8_t *text, size_t text_length);

/* The line of the listing, counted from 1, at which an answer's fault is; 0 where no line is at fault, and for an
 * acceptance. `answer` is that of a call above for the same listing. Safety is proved, the line is tested.
 */
size_t stagecheck_line(const uint8_t *listing, size_t listing_length,
                       const uint64_t *answer);

/* The name that goes with word 0 of an answer, without a zero byte at its end: `OffsetOutOfBounds` for 6, `accepted`
 * for 0, and `refusal N` for a number N that has none. As much is written as has room. Returns how many bytes the whole
 * name has. Safety is proved, the names are tested.
 */
size_t stagecheck_name(uint64_t number, uint8_t *text, size_t text_length);

#ifdef __cplusplus
}
#endif

#endif
