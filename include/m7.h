/* m7.h: an M7 engine, proved. It rewrites lines of text by a table of macros.

       uint8_t table[M7_TABLE_BYTES], state[M7_STATE_BYTES];
       uint8_t output[M7_OUTPUT_BYTES], trace[M7_TRACE_BYTES];
       const char *file = "'colour'<'color';", *line = "my colour";
       m7_answer a = m7_read((const uint8_t *)file, strlen(file),
                             table, sizeof table);
       if (a.number != 0)
           return complain(a.number, a.place);
       m7_fresh(state, sizeof state);
       a = m7_feed(table, sizeof table, state, sizeof state,
                   (const uint8_t *)line, strlen(line), 10000,
                   output, sizeof output, trace, sizeof trace);
       if (a.number != 0)
           return complain(a.number, 0);
       if (a.kind == M7_OUT)
           printf("%.*s\n", (int)a.length, (const char *)output);

   The caller lends all memory, as plain bytes. The engine keeps nothing
   between calls. docs/LANGUAGE.md explains the macro language and its words:
   macro, pattern, element, closure, tag, call, skip, pass, occurrence.

   RULES FOR EVERY CALL

   Each memory is a pointer to its first byte and its size in bytes. A pointer
   may be null if its size is 0; otherwise all of that size must be valid. The
   memories of one call must not overlap. If that does not hold, nothing is
   promised.

   A call never allocates, prints or waits. It needs at most 1 MiB of stack;
   that is measured and not proved (docs/DECISIONS.md).

   A refused call answers a number other than 0, and leaves every memory as it
   was. While a call runs it may write the memories that are not const. So
   calls may run at the same time on different threads, if no memory that one
   of them may write is lent to another. Memories that calls only read may be
   shared. m7_feed may write its table, state, output and trace: give each
   thread its own.

   A table, a state, a state of the old size, an output, a trace, a file to
   write to and a list of faults must have the sizes M7_TABLE_BYTES,
   M7_STATE_BYTES, M7_OLD_STATE_BYTES, M7_OUTPUT_BYTES, M7_TRACE_BYTES,
   M7_FILE_BYTES and M7_FAULTS_BYTES, or the call is refused with 3. A file to
   read, a line and a word-pattern may have any size.

   STORING TABLES AND STATES

   Tables and states are plain bytes with one form for each content. They may
   be copied, compared, stored in files and moved to another machine as they
   are; byte order and word size do not matter. Every call that uses one looks
   at all its bytes first, so damaged bytes are refused with 1 or 2 and never
   do harm. To check a table and a state that were loaded, without using them:
   feed a line of M7_MOST_LINE_BYTES + 1 bytes. The answer is 3, 1 or 2 if one
   of them is bad, and 21 if both are good; nothing is changed either way.
   The form of a table changed when calls could stand before a pattern: tables
   with macros that were kept from before are refused with 1, and are to be
   read again from their macro files. The form of a state changed when entries
   came to hold 100 bytes, that of a table did not: a state that was kept from
   before has the old size. m7_widen makes a state of it; every call that takes
   a state refuses it with 3.

   LINES FROM STRANGERS

   Every line and every table is safe to feed: whatever the bytes, the call
   returns, writes only the memories that were lent, and uses bounded stack.
   Time is bounded by the budget: a line costs at most that many passes. A line
   that begins with $ is a command: it may add a macro or set a flag. A caller
   who does not want that from strangers looks at the line's first byte before
   feeding it. A table can turn a line into a command too, so a table from a
   stranger is as powerful as a control line.

   WHAT TO TAKE AS A BUDGET

   10,000 is what the program of document 01 takes. A line that is done needs
   as many passes as there are macros, and that many again for each pass that
   changed the line. A macro such as 'a'='a'; never ends by itself: on a full
   line 100,000 passes of it took 4.6 seconds, so 10,000 take half a second and
   1,000,000 some three quarters of a minute. A larger budget, up to 1,000,000,
   never changes an answer other than 31.

   WHICH MACRO TOOK A LINE

   While the state's flag TRACE is 1, m7_feed writes a trace: three lines of
   text for each pass in which a macro occurred. The control line $TRACE 1 sets
   the flag; a caller may also set the byte M7_STATE_TRACE of a state to 1, feed
   a line, and set it back. Of a refused line there is no trace, and under
   TRACE 1 a line may be refused with 36 that is taken under TRACE 0. With
   TRACE 0 the trace's memory is lent all the same, and not touched. */

#ifndef M7_H
#define M7_H

#include <stddef.h>
#include <stdint.h>

#ifdef __cplusplus
extern "C" {
#endif

/* SIZES */

/* A table: 96 slots of 1,024 bytes, the oldest macro first, unused bytes 0.
   All bytes 0 is the table without macros. Every table has one form, so two
   tables are the same exactly if their bytes are. A table is valid on every
   machine, and may be stored and copied as it is.

   A slot: byte 0 is the macro's symbol (1 for <, 2 for =; 0 if the slot is
   unused), byte 1 the number of its tags, bytes 2 to 9 the lengths in bytes of
   the calls before its pattern, its pattern, its replacement and its commands,
   two bytes each, low byte first. After them stand these four, in items of two
   bytes, a code and an operand (crates/form_table/specs/Form.antt has the
   codes). So the number of macros in a table is the number of slots whose
   first byte is not 0. */
#define M7_TABLE_BYTES 98304
#define M7_SLOT_BYTES 1024

/* A state: the flags TRACE and NFLAG (a byte each, 0 or 1); the pointers of
   the stacks a to z (a byte each, 1 to 20); the values and then the increments
   of the counters a to z (four bytes each, low byte first, 1 to 999,999,999);
   the 20 entries of stack a, then those of b, and so on (100 bytes each: a text
   without byte 0, then zeros). The offsets of these fields: */
#define M7_STATE_BYTES 52236
#define M7_STATE_TRACE 0
#define M7_STATE_NFLAG 1
#define M7_STATE_POINTERS 2
#define M7_STATE_VALUES 28
#define M7_STATE_INCREMENTS 132
#define M7_STATE_ENTRIES 236

/* A state of the old size, from before entries held 100 bytes: the same fields
   at the same offsets, but its entries have 50 bytes each. */
#define M7_OLD_STATE_BYTES 26236
#define M7_OLD_ENTRY_BYTES 50

/* The output of a line that is fed. */
#define M7_OUTPUT_BYTES 1054

/* The trace of a line that is fed. A trace may fill it whole; then no zero
   follows. */
#define M7_TRACE_BYTES 65536

/* The memory that a table is written out to. A macro file to read may have
   any size; one of more bytes than this is refused with 10. */
#define M7_FILE_BYTES 32768

/* The faults of a macro file: their count, then the number and the place of
   each fault in file order, four bytes each, low byte first; zeros after the
   last. */
#define M7_FAULTS_BYTES 2052

/* OTHER BOUNDS */

#define M7_MOST_MACROS 96
#define M7_MOST_MACRO_BYTES 512
#define M7_MOST_TAGS 99
#define M7_MOST_FAULTS 256
#define M7_MOST_LINE_BYTES 1054
#define M7_MOST_BUDGET 1000000

/* Stacks a to z, and as many counters; entries of a stack, which its pointer
   counts from 1; bytes of an entry; the value of a counter or increment. */
#define M7_STACKS 26
#define M7_MOST_ENTRIES 20
#define M7_MOST_ENTRY_BYTES 100
#define M7_MOST_COUNT 999999999

/* ANSWERS

   number  0 if the call was taken, else the refusal (below)
   place   of a refusal 10 to 19 the byte where it shows, from 0, which is the
           file's size where it shows at the file's end; in writing out it
           counts in the file that would be written; m7_words: the place in
           the line, from 0, of the first word covered; else 0
   passes  m7_feed: the passes begun, also of a refused line; else 0
   kind    m7_feed: 1 the line goes out, 2 it is withheld, 3 it was a control
           line, 0 it is refused; else 0
   length  m7_read: the macros read; m7_recover: those kept; m7_write: the bytes
           written; m7_feed: the bytes of a line that goes out; m7_words: the
           words covered; else 0 */
typedef struct m7_answer {
    uint32_t number;
    uint32_t place;
    uint32_t passes;
    uint32_t kind;
    uint32_t length;
} m7_answer;

/* NUMBERS

   The host's mistakes, looked at first and in this order:
    3  A lent memory has another size than is stated above.
    1  The table's bytes are no table.
    2  The state's bytes, or those of the old state, are no state: a field is
       out of range, a byte 0 stands inside an entry's text, or an unused byte
       is not 0.
   42  m7_narrow: the state has an entry of more than 50 bytes.
    4  The budget is over 1,000,000.

   Those of whoever sends the line, looked at next, before any pass:
   21  The line has more than 1,054 bytes.
   22  The line holds byte 0 or a line feed.
   and later, if the line begins with $:
   23  It is no command: another word or value, or $MACRO without exactly one
       macro.

   The table writer's, with a place. In a $MACRO line places count from after
   that word. 10 and then 11 are looked for in the whole file first. Then the
   first byte where a fault shows decides, and there the lowest number.
   10  The file has more than 32,768 bytes; the place is the first byte too
       many. In writing out: the file would have more.
   11  The file holds byte 0.
   12  Something is not ended: a quoted text, a class, a call or a skip; or a
       macro lacks its symbol, its replacement or its semicolon, or, behind a
       call before its pattern, that pattern.
   13  A class is empty, or its range falls or mixes kinds.
   14  A closure has nothing before it to repeat.
   15  In a pattern, a right brace has no left one, a left brace is still open
       at the closing quote, or there is a 100th tag.
   16  A call or {n} is not in its form, stands where it may not, has a number
       out of range, or names a tag that the pattern does not have.
   17  A pattern has no element.
   18  A macro has more than 512 bytes, from its first quote, or from the & or
       # of the first call before its pattern, to its semicolon; the place is
       the 513th. In writing out: a macro as it would be written has more.
   19  There is a 97th macro, those of the table counted with those that
       $MACRO adds; the place is its first quote, or the & or # of the first
       call before its pattern.

   The table's at work, at the first such step:
   31  Another pass is due and the budget is used up.
   32  The new line would have more than 1,054 bytes.
   33  A tag of more than 100 bytes would be stored.
   34  A stack's pointer would go past 20.
   35  A counter would go past 999,999,999.
   36  Under TRACE 1, the three lines of the pass that just ended do not fit
       into what is left of the trace's 65,536 bytes.

   Of whoever looks words up, after 21 and 22:
   41  The word-pattern is empty, has a byte that is no letter, digit or dash,
       or has two dashes in a row.

   The table writer's, where a file is read past its faults (m7_recover):
   61  There is a 257th fault. */
#define M7_BAD_TABLE 1
#define M7_BAD_STATE 2
#define M7_BAD_MEMORY 3
#define M7_BUDGET_TOO_LARGE 4
#define M7_FILE_TOO_LONG 10
#define M7_ZERO_BYTE 11
#define M7_INCOMPLETE 12
#define M7_BAD_CLASS 13
#define M7_NO_UNIT 14
#define M7_BAD_BRACE 15
#define M7_BAD_CALL 16
#define M7_NO_ELEMENT 17
#define M7_MACRO_TOO_LONG 18
#define M7_TOO_MANY_MACROS 19
#define M7_LINE_TOO_LONG 21
#define M7_BAD_BYTE 22
#define M7_BAD_CONTROL 23
#define M7_BUDGET_USED_UP 31
#define M7_NEW_LINE_TOO_LONG 32
#define M7_TAG_TOO_LONG 33
#define M7_POINTER_TOO_HIGH 34
#define M7_COUNTER_TOO_HIGH 35
#define M7_TRACE_TOO_LONG 36
#define M7_BAD_WORD_PATTERN 41
#define M7_LONG_ENTRY 42
#define M7_TOO_MANY_FAULTS 61

/* Kinds of an answer to m7_feed. */
#define M7_OUT 1
#define M7_WITHHELD 2
#define M7_CONTROL 3

/* Reads a macro file as a new table, whatever the table's memory held before.
   A macro is perhaps calls, then its pattern, symbol and replacement, perhaps
   commands, and a semicolon; other text between these parts is ignored. So is
   what stands before a macro, but &( or #( outside a skip begins one there.
   Refusals: 3, then 10 to 19. Taken: the table's memory holds the table, and
   length is the number of its macros. An empty file is a table without
   macros. */
m7_answer m7_read(const uint8_t *file, size_t file_size,
                  uint8_t *table, size_t table_size);

/* Reads a macro file past its faults. Where m7_read would answer 12 to 18 at a
   byte, the macro begun there, if any, is left out, the fault is listed, and
   reading goes on afresh behind the first semicolon at or after that byte,
   whatever stands around it: it may be escaped or in a skip. If there is none,
   reading ends.
   Refusals: 3 (of either memory), 10, 11, then the first that comes up of 19,
   where a macro begins after 96 kept ones, and 61 at a 257th fault.
   Taken: the table's memory holds the table of the macros kept, which is one
   that m7_read could make, and length is their number; the faults' memory
   holds the list. What both held before has no influence. A file that m7_read
   takes gives the same table, and a list without faults. To show a fault, take
   its number and place as those that m7_read answers. */
m7_answer m7_recover(const uint8_t *file, size_t file_size,
                     uint8_t *table, size_t table_size,
                     uint8_t *faults, size_t faults_size);

/* What a macro file will take, before it is read:

   number        0, or why m7_read would refuse the file
   place         of that refusal, as m7_read has it
   macros        how many macros it has
   elements      the most elements that the pattern of a macro has: literals,
                 ?n, classes, calls, ^ and $; a closure is one with what it
                 repeats; braces, and calls before a pattern, are none
   tags          the most tags that a macro has
   bytes         the size of the file that m7_write would write, line feeds
                 counted
   write_number  0, or why m7_write would refuse the table: 10 or 18
   write_place   of that refusal, in the file that would be written

   The most elements and the most tags may be those of different macros; both
   are 0 without macros. If number is not 0, all that follows place is 0. If
   write_number is not 0, bytes is 0 and the others stand. */
typedef struct m7_plan {
    uint32_t number;
    uint32_t place;
    uint32_t macros;
    uint32_t elements;
    uint32_t tags;
    uint32_t bytes;
    uint32_t write_number;
    uint32_t write_place;
} m7_plan;

/* Measures a macro file, which may have any size. No table is made, and no
   memory but the file is lent. Refusals: 10 to 19, as m7_read gives them. */
m7_plan m7_measure(const uint8_t *file, size_t file_size);

/* Writes a table out as a macro file: each macro on a line, oldest first.
   Comments, spaces and other text between the parts are not in a table, so
   they are not written; escapes and numbers are written in one way.
   Refusals: 3 (of either memory), 1, then 18 or 10 at the first byte that is
   too much. A table that m7_read took can be refused here, since writing out
   puts a \ before some bytes that can also be read without it: a replacement
   of 505 colons fits into 512 bytes, but not with a \ before each.
   Taken: the file's memory holds the file and zeros after it, and length is
   the file's size. m7_read of these length bytes gives the same table, byte
   for byte. */
m7_answer m7_write(const uint8_t *table, size_t table_size,
                   uint8_t *file, size_t file_size);

/* Stores the fresh state: pointers 1, entries empty, values and increments 1,
   flags 0. Refusal: 3. */
m7_answer m7_fresh(uint8_t *state, size_t state_size);

/* Makes a state of one of the old size, whatever the state's memory held
   before: the same flags, pointers, values, increments and entries.
   Refusals: 3 (of either memory), then 2 if the old bytes are no state of the
   old size. Taken: the state's memory holds the state.

   Lines then have the answers that they had from the old engine, the one with
   entries of 50 bytes: under a table that it takes, so one without a text of
   more than 50 bytes in a call, and under the same budgets, each line of any
   list in which it refuses no line with 33 or 16 has the same answer, output
   and trace and leaves the same table, and the old state widened. */
m7_answer m7_widen(const uint8_t *old, size_t old_size,
                   uint8_t *state, size_t state_size);

/* Goes back: makes a state of the old size of a state without an entry of more
   than 50 bytes, whatever the old memory held before.
   Refusals: 3 (of either memory), 2 over the whole state, then 42. Taken: the
   old memory holds the state of the old size.

   m7_widen and then m7_narrow give the same bytes again; so do m7_narrow, where
   it is taken, and then m7_widen. */
m7_answer m7_narrow(const uint8_t *state, size_t state_size,
                    uint8_t *old, size_t old_size);

/* Feeds a line, without its line feed, to a table and a state, with at most
   `budget` passes of macros over it.

   Refusals, in this order: 3 (of table, state, output or trace), 1, 2, 4, 21,
   22, then the first that comes up: 31 to 36 in the passes, or of a control
   line 23 and, where it is $MACRO, 12 to 19. 36 shows at the end of a pass;
   then it is looked at whether the line begins with $, and then 31. A refused
   line leaves table, state, output and trace as they were.

   The calls before a macro's pattern run once for each line, when the macro's
   first pass on it begins; they can give 34, with that pass begun. They are no
   occurrence: what they changed in the state stays if the line is taken, but
   the trace does not show them, and a line can be withheld all the same.

   Taken, by kind:
   M7_OUT       the output holds the rewritten line, length bytes, and zeros
                after it; a line of 1,054 bytes has none. It never holds byte
                0; it may hold line feeds that a replacement made, and none is
                added at its end. The state is the one after the line
   M7_WITHHELD  NFLAG is 1 and no macro occurred: the output is all zero
   M7_CONTROL   a line that begins with $ when a pass is due or at its end:
                $TRACE 0, $TRACE 1, $NFLAG 0 or $NFLAG 1 set a flag of the
                state, $MACRO adds a macro to the table as the newest; what
                the passes before changed in the state stays; the output is
                all zero and length is 0. To know how many macros a table then
                has, count its slots (above)

   The trace, by the flag TRACE of the state when the line comes: with 0 its
   memory is not touched. With 1 every line that is taken writes it, whatever
   its kind and whatever stood there: for each pass in which its macro
   occurred, in order, the line before the pass, the macro's number in the
   table (the oldest is 1) and the line after it, and zeros to the memory's end:

       oldline:my colour
       macro #:1
       newline:my color

   A line feed ends each of the three. Line feeds in a text stand as they are,
   and a replacement may also make what looks like lines of a trace: the table
   'a'<'x\noldline:x\nmacro \#:2\nnewline:y'; gives the line a the same trace
   as 'a'<'x';'x'<'y'; does. So a trace alone does not tell where its texts
   end, unless no macro and no stack holds a line feed. A program that reads
   one has to check each number in it; docs/DECISIONS.md says how `m7 trace`
   finds the passes of every line. If no macro occurred, all bytes are zero.
   Answer, output, table and state are the same with the flag on or off, but
   for the flag itself and unless 36 comes.

   Time: a pass tries each element of the pattern at each place of the line at
   most once, and again after a replacement that changes a stack or counter
   that the pattern reads. To try a class costs its members, a call at most 100
   bytes. There are at most as many passes as the budget. */
m7_answer m7_feed(uint8_t *table, size_t table_size,
                  uint8_t *state, size_t state_size,
                  const uint8_t *line, size_t line_size, uint32_t budget,
                  uint8_t *output, size_t output_size,
                  uint8_t *trace, size_t trace_size);

/* Looks up the words of a line, without its line feed, that a word-pattern
   covers. It needs no table and no state.

   A word is a longest run of letters and digits, those that ?2 matches in a
   pattern: ASCII's, and the letters of ISO 8859-1 beyond it. A word-pattern
   is letters, digits and dashes, without two dashes in a row; a dash stands
   for any run of letters and digits, also none, and the pattern must cover
   the whole word. Case counts. CA-T covers CAT, CART and CATARACT, not SCAT
   and not CATS; - covers every word.

   Refusals, in this order: 21, 22, 41. Taken: length is the number of words
   covered, and place the place of the first. If no word is covered both are 0.

   Time: the pattern is looked at a fixed number of times, and each of its
   bytes once more for each byte of a word that has at least as many bytes as
   the pattern has letters and digits; so at most pattern times line, for any
   pattern. */
m7_answer m7_words(const uint8_t *line, size_t line_size,
                   const uint8_t *pattern, size_t pattern_size);

/* The version of this header, and that of the library that is linked. */
#define M7_VERSION "3.0"
const char *m7_version(void);

/* What a number means, in a few words of English; of 0 it is "taken". A number
   that is not listed above has a text too. The text is constant and is never
   null. */
const char *m7_meaning(uint32_t number);

/* The sizes above, for languages that cannot read this header. */
size_t m7_table_bytes(void);
size_t m7_state_bytes(void);
size_t m7_old_state_bytes(void);
size_t m7_output_bytes(void);
size_t m7_trace_bytes(void);
size_t m7_file_bytes(void);
size_t m7_faults_bytes(void);

#ifdef __cplusplus
}
#endif

#endif
