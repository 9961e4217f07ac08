/* What the files of the command m7 share. */
#ifndef M7_COMMAND_H
#define M7_COMMAND_H

#include "m7.h"
#include <stdio.h>

/* How the command ends. */
enum { FINE = 0, REFUSED = 1, WRONG = 2 };

/* The budget of a line, if none is given. */
enum { USUAL_BUDGET = 10000 };

/* A subcommand. To add one: a file with its `struct command`, its name in the
   list of main.c, a section in m7.1, a session in test/. */
struct command {
    const char *name;
    const char *words; /* what follows the name */
    const char *does;  /* in one line */
    const char *help;  /* the rest of what --help says */
    int (*run)(int count, char **words);
};

extern const struct command run_command, trace_command, check_command, write_command, words_command,
    explain_command;

/* messages.c */

/* Says on standard error, after "m7: ", what is wrong; the answer is WRONG. */
int complain(const char *format, ...) __attribute__((format(printf, 1, 2)));
/* The same for words that do not fit; it names the help to read. */
int usage(const struct command *command, const char *format, ...) __attribute__((format(printf, 2, 3)));
/* FINE if all of standard output was written, else WRONG and a message. */
int output_written(void);

/* options.c */

struct option {
    const char *name;  /* with its dashes */
    const char *value; /* what its value is, or NULL if it has none */
    const char *given; /* its value, or its name if it has none; NULL if it was not given */
};

/* Takes the options out of the words and keeps the rest in order. The answer is
   the number of the rest, or -1 after a message. */
int take_options(const struct command *command, int count, char **words,
                 struct option *options, size_t known);
/* A number in decimal digits that is at most `most`; 0 if the text is no such number. */
int take_number(const char *text, uint32_t most, uint32_t *number);

/* files.c */

/* What messages call a file; "-" is standard input. */
const char *shown_name(const char *name);
/* Opens a file to read. NULL after a message that ends in `what to do`. */
FILE *open_to_read(const char *name, const char *advice);
void close_read(FILE *file);
/* Reads a file whole, or `most` bytes of a longer one. 0 after a message. */
int load(const char *name, const char *advice, uint8_t *bytes, size_t most, size_t *size);
/* Replaces a file by the bytes, or leaves it as it was and says why (then 0). */
int save(const char *name, const uint8_t *bytes, size_t size);
/* Whether a file could be replaced, as far as is known before; 0 after a message. */
int can_save(const char *name);
/* Reads a line without its line feed, of a long one its first `most` bytes.
   0 at the end of the file and after an error. */
int next_line(FILE *file, uint8_t *line, size_t most, size_t *size);

/* lines.c */

struct line {
    const char *name; /* of its file */
    size_t number, size;
    uint8_t bytes[M7_MOST_LINE_BYTES + 1]; /* of a longer line its first ones */
};

/* The state of a file, one of the old size widened, or a fresh one if none is named or
   there is no such file: FINE, or WRONG after a message. */
int load_state(const char *name, uint8_t *state);
/* Whether standard input is read once at most, as TABLE, as LINES or for want of LINES. */
int one_input(int count, char **words);
/* Takes the lines of all files, or of standard input if there are none, until
   `take` gives 0: FINE, REFUSED if it did, or WRONG after a message. */
int each_line(int count, char **names, int (*take)(void *with, const struct line *line), void *with);
/* Prints "FILE:LINE: NUMBER: meaning" and what is put after it; of a fault in a
   $MACRO line as it was sent also the column, and then the line and a caret. */
void show_refusal(FILE *out, const struct line *line, const m7_answer *answer, const char *after);
/* Whether a line was refused for a fault of the macro in it. */
int of_reading(const m7_answer *answer);

/* places.c: lines and columns count from 1, columns in bytes. */

struct place {
    size_t line, column;
    size_t from, to; /* the line's first byte, and the byte after its last */
};

struct place place_of(const uint8_t *bytes, size_t size, size_t at);
/* Prints the line where a byte stands, and a caret below the byte. */
void show_line(FILE *out, const uint8_t *bytes, size_t size, size_t at);
/* Prints a text, with \n and \t for line feed and tab; "(empty)" if it is. */
void show_text(FILE *out, const uint8_t *bytes, size_t size);
/* Prints a label and a text so, and carets below its marked bytes. Of a long text
   only what stands near the bytes `from` to `to` is shown. */
void show_marked(FILE *out, const char *label, const uint8_t *bytes, size_t size,
                 const uint8_t *marks, size_t from, size_t to);

/* letters.c */

/* The length of the letter in UTF-8 at the first byte and its code point, or 0
   if the bytes there are none. */
size_t letter_at(const uint8_t *bytes, size_t size, uint32_t *point);
/* The columns that a letter takes on a terminal: 0, 1 or 2. */
size_t columns_of(uint32_t point);
/* Whether a letter is a quote of some kind other than the one that M7 knows. */
int quote_like(uint32_t point);

/* scan.c: the parts of a macro file */

enum part_kind { IGNORED, SKIP, MACRO, PATTERN, REPLACEMENT, CLASS, BRACE, TAG_NUMBER, CALL, CALL_TEXT };

struct part {
    enum part_kind kind;
    int open;        /* it is not ended */
    size_t from, to; /* its first byte, and the byte after its last */
};

/* What an unfinished macro lacks, after the part of it that is open. */
enum lacking { LACKS_PATTERN, LACKS_SYMBOL, LACKS_REPLACEMENT, LACKS_END };

struct scan {
    const uint8_t *file;
    size_t size, at, count;
    enum lacking lacks; /* of the last macro, if it is open */
    struct part parts[2 * (M7_FILE_BYTES + 2)];
};

/* Finds the parts of a macro file in the bytes `from` to `to`, in which reading that
   began afresh at `from` found no fault. */
void scan_file(struct scan *scan, const uint8_t *file, size_t from, size_t to);

/* tables.c */

struct table {
    const char *name;
    size_t size;
    uint8_t file[M7_FILE_BYTES + 1];
    uint8_t macros[M7_TABLE_BYTES];
    m7_answer answer; /* of reading it */
    size_t from;      /* where reading began, or went on, before that answer */
};

/* Loads and reads a macro file: FINE, REFUSED, or WRONG after a message. */
int load_table(const char *name, struct table *table);
/* Prints "FILE:LINE:COLUMN: KIND", then the line and a caret. */
void show_place(FILE *out, const struct table *table, size_t at, const char *kind);
/* Prints why a table was refused, where, and which part was open there. */
void show_fault(FILE *out, const struct table *table);
/* Prints so the first fault of a table that was refused, and names the help on it. */
void show_first(FILE *out, const struct table *table);
/* Where a macro of the file begins, the oldest is 0; the file's end if there is none. */
size_t macro_start(const struct table *table, size_t number);

/* faults.c */

/* Prints all faults of a table that was refused, how many macros have none, and the
   help on the faults' numbers; of more than 256 the first. */
void show_faults(FILE *out, struct table *table);

/* A pass in which a macro occurred: the macro's number, the oldest is 1, and the
   text before and after. */
struct step {
    size_t number;
    const uint8_t *old;
    size_t old_size;
    const uint8_t *new;
    size_t new_size;
};

/* steps.c */

struct steps {
    const uint8_t *at, *end; /* what is left of the trace */
    size_t macros;           /* of the table */
    struct step step;        /* the last one */
};

/* Begins with the trace of a line, of a table with so many macros. */
void start_steps(struct steps *steps, const uint8_t *trace, size_t macros, const struct line *line);
/* Takes the three lines of a pass that follows the last one; 0 if there are none. */
int take_step(struct steps *steps);
/* Whether the lines of a trace are those of its passes: no text in it holds a line
   feed. The line was taken, with this answer and this output. */
int is_plain(const uint8_t *trace, size_t macros, const struct line *line, const m7_answer *answer,
             const uint8_t *output);

/* changes.c */

struct change {
    size_t from, old_to, new_to; /* before and after these bytes all are the same */
    uint8_t old_marks[M7_MOST_LINE_BYTES], new_marks[M7_MOST_LINE_BYTES]; /* 1 where changed */
};

void find_change(struct change *change, const struct step *step);

/* replay.c */

struct replay {
    const uint8_t *macros;
    size_t count; /* of the macros */
    uint8_t closed[M7_MOST_MACROS], passed[M7_MOST_MACROS], begun[M7_MOST_MACROS];
    uint8_t state[M7_STATE_BYTES];
    size_t size; /* of the text */
    int feeds;   /* the text holds line feeds */
    uint8_t text[M7_MOST_LINE_BYTES], before[M7_MOST_LINE_BYTES];
    struct step step;  /* the last pass */
    m7_answer answer; /* its answer, as a line of its own */
};

/* A pass had no occurrence or one; it was refused or made a control line, which the
   last pass then has; the text holds a line feed and every byte that could be sent in
   its stead; no pass is due. */
enum replayed { PASSED, OCCURRED, ENDED, UNKNOWN, NONE_DUE };

/* How many macros the bytes of a table hold. */
size_t macros_in(const uint8_t *macros);
void start_replay(struct replay *replay, const uint8_t *macros, const uint8_t *state,
                  const struct line *line);
enum replayed next_pass(struct replay *replay);

/* warnings.c */

/* Prints what reads without a fault but is seldom meant, up to the fault of the
   table's answer; the answer here is how many. */
size_t show_warnings(FILE *out, const struct table *table);

#endif
