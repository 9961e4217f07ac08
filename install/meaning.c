/* The functions of m7.h that are not part of the proved engine: the version,
   what the numbers mean, and the sizes. Each meaning is said here and nowhere
   else; the command m7 and the hosts print these. */
#include "m7.h"

const char *m7_version(void) { return M7_VERSION; }

const char *m7_meaning(uint32_t number)
{
    switch (number) {
    case 0: return "taken";
    case M7_BAD_TABLE: return "these bytes are not a table";
    case M7_BAD_STATE: return "these bytes are not a state";
    case M7_BAD_MEMORY: return "a memory of the wrong size";
    case M7_BUDGET_TOO_LARGE: return "a budget over 1,000,000";
    case M7_FILE_TOO_LONG: return "more than 32,768 bytes in the file";
    case M7_ZERO_BYTE: return "a byte 0 in the file";
    case M7_INCOMPLETE: return "something is not ended, or a quote or ; is out of turn";
    case M7_BAD_CLASS: return "an empty class, or a range that cannot be";
    case M7_NO_UNIT: return "a closure with nothing before it to repeat";
    case M7_BAD_BRACE: return "a brace without its partner, or the 100th tag";
    case M7_BAD_CALL: return "a call or {n} that cannot stand so here";
    case M7_NO_ELEMENT: return "a pattern with nothing in it to match";
    case M7_MACRO_TOO_LONG: return "more than 512 bytes in one macro";
    case M7_TOO_MANY_MACROS: return "more than 96 macros";
    case M7_LINE_TOO_LONG: return "more than 1,054 bytes in the line";
    case M7_BAD_BYTE: return "a byte 0 or a line feed in the line";
    case M7_BAD_CONTROL: return "a $ line with an unknown word or value, or not one macro";
    case M7_BUDGET_USED_UP: return "another pass is due and the budget is used up";
    case M7_NEW_LINE_TOO_LONG: return "the new line grows past 1,054 bytes";
    case M7_TAG_TOO_LONG: return "a tag to be stored has more than 100 bytes";
    case M7_POINTER_TOO_HIGH: return "the pointer of a stack goes past 20";
    case M7_COUNTER_TOO_HIGH: return "a counter goes past 999,999,999";
    case M7_TRACE_TOO_LONG: return "the trace grows past 65,536 bytes";
    case M7_BAD_WORD_PATTERN: return "a word-pattern that is empty, or not letters, digits and single dashes";
    case M7_LONG_ENTRY: return "an entry of more than 50 bytes, too long for a state of the old size";
    case M7_TOO_MANY_FAULTS: return "more than 256 faults in the file";
    default: return "no number of this library";
    }
}

size_t m7_table_bytes(void) { return M7_TABLE_BYTES; }
size_t m7_state_bytes(void) { return M7_STATE_BYTES; }
size_t m7_old_state_bytes(void) { return M7_OLD_STATE_BYTES; }
size_t m7_output_bytes(void) { return M7_OUTPUT_BYTES; }
size_t m7_trace_bytes(void) { return M7_TRACE_BYTES; }
size_t m7_file_bytes(void) { return M7_FILE_BYTES; }
size_t m7_faults_bytes(void) { return M7_FAULTS_BYTES; }
