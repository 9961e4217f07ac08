/* The passes in a trace, read line by line. Texts stand in a trace as they are,
   and may hold line feeds and what looks like the lines of a pass. */
#include "command.h"
#include <string.h>

void start_steps(struct steps *steps, const uint8_t *trace, size_t macros, const struct line *line)
{
    const uint8_t *end = memchr(trace, 0, M7_TRACE_BYTES);
    steps->at = trace;
    steps->end = end == NULL ? trace + M7_TRACE_BYTES : end;
    steps->macros = macros;
    steps->step = (struct step){0, NULL, 0, line->bytes, line->size};
}

/* Takes a line that begins with the label, and gives what follows it; NULL if the
   next line is none. */
static const uint8_t *take_line(struct steps *steps, const char *label, size_t *size)
{
    const uint8_t *at = steps->at, *feed = memchr(at, '\n', (size_t)(steps->end - at));
    size_t length = strlen(label);
    if (feed == NULL || (size_t)(feed - at) < length || memcmp(at, label, length) != 0)
        return NULL;
    *size = (size_t)(feed - at) - length;
    steps->at = feed + 1;
    return at + length;
}

/* The number in the digits, if it is that of a macro; else 0. */
static size_t number_in(const uint8_t *digits, size_t size, size_t macros)
{
    size_t number = 0;
    for (size_t i = 0; i < size && number <= macros; i++) {
        if (digits[i] < '0' || digits[i] > '9')
            return 0;
        number = 10 * number + (size_t)(digits[i] - '0');
    }
    return number <= macros ? number : 0;
}

int take_step(struct steps *steps)
{
    struct step *step = &steps->step;
    const uint8_t *before = step->new, *digits;
    size_t size = step->new_size, count;
    step->old = take_line(steps, "oldline:", &step->old_size);
    if (step->old == NULL || step->old_size != size || memcmp(step->old, before, size) != 0)
        return 0;
    digits = take_line(steps, "macro #:", &count);
    if (digits == NULL || (size > 0 && before[0] == '$'))
        return 0;
    step->number = number_in(digits, count, steps->macros);
    step->new = take_line(steps, "newline:", &step->new_size);
    return step->number != 0 && step->new != NULL && step->new_size <= M7_MOST_LINE_BYTES;
}

/* If a text that is not the last held a line feed, its second line would stand
   below its first as a new text and as an old one, and cannot begin both with
   oldline: and with macro #:. The last text is the output; that of a control line
   begins with $, and such a text is not the old one of a pass. */
int is_plain(const uint8_t *trace, size_t macros, const struct line *line, const m7_answer *answer,
             const uint8_t *output)
{
    static struct steps steps;
    start_steps(&steps, trace, macros, line);
    while (steps.at < steps.end)
        if (!take_step(&steps))
            return 0;
    return answer->kind != M7_OUT
           || (steps.step.new_size == answer->length && memcmp(steps.step.new, output, answer->length) == 0);
}
