/* Messages on standard error, and whether standard output was written. */
#include "command.h"
#include <errno.h>
#include <stdarg.h>
#include <string.h>

/* What was said before goes out first, so both stay in order. */
static void say(const char *format, va_list values)
{
    fflush(stdout);
    fputs("m7: ", stderr);
    vfprintf(stderr, format, values);
    fputc('\n', stderr);
}

int complain(const char *format, ...)
{
    va_list values;
    va_start(values, format);
    say(format, values);
    va_end(values);
    return WRONG;
}

int usage(const struct command *command, const char *format, ...)
{
    va_list values;
    va_start(values, format);
    say(format, values);
    va_end(values);
    fprintf(stderr, "usage: m7 %s %s\nm7 %s --help says more\n", command->name,
            command->words, command->name);
    return WRONG;
}

int output_written(void)
{
    if (fflush(stdout) == 0 && !ferror(stdout))
        return FINE;
    return complain("standard output could not be written: %s", strerror(errno));
}
