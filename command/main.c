/* m7, a command over the library: `m7 --help` lists what it does. */
#include "command.h"
#include <string.h>

static const struct command *const commands[] = {
    &run_command, &trace_command, &check_command, &write_command, &words_command, &explain_command};

enum { COMMANDS = sizeof commands / sizeof commands[0] };

/* What `m7 --help` says. */
static void help(FILE *out)
{
    fputs("usage: m7 COMMAND ..\n\n"
          "m7 rewrites lines of text by a table of macros.\n\n",
          out);
    for (size_t i = 0; i < COMMANDS; i++)
        fprintf(out, "  m7 %-8s %-17s %s\n", commands[i]->name, commands[i]->words,
                commands[i]->does);
    fputs("\n"
          "  m7 COMMAND --help            more about a command\n"
          "  m7 --version                 the version\n\n"
          "It ends with 0 if all is fine, 1 if something was refused or m7 words found no\n"
          "word, and 2 if the words or the files do not fit. `man m7` has it all on one\n"
          "page.\n",
          out);
}

static void help_of(const struct command *command)
{
    printf("usage: m7 %s %s\n\n%s", command->name, command->words, command->help);
}

/* Whether a word before "--" asks for help. */
static int asks_help(int count, char **words)
{
    for (int i = 0; i < count && strcmp(words[i], "--") != 0; i++)
        if (strcmp(words[i], "--help") == 0 || strcmp(words[i], "-h") == 0)
            return 1;
    return 0;
}

static int dispatch(int count, char **words)
{
    for (size_t i = 0; i < COMMANDS; i++) {
        if (strcmp(words[0], commands[i]->name) != 0)
            continue;
        if (!asks_help(count - 1, words + 1))
            return commands[i]->run(count - 1, words + 1);
        help_of(commands[i]);
        return FINE;
    }
    return complain("there is no command %s; m7 --help lists them", words[0]);
}

int main(int count, char **words)
{
    int ended = FINE;
    if (count < 2) {
        help(stderr);
        return WRONG;
    }
    if (strcmp(words[1], "--help") == 0 || strcmp(words[1], "-h") == 0)
        help(stdout);
    else if (strcmp(words[1], "--version") == 0)
        printf("m7 %s\n", m7_version());
    else
        ended = dispatch(count - 1, words + 1);
    return ended != WRONG && output_written() != FINE ? WRONG : ended;
}
