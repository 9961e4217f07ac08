/* The words of a command line. */
#include "command.h"
#include <string.h>

/* The option that a word names, alone or before "=", or NULL. */
static struct option *named(const char *word, struct option *options, size_t known)
{
    size_t size = strcspn(word, "=");
    for (size_t i = 0; i < known; i++)
        if (strlen(options[i].name) == size && strncmp(options[i].name, word, size) == 0)
            return &options[i];
    return NULL;
}

/* Takes the option at words[*i], and the word after it if that is its value;
   the answer is FINE or WRONG. */
static int take(const struct command *command, int count, char **words, int *i,
                struct option *option)
{
    const char *equals = strchr(words[*i], '=');
    if (option->value == NULL && equals != NULL)
        return usage(command, "%s takes no value", option->name);
    if (option->value == NULL)
        option->given = option->name;
    else if (equals != NULL)
        option->given = equals + 1;
    else if (*i + 1 < count)
        option->given = words[++*i];
    else
        return usage(command, "%s needs %s after it", option->name, option->value);
    return FINE;
}

int take_options(const struct command *command, int count, char **words,
                 struct option *options, size_t known)
{
    int kept = 0, ended = 0;
    for (int i = 0; i < count; i++) {
        struct option *option;
        if (ended || words[i][0] != '-' || words[i][1] == 0) {
            words[kept++] = words[i];
        } else if (strcmp(words[i], "--") == 0) {
            ended = 1;
        } else if ((option = named(words[i], options, known)) == NULL) {
            usage(command, "there is no option %s", words[i]);
            return -1;
        } else if (take(command, count, words, &i, option) != FINE) {
            return -1;
        }
    }
    return kept;
}

int take_number(const char *text, uint32_t most, uint32_t *number)
{
    uint64_t value = 0;
    if (*text == 0)
        return 0;
    for (; *text != 0; text++) {
        if (*text < '0' || *text > '9')
            return 0;
        value = 10 * value + (uint64_t)(*text - '0');
        if (value > most)
            return 0;
    }
    *number = (uint32_t)value;
    return 1;
}
