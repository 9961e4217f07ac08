/* Files: read whole, read line by line, replaced in one step. */
#include "command.h"
#include <errno.h>
#include <libgen.h>
#include <limits.h>
#include <stdlib.h>
#include <string.h>
#include <sys/stat.h>
#include <unistd.h>

static int is_input(const char *name) { return strcmp(name, "-") == 0; }

const char *shown_name(const char *name)
{
    return is_input(name) ? "(standard input)" : name;
}

FILE *open_to_read(const char *name, const char *advice)
{
    FILE *file = is_input(name) ? stdin : fopen(name, "rb");
    if (file == NULL)
        complain("%s: %s; %s", name, strerror(errno), advice);
    return file;
}

void close_read(FILE *file)
{
    if (file != stdin)
        fclose(file);
}

int load(const char *name, const char *advice, uint8_t *bytes, size_t most, size_t *size)
{
    FILE *file = open_to_read(name, advice);
    int failed;
    if (file == NULL)
        return 0;
    *size = fread(bytes, 1, most, file);
    failed = ferror(file);
    if (failed)
        complain("%s: %s; %s", shown_name(name), strerror(errno), advice);
    close_read(file);
    return !failed;
}

int next_line(FILE *file, uint8_t *line, size_t most, size_t *size)
{
    int byte = getc_unlocked(file);
    if (byte == EOF)
        return 0;
    for (*size = 0; byte != EOF && byte != '\n'; byte = getc_unlocked(file))
        if (*size < most)
            line[(*size)++] = (uint8_t)byte;
    return !ferror(file);
}

/* The file that a name stands for, through links; a new file is its name. */
static int real_name(const char *name, char *real)
{
    if (realpath(name, real) != NULL)
        return 1;
    if (errno != ENOENT || strlen(name) >= PATH_MAX)
        return 0;
    strcpy(real, name);
    return 1;
}

int can_save(const char *name)
{
    char real[PATH_MAX], folder[PATH_MAX];
    struct stat now;
    if (!real_name(name, real))
        return complain("%s: %s", name, strerror(errno)), 0;
    if (stat(real, &now) == 0 && !S_ISREG(now.st_mode))
        return complain("%s is no plain file; name one to keep the state in", name), 0;
    strcpy(folder, real);
    if (access(dirname(folder), W_OK | X_OK) == 0)
        return 1;
    return complain("%s: %s; name a file in a folder that can be written", name, strerror(errno)), 0;
}

/* Writes all bytes to disk, with the rights that the file had or a new one gets. */
static int fill(int file, const char *real, const uint8_t *bytes, size_t size)
{
    struct stat before;
    mode_t mask = umask(0);
    umask(mask);
    if (fchmod(file, stat(real, &before) == 0 ? before.st_mode & 0777 : 0666 & ~mask) != 0)
        return 0;
    while (size > 0) {
        ssize_t written = write(file, bytes, size);
        if (written < 0 && errno == EINTR)
            continue;
        if (written <= 0)
            return 0;
        bytes += written;
        size -= (size_t)written;
    }
    return fsync(file) == 0;
}

int save(const char *name, const uint8_t *bytes, size_t size)
{
    char real[PATH_MAX], made[PATH_MAX + 8];
    int file, filled;
    if (!real_name(name, real))
        return complain("%s: %s", name, strerror(errno)), 0;
    snprintf(made, sizeof made, "%s.XXXXXX", real);
    file = mkstemp(made);
    if (file < 0)
        return complain("%s: no new file could be made beside it: %s", name, strerror(errno)), 0;
    filled = fill(file, real, bytes, size);
    if (close(file) == 0 && filled && rename(made, real) == 0)
        return 1;
    complain("%s was left as it was; it could not be written: %s", name, strerror(errno));
    unlink(made);
    return 0;
}
