/* terminal PROGRAM WORD..: runs a program in a terminal of its own, types the
   lines of standard input, each when the one before was answered by a line, and
   then Ctrl-D; prints what the terminal showed. It fails if an answer does not
   come in time. */
#include <fcntl.h>
#include <poll.h>
#include <signal.h>
#include <stdio.h>
#include <stdlib.h>
#include <string.h>
#include <sys/wait.h>
#include <termios.h>
#include <unistd.h>

enum { PATIENCE = 20000, END_OF_INPUT = 4 }; /* milliseconds; Ctrl-D */

static int fail(const char *what)
{
    fprintf(stderr, "terminal: %s\n", what);
    return 1;
}

/* In the child: the terminal is its input, output and errors. */
static void become(const char *name, char **words)
{
    int end;
    setsid();
    end = open(name, O_RDWR);
    if (end < 0 || dup2(end, 0) < 0 || dup2(end, 1) < 0 || dup2(end, 2) < 0)
        exit(127);
    execv(words[0], words);
    exit(127);
}

/* What is typed does not show, so that the answers stand alone. */
static int quiet(const char *name)
{
    struct termios now;
    int end = open(name, O_RDWR | O_NOCTTY);
    if (end < 0 || tcgetattr(end, &now) != 0)
        return -1;
    now.c_lflag &= (tcflag_t)~ECHO;
    return tcsetattr(end, TCSANOW, &now) == 0 ? end : -1;
}

/* Prints what is shown up to a line's end; 0 at the end of all, -1 if it takes too long. */
static int show(int terminal)
{
    struct pollfd ready = {terminal, POLLIN, 0};
    char byte;
    do {
        if (poll(&ready, 1, PATIENCE) <= 0)
            return -1;
        if (read(terminal, &byte, 1) != 1)
            return 0;
        if (byte != '\r')
            putchar(byte);
    } while (byte != '\n');
    return 1;
}

int main(int count, char **words)
{
    int terminal = posix_openpt(O_RDWR | O_NOCTTY), end, status, shown;
    char line[256], control = END_OF_INPUT;
    pid_t child;
    if (count < 2 || terminal < 0 || grantpt(terminal) != 0 || unlockpt(terminal) != 0)
        return fail("no terminal");
    end = quiet(ptsname(terminal));
    child = end < 0 ? -1 : fork();
    if (child < 0)
        return fail("no child");
    if (child == 0)
        become(ptsname(terminal), words + 1);
    shown = show(terminal);
    while (shown == 1 && fgets(line, sizeof line, stdin) != NULL) {
        if (write(terminal, line, strlen(line)) < 0)
            return fail("a line could not be typed");
        shown = show(terminal);
    }
    if (shown == 1 && write(terminal, &control, 1) == 1) {
        close(end);
        while ((shown = show(terminal)) == 1)
            ;
    }
    if (shown != 0)
        kill(child, SIGKILL);
    waitpid(child, &status, 0);
    printf("[%d]\n", WIFEXITED(status) ? WEXITSTATUS(status) : -1);
    return shown == 0 ? 0 : fail("no answer in time");
}
