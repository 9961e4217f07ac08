/* What a pass changed in a line. */
#include "command.h"
#include <string.h>

/* The bytes before the first difference, and the ends of what differs. */
static void find_ends(struct change *change, const struct step *step)
{
    size_t from = 0, old_to = step->old_size, new_to = step->new_size;
    while (from < old_to && from < new_to && step->old[from] == step->new[from])
        from++;
    while (old_to > from && new_to > from && step->old[old_to - 1] == step->new[new_to - 1]) {
        old_to--;
        new_to--;
    }
    change->from = from;
    change->old_to = old_to;
    change->new_to = new_to;
}

/* For each two places the most bytes that the old text from the one on and the
   new text from the other on have in common, in order. */
static uint16_t most[M7_MOST_LINE_BYTES + 1][M7_MOST_LINE_BYTES + 1];

static void find_most(const struct change *change, const struct step *step)
{
    for (size_t i = change->from; i <= change->old_to; i++)
        most[i][change->new_to] = 0;
    for (size_t j = change->from; j <= change->new_to; j++)
        most[change->old_to][j] = 0;
    for (size_t i = change->old_to; i-- > change->from;) {
        for (size_t j = change->new_to; j-- > change->from;) {
            uint16_t one = most[i + 1][j], other = most[i][j + 1];
            most[i][j] = step->old[i] == step->new[j] ? (uint16_t)(most[i + 1][j + 1] + 1)
                         : one > other ? one : other;
        }
    }
}

/* Of texts of one length: marks the places where they differ. */
static void mark_places(struct change *change, const struct step *step)
{
    for (size_t i = change->from; i < change->old_to; i++)
        change->old_marks[i] = change->new_marks[i] = step->old[i] != step->new[i];
}

/* Of others: marks the bytes that they do not have in common. */
static void mark_others(struct change *change, const struct step *step)
{
    size_t i = change->from, j = change->from;
    while (i < change->old_to || j < change->new_to) {
        if (i < change->old_to && j < change->new_to && step->old[i] == step->new[j]) {
            i++;
            j++;
        } else if (j == change->new_to || (i < change->old_to && most[i + 1][j] >= most[i][j + 1])) {
            change->old_marks[i++] = 1;
        } else {
            change->new_marks[j++] = 1;
        }
    }
}

/* How many bytes from a place on are marked, or are not. */
static size_t run_of(const uint8_t *marks, uint8_t marked, size_t from, size_t to)
{
    size_t at = from;
    while (at < to && marks[at] == marked)
        at++;
    return at - from;
}

static size_t larger(size_t one, size_t other) { return one > other ? one : other; }

/* Marks also what is the same between two changes, if both are longer. */
static void mark_between(struct change *change)
{
    uint8_t *old = change->old_marks, *new = change->new_marks;
    size_t i = change->from, j = change->from;
    while (i < change->old_to || j < change->new_to) {
        size_t gone = run_of(old, 1, i, change->old_to), come = run_of(new, 1, j, change->new_to);
        size_t before = larger(gone, come), same, other, after;
        i += gone;
        j += come;
        same = run_of(old, 0, i, change->old_to);
        other = run_of(new, 0, j, change->new_to);
        same = same < other ? same : other;
        after = larger(run_of(old, 1, i + same, change->old_to), run_of(new, 1, j + same, change->new_to));
        if (same < before && same < after) {
            memset(old + i, 1, same);
            memset(new + j, 1, same);
        }
        i += same;
        j += same;
    }
}

void find_change(struct change *change, const struct step *step)
{
    memset(change, 0, sizeof *change);
    find_ends(change, step);
    if (change->old_to == change->new_to) {
        mark_places(change, step);
    } else {
        find_most(change, step);
        mark_others(change, step);
    }
    mark_between(change);
}
