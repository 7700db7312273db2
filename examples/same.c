/* Which lines of two catalogues name the same sheet by the same name, whichever kind of computer each was typed on.
 *
 *     same ONE TWO
 *
 * Prints a row for every line of ONE and line of TWO that are of one sheet, in the order of ONE, with tabs between: the two lines' numbers,
 * "same" or "other" for their names, the label, the name in ONE and, where its bytes are others, the name in TWO. Two lines without a name
 * have the same one, of no bytes. Refused lines are told first, on standard error. Ends with 1 where a file cannot be read or the rows
 * cannot be written. */
#define PROGRAM "same"
#include "catalogue.h"

static int by_sheet(const void *a, const void *b)
{
    const struct line *one = a, *other = b;
    if (one->sheet != other->sheet) {
        return one->sheet < other->sheet ? -1 : 1;
    }
    return one->number < other->number ? -1 : 1;
}

/* The first of the lines, which are sorted, whose sheet is not before this one. */
static size_t first_of(struct catalogue sorted, uint64_t sheet)
{
    size_t low = 0, high = sorted.count;
    while (low < high) {
        size_t middle = low + (high - low) / 2;
        if (sorted.lines[middle].sheet < sheet) {
            low = middle + 1;
        } else {
            high = middle;
        }
    }
    return low;
}

static void print_pair(const struct line *one, const struct line *other)
{
    const uint8_t *name = one->bytes + one->start, *again = other->bytes + other->start;
    size_t length = one->end - one->start, longer = other->end - other->start;

    printf("%zu\t%zu\t%s", one->number, other->number, qubathimi_same_name(name, length, again, longer) ? "same" : "other");
    print_part(one->bytes, 0, one->label);
    print_part(one->bytes, one->start, one->end);
    if (length != longer || memcmp(name, again, length) != 0) {
        print_part(other->bytes, other->start, other->end);
    }
    putchar('\n');
}

int main(int count, char **words)
{
    if (count != 3) {
        fprintf(stderr, "usage: same ONE TWO\n");
        return 1;
    }
    struct catalogue one = catalogue_of(words[1]), two = catalogue_of(words[2]);
    qsort(two.lines, two.count, sizeof *two.lines, by_sheet);
    for (size_t i = 0; i < one.count; i++) {
        uint64_t sheet = one.lines[i].sheet;
        for (size_t k = first_of(two, sheet); k < two.count && two.lines[k].sheet == sheet; k++) {
            print_pair(&one.lines[i], &two.lines[k]);
        }
    }
    return written();
}
