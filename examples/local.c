/* The local numbers of a cadastral municipality's sheets, beside their labels: which numbers a sheet has, and which sheet has the numbers.
 *
 *     local MUNICIPALITY                  all its 1:2 000 sheets, in the order of their local numbers
 *     local MUNICIPALITY LABEL...         the local numbers of these sheets, of 1:2 000, 1:1 000 or 1:500
 *     local -n MUNICIPALITY NUMBERS...    the sheets that have these local numbers, each written as 4, 4-3 or 4-3-2
 *
 * MUNICIPALITY is a file with the labels of its 1:2 000 sheets, 1 to 400 of them, one to a line and in any order. Prints a row for each sheet
 * that is asked for, with a tab between: its local numbers and its label. Where there is no answer the row has "none" in its place and, behind
 * another tab, why. What was asked stands in the row as it was, but for control bytes, which are shown as "?". Local numbers are read as
 * strictly as labels: 4-, 04, 4-0 and 4--1 are not local numbers, and none of them is taken for 4.
 *
 * A file with a fault is no municipality, since a sheet too few or too many shifts the numbers of those behind it: refused lines, sheets of
 * another scale, sheets that stand twice, no sheets and too many are told on standard error, and then nothing is answered.
 *
 * Ends with 0 where everything asked is answered; with 1 where the file cannot be read or is no municipality, the rows cannot be written or it
 * is called otherwise; and with 2 where nothing of that is so but a row has "none": a script that asks for one sheet need not look at the row,
 * and does not take a sheet from next door for a broken file. */
#define PROGRAM "local"
#define WORDS in_words
#include "catalogue.h"

static const char *in_words(uint32_t status)
{
    switch (status) {
    case QUBATHIMI_NO_SUCH:
        return "the municipality has no such sheet at 1:2 000, 1:1 000 or 1:500";
    default:
        return line_in_words(status);
    }
}

/* the scale 1:2 000 */
#define MUNICIPAL 7

struct municipality {
    uint32_t *sheets;
    size_t count;
};

static int by_sheet(const void *a, const void *b)
{
    const struct line *one = a, *other = b;
    if (one->sheet != other->sheet) {
        return one->sheet < other->sheet ? -1 : 1;
    }
    return one->number < other->number ? -1 : 1;
}

/* What is told of an accepted line that a municipality cannot have, up to its label. */
static void tell_line(const char *path, const struct line *line, uint32_t status)
{
    fprintf(stderr, "%s: line %zu: refused %" PRIu32 ": %.*s", path, line->number, status, (int)line->label, (const char *)line->bytes);
}

/* The sheets of a file in rising order, as the library wants them lent. It would refuse a list with the faults that are told here, but could
 * not say in which lines they are. */
static struct municipality municipality_of(const char *path)
{
    struct catalogue all = catalogue_of(path);
    size_t faults = all.refused, count = 0;

    for (size_t i = 0; i < all.count; i++) {
        if (qubathimi_scale_of((uint32_t)all.lines[i].sheet) == MUNICIPAL) {
            all.lines[count++] = all.lines[i];
        } else {
            tell_line(path, &all.lines[i], QUBATHIMI_NO_MUNICIPALITY);
            fprintf(stderr, " is not a 1:2 000 sheet\n");
            faults++;
        }
    }
    qsort(all.lines, count, sizeof *all.lines, by_sheet);

    /* One place more, so that there is a pointer to lend for no sheets too. */
    struct municipality sorted = {room(NULL, (count + 1) * sizeof *sorted.sheets), 0};
    for (size_t i = 0; i < count; i++) {
        const struct line *line = &all.lines[i];
        if (i > 0 && line->sheet == line[-1].sheet) {
            tell_line(path, line, QUBATHIMI_NOT_RISING);
            fprintf(stderr, " stands in line %zu too\n", line[-1].number);
            faults++;
        } else {
            sorted.sheets[sorted.count++] = (uint32_t)line->sheet;
        }
    }
    /* They are of one scale and rise now, so the library refuses only their count; where it does not, a sheet has the number 1. */
    uint64_t first;
    uint32_t status = qubathimi_local_to_sheet(sorted.sheets, sorted.count, 1, 0, 0, &first);
    if (status != 0) {
        fprintf(stderr, "%s: refused %" PRIu32 ": a municipality has 1 to %d sheets of 1:2 000, and this file has %zu\n", path, status,
                QUBATHIMI_MOST_IN_MUNICIPALITY, sorted.count);
        faults++;
    }
    if (faults > 0) {
        exit(1);
    }
    return sorted;
}

/* What was asked, on a row of its own whatever it is. */
static void print_asked(const char *word)
{
    for (; *word != '\0'; word++) {
        putchar((unsigned char)*word < 32 || *word == 127 ? '?' : *word);
    }
}

/* Behind the local numbers in a row: the label of the sheet that has them. Numbers that are absent are 0. */
static bool print_sheet(struct municipality own, uint32_t n, uint32_t a, uint32_t b)
{
    uint8_t label[QUBATHIMI_LONGEST_LABEL];
    uint64_t sheet, length;
    uint32_t status = qubathimi_local_to_sheet(own.sheets, own.count, n, a, b, &sheet);

    if (status != 0) {
        printf("\tnone\t");
        print_refusal(stdout, status, sheet);
    } else {
        qubathimi_write_label((uint32_t)sheet, label, sizeof label, &length);
        print_part(label, 0, length);
    }
    putchar('\n');
    return status == 0;
}

/* Whether a word is local numbers: one to three, with single hyphens between, none of which begins with 0. Those that are absent are 0 then.
 * A number beyond 32 bits becomes the largest of 32 bits, which no sheet has either. */
static bool read_numbers(const char *word, uint32_t numbers[3])
{
    numbers[0] = numbers[1] = numbers[2] = 0;
    for (size_t k = 0; k < 3; k++) {
        if (*word < '1' || *word > '9') {
            return false;
        }
        for (; *word >= '0' && *word <= '9'; word++) {
            uint32_t digit = (uint32_t)(*word - '0');
            numbers[k] = numbers[k] > (UINT32_MAX - digit) / 10 ? UINT32_MAX : numbers[k] * 10 + digit;
        }
        if (*word == '\0') {
            return true;
        }
        if (*word++ != '-') {
            return false;
        }
    }
    return false;
}

/* The row of local numbers that were asked. */
static bool by_numbers(struct municipality own, const char *word)
{
    uint32_t numbers[3];

    print_asked(word);
    if (!read_numbers(word, numbers)) {
        printf("\tnone\tnot local numbers, which are written as 4, 4-3 or 4-3-2\n");
        return false;
    }
    return print_sheet(own, numbers[0], numbers[1], numbers[2]);
}

/* The row of a label that was asked. */
static bool by_label(struct municipality own, const char *word)
{
    uint64_t value;
    uint32_t n, a, b;
    uint32_t status = qubathimi_read_label((const uint8_t *)word, strlen(word), &value);

    if (status == 0) {
        status = qubathimi_sheet_to_local(own.sheets, own.count, (uint32_t)value, &n, &a, &b);
    }
    if (status != 0) {
        printf("none\t");
        print_asked(word);
        putchar('\t');
        print_refusal(stdout, status, value);
        putchar('\n');
        return false;
    }
    printf("%" PRIu32, n);
    if (a != 0) {
        printf("-%" PRIu32, a);
    }
    if (b != 0) {
        printf("-%" PRIu32, b);
    }
    printf("\t%s\n", word);
    return true;
}

/* The row of each word, and the program's status. */
static int answer(const char *path, char **words, bool (*row)(struct municipality, const char *))
{
    struct municipality own = municipality_of(path);
    int status = 0;

    for (; *words != NULL; words++) {
        if (!row(own, *words)) {
            status = 2;
        }
    }
    return written() != 0 ? 1 : status;
}

static int list(const char *path)
{
    struct municipality own = municipality_of(path);

    for (uint32_t n = 1; n <= own.count; n++) {
        printf("%" PRIu32, n);
        print_sheet(own, n, 0, 0);
    }
    return written();
}

int main(int count, char **words)
{
    if (count == 2 && words[1][0] != '-') {
        return list(words[1]);
    }
    if (count > 2 && words[1][0] != '-') {
        return answer(words[1], words + 2, by_label);
    }
    if (count > 3 && strcmp(words[1], "-n") == 0) {
        return answer(words[2], words + 3, by_numbers);
    }
    fprintf(stderr, "usage: local MUNICIPALITY, local MUNICIPALITY LABEL..., or local -n MUNICIPALITY NUMBERS...\n");
    return 1;
}
