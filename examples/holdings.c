/* The shelf list of a map room, of sheets with their products: written from a text of what the room holds, and printed.
 *
 *     holdings LIST             the holdings of a shelf list, one to a line
 *     holdings -x LIST          the same, each behind its bytes in the list, in hexadecimal, and a tab
 *     holdings -w SHELF LIST    writes the list of the holdings in the text SHELF to the file LIST, in place of what that has
 *
 * A holding is written as a label or, where its product is stated, as a label, a space and the product's mark in table 7 of the state's
 * technical specification: TK250, TK100, TK50, TK25, HOK10, HOK5 or DOF5, KP2000 or DOF2, KP1000, KP500, from 1:250 000 to 1:500. So
 * 5-1-3-109-11 HOK5 and 5-1-3-109-11 DOF5 are two holdings of one sheet, and 5-1-3-109-11 is a third, with its product unstated. A text has
 * one holding to a line, in any order; rows are printed in the same form, by sheet and product, so that they are a text again. Nothing is
 * mended: a mark of another scale, in small letters or with a blank behind it is none.
 *
 * LIST may be of either kind: one that was written without products leaves them all unstated. Of a list that is refused, the holdings in front
 * of the fault are printed, and then the refusal and their count are told on standard error. With -x the first row has the bytes that tell
 * how many holdings there are, and bytes that belong to none have the last.
 *
 * Refused lines of a text, holdings that stand twice and too many of them are told on standard error, and then nothing is written.
 *
 * Ends with 0 where all is printed or written; with 1 where a file cannot be read, the list or the rows cannot be written or it is called
 * otherwise; and with 2 where the text or the list is refused. */
#define PROGRAM "holdings"
#define WORDS in_words
#include "catalogue.h"

static const char *in_words(uint32_t status)
{
    switch (status) {
    case QUBATHIMI_TOO_MANY:
        return "a list has at most 4 096 holdings";
    case QUBATHIMI_ENDS_EARLY:
        return "the list ends early";
    case QUBATHIMI_BAD_NUMBER:
        return "a number is badly written, or the first one tells no count";
    case QUBATHIMI_PAST_LAST:
        return "the list runs past the last sheet or holding";
    case QUBATHIMI_MORE_BYTES:
        return "there are bytes behind the list's end";
    case QUBATHIMI_NO_PRODUCT:
        return "the scale has no such product";
    default:
        return "see docs/REFUSALS.md";
    }
}

/* The marks of the products 1 and 2, by scale. Product 0 has none. */
static const char *const marks[QUBATHIMI_LAST_SCALE + 1][3] = {
    [1] = {NULL, "TK250"},
    [2] = {NULL, "TK100"},
    [3] = {NULL, "TK50"},
    [4] = {NULL, "TK25"},
    [5] = {NULL, "HOK10"},
    [6] = {NULL, "HOK5", "DOF5"},
    [7] = {NULL, "KP2000", "DOF2"},
    [8] = {NULL, "KP1000"},
    [9] = {NULL, "KP500"},
};

/* The product that has a mark at a scale, and where none has it 3, which the library refuses. */
static uint32_t product_of(uint32_t scale, const uint8_t *mark, size_t length)
{
    for (uint32_t product = 1; product <= 2; product++) {
        const char *own = marks[scale][product];
        if (own != NULL && strlen(own) == length && memcmp(own, mark, length) == 0) {
            return product;
        }
    }
    return 3;
}

/* The holding of a line, or its refusal with what that carries. */
static uint32_t read_holding(const uint8_t *line, size_t length, uint64_t *value)
{
    const uint8_t *space = memchr(line, ' ', length);
    size_t label = space != NULL ? (size_t)(space - line) : length;
    uint32_t status = qubathimi_read_label(line, label, value);

    if (status != 0) {
        return status;
    }
    uint32_t sheet = (uint32_t)*value, product = 0;
    if (space != NULL) {
        product = product_of(qubathimi_scale_of(sheet), space + 1, length - label - 1);
    }
    return qubathimi_holding(sheet, product, value);
}

static void print_holding(FILE *file, uint32_t holding)
{
    uint8_t label[QUBATHIMI_LONGEST_LABEL];
    uint32_t sheet, product;
    uint64_t length;

    qubathimi_holding_parts(holding, &sheet, &product);
    qubathimi_write_label(sheet, label, sizeof label, &length);
    fprintf(file, "%.*s", (int)length, (const char *)label);
    if (product != 0) {
        fprintf(file, " %s", marks[qubathimi_scale_of(sheet)][product]);
    }
}

/* ---- From a text to a list ---- */

/* A holding, and the line in which it stands. */
struct entry {
    uint32_t holding;
    size_t line;
};

static int by_holding(const void *a, const void *b)
{
    const struct entry *one = a, *other = b;
    if (one->holding != other->holding) {
        return one->holding < other->holding ? -1 : 1;
    }
    return one->line < other->line ? -1 : 1;
}

/* The holdings of a text in rising order, as the library wants them lent, and their count. It would refuse what stands twice, but could not
 * say in which lines that is. */
static uint32_t *holdings_of(const char *path, size_t *count)
{
    size_t length, number = 0, faults = 0;
    const uint8_t *at = bytes_of(path, &length), *end = at + length;
    /* No label has less than 8 bytes; and one place more, so that there is a pointer to lend for no holdings too. */
    struct entry *entries = room(NULL, (length / 8 + 1) * sizeof *entries);
    uint32_t *holdings = room(NULL, (length / 8 + 1) * sizeof *holdings);

    *count = 0;
    while (at < end) {
        const uint8_t *feed = memchr(at, '\n', (size_t)(end - at));
        size_t n = (size_t)((feed != NULL ? feed : end) - at);
        uint64_t value;
        uint32_t status = read_holding(at, n, &value);
        number++;
        if (status != 0) {
            tell(path, number, status, value);
            faults++;
        } else {
            entries[(*count)++] = (struct entry){(uint32_t)value, number};
        }
        at += feed != NULL ? n + 1 : n;
    }
    qsort(entries, *count, sizeof *entries, by_holding);
    for (size_t i = 0; i < *count; i++) {
        holdings[i] = entries[i].holding;
        if (i > 0 && holdings[i] == holdings[i - 1]) {
            fprintf(stderr, "%s: line %zu: refused %d: ", path, entries[i].line, QUBATHIMI_NOT_RISING);
            print_holding(stderr, holdings[i]);
            fprintf(stderr, " stands in line %zu too\n", entries[i - 1].line);
            faults++;
        }
    }
    if (faults > 0) {
        fprintf(stderr, "%s: nothing is written; a line is a label, or a label, a space and a mark, with no blank or carriage return behind\n",
                path);
        exit(2);
    }
    return holdings;
}

static int write_list(const char *shelf, const char *path)
{
    size_t count;
    uint64_t length;
    const uint32_t *holdings = holdings_of(shelf, &count);
    uint32_t status = qubathimi_holdings_length(holdings, count, &length);

    /* They rise and have products of their scales, so the library refuses only their count. */
    if (status != 0) {
        fprintf(stderr, "%s: ", shelf);
        print_refusal(stderr, status, length);
        fprintf(stderr, ", and this text has %zu; nothing is written\n", count);
        return 2;
    }
    uint8_t *list = room(NULL, length);
    qubathimi_write_holdings(holdings, count, list, length, &length);

    FILE *file = fopen(path, "wb");
    if (file == NULL) {
        perror(path);
        return 1;
    }
    bool whole = fwrite(list, 1, length, file) == length;
    if (fclose(file) != 0 || !whole) {
        perror(path);
        return 1;
    }
    return 0;
}

/* ---- From a list to rows ---- */

static void print_bytes(const uint8_t *list, size_t start, size_t end)
{
    for (size_t at = start; at < end; at++) {
        printf("%s%02X", at > start ? " " : "", list[at]);
    }
}

/* The bytes of the number at a place of the list, up to the first below 128, and the place behind them. */
static size_t print_number(const uint8_t *list, size_t at)
{
    size_t end = at;
    while (list[end++] >= 128) {
    }
    print_bytes(list, at, end);
    return end;
}

static int print_list(const char *path, bool bytes)
{
    static uint32_t holdings[QUBATHIMI_MOST_SHEETS];
    size_t length, at = 0;
    const uint8_t *list = bytes_of(path, &length);
    uint64_t placed, value;
    uint32_t status = qubathimi_read_holdings(list, length, holdings, QUBATHIMI_MOST_SHEETS, &placed, &value);

    if (bytes && (status == 0 || placed > 0)) {
        at = print_number(list, at);
        putchar('\n');
    }
    for (size_t i = 0; i < placed; i++) {
        if (bytes) {
            at = print_number(list, at);
            putchar('\t');
        }
        print_holding(stdout, holdings[i]);
        putchar('\n');
    }
    if (bytes && at < length) {
        print_bytes(list, at, length);
        putchar('\n');
    }
    if (written() != 0) {
        return 1;
    }
    if (status != 0) {
        fprintf(stderr, "%s: ", path);
        print_refusal(stderr, status, value);
        fprintf(stderr, "; holdings in front: %" PRIu64 "\n", placed);
        return 2;
    }
    return 0;
}

int main(int count, char **words)
{
    if (count == 2 && words[1][0] != '-') {
        return print_list(words[1], false);
    }
    if (count == 3 && strcmp(words[1], "-x") == 0) {
        return print_list(words[2], true);
    }
    if (count == 4 && strcmp(words[1], "-w") == 0) {
        return write_list(words[2], words[3]);
    }
    fprintf(stderr, "usage: holdings LIST, holdings -x LIST, or holdings -w SHELF LIST\n");
    return 1;
}
