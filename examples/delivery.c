/* Whether a scanning firm has delivered the sheets of a window: each of them once, in any order, and nothing else.
 *
 *     delivery SCALE WEST EAST SOUTH NORTH FILE       the first fault, or that there is none
 *     delivery -a SCALE WEST EAST SOUTH NORTH FILE    all faults
 *
 * SCALE is written as 1:5000, with no blank in it. The window's edges are whole metres, the first two E and the others N. They may lie on
 * edges of sheets: a window owns its west and north edge and not the other two. FILE has a line for each sheet that the firm says it has
 * scanned, any number of them and in any order: a label, or a label, a space and a name. The name does not matter.
 *
 * Prints one of these, and with -a a row for each fault, bad lines in the order of the file and then missing sheets:
 *
 *     complete: 24 sheets
 *     line 7: 5-22-4-108-10 is not of the window
 *     line 12: 5-1-1-109-11 stands in line 3 already
 *     line 16: 5-2-4-625-108-10 is not of the window; it is a 1:500 sheet
 *     missing: 5-17-3-108-11
 *
 * A bad line goes before a missing sheet, and the first missing sheet is the one farthest north and, of those in its row, farthest west,
 * whatever their numbers are: rows run on from one 1:50 000 sheet into the next.
 *
 * A window that is refused is told on standard error, before the file is looked at. Refused lines are told there too, and then nothing is
 * checked: it is not known for which sheets they were meant.
 *
 * Ends with 0 where the delivery is complete; with 2 where it is not or a line is refused, which is for the firm to mend; and with 1 where
 * nothing can be said of it: the window is refused, the file cannot be read, the rows cannot be written or it is called otherwise. */
#define PROGRAM "delivery"
#define WORDS in_words
#include "catalogue.h"

static const char *in_words(uint32_t status)
{
    switch (status) {
    case QUBATHIMI_NO_SCALE:
        return "the scales are 1:250000, 1:100000, 1:50000, 1:25000, 1:10000, 1:5000, 1:2000, 1:1000 and 1:500, written so";
    case QUBATHIMI_WINDOW_ORDER:
        return "the window's east edge is not above its west edge, or its north edge not above its south edge";
    case QUBATHIMI_WINDOW_OUTSIDE:
        return "the window reaches outside the area, which has E 200 000 m to 800 000 m and N 4 570 000 m to 5 170 000 m";
    case QUBATHIMI_TOO_MANY:
        return "the window has more than 4 096 sheets, too many for one check";
    default:
        return line_in_words(status);
    }
}

/* ---- The window ---- */

static const char *const scales[QUBATHIMI_LAST_SCALE + 1] = {
    [1] = "1:250000", [2] = "1:100000", [3] = "1:50000", [4] = "1:25000", [5] = "1:10000",
    [6] = "1:5000",   [7] = "1:2000",   [8] = "1:1000",  [9] = "1:500",
};

/* A scale, and edges in millimetres. */
struct window {
    uint32_t scale;
    int64_t west, east, south, north;
};

/* The scale that is written so, and where none is 0, which the library refuses. */
static uint32_t scale_named(const char *word)
{
    uint32_t scale = QUBATHIMI_LAST_SCALE;
    while (scale > 0 && strcmp(scales[scale], word) != 0) {
        scale--;
    }
    return scale;
}

/* The millimetres of an edge in metres. With 15 digits they are far from the end of 64 bits, and the area ends at 7. */
static int64_t edge_of(const char *which, const char *word)
{
    const char *metres = *word == '-' ? word + 1 : word;
    size_t digits = strspn(metres, "0123456789");

    if (digits == 0 || digits > 15 || metres[digits] != '\0') {
        fprintf(stderr, "delivery: the %s edge is '%s'; edges are whole metres, of at most 15 digits and nothing else\n", which, word);
        exit(1);
    }
    return (int64_t)strtoll(word, NULL, 10) * 1000;
}

static uint32_t ask(const struct window *window, const uint32_t *sheets, size_t count, uint64_t *value)
{
    return qubathimi_check_delivery(window->scale, window->west, window->east, window->south, window->north, sheets, count, value);
}

/* The window of five words. A window has a sheet, so where nothing is delivered one is missing, unless the library refuses the window. */
static struct window window_of(char **words)
{
    struct window window = {scale_named(words[0]), edge_of("west", words[1]), edge_of("east", words[2]), edge_of("south", words[3]),
                            edge_of("north", words[4])};
    const uint32_t none[1] = {0};
    uint64_t value;
    uint32_t status = ask(&window, none, 0, &value);

    if (status != QUBATHIMI_MISSING) {
        fprintf(stderr, "delivery: ");
        print_refusal(stderr, status, value);
        fprintf(stderr, "\n");
        exit(1);
    }
    return window;
}

/* ---- The delivery ---- */

/* Sheets, and the numbers of the lines in which they stand. */
struct delivery {
    uint32_t *sheets;
    size_t *numbers;
    size_t count;
};

/* The sheets of a file, with room for as many more as can be missing. */
static struct delivery delivery_of(const char *path)
{
    struct catalogue all = catalogue_of(path);
    struct delivery delivery = {room(NULL, (all.count + QUBATHIMI_MOST_SHEETS) * sizeof *delivery.sheets),
                                room(NULL, (all.count + QUBATHIMI_MOST_SHEETS) * sizeof *delivery.numbers), all.count};

    if (all.refused > 0) {
        fprintf(stderr, "%s: nothing is checked; a line is a label, or a label, a space and a name, with no blank or carriage return behind\n",
                path);
        exit(2);
    }
    for (size_t i = 0; i < all.count; i++) {
        delivery.sheets[i] = (uint32_t)all.lines[i].sheet;
        delivery.numbers[i] = all.lines[i].number;
    }
    return delivery;
}

static void print_label(uint32_t sheet)
{
    uint8_t label[QUBATHIMI_LONGEST_LABEL];
    uint64_t length;

    qubathimi_write_label(sheet, label, sizeof label, &length);
    fwrite(label, 1, length, stdout);
}

/* The row of a missing sheet. */
static void print_missing(uint32_t sheet)
{
    printf("missing: ");
    print_label(sheet);
    putchar('\n');
}

/* The row of the line at a bad place of the delivery. */
static void print_bad(const struct window *window, const struct delivery *delivery, size_t place, uint32_t status)
{
    uint32_t sheet = delivery->sheets[place], scale = qubathimi_scale_of(sheet);

    printf("line %zu: ", delivery->numbers[place]);
    print_label(sheet);
    if (status == QUBATHIMI_SEEN_BEFORE) {
        size_t before = 0;
        while (delivery->sheets[before] != sheet) {
            before++;
        }
        printf(" stands in line %zu already", delivery->numbers[before]);
    } else {
        printf(" is not of the window");
        if (scale != window->scale) {
            printf("; it is a %s sheet", scales[scale]);
        }
    }
    putchar('\n');
}

/* Leaves a bad place out of the delivery. In front of it there are different sheets of the window and nothing else, so at most 4 096 move up,
 * however long the delivery is. */
static void leave_out(struct delivery *delivery, size_t place)
{
    memmove(delivery->sheets + 1, delivery->sheets, place * sizeof *delivery->sheets);
    memmove(delivery->numbers + 1, delivery->numbers, place * sizeof *delivery->numbers);
    delivery->sheets++;
    delivery->numbers++;
    delivery->count--;
}

/* The library says what it finds first. For all that there is to find it is asked again, with a bad place left out or a missing sheet put
 * in, until the delivery is complete. */
static int check(const struct window *window, struct delivery delivery, bool all)
{
    uint64_t value;
    uint32_t status = ask(window, delivery.sheets, delivery.count, &value);

    if (status == 0) {
        printf("complete: %" PRIu64 " %s\n", value, value == 1 ? "sheet" : "sheets");
        return written();
    }
    do {
        if (status == QUBATHIMI_MISSING) {
            print_missing((uint32_t)value);
            delivery.sheets[delivery.count++] = (uint32_t)value;
        } else {
            print_bad(window, &delivery, value, status);
            leave_out(&delivery, value);
        }
    } while (all && (status = ask(window, delivery.sheets, delivery.count, &value)) != 0);
    return written() != 0 ? 1 : 2;
}

int main(int count, char **words)
{
    bool all = count > 1 && strcmp(words[1], "-a") == 0;

    if (count != (all ? 8 : 7)) {
        fprintf(stderr, "usage: delivery [-a] SCALE WEST EAST SOUTH NORTH FILE, with SCALE as in 1:5000 and the edges in whole metres\n");
        return 1;
    }
    words += all ? 2 : 1;
    struct window window = window_of(words);
    return check(&window, delivery_of(words[5]), all);
}
