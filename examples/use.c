/* The library from C: a point's sheet, its label and its corners, a sheet's frame for a viewer, a cover, a catalogue line, what is wrong with
 * another, and a shelf list. */
#include <inttypes.h>
#include <stdio.h>
#include <stdlib.h>

#include "qubathimi.h"

/* Ends the program where an answer was expected and a refusal came. */
static void answered(uint32_t status)
{
    if (status != 0) {
        printf("refused %" PRIu32 "\n", status);
        exit(1);
    }
}

static void print_sheets(const char *what, const uint32_t *sheets, uint64_t count)
{
    printf("%s", what);
    for (uint64_t i = 0; i < count; i++) {
        printf(" %" PRIu32, sheets[i]);
    }
    printf("\n");
}

static void print_part(const char *what, const uint8_t *bytes, uint64_t start, uint64_t end)
{
    printf("%s %.*s\n", what, (int)(end - start), (const char *)bytes + start);
}

static void point_and_label(void)
{
    uint64_t sheet, length, again;
    uint8_t label[QUBATHIMI_LONGEST_LABEL];
    int64_t west, east, south, north;

    answered(qubathimi_sheet_at(9, 500000000, 5000000000, &sheet));
    printf("sheet %" PRIu64 "\n", sheet);
    answered(qubathimi_write_label((uint32_t)sheet, label, sizeof label, &length));
    print_part("label", label, 0, length);
    answered(qubathimi_read_label(label, length, &again));
    printf("read back %" PRIu64 "\n", again);
    answered(qubathimi_corners((uint32_t)sheet, &west, &east, &south, &north));
    printf("corners %" PRId64 " %" PRId64 " %" PRId64 " %" PRId64 "\n", west, east, south, north);
}

/* A viewer has floats: what lies under its pointer, and the frame to draw. */
static void viewer(void)
{
    uint64_t sheet;
    double west, east, south, north, middle_e, middle_n;

    answered(qubathimi_sheet_at_metres(3, 529999.9999999999, 5000000.25, &sheet));
    printf("under the pointer %" PRIu64 "\n", sheet);
    answered(qubathimi_frame((uint32_t)sheet, &west, &east, &south, &north, &middle_e, &middle_n));
    printf("frame %.1f %.1f %.1f %.1f, middle %.1f %.1f\n", west, east, south, north, middle_e, middle_n);
    /* A value that is infinite or no number has no sheet under it. */
    uint32_t status = qubathimi_frame_at_metres(3, 1.0 / 0.0, 5000000.25, &west, &east, &south, &north, &middle_e, &middle_n);
    printf("refused %" PRIu32 "\n", status);
}

static void cover(void)
{
    uint64_t count;
    uint32_t few[1];

    /* Room that is too short is told with the room needed. */
    uint32_t status = qubathimi_cover(4, 200000000, 260000000, 5150000000, 5170000000, few, 1, &count);
    printf("refused %" PRIu32 ", room needed %" PRIu64 "\n", status, count);

    uint32_t *sheets = malloc(count * sizeof *sheets);
    if (sheets == NULL) {
        exit(1);
    }
    answered(qubathimi_cover(4, 200000000, 260000000, 5150000000, 5170000000, sheets, count, &count));
    print_sheets("cover", sheets, count);
    free(sheets);
}

static void line(void)
{
    const uint8_t text[] = "50-109-11 Old town";
    const uint8_t fallback[] = "no name";
    const size_t length = sizeof text - 1;
    uint64_t sheet, label, start, end, source;

    answered(qubathimi_read_line(text, length, &sheet));
    answered(qubathimi_line_parts(text, length, &label, &start, &end));
    printf("line %" PRIu64 "\n", sheet);
    print_part("label", text, 0, label);
    print_part("name", text, start, end);
    /* The label by itself is a line without a name. */
    answered(qubathimi_caption(text, label, fallback, sizeof fallback - 1, &source, &start, &end));
    print_part("caption", source == QUBATHIMI_IN_FALLBACK ? fallback : text, start, end);
}

/* For the lender: the line, the refusal and its place, and a caret under it. */
static void wrong(void)
{
    const uint8_t text[] = "50-0109-11 Old town";
    const size_t length = sizeof text - 1;
    uint64_t place;

    uint32_t status = qubathimi_read_line(text, length, &place);
    print_part("line", text, 0, length);
    switch (status) {
    case QUBATHIMI_LABEL_LENGTH:
    case QUBATHIMI_STRANGE_BYTE:
    case QUBATHIMI_FIELD_FORM:
    case QUBATHIMI_NAMES_NO_SCALE:
    case QUBATHIMI_FIELD_RANGE:
        printf("     %*s\n", (int)place + 1, "^");
        printf("refused %" PRIu32 " at %" PRIu64 "\n", status, place);
        break;
    default:
        answered(status);
    }
}

static void list(void)
{
    const uint32_t sheets[] = {0, 344, QUBATHIMI_LAST_SHEET};
    uint8_t bytes[16];
    uint32_t room[8];
    uint64_t length, placed, value;

    answered(qubathimi_write_list(sheets, 3, bytes, sizeof bytes, &length));
    printf("list");
    for (uint64_t i = 0; i < length; i++) {
        printf(" %02X", bytes[i]);
    }
    printf("\n");
    answered(qubathimi_read_list(bytes, length, room, 8, &placed, &value));
    print_sheets("sheets", room, placed);
    /* A list that is cut short tells the sheets that are wholly there. */
    uint32_t status = qubathimi_read_list(bytes, 5, room, 8, &placed, &value);
    printf("refused %" PRIu32 "\n", status);
    print_sheets("sheets", room, placed);
}

int main(void)
{
    point_and_label();
    viewer();
    cover();
    line();
    wrong();
    list();
    return 0;
}
