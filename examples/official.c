/* Which lines of a catalogue have another name than the official one of their sheet, and which sheet has an official name. The list has
 * the names of fifteen 1:250 000 sheets.
 *
 *     official CATALOGUE       the lines that differ
 *     official -a CATALOGUE    all lines of 1:250 000 sheets
 *     official -n NAME         the sheet of that name, whichever kind of computer it was typed on
 *
 * Prints a row for each line, with tabs between: its number, "agrees", "differs" or "not listed", the label, the name there, which may be of
 * no bytes, and, where it differs, the official one. Refused lines are told first, on standard error, and last how many lines are of other
 * scales. For a name it prints the sheet number, the label and the official name, or "not listed". Ends with 1 where a file cannot be read,
 * the rows cannot be written or it is called otherwise, and with 0 also where lines differ. */
#define PROGRAM "official"
#include "catalogue.h"

static void print_official(uint64_t sheet)
{
    uint8_t name[QUBATHIMI_LONGEST_OFFICIAL_NAME];
    uint64_t length;

    qubathimi_official_name((uint32_t)sheet, name, sizeof name, &length);
    print_part(name, 0, length);
}

static void print_line(const struct line *line, uint64_t answer)
{
    static const char *const words[] = {
        [QUBATHIMI_AGREES] = "agrees", [QUBATHIMI_DIFFERS] = "differs", [QUBATHIMI_NOT_LISTED] = "not listed"};

    printf("%zu\t%s", line->number, words[answer]);
    print_part(line->bytes, 0, line->label);
    print_part(line->bytes, line->start, line->end);
    if (answer == QUBATHIMI_DIFFERS) {
        print_official(line->sheet);
    }
    putchar('\n');
}

static int check(const char *path, bool all)
{
    struct catalogue catalogue = catalogue_of(path);
    size_t passed = 0;

    for (size_t i = 0; i < catalogue.count; i++) {
        const struct line *line = &catalogue.lines[i];
        uint64_t answer;
        /* An accepted line is refused here for its scale alone. */
        if (qubathimi_official_check(line->bytes, line->end, &answer) == QUBATHIMI_NOT_250_000) {
            passed++;
        } else if (all || answer == QUBATHIMI_DIFFERS) {
            print_line(line, answer);
        }
    }
    if (written() != 0) {
        return 1;
    }
    if (passed > 0) {
        fprintf(stderr, "%s: lines of other scales, not judged: %zu\n", path, passed);
    }
    return 0;
}

static int find(const char *name)
{
    uint8_t label[QUBATHIMI_LONGEST_LABEL];
    uint64_t sheet, length;

    qubathimi_official_sheet((const uint8_t *)name, strlen(name), &sheet);
    if (sheet == QUBATHIMI_NONE) {
        printf("not listed\n");
    } else {
        qubathimi_write_label((uint32_t)sheet, label, sizeof label, &length);
        printf("%" PRIu64, sheet);
        print_part(label, 0, length);
        print_official(sheet);
        putchar('\n');
    }
    return written();
}

int main(int count, char **words)
{
    if (count == 2 && words[1][0] != '-') {
        return check(words[1], false);
    }
    if (count == 3 && strcmp(words[1], "-a") == 0) {
        return check(words[2], true);
    }
    if (count == 3 && strcmp(words[1], "-n") == 0) {
        return find(words[2]);
    }
    fprintf(stderr, "usage: official CATALOGUE, official -a CATALOGUE, or official -n NAME\n");
    return 1;
}
