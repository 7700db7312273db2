/* Which scale's sheets lie in which, and how any two sheets lie: asked of the library, sheet by sheet and point by point.
 *
 *     nesting                   of any two scales, whether each of the smaller sheets lies in one of the larger, and the first that does not
 *     nesting LABEL LABEL       how two sheets lie, with points that show it
 *     nesting -p LABEL LABEL    the same as a picture, in SVG
 *
 * A sheet lies in another where each of its points does. A sheet owns its west and north edge and not the other two, so two that only touch
 * share no point.
 *
 * Without labels it prints a table, a row and a column for each scale: "in" where every sheet of the row's scale lies in one sheet of the
 * column's, "part" where some sheet does not, "same" where the two scales are one, and "." where the row's sheets are the larger ones, so
 * that the cell to look at is the one with row and column exchanged. Then comes a line for each "part": two sheets that overlap in part, the
 * larger one of the lowest number and with it the smaller one of the lowest number, and how many of the smaller sheets run across an edge;
 * and last how many pairs of scales are of which kind. For this every sheet of all nine scales is asked about, at every scale whose sheets
 * are larger.
 *
 * For two labels it prints one of these, whichever of the two stands first,
 *
 *     50-109-11 and 50-109-12 share no point
 *     25-3-109-11 lies in 50-109-11
 *     50-109-11 and 50-109-11 are the same sheet
 *     250-101-1 and 100-101-3 overlap in part: 100-101-3 runs across the east edge of 250-101-1
 *
 * and then, where there is one, a point A that is in both, B that is in the first alone and C that is in the second alone, each with the
 * sheets that it lies in at the two scales. The picture has the two sheets to scale, but at least a pixel wide and high, north up, with these
 * points, the ground that is in both, and in thin lines the sheets of the smaller one's scale that cover the larger one, where they are at
 * most 4 096 and not too small to be told apart.
 *
 * Refused labels are told on standard error. Ends with 0, and with 1 where a label is refused, what is printed cannot be written or it is
 * called otherwise. */
#define PROGRAM "nesting"
#define WORDS line_in_words
#include "catalogue.h"

#define SCALES QUBATHIMI_LAST_SCALE

static const char *const scales[SCALES + 1] = {
    [1] = "1:250 000", [2] = "1:100 000", [3] = "1:50 000", [4] = "1:25 000", [5] = "1:10 000",
    [6] = "1:5 000",   [7] = "1:2 000",   [8] = "1:1 000",  [9] = "1:500",
};

/* ---- What is asked ---- */

/* Ends the program where an answer was expected and a refusal came, or answers that do not go together. */
static void answered(uint32_t status, bool possible)
{
    if (status != 0 || !possible) {
        fprintf(stderr, "nesting: the library gave an answer that cannot be, with the status %" PRIu32 "\n", status);
        exit(1);
    }
}

/* The sheet of a scale in which a point lies, and QUBATHIMI_NONE outside the area. */
static uint32_t at(uint32_t scale, int64_t e, int64_t n)
{
    uint64_t sheet;
    uint32_t status = qubathimi_sheet_at(scale, e, n, &sheet);

    if (status == 0) {
        return (uint32_t)sheet;
    }
    answered(status == QUBATHIMI_POINT_OUTSIDE ? 0 : status, true);
    return QUBATHIMI_NONE;
}

/* Whether the sheets of one scale are larger than those of another. */
static bool is_larger(uint32_t scale, uint32_t than)
{
    return qubathimi_width(scale) > qubathimi_width(than) && qubathimi_height(scale) > qubathimi_height(than);
}

/* A sheet, with its edges in millimetres and its label with a zero byte behind it. */
struct sheet {
    uint32_t number, scale;
    int64_t west, east, south, north;
    char label[QUBATHIMI_LONGEST_LABEL + 1];
};

static struct sheet sheet_of(uint32_t number)
{
    struct sheet sheet = {.number = number, .scale = qubathimi_scale_of(number)};
    uint64_t length;

    answered(qubathimi_corners(number, &sheet.west, &sheet.east, &sheet.south, &sheet.north), sheet.scale != 0);
    answered(qubathimi_write_label(number, (uint8_t *)sheet.label, QUBATHIMI_LONGEST_LABEL, &length), true);
    sheet.label[length] = '\0';
    return sheet;
}

/* ---- What is printed ---- */

/* A number with a blank before every three digits. */
static void print_number(int64_t number)
{
    if (number >= 1000) {
        print_number(number / 1000);
        printf(" %03d", (int)(number % 1000));
    } else {
        printf("%d", (int)number);
    }
}

/* Millimetres as metres. Only the coordinates of edges are printed, and these are whole metres. */
static void print_metres(int64_t millimetres)
{
    print_number(millimetres / 1000);
    printf(" m");
}

/* ---- Two sheets ---- */

/* What a point shows of two sheets, and its letter. */
enum kind { BOTH, FIRST, SECOND, KINDS };
static const char letters[] = "ABC";
static const char *const shown[KINDS] = {"in both", "in the first alone", "in the second alone"};

/* A point, and the sheets in which it lies at the scales of the two. Where there is none of its kind, it is not found. */
struct point {
    bool found;
    int64_t e, n;
    uint32_t in[2];
};

struct two {
    struct sheet sheets[2];
    struct point points[KINDS];
};

static int rising(const void *a, const void *b)
{
    int64_t one = *(const int64_t *)a, other = *(const int64_t *)b;
    return one < other ? -1 : one > other;
}

/* Two sheets, and of each kind the northernmost point, of those in its row the westernmost, out of sixteen: where an edge of either or its
 * extension meets another. These are enough. The edges and their extensions cut the ground into pieces. Each of the two sheets has a piece
 * whole or has no point of it, and a piece that either of them has owns its north-west corner, which is one of the sixteen. In which sheets
 * each of the sixteen lies is asked, and not worked out. */
static struct two two_of(uint32_t one, uint32_t other)
{
    struct two two = {.sheets = {sheet_of(one), sheet_of(other)}};
    const struct sheet *a = &two.sheets[0], *b = &two.sheets[1];
    int64_t e[4] = {a->west, a->east, b->west, b->east}, n[4] = {a->south, a->north, b->south, b->north};

    qsort(e, 4, sizeof *e, rising);
    qsort(n, 4, sizeof *n, rising);
    for (int row = 3; row >= 0; row--) {
        for (int column = 0; column < 4; column++) {
            struct point point = {true, e[column], n[row], {at(a->scale, e[column], n[row]), at(b->scale, e[column], n[row])}};
            bool first = point.in[0] == one, second = point.in[1] == other;
            if (first || second) {
                enum kind kind = first && second ? BOTH : first ? FIRST : SECOND;
                if (!two.points[kind].found) {
                    two.points[kind] = point;
                }
            }
        }
    }
    return two;
}

/* Which of the two sheets is the larger one, 0 or 1: the first where they are of one scale. */
static int larger_of(const struct two *two)
{
    return is_larger(two->sheets[1].scale, two->sheets[0].scale);
}

/* How two sheets lie. */
static void print_how(const struct two *two)
{
    const char *first = two->sheets[0].label, *second = two->sheets[1].label;

    if (!two->points[BOTH].found) {
        printf("%s and %s share no point", first, second);
    } else if (two->points[FIRST].found && two->points[SECOND].found) {
        printf("%s and %s overlap in part", first, second);
    } else if (two->points[FIRST].found) {
        printf("%s lies in %s", second, first);
    } else if (two->points[SECOND].found) {
        printf("%s lies in %s", first, second);
    } else {
        printf("%s and %s are the same sheet", first, second);
    }
}

/* Of two sheets that overlap in part, which edges of the larger one the smaller one runs across: from a point in both, the smaller one's last
 * point in that direction is no longer in the larger one. */
static void print_across(const struct two *two)
{
    const struct sheet *large = &two->sheets[larger_of(two)], *small = &two->sheets[!larger_of(two)];
    const struct point *both = &two->points[BOTH];
    const char *between = "the";

    if (!both->found || !two->points[FIRST].found || !two->points[SECOND].found) {
        return;
    }
    const struct {
        const char *edge;
        int64_t e, n;
    } ends[4] = {{"north", both->e, small->north},
                 {"south", both->e, small->south + 1},
                 {"west", small->west, both->n},
                 {"east", small->east - 1, both->n}};
    printf(": %s runs across ", small->label);
    for (int i = 0; i < 4; i++) {
        answered(0, at(small->scale, ends[i].e, ends[i].n) == small->number);
        if (at(large->scale, ends[i].e, ends[i].n) != large->number) {
            printf("%s %s ", between, ends[i].edge);
            between = "and the";
        }
    }
    printf("edge of %s", large->label);
}

static int print_two(const struct two *two)
{
    print_how(two);
    print_across(two);
    putchar('\n');
    for (int kind = 0; kind < KINDS; kind++) {
        const struct point *point = &two->points[kind];
        if (point->found) {
            printf("%c: E ", letters[kind]);
            print_metres(point->e);
            printf(", N ");
            print_metres(point->n);
            printf(" lies in %s", sheet_of(point->in[0]).label);
            if (two->sheets[0].scale != two->sheets[1].scale) {
                printf(" and in %s", sheet_of(point->in[1]).label);
            }
            printf(": %s\n", shown[kind]);
        }
    }
    return written();
}

/* ---- All sheets ---- */

/* Of a scale and one whose sheets are larger: how many of the smaller sheets do not lie in one larger sheet, and the first two sheets that
 * overlap in part. */
struct nesting {
    uint32_t parted, larger, smaller;
};

/* Counts a sheet whose outermost points lie in these four larger sheets, which are not all the same. Sheets come in rising order, so of those
 * that overlap the same larger sheet the first stays. */
static void part(struct nesting *nesting, uint32_t sheet, const uint32_t in[4])
{
    for (int i = 0; i < 4; i++) {
        if ((nesting->parted == 0 && i == 0) || in[i] < nesting->larger) {
            nesting->larger = in[i];
            nesting->smaller = sheet;
        }
    }
    nesting->parted++;
}

/* Asks about all sheets of a scale. A sheet's own points are those from its north-west corner to the point a millimetre inside its south-east
 * one. Both of these belong to it, and it lies in another sheet exactly if they do: all sheets are rectangles along the same two directions.
 * Where the two lie in different sheets, they and the other two outermost points tell all larger sheets that it shares a point with. */
static void ask_scale(uint32_t scale, struct nesting of[SCALES + 1])
{
    uint32_t larger[SCALES], count = 0, last = qubathimi_last(scale);
    int64_t west, east, south, north;

    for (uint32_t s = 1; s <= SCALES; s++) {
        if (is_larger(s, scale)) {
            larger[count++] = s;
        }
    }
    for (uint32_t sheet = qubathimi_first(scale); sheet <= last; sheet++) {
        answered(qubathimi_corners(sheet, &west, &east, &south, &north), true);
        answered(0, at(scale, west, north) == sheet && at(scale, east - 1, south + 1) == sheet);
        for (uint32_t i = 0; i < count; i++) {
            uint32_t s = larger[i], one = at(s, west, north), other = at(s, east - 1, south + 1);
            if (one != other) {
                const uint32_t in[4] = {one, other, at(s, east - 1, north), at(s, west, south + 1)};
                part(&of[s], sheet, in);
            }
        }
    }
}

/* What the table says of a scale's sheets and those of another. */
static const char *cell(uint32_t scale, uint32_t other, const struct nesting *nesting)
{
    return scale == other ? "same" : !is_larger(other, scale) ? "." : nesting->parted > 0 ? "part" : "in";
}

static void print_table(struct nesting of[SCALES + 1][SCALES + 1])
{
    const char *corner = "row in column";

    printf("| %s |", corner);
    for (uint32_t s = 1; s <= SCALES; s++) {
        printf(" %s |", scales[s]);
    }
    printf("\n|%.*s|", (int)strlen(corner) + 2, "--------------------");
    for (uint32_t s = 1; s <= SCALES; s++) {
        printf("%.*s|", (int)strlen(scales[s]) + 2, "--------------------");
    }
    putchar('\n');
    for (uint32_t t = 1; t <= SCALES; t++) {
        printf("| %-*s |", (int)strlen(corner), scales[t]);
        for (uint32_t s = 1; s <= SCALES; s++) {
            printf(" %-*s |", (int)strlen(scales[s]), cell(t, s, &of[t][s]));
        }
        putchar('\n');
    }
}

static int print_all(void)
{
    static struct nesting of[SCALES + 1][SCALES + 1];
    uint32_t inside = 0, parted = 0, sheets = 0;

    for (uint32_t t = 1; t <= SCALES; t++) {
        ask_scale(t, of[t]);
        sheets += qubathimi_last(t) - qubathimi_first(t) + 1;
    }
    print_table(of);
    putchar('\n');
    for (uint32_t s = 1; s <= SCALES; s++) {
        for (uint32_t t = 1; t <= SCALES; t++) {
            const struct nesting *nesting = &of[t][s];
            if (nesting->parted > 0) {
                struct two two = two_of(nesting->larger, nesting->smaller);
                printf("%s with %s: ", scales[s], scales[t]);
                print_how(&two);
                print_across(&two);
                printf("; ");
                print_number(nesting->parted);
                printf(" of ");
                print_number(qubathimi_last(t) - qubathimi_first(t) + 1);
                printf(" run across an edge\n");
                parted++;
            } else if (is_larger(s, t)) {
                inside++;
            }
        }
    }
    printf("%" PRIu32 " pairs of scales: %" PRIu32 " in, %" PRIu32 " in part; ", inside + parted, inside, parted);
    print_number(sheets);
    printf(" sheets asked\n");
    return written();
}

/* ---- The picture ---- */

/* Places on the page are in tenths of a pixel, in whole numbers, so that every machine draws the same. The drawing lies between the margins,
 * below the heading and a band for a label; below it come another band, a bar that shows the scale, and the legend. */
#define PAGE 7600
#define MARGIN 400
#define TOP 900
#define HIGHEST 5200
#define ROW 200
#define GAP 120
/* a sheet is drawn at least so wide and high */
#define LEAST 10
/* a sheet that is less wide would be hidden by a dot, or not be told apart from its neighbours */
#define NARROW 60

/* The ground that is drawn, and how: `wide` tenths for `over` millimetres. */
struct view {
    int64_t west, east, south, north, wide, over;
};

/* The strokes of the larger and the smaller sheet, which differ in print without colours too, and of the other sheets. */
static const char *const strokes[2] = {"fill=\"none\" stroke=\"#17396e\" stroke-width=\"3.5\"",
                                       "fill=\"none\" stroke=\"#b3241c\" stroke-width=\"2.5\" stroke-dasharray=\"9 4\""};
static const char *const fills[2] = {"fill=\"#e3ebf6\"", "fill=\"#fbe6e3\""};
static const char *const thin = "fill=\"none\" stroke=\"#777\" stroke-width=\"0.7\"";

static int64_t x_of(const struct view *view, int64_t e)
{
    int64_t whole = (view->east - view->west) * view->wide / view->over;
    return (PAGE - whole) / 2 + (e - view->west) * view->wide / view->over;
}

static int64_t y_of(const struct view *view, int64_t n)
{
    return TOP + (view->north - n) * view->wide / view->over;
}

static bool is_narrow(const struct view *view, const struct sheet *sheet)
{
    return x_of(view, sheet->east) - x_of(view, sheet->west) < NARROW;
}

/* Adds a sheet to the view: the least ground that has it too, drawn as large as fits between the margins, and not higher than HIGHEST. */
static void widen(struct view *view, const struct sheet *sheet)
{
    view->west = sheet->west < view->west ? sheet->west : view->west;
    view->east = sheet->east > view->east ? sheet->east : view->east;
    view->south = sheet->south < view->south ? sheet->south : view->south;
    view->north = sheet->north > view->north ? sheet->north : view->north;
    view->wide = PAGE - 2 * MARGIN;
    view->over = view->east - view->west;
    if ((view->north - view->south) * view->wide > HIGHEST * view->over) {
        view->wide = HIGHEST;
        view->over = view->north - view->south;
    }
}

static void print_at(const char *attribute, int64_t tenths)
{
    printf(" %s=\"%" PRId64 ".%" PRId64 "\"", attribute, tenths / 10, tenths % 10);
}

/* A rectangle between two places on the page. */
static void print_box(int64_t left, int64_t right, int64_t upper, int64_t lower, const char *style)
{
    printf("<rect");
    print_at("x", left);
    print_at("y", upper);
    print_at("width", right - left);
    print_at("height", lower - upper);
    printf(" %s/>\n", style);
}

static void print_line(int64_t x1, int64_t y1, int64_t x2, int64_t y2, const char *style)
{
    printf("<line");
    print_at("x1", x1);
    print_at("y1", y1);
    print_at("x2", x2);
    print_at("y2", y2);
    printf(" %s/>\n", style);
}

static int64_t at_least(int64_t least, int64_t tenths)
{
    return tenths < least ? least : tenths;
}

static void print_ground(const struct view *view, int64_t west, int64_t east, int64_t south, int64_t north, const char *style)
{
    int64_t left = x_of(view, west), upper = y_of(view, north);
    print_box(left, at_least(left + LEAST, x_of(view, east)), upper, at_least(upper + LEAST, y_of(view, south)), style);
}

static void print_sheet(const struct view *view, const struct sheet *sheet, const char *style)
{
    print_ground(view, sheet->west, sheet->east, sheet->south, sheet->north, style);
}

static void print_dot(int64_t x, int64_t y)
{
    printf("<circle");
    print_at("cx", x);
    print_at("cy", y);
    printf(" r=\"4\" fill=\"#000\" stroke=\"#fff\"/>\n");
}

/* The beginning and the end of a text on the page. Its anchor is start, middle or end. */
static void begin_text(int64_t x, int64_t y, const char *anchor, const char *style)
{
    printf("<text");
    print_at("x", x);
    print_at("y", y);
    printf(" text-anchor=\"%s\"%s>", anchor, style);
}

static void end_text(void)
{
    printf("</text>\n");
}

static void print_word(int64_t x, int64_t y, const char *anchor, const char *word)
{
    begin_text(x, y, anchor, "");
    printf("%s", word);
    end_text();
}

/* The head of a column in the legend. */
static void print_head(int64_t x, int64_t y, const char *anchor, const char *word)
{
    begin_text(x, y, anchor, " fill=\"#555\"");
    printf("%s", word);
    end_text();
}

static void print_length(int64_t x, int64_t y, int64_t millimetres)
{
    begin_text(x, y, "end", "");
    print_metres(millimetres);
    end_text();
}

/* Where on the northern or the southern edge of a sheet the line to its label ends: at the middle or, where a point is drawn near that, at
 * another place that is 30 pixels from every point or as far as can be. */
static int64_t label_end(const struct view *view, const struct two *two, const struct sheet *sheet, bool above)
{
    static const int sixteenths[] = {8, 12, 4, 14, 2, 15, 1};
    int64_t left = x_of(view, sheet->west), wide = x_of(view, sheet->east) - left, y = y_of(view, above ? sheet->north : sheet->south);
    int64_t best = left, most = -1;

    for (size_t i = 0; i < sizeof sixteenths / sizeof *sixteenths; i++) {
        int64_t x = left + wide * sixteenths[i] / 16, least = 300;
        for (int kind = 0; kind < KINDS; kind++) {
            const struct point *point = &two->points[kind];
            if (point->found && llabs(y_of(view, point->n) - y) < 300 && llabs(x_of(view, point->e) - x) < least) {
                least = llabs(x_of(view, point->e) - x);
            }
        }
        if (least > most) {
            most = least;
            best = x;
        }
    }
    return best;
}

/* The label and the scale of a sheet in the band above or below the drawing, with a line to the sheet's edge. The line meets their middle,
 * unless they would reach beyond a margin: they have at most 23 characters, for which 260 pixels are enough. */
static void print_label(const struct view *view, const struct two *two, const struct sheet *sheet, bool above)
{
    int64_t x = label_end(view, two, sheet, above), band = above ? TOP - 250 : y_of(view, view->south) + 160;
    bool left = x < MARGIN + 1300, right = x > PAGE - MARGIN - 1300;

    print_line(x, band, x, y_of(view, above ? sheet->north : sheet->south), "stroke=\"#333\"");
    begin_text(left ? MARGIN : right ? PAGE - MARGIN : x, above ? band - 50 : band + 140, left ? "start" : right ? "end" : "middle",
               " font-size=\"14\"");
    printf("%s, %s", sheet->label, scales[sheet->scale]);
    end_text();
}

/* Whether a dot at this place would hide one of the sheets. */
static bool hides(const struct view *view, const struct two *two, int64_t x, int64_t y)
{
    for (int i = 0; i < 2; i++) {
        const struct sheet *sheet = &two->sheets[i];
        if (is_narrow(view, sheet) && llabs(x - x_of(view, sheet->west)) < 100 && llabs(y - y_of(view, sheet->north)) < 100) {
            return true;
        }
    }
    return false;
}

/* The letters stand beside their points, with white around them: those in both, in the larger one alone and in the smaller one alone each on
 * a side of their own, so that they do not meet where the points do. A dot that would hide a sheet is left out. */
static void print_points(const struct view *view, const struct two *two)
{
    static const struct {
        int x, y;
        const char *anchor;
    } sides[] = {{-60, -70, "end"}, {60, 160, "start"}, {60, -70, "start"}};
    static const char *const styles[] = {" font-size=\"15\" font-weight=\"bold\" fill=\"none\" stroke=\"#fff\" stroke-width=\"4\"",
                                         " font-size=\"15\" font-weight=\"bold\""};

    for (int kind = 0; kind < KINDS; kind++) {
        const struct point *point = &two->points[kind];
        int64_t x = x_of(view, point->e), y = y_of(view, point->n);
        int side = kind == BOTH ? 0 : (kind == FIRST) == (larger_of(two) == 0) ? 1 : 2;
        for (int i = 0; point->found && i < 2; i++) {
            begin_text(x + sides[side].x, y + sides[side].y, sides[side].anchor, styles[i]);
            putchar(letters[kind]);
            end_text();
        }
    }
    for (int kind = 0; kind < KINDS; kind++) {
        const struct point *point = &two->points[kind];
        int64_t x = x_of(view, point->e), y = y_of(view, point->n);
        if (point->found && !hides(view, two, x, y)) {
            print_dot(x, y);
        }
    }
}

/* The next longer one of 1, 2, 5, 10, 20, 50 and so on. */
static int64_t longer(int64_t length)
{
    return length < 10 ? (length == 2 ? 5 : 2 * length) : 10 * longer(length / 10);
}

/* A bar of a round length, at most 160 pixels, and where north is. */
static void print_bar(const struct view *view, int64_t y)
{
    int64_t metres = 1, right, x = PAGE - MARGIN - 60;

    while (longer(metres) * 1000 * view->wide / view->over <= 1600) {
        metres = longer(metres);
    }
    right = MARGIN + metres * 1000 * view->wide / view->over;
    print_line(MARGIN, y, right, y, "stroke=\"#000\" stroke-width=\"2\"");
    print_line(MARGIN, y - 50, MARGIN, y + 50, "stroke=\"#000\"");
    print_line(right, y - 50, right, y + 50, "stroke=\"#000\"");
    begin_text(right + 100, y + 45, "start", "");
    print_number(metres < 1000 ? metres : metres / 1000);
    printf(metres < 1000 ? " m" : " km");
    end_text();
    print_line(x, y + 120, x, y - 120, "stroke=\"#000\" stroke-width=\"1.5\"");
    print_line(x - 45, y - 40, x, y - 120, "stroke=\"#000\" stroke-width=\"1.5\"");
    print_line(x + 45, y - 40, x, y - 120, "stroke=\"#000\" stroke-width=\"1.5\"");
    print_word(x - 80, y + 45, "end", "N");
}

/* The legend's rows of sheets: a sample of the outline, label, scale and edges. Returns where the next row is. */
static int64_t print_sheets(const struct two *two, int64_t y)
{
    static const char *const heads[] = {"west", "east", "south", "north"};
    int count = two->sheets[0].number == two->sheets[1].number ? 1 : 2;

    print_head(800, y, "start", "sheet");
    print_head(2150, y, "start", "scale");
    for (int i = 0; i < 4; i++) {
        print_head(3900 + 1100 * i, y, "end", heads[i]);
    }
    for (int i = 0; i < count; i++) {
        const struct sheet *sheet = &two->sheets[i];
        const int64_t edges[] = {sheet->west, sheet->east, sheet->south, sheet->north};
        y += ROW;
        print_line(MARGIN, y - 40, MARGIN + 280, y - 40, strokes[i != larger_of(two)]);
        print_word(800, y, "start", sheet->label);
        print_word(2150, y, "start", scales[sheet->scale]);
        for (int k = 0; k < 4; k++) {
            print_length(3900 + 1100 * k, y, edges[k]);
        }
    }
    return y + ROW + GAP;
}

/* The legend's rows of points: E, N and the sheets in which the point lies, at the scales of the two. */
static int64_t print_places(const struct two *two, int64_t y)
{
    int count = two->sheets[0].scale == two->sheets[1].scale ? 1 : 2;

    print_head(MARGIN, y, "start", "point");
    print_head(1700, y, "end", "E");
    print_head(2800, y, "end", "N");
    for (int i = 0; i < count; i++) {
        begin_text(3050 + 1400 * i, y, "start", " fill=\"#555\"");
        printf("at %s", scales[two->sheets[i].scale]);
        end_text();
    }
    for (int kind = 0; kind < KINDS; kind++) {
        const struct point *point = &two->points[kind];
        if (point->found) {
            y += ROW;
            print_dot(MARGIN + 50, y - 45);
            begin_text(MARGIN + 150, y, "start", " font-weight=\"bold\"");
            putchar(letters[kind]);
            end_text();
            print_length(1700, y, point->e);
            print_length(2800, y, point->n);
            for (int i = 0; i < count; i++) {
                print_word(3050 + 1400 * i, y, "start", sheet_of(point->in[i]).label);
            }
            print_word(3050 + 1400 * count, y, "start", shown[kind]);
        }
    }
    return y + ROW + GAP;
}

/* The legend's rows of what else is drawn, or is not. */
static void print_keys(const struct two *two, uint64_t covering, int64_t y)
{
    const struct sheet *large = &two->sheets[larger_of(two)], *small = &two->sheets[!larger_of(two)];

    if (two->points[BOTH].found) {
        print_box(MARGIN, MARGIN + 280, y - 110, y + 20, "fill=\"#ccc\"");
        print_box(MARGIN, MARGIN + 280, y - 110, y + 20, "fill=\"url(#hatch)\"");
        print_word(800, y, "start", "the ground that is in both");
        y += ROW;
    }
    if (covering > 0) {
        print_box(MARGIN, MARGIN + 140, y - 110, y + 20, thin);
        print_box(MARGIN + 140, MARGIN + 280, y - 110, y + 20, thin);
        begin_text(800, y, "start", "");
        printf("the ");
        print_number((int64_t)covering);
        printf(" sheets of %s that cover %s", scales[small->scale], large->label);
        end_text();
    } else if (small->scale != large->scale) {
        begin_text(800, y, "start", "");
        printf("the sheets of %s that cover %s are too many or too small to be drawn", scales[small->scale], large->label);
        end_text();
    }
}

/* The ground that is in both: the north-west corner is the point found there, and it ends with the sheet that ends first. */
static void print_common(const struct view *view, const struct two *two, const char *style)
{
    const struct sheet *a = &two->sheets[0], *b = &two->sheets[1];
    const struct point *corner = &two->points[BOTH];

    if (corner->found) {
        print_ground(view, corner->e, a->east < b->east ? a->east : b->east, a->south > b->south ? a->south : b->south, corner->n, style);
    }
}

static int print_picture(const struct two *two)
{
    static uint32_t cover[QUBATHIMI_MOST_SHEETS];
    const struct sheet *large = &two->sheets[larger_of(two)], *small = &two->sheets[!larger_of(two)];
    struct view view = {large->west, large->east, large->south, large->north, 0, 1};
    uint64_t covering = 0;

    if (large->scale != small->scale) {
        uint32_t status = qubathimi_cover(small->scale, large->west, large->east, large->south, large->north, cover, QUBATHIMI_MOST_SHEETS,
                                          &covering);
        answered(status == QUBATHIMI_TOO_MANY ? 0 : status, true);
    }
    widen(&view, small);
    for (uint64_t i = 0; i < covering; i++) {
        struct sheet sheet = sheet_of(cover[i]);
        widen(&view, &sheet);
    }
    if (is_narrow(&view, small)) {
        covering = 0;
    }

    /* The legend has at most nine rows, two of which are heads. The page is whole pixels high. */
    int64_t bar = y_of(&view, view.south) + 560, legend = bar + 440, page = (legend + 9 * ROW + 2 * GAP) / 10 * 10;
    printf("<svg xmlns=\"http://www.w3.org/2000/svg\" width=\"%d\" height=\"%d\" ", PAGE / 10, (int)(page / 10));
    printf("viewBox=\"0 0 %d %d\" role=\"img\" font-family=\"sans-serif\" font-size=\"12\">\n<title>", PAGE / 10, (int)(page / 10));
    print_how(two);
    printf("</title>\n<desc>");
    print_how(two);
    print_across(two);
    printf(". Both are drawn to scale%s, north up.</desc>\n", is_narrow(&view, small) ? ", but at least a pixel wide and high" : "");
    printf("<defs><pattern id=\"hatch\" width=\"7\" height=\"7\" patternUnits=\"userSpaceOnUse\" patternTransform=\"rotate(45)\">"
           "<line x1=\"0\" y1=\"0\" x2=\"0\" y2=\"7\" stroke=\"#555\" stroke-width=\"2\"/></pattern></defs>\n");
    print_box(0, PAGE, 0, page, "fill=\"#fff\"");
    begin_text(MARGIN, 280, "start", " font-size=\"16\" font-weight=\"bold\"");
    print_how(two);
    end_text();

    print_sheet(&view, large, fills[0]);
    print_sheet(&view, small, fills[1]);
    print_common(&view, two, "fill=\"#ccc\"");
    print_common(&view, two, "fill=\"url(#hatch)\"");
    for (uint64_t i = 0; i < covering; i++) {
        struct sheet sheet = sheet_of(cover[i]);
        print_sheet(&view, &sheet, thin);
    }
    print_sheet(&view, large, strokes[0]);
    if (large->number != small->number) {
        print_sheet(&view, small, strokes[1]);
    }

    /* The smaller sheet has its label on the nearer side, and the larger one on the other. */
    bool above = 2 * view.north - small->north - small->south <= view.north - view.south;
    print_label(&view, two, large, !above);
    if (large->number != small->number) {
        print_label(&view, two, small, above);
    }
    print_points(&view, two);
    print_bar(&view, bar);
    print_keys(two, covering, print_places(two, print_sheets(two, legend)));
    printf("</svg>\n");
    return written();
}

/* ---- The program ---- */

/* Whether a word is a label, and the sheet of it. One that is refused is told, with "?" for control bytes. */
static bool read_label(const char *word, uint32_t *sheet)
{
    uint64_t value;
    uint32_t status = qubathimi_read_label((const uint8_t *)word, strlen(word), &value);

    if (status != 0) {
        fprintf(stderr, "nesting: '");
        for (; *word != '\0'; word++) {
            fputc((unsigned char)*word < 32 || *word == 127 ? '?' : *word, stderr);
        }
        fprintf(stderr, "': ");
        print_refusal(stderr, status, value);
        fprintf(stderr, "\n");
    }
    *sheet = (uint32_t)value;
    return status == 0;
}

int main(int count, char **words)
{
    bool picture = count > 1 && strcmp(words[1], "-p") == 0;
    uint32_t one, other;

    if (count == 1) {
        return print_all();
    }
    if (count != (picture ? 4 : 3)) {
        fprintf(stderr, "usage: nesting, nesting LABEL LABEL, or nesting -p LABEL LABEL\n");
        return 1;
    }
    bool first = read_label(words[count - 2], &one), second = read_label(words[count - 1], &other);
    if (!first || !second) {
        return 1;
    }
    struct two two = two_of(one, other);
    return picture ? print_picture(&two) : print_two(&two);
}
