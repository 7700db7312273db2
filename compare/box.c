/* The library's side of the comparison: answers the questions that compare/against.rs asks, through include/qubathimi.h alone.
 *
 * Standard input has blocks: a length of four bytes, then so many bytes of questions. A question is its kind (a byte), a salt (four
 * bytes) and what is asked; numbers are little-endian, floats are told by their bits, bytes, sheets and holdings have their count in four
 * bytes before them, room has its length in four bytes. A block is read whole before its first answer is written. The end of the input
 * ends the program.
 *
 * An answer is its length (four bytes), then the kind, a byte that is 1 where something beside the places lent was written to, the
 * function's result (four bytes), the numbers or floats that it gives by pointers (eight bytes each), and the lent room: the first place
 * that has lost its mark and the place behind the last such one (four bytes each), then all from the one up to the other.
 *
 * Every place that a function may write to is marked beforehand, and so are the places around it. Marks depend on the salt. */
#include "qubathimi.h"

extern long read(int file, void *to, size_t most);
extern long write(int file, const void *from, size_t count);

enum { LARGEST_BLOCK = 1 << 23, LARGEST_ANSWER = 1 << 17, ANSWERS = 1 << 24, GUARD = 8, MOST_ROOM = 1 << 14, MOST_OUT = 6 };

static uint8_t block[LARGEST_BLOCK];
static uint8_t answers[ANSWERS];
static size_t answered;
static const uint8_t *asked;
static const uint8_t *asked_end;
static int broken;

static int read_all(uint8_t *to, size_t count) {
    size_t got = 0;
    while (got < count) {
        long more = read(0, to + got, count - got);
        if (more <= 0) return 0;
        got += (size_t)more;
    }
    return 1;
}

static int write_all(const uint8_t *from, size_t count) {
    size_t gone = 0;
    while (gone < count) {
        long more = write(1, from + gone, count - gone);
        if (more <= 0) return 0;
        gone += (size_t)more;
    }
    return 1;
}

/* ---- What is asked ---- */

static uint64_t take(int bytes) {
    uint64_t number = 0;
    if (asked_end - asked < bytes) {
        broken = 1;
        return 0;
    }
    for (int k = 0; k < bytes; k++) number |= (uint64_t)*asked++ << 8 * k;
    return number;
}

static uint32_t take_u32(void) { return (uint32_t)take(4); }
static int64_t take_i64(void) { return (int64_t)take(8); }

/* A number, or a float that is looked at by its bits alone, so that none is altered on its way. */
union number {
    uint64_t whole;
    double metres;
};

static double take_metres(void) {
    union number taken;
    taken.whole = take(8);
    return taken.metres;
}

static const uint8_t *take_bytes(size_t *count) {
    const uint8_t *from;
    *count = take(4);
    if ((size_t)(asked_end - asked) < *count) {
        broken = 1;
        *count = 0;
    }
    from = asked;
    asked += *count;
    return from;
}

static uint32_t sheets[MOST_ROOM];

static const uint32_t *take_sheets(size_t *count) {
    *count = take(4);
    if (*count > MOST_ROOM) {
        broken = 1;
        *count = 0;
    }
    for (size_t k = 0; k < *count; k++) sheets[k] = take_u32();
    return sheets;
}

/* ---- Marks ---- */

static uint32_t salt;
static union number out[2 * MOST_OUT + 1];
static uint32_t small[2 * MOST_OUT + 1];
static uint8_t bytes_room[MOST_ROOM + 2 * GUARD];
static uint32_t sheets_room[MOST_ROOM + 2 * GUARD];
static size_t room;

static uint64_t mark(uint64_t place) { return ((uint64_t)salt + place + 1) * UINT64_C(0x9E3779B97F4A7C15); }
static uint32_t mark_u32(uint64_t place) { return (uint32_t)(mark(place) >> 32) | UINT32_C(0x80000000); }
static uint8_t mark_u8(uint64_t place) { return (uint8_t)(mark(place) >> 56) | 0x80; }

/* The places lent are the odd ones; the even ones lie between them and must keep their marks. */
static void mark_out(void) {
    for (int k = 0; k <= 2 * MOST_OUT; k++) {
        out[k].whole = mark((uint64_t)k);
        small[k] = mark_u32((uint64_t)k);
    }
}

static uint64_t *at(int k) { return &out[2 * k + 1].whole; }
static double *metres_at(int k) { return &out[2 * k + 1].metres; }
static uint32_t *small_at(int k) { return &small[2 * k + 1]; }

static void take_room(void) {
    room = take(4);
    if (room > MOST_ROOM) {
        broken = 1;
        room = 0;
    }
}

static uint8_t *lend_bytes(void) {
    take_room();
    for (size_t k = 0; k < room + 2 * GUARD; k++) bytes_room[k] = mark_u8(k);
    return bytes_room + GUARD;
}

static uint32_t *lend_sheets(void) {
    take_room();
    for (size_t k = 0; k < room + 2 * GUARD; k++) sheets_room[k] = mark_u32(k);
    return sheets_room + GUARD;
}

/* ---- Answers ---- */

static size_t begun;

static void put(uint64_t number, int bytes) {
    for (int k = 0; k < bytes; k++) answers[answered++] = (uint8_t)(number >> 8 * k);
}

static void begin(uint8_t kind, uint32_t result) {
    uint8_t strayed = 0;
    for (int k = 0; k <= 2 * MOST_OUT; k += 2) {
        if (out[k].whole != mark((uint64_t)k) || small[k] != mark_u32((uint64_t)k)) strayed = 1;
    }
    begun = answered;
    put(0, 4);
    put(kind, 1);
    put(strayed, 1);
    put(result, 4);
}

static void put_out(int count) {
    for (int k = 0; k < count; k++) put(out[2 * k + 1].whole, 8);
}

static void put_bytes_room(void) {
    size_t from = 0, to = room + 2 * GUARD;
    while (from < to && bytes_room[from] == mark_u8(from)) from++;
    while (from < to && bytes_room[to - 1] == mark_u8(to - 1)) to--;
    put(from, 4);
    put(to, 4);
    for (size_t k = from; k < to; k++) put(bytes_room[k], 1);
}

static void put_sheets_room(void) {
    size_t from = 0, to = room + 2 * GUARD;
    while (from < to && sheets_room[from] == mark_u32(from)) from++;
    while (from < to && sheets_room[to - 1] == mark_u32(to - 1)) to--;
    put(from, 4);
    put(to, 4);
    for (size_t k = from; k < to; k++) put(sheets_room[k], 4);
}

static void end(void) {
    size_t length = answered - begun - 4;
    for (int k = 0; k < 4; k++) answers[begun + k] = (uint8_t)(length >> 8 * k);
}

/* ---- The functions ---- */

/* A fact that is the result itself. It is asked right after another that is not 0, so that a result left as it was is seen. */
static uint32_t fact(uint32_t (*of)(uint32_t), uint32_t what) {
    qubathimi_last(QUBATHIMI_LAST_SCALE);
    return of(what);
}

static void answer(void) {
    uint8_t kind = (uint8_t)take(1);
    uint32_t a, b, c;
    int64_t p, q, west, east, south, north;
    double e_metres, n_metres;
    size_t m, n;
    const uint8_t *one, *other;
    const uint32_t *set;
    uint8_t *bytes;
    uint32_t *places;
    salt = take_u32();
    mark_out();
    switch (kind) {
    case 1:
        a = take_u32();
        begin(kind, 0);
        put(fact(qubathimi_width, a), 8);
        put(fact(qubathimi_height, a), 8);
        put(fact(qubathimi_rows, a), 8);
        put(fact(qubathimi_columns, a), 8);
        put(fact(qubathimi_first, a), 8);
        put(fact(qubathimi_last, a), 8);
        break;
    case 2:
        a = take_u32();
        begin(kind, fact(qubathimi_scale_of, a));
        break;
    case 3:
        a = take_u32();
        a = qubathimi_locate(a, small_at(0), small_at(1), small_at(2));
        begin(kind, a);
        for (int k = 0; k < 3; k++) put(*small_at(k), 8);
        break;
    case 4:
        a = take_u32();
        b = take_u32();
        c = take_u32();
        a = qubathimi_sheet_on(a, b, c, at(0));
        begin(kind, a);
        put_out(1);
        break;
    case 5:
        a = take_u32();
        p = take_i64();
        q = take_i64();
        a = qubathimi_sheet_at(a, p, q, at(0));
        begin(kind, a);
        put_out(1);
        break;
    case 6:
        a = take_u32();
        a = qubathimi_corners(a, (int64_t *)at(0), (int64_t *)at(1), (int64_t *)at(2), (int64_t *)at(3));
        begin(kind, a);
        put_out(4);
        break;
    case 7:
        a = take_u32();
        a = qubathimi_parent(a, at(0));
        begin(kind, a);
        put_out(1);
        break;
    case 8:
        a = take_u32();
        b = take_u32();
        c = take_u32();
        a = qubathimi_child(a, b, c, at(0));
        begin(kind, a);
        put_out(1);
        break;
    case 9:
        a = take_u32();
        p = take_i64();
        q = take_i64();
        a = qubathimi_step(a, p, q, at(0));
        begin(kind, a);
        put_out(1);
        break;
    case 10:
        a = take_u32();
        b = take_u32();
        a = qubathimi_offset(a, b, (int64_t *)at(0), (int64_t *)at(1));
        begin(kind, a);
        put_out(2);
        break;
    case 11:
        a = take_u32();
        places = lend_sheets();
        a = qubathimi_neighbours(a, places, room, at(0));
        begin(kind, a);
        put_out(1);
        put_sheets_room();
        break;
    case 12:
        a = take_u32();
        west = take_i64();
        east = take_i64();
        south = take_i64();
        north = take_i64();
        places = lend_sheets();
        a = qubathimi_cover(a, west, east, south, north, places, room, at(0));
        begin(kind, a);
        put_out(1);
        put_sheets_room();
        break;
    case 13:
        one = take_bytes(&m);
        a = qubathimi_read_label(one, m, at(0));
        begin(kind, a);
        put_out(1);
        break;
    case 14:
        a = take_u32();
        a = qubathimi_label_length(a, at(0));
        begin(kind, a);
        put_out(1);
        break;
    case 15:
        a = take_u32();
        bytes = lend_bytes();
        a = qubathimi_write_label(a, bytes, room, at(0));
        begin(kind, a);
        put_out(1);
        put_bytes_room();
        break;
    case 16:
        one = take_bytes(&m);
        a = qubathimi_read_line(one, m, at(0));
        begin(kind, a);
        put_out(1);
        break;
    case 17:
        one = take_bytes(&m);
        a = qubathimi_line_parts(one, m, at(0), at(1), at(2));
        begin(kind, a);
        put_out(3);
        break;
    case 18:
        one = take_bytes(&m);
        other = take_bytes(&n);
        a = qubathimi_caption(one, m, other, n, at(0), at(1), at(2));
        begin(kind, a);
        put_out(3);
        break;
    case 19:
        one = take_bytes(&m);
        other = take_bytes(&n);
        begin(kind, qubathimi_same_name(one, m, other, n));
        break;
    case 20:
        set = take_sheets(&m);
        a = qubathimi_list_length(set, m, at(0));
        begin(kind, a);
        put_out(1);
        break;
    case 21:
        set = take_sheets(&m);
        bytes = lend_bytes();
        a = qubathimi_write_list(set, m, bytes, room, at(0));
        begin(kind, a);
        put_out(1);
        put_bytes_room();
        break;
    case 22:
        one = take_bytes(&m);
        places = lend_sheets();
        a = qubathimi_read_list(one, m, places, room, at(0), at(1));
        begin(kind, a);
        put_out(2);
        put_sheets_room();
        break;
    case 23:
        a = take_u32();
        a = qubathimi_frame(a, metres_at(0), metres_at(1), metres_at(2), metres_at(3), metres_at(4), metres_at(5));
        begin(kind, a);
        put_out(6);
        break;
    case 24:
        a = take_u32();
        e_metres = take_metres();
        n_metres = take_metres();
        a = qubathimi_sheet_at_metres(a, e_metres, n_metres, at(0));
        begin(kind, a);
        put_out(1);
        break;
    case 25:
        a = take_u32();
        e_metres = take_metres();
        n_metres = take_metres();
        a = qubathimi_frame_at_metres(a, e_metres, n_metres, metres_at(0), metres_at(1), metres_at(2), metres_at(3), metres_at(4),
                                      metres_at(5));
        begin(kind, a);
        put_out(6);
        break;
    case 26:
        a = take_u32();
        bytes = lend_bytes();
        a = qubathimi_official_name(a, bytes, room, at(0));
        begin(kind, a);
        put_out(1);
        put_bytes_room();
        break;
    case 27:
        one = take_bytes(&m);
        a = qubathimi_official_sheet(one, m, at(0));
        begin(kind, a);
        put_out(1);
        break;
    case 28:
        one = take_bytes(&m);
        a = qubathimi_official_check(one, m, at(0));
        begin(kind, a);
        put_out(1);
        break;
    case 29:
        set = take_sheets(&m);
        a = take_u32();
        b = take_u32();
        c = take_u32();
        a = qubathimi_local_to_sheet(set, m, a, b, c, at(0));
        begin(kind, a);
        put_out(1);
        break;
    case 30:
        set = take_sheets(&m);
        a = take_u32();
        a = qubathimi_sheet_to_local(set, m, a, small_at(0), small_at(1), small_at(2));
        begin(kind, a);
        for (int k = 0; k < 3; k++) put(*small_at(k), 8);
        break;
    case 31:
        a = take_u32();
        b = take_u32();
        a = qubathimi_holding(a, b, at(0));
        begin(kind, a);
        put_out(1);
        break;
    case 32:
        a = take_u32();
        a = qubathimi_holding_parts(a, small_at(0), small_at(1));
        begin(kind, a);
        for (int k = 0; k < 2; k++) put(*small_at(k), 8);
        break;
    case 33:
        set = take_sheets(&m);
        a = qubathimi_holdings_length(set, m, at(0));
        begin(kind, a);
        put_out(1);
        break;
    case 34:
        set = take_sheets(&m);
        bytes = lend_bytes();
        a = qubathimi_write_holdings(set, m, bytes, room, at(0));
        begin(kind, a);
        put_out(1);
        put_bytes_room();
        break;
    case 35:
        one = take_bytes(&m);
        places = lend_sheets();
        a = qubathimi_read_holdings(one, m, places, room, at(0), at(1));
        begin(kind, a);
        put_out(2);
        put_sheets_room();
        break;
    case 36:
        a = take_u32();
        west = take_i64();
        east = take_i64();
        south = take_i64();
        north = take_i64();
        set = take_sheets(&m);
        a = qubathimi_check_delivery(a, west, east, south, north, set, m, at(0));
        begin(kind, a);
        put_out(1);
        break;
    default:
        broken = 1;
        return;
    }
    end();
}

int main(void) {
    uint8_t length[4];
    while (read_all(length, 4)) {
        size_t count = length[0] | (size_t)length[1] << 8 | (size_t)length[2] << 16 | (size_t)length[3] << 24;
        if (count > LARGEST_BLOCK || !read_all(block, count)) return 2;
        asked = block;
        asked_end = block + count;
        answered = 0;
        while (asked < asked_end) {
            answer();
            if (broken) return 2;
            if (answered > ANSWERS - LARGEST_ANSWER) {
                if (!write_all(answers, answered)) return 2;
                answered = 0;
            }
        }
        if (!write_all(answers, answered)) return 2;
    }
    return 0;
}
