/*
 * Calls each function of the C interface on small trenches and compares what it returns and writes with what the scope
 * document says: acceptance, each kind of refusal with its place, fresh sheets, short and long buffers. Compares what the
 * header's readers say of each sheet on the way with what the engine says of it; the plan files that are named are such sheets too.
 * Prints a line for each difference, and last a count; exits with 1 where there is one.
 */
#include <limits.h>
#include <stdio.h>
#include <string.h>

#include "touchchart.h"

static int checks, differences;

/* A result is this number and this value. */
static void is(const char *what, uint64_t r, unsigned number, uint64_t value)
{
    checks++;
    if (TOUCHCHART_NUMBER(r) == number && TOUCHCHART_VALUE(r) == value)
        return;
    differences++;
    printf("%s: %u at %llu, not %u at %llu\n", what, TOUCHCHART_NUMBER(r), (unsigned long long)TOUCHCHART_VALUE(r), number,
           (unsigned long long)value);
}

/* Something holds. */
static void holds(const char *what, int yes)
{
    checks++;
    if (yes)
        return;
    differences++;
    printf("%s: no\n", what);
}

/* A sheet's file. */
struct sheet {
    size_t length;
    uint8_t bytes[TOUCHCHART_FILE_MAX];
};

/* The rings of a trench: for each context the number of its neighbours, then these. */
static const int trench_a[] = {3, 1, 4, 3, 3, 2, 4, 0, 3, 3, 4, 1, 3, 0, 4, 2, 4, 0, 1, 2, 3};
static const int trench_b[] = {3, 1, 5, 3, 4, 2, 4, 5, 0, 3, 3, 4, 1, 4, 0, 5, 4, 2, 4, 5, 1, 2, 3, 4, 0, 1, 4, 3};
static const int trench_c[] = {4, 1, 5, 4, 3, 4, 2, 4, 5, 0, 3, 3, 4, 1, 3, 0, 4, 2, 5, 0, 5, 1, 2, 3, 3, 0, 1, 4};

/* Two bytes at the end of a file. */
static void put(struct sheet *s, unsigned number)
{
    s->bytes[s->length++] = number & 255;
    s->bytes[s->length++] = number >> 8;
}

/* The file of n rings. */
static struct sheet plan(unsigned n, const int *rings)
{
    struct sheet s = {0};
    put(&s, 4), put(&s, 1), put(&s, n);
    for (unsigned u = 0; u < n; u++) {
        int size = *rings++;
        put(&s, 2 + 2 * size), put(&s, 2);
        while (size-- > 0)
            put(&s, *rings++);
    }
    return s;
}

/* Trench D: A, and seven contexts that all touch one another, on a torus. */
static struct sheet torus(void)
{
    static const int steps[] = {1, 3, 2, 6, 4, 5};
    int rings[80], *end = rings;
    memcpy(rings, trench_a, sizeof trench_a);
    end += sizeof trench_a / sizeof *trench_a;
    for (int k = 0; k < 7; k++) {
        *end++ = 6;
        for (int i = 0; i < 6; i++)
            *end++ = 5 + (k + steps[i]) % 7;
    }
    return plan(12, rings);
}

/* The file put together again from what the readers say of a sheet. */
static struct sheet reread(const uint8_t *bytes, size_t length)
{
    struct sheet s = {0};
    unsigned n = touchchart_n(bytes, length), stage = touchchart_stage(bytes, length);
    if (stage >= TOUCHCHART_OPEN)
        put(&s, 4), put(&s, 1), put(&s, n);
    for (unsigned u = 0; u < n; u++) {
        unsigned size = touchchart_ring_size(bytes, length, u);
        put(&s, 2 + 2 * size), put(&s, 2);
        for (unsigned i = 0; i < size; i++)
            put(&s, touchchart_entry(bytes, length, u, i));
    }
    if (stage >= TOUCHCHART_LABELLED) {
        put(&s, 2 + 6 * n - 14), put(&s, 3);
        for (unsigned u = 0; u < n; u++)
            for (unsigned i = 0; i < touchchart_ring_size(bytes, length, u); i++)
                s.bytes[s.length++] = touchchart_label(bytes, length, u, i);
    }
    if (stage >= TOUCHCHART_CHARTED) {
        put(&s, 2 + 4 + 4 * n), put(&s, 4);
        put(&s, touchchart_width(bytes, length)), put(&s, touchchart_height(bytes, length));
        for (unsigned u = 0; u < n; u++)
            put(&s, touchchart_x(bytes, length, u)), put(&s, touchchart_y(bytes, length, u));
    }
    return s;
}

/* The readers say nothing of a context that a sheet does not have. */
static void reads_nothing(const uint8_t *bytes, size_t length, unsigned u)
{
    holds("the ring of no context", touchchart_ring_size(bytes, length, u) == 0 && touchchart_entry(bytes, length, u, 0) == 0);
    holds("the label of no context", touchchart_label(bytes, length, u, 0) == 0);
    holds("the point of no context", touchchart_x(bytes, length, u) == 0 && touchchart_y(bytes, length, u) == 0);
}

/* The readers say of a sheet what the engine says of it: the stage by its refusals, n and the rings by touchchart_ring; and what
 * they say makes up all the bytes that the engine has accepted. */
static void reads(const uint8_t *bytes, size_t length)
{
    static uint8_t out[TOUCHCHART_FILE_MAX];
    static const uint16_t none[1];
    struct sheet s = reread(bytes, length);
    unsigned stage = touchchart_stage(bytes, length), n = TOUCHCHART_VALUE(touchchart_ring(bytes, length, 65535));
    holds("OPEN up", (stage >= TOUCHCHART_OPEN) == (TOUCHCHART_NUMBER(touchchart_scan(bytes, length)) != 13));
    holds("LABELLED up", (stage >= TOUCHCHART_LABELLED) == (TOUCHCHART_NUMBER(touchchart_turn(bytes, length, none, 0, 0, out, sizeof out)) != 13));
    holds("CHARTED", (stage >= TOUCHCHART_CHARTED) == (TOUCHCHART_NUMBER(touchchart_same(bytes, length, bytes, length)) != 13));
    holds("n", touchchart_n(bytes, length) == n);
    for (unsigned u = 0; u < n; u++) {
        uint64_t part = TOUCHCHART_VALUE(touchchart_ring(bytes, length, u));
        unsigned size = part % 65536 / 2;
        const uint8_t *entry = bytes + part / 65536;
        holds("a ring's size", touchchart_ring_size(bytes, length, u) == size);
        for (unsigned i = 0; i < size; i++, entry += 2)
            holds("an entry", touchchart_entry(bytes, length, u, i) == entry[0] + 256u * entry[1]);
        holds("past a ring", touchchart_entry(bytes, length, u, size) == 0 && touchchart_label(bytes, length, u, SIZE_MAX) == 0);
    }
    holds("all bytes", s.length == length && memcmp(s.bytes, bytes, length) == 0);
    reads_nothing(bytes, length, n);
    reads_nothing(bytes, length, UINT_MAX);
}

/* The sheet swept, and charted. */
static struct sheet swept(struct sheet s)
{
    struct sheet t;
    t.length = TOUCHCHART_VALUE(touchchart_sweep(s.bytes, s.length, t.bytes, sizeof t.bytes));
    return t;
}

static struct sheet charted(struct sheet s)
{
    struct sheet t;
    t.length = TOUCHCHART_VALUE(touchchart_chart(s.bytes, s.length, t.bytes, sizeof t.bytes));
    return t;
}

/* Every function that takes a sheet refuses these bytes so, and leaves the buffer. */
static void all_refuse(const uint8_t *bytes, size_t length, unsigned number, uint64_t place)
{
    static const uint8_t labels[1] = {0};
    static const uint16_t pairs[2] = {4, 5};
    uint8_t out[64], before[64];
    struct sheet a = charted(swept(plan(5, trench_a)));
    memset(out, 7, sizeof out), memset(before, 7, sizeof before);
    is("sweep of bad bytes", touchchart_sweep(bytes, length, out, sizeof out), number, place);
    is("offer of bad bytes", touchchart_offer(bytes, length, labels, 1, out, sizeof out), number, place);
    is("turn of bad bytes", touchchart_turn(bytes, length, pairs, 2, 0, out, sizeof out), number, place);
    is("chart of bad bytes", touchchart_chart(bytes, length, out, sizeof out), number, place);
    is("scan of bad bytes", touchchart_scan(bytes, length), number, place);
    is("same, bad bytes first", touchchart_same(bytes, length, a.bytes, a.length), number, place);
    is("same, bad bytes second", touchchart_same(a.bytes, a.length, bytes, length), number, place);
    holds("the buffer after refusals", memcmp(out, before, sizeof out) == 0);
}

/* No bytes: a fresh sheet, but an empty file. */
static void test_none(void)
{
    uint8_t out[64];
    is("open of no bytes", touchchart_open(TOUCHCHART_NONE, out, sizeof out), 1, 0);
    is("ring of no bytes", touchchart_ring(TOUCHCHART_NONE, 0), 1, 0);
    reads(TOUCHCHART_NONE);
    all_refuse(TOUCHCHART_NONE, 13, 0);
}

/* Open, with buffers of every length; then the file cut at every length. */
static void test_open(void)
{
    struct sheet a = plan(5, trench_a), b = charted(swept(plan(6, trench_b)));
    uint8_t out[100];
    for (size_t room = 0; room <= sizeof out; room++) {
        memset(out, 7, sizeof out);
        uint64_t r = touchchart_open(a.bytes, a.length, out, room);
        is("open of A", r, room < 58 ? 16 : 0, 58);
        holds("the file of A", room < 58 ? out[0] == 7 : memcmp(out, a.bytes, 58) == 0);
        holds("what is past it", out[58] == 7 && out[99] == 7);
    }
    is("A less its last byte", touchchart_open(a.bytes, 57, out, sizeof out), 1, 46);
    all_refuse(a.bytes, 57, 1, 46);
    for (size_t length = 1; length < b.length; length++) {
        uint8_t room[TOUCHCHART_FILE_MAX];
        uint64_t r = touchchart_open(b.bytes, length, room, sizeof room);
        if (TOUCHCHART_NUMBER(r) != 0)
            all_refuse(b.bytes, length, TOUCHCHART_NUMBER(r), TOUCHCHART_VALUE(r));
        else
            is("a part of B that is a file", r, 0, length), reads(room, length);
    }
}

/* Sweep, offer, turn and chart. */
static void test_calls(void)
{
    struct sheet a = plan(5, trench_a), b = plan(6, trench_b), c = plan(6, trench_c), d = torus(), t;
    struct sheet la = swept(a), lb = swept(b), cb = charted(lb);
    static const uint8_t around[] = {0, 1, 2, 3};
    static const uint16_t pairs[] = {4, 5, 5, 4, 0, 1}, inner[] = {4, 0, 4};
    uint8_t up[16], *out = t.bytes;
    memset(up, 0, sizeof up);
    up[0] = up[2] = up[3] = up[5] = up[6] = up[8] = up[9] = up[11] = 4;
    is("A swept", touchchart_sweep(a.bytes, a.length, out, sizeof t.bytes), 0, 58 + 4 + 16);
    holds("the labels of 4 in A", memcmp(out + 58 + 4 + 12, around, 4) == 0);
    is("A swept into 77 bytes", touchchart_sweep(a.bytes, a.length, out, 77), 16, 78);
    is("C swept", touchchart_sweep(c.bytes, c.length, out, sizeof t.bytes), 14, 0);
    is("D swept", touchchart_sweep(d.bytes, d.length, out, sizeof t.bytes), 10, 5);
    is("A's labels offered", touchchart_offer(a.bytes, a.length, la.bytes + 62, 16, out, sizeof t.bytes), 0, 78);
    holds("they are stored", memcmp(out, la.bytes, 78) == 0);
    reads(out, 78);
    is("15 labels", touchchart_offer(a.bytes, a.length, la.bytes + 62, 15, out, sizeof t.bytes), 2, 0);
    is("all up", touchchart_offer(a.bytes, a.length, up, 16, out, sizeof t.bytes), 10, 0);
    is("B turned, OPEN", touchchart_turn(b.bytes, b.length, pairs, 2, 0, out, sizeof t.bytes), 13, 0);
    is("B turned", touchchart_turn(lb.bytes, lb.length, pairs, 2, 0, out, sizeof t.bytes), 10, 4);
    is("a pair twice", touchchart_turn(lb.bytes, lb.length, pairs, 4, 0, out, sizeof t.bytes), 15, 1);
    is("a border pair", touchchart_turn(lb.bytes, lb.length, pairs + 4, 2, 0, out, sizeof t.bytes), 15, 0);
    is("an item over", touchchart_turn(lb.bytes, lb.length, pairs, 3, 0, out, sizeof t.bytes), 15, 1);
    is("direction 2", touchchart_turn(lb.bytes, lb.length, pairs, 2, 2, out, sizeof t.bytes), 15, 1);
    is("no such edge", touchchart_turn(lb.bytes, lb.length, inner, 2, 1, out, sizeof t.bytes), 15, 0);
    is("nothing turned", touchchart_turn(cb.bytes, cb.length, pairs, 0, 1, out, sizeof t.bytes), 0, lb.length);
    holds("the chart is dropped", memcmp(out, lb.bytes, lb.length) == 0);
    reads(out, lb.length);
    is("A charted, OPEN", touchchart_chart(a.bytes, a.length, out, sizeof t.bytes), 13, 0);
    is("B charted", touchchart_chart(lb.bytes, lb.length, out, sizeof t.bytes), 0, lb.length + 32);
    holds("2 by 3", touchchart_width(out, cb.length) == 2 && touchchart_height(out, cb.length) == 3);
    holds("4 at (1,1)", touchchart_x(out, cb.length, 4) == 1 && touchchart_y(out, cb.length, 4) == 1);
    holds("5 at (1,2)", touchchart_x(out, cb.length, 5) == 1 && touchchart_y(out, cb.length, 5) == 2);
    is("B charted anew", touchchart_chart(cb.bytes, cb.length, out, sizeof t.bytes), 0, cb.length);
    is("B charted into too few", touchchart_chart(cb.bytes, cb.length, out, 0), 16, cb.length);
}

/* Scan, same and ring. */
static void test_told(void)
{
    struct sheet a = plan(5, trench_a), b = plan(6, trench_b), c = plan(6, trench_c), d = torus();
    struct sheet ca = charted(swept(a)), cb = charted(swept(b)), cut = ca;
    is("scan of A", touchchart_scan(a.bytes, a.length), 0, 0);
    is("scan of B", touchchart_scan(cb.bytes, cb.length), 0, 0);
    is("scan of C", touchchart_scan(c.bytes, c.length), 0, 1 * 256 + 4);
    is("scan of D", touchchart_scan(d.bytes, d.length), 0, 5 * 65536 + 6 * 256 + 7);
    is("A and A", touchchart_same(ca.bytes, ca.length, ca.bytes, ca.length), 0, 1);
    is("A and B", touchchart_same(ca.bytes, ca.length, cb.bytes, cb.length), 0, 0);
    is("A and B without a chart", touchchart_same(ca.bytes, ca.length, b.bytes, b.length), 13, 0);
    cut.bytes[4] = 4;
    is("a is judged first", touchchart_same(cut.bytes, cut.length, b.bytes, 20), 3, 0);
    is("then b", touchchart_same(b.bytes, b.length, cut.bytes, cut.length), 3, 0);
    for (unsigned u = 0; u < 4; u++)
        is("a border ring of A", touchchart_ring(a.bytes, a.length, u), 0, (10 + 10 * u) * 65536 + 6);
    is("the inner ring of A", touchchart_ring(ca.bytes, ca.length, 4), 0, 50 * 65536 + 8);
    is("ring 5 of A", touchchart_ring(a.bytes, a.length, 5), 17, 5);
    is("ring 65535 of A", touchchart_ring(a.bytes, a.length, 65535), 17, 5);
}

/* The readers on a plan's sheets: without labels, with those of the sweep, with the chart. */
static void test_readers(struct sheet s)
{
    struct sheet t = {0};
    reads(s.bytes, s.length);
    uint64_t r = touchchart_sweep(s.bytes, s.length, t.bytes, sizeof t.bytes);
    if (TOUCHCHART_NUMBER(r) != 0)
        return;
    t.length = TOUCHCHART_VALUE(r);
    reads(t.bytes, t.length);
    s = charted(t);
    holds("it is charted", touchchart_stage(s.bytes, s.length) == TOUCHCHART_CHARTED);
    reads(s.bytes, s.length);
}

/* The sheet of a plan file. */
static struct sheet opened(const char *name)
{
    static uint8_t file[TOUCHCHART_FILE_MAX];
    struct sheet s = {0};
    FILE *in = fopen(name, "rb");
    if (in != NULL) {
        s.length = fread(file, 1, sizeof file, in);
        fclose(in);
    }
    is(name, touchchart_open(file, s.length, s.bytes, sizeof s.bytes), 0, s.length);
    return s;
}

/* The longest file that is framed: 200 rings of 199 entries, and a byte too many. */
static void test_long(void)
{
    static uint8_t file[80407];
    uint8_t out[1], *end = file;
    static const uint8_t head[] = {4, 0, 1, 0, 200, 0}, ring[] = {144, 1, 2, 0};
    memcpy(end, head, 6), end += 6;
    for (unsigned u = 0; u < 200; u++) {
        memcpy(end, ring, 4), end += 4;
        for (unsigned v = 0; v < 200; v++)
            if (v != u)
                *end++ = v, *end++ = 0;
    }
    is("a byte behind 80,406", touchchart_open(file, sizeof file, out, sizeof out), 1, 80406);
    is("80,406 bytes", touchchart_open(file, sizeof file - 1, out, sizeof out), 7, 0);
    all_refuse(file, sizeof file, 1, 80406);
}

int main(int count, char **names)
{
    test_none();
    test_open();
    test_calls();
    test_told();
    test_long();
    test_readers(plan(5, trench_a)), test_readers(plan(6, trench_b)), test_readers(plan(6, trench_c)), test_readers(torus());
    for (int k = 1; k < count; k++)
        test_readers(opened(names[k]));
    printf("%d checks, %d differences\n", checks, differences);
    return differences != 0;
}
