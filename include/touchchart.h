/*
 * touchchart.h: the touch chart engine for C and for whatever calls C.
 *
 * The engine reads a plan file (who touches whom, in which order around), labels the lines, checks labels that are
 * offered, turns labels, places the contexts on the smallest possible grid, and writes everything back to a file. Every
 * call below is proved to do exactly what the definitions in crates/touchchart/specs say, for every input, damaged
 * input included. docs/CLAIMS.md says what is proved and what is assumed. The readers at the end are plain C and tested.
 *
 * Build: `./install PREFIX` puts this header, libtouchchart.a and touchchart.pc below PREFIX (x86-64 Linux, System V calling
 * convention). The shell splits what pkg-config prints, so PREFIX here is a path without spaces.
 *
 *     export PKG_CONFIG_PATH=PREFIX/lib/pkgconfig
 *     cc draw.c $(pkg-config --cflags --libs touchchart) -o draw
 *
 * The archive needs memcpy and memset and nothing else. It has no state: any thread may call anything at any time.
 * A call takes at most about 240 KB of stack (measured with this compiler, not proved), and no heap.
 *
 * SHEETS
 *
 * A sheet is handed over as bytes, namely the bytes of its file, so a host needs no struct layout. Zero bytes are a
 * fresh sheet (stage EMPTY); a file with a plan alone is OPEN, one with labels LABELLED, one with a chart CHARTED. A call
 * that changes a sheet writes the new sheet's file to `out`, and these bytes are the sheet for the next call:
 *
 *     uint8_t sheet[TOUCHCHART_FILE_MAX], swept[TOUCHCHART_FILE_MAX], drawn[TOUCHCHART_FILE_MAX];
 *     uint64_t r = touchchart_open(file, file_length, sheet, sizeof sheet);
 *     if (TOUCHCHART_NUMBER(r) == 0)
 *         r = touchchart_sweep(sheet, TOUCHCHART_VALUE(r), swept, sizeof swept);
 *     if (TOUCHCHART_NUMBER(r) == 0)
 *         r = touchchart_chart(swept, TOUCHCHART_VALUE(r), drawn, sizeof drawn);
 *     if (TOUCHCHART_NUMBER(r) != 0)
 *         fprintf(stderr, "refused %u at %llu\n", TOUCHCHART_NUMBER(r), (unsigned long long)TOUCHCHART_VALUE(r));
 *
 * A file is little-endian records: length (2 bytes, counting what follows it), kind (2 bytes), body. Kind 1: the number
 * of contexts n (2 bytes). Kind 2, n times, in context order: the ring of a context, 2 bytes for each neighbour,
 * clockwise. Then, if there are labels, kind 3: 6n - 14 bytes, a label for each ring entry in the same order (0 up,
 * 1 right, 2 down, 3 left, 4 between border contexts). Then, if there is a chart, kind 4: width, height, then x and y of
 * each context, 2 bytes each. Contexts 0 to 3 are the border: North, East, South, West.
 *
 * No host has to parse this: the readers at the end of this header tell what a sheet holds.
 *
 *     for (unsigned u = 0; u < touchchart_n(drawn, length); u++)
 *         printf("%u %u %u\n", u, touchchart_x(drawn, length, u), touchchart_y(drawn, length, u));
 *
 * SLICES
 *
 * A run of bytes or numbers is two parameters, a pointer and the number of elements (not of bytes: for `pairs`, of
 * uint16_t), passed as two separate arguments, never as a struct. What the caller owes:
 * - a pointer is never null, not even where the count is 0: TOUCHCHART_NONE stands for both arguments of no bytes;
 * - it points to so many elements that may be read, and for `out` written, and `pairs` is aligned to 2 bytes;
 * - `out` overlaps no other argument, so a sheet is not changed in place;
 * - nobody else writes to any of them before the call returns.
 *
 * RESULTS
 *
 * Each function returns number * 2^48 + value. Number 0 is acceptance. 1 to 17 is a refusal, and its value is the place:
 *
 *     No.  when                                                                 place
 *      1   a record's length is missing, under 2 or past the end                the record's offset
 *      2   a record has another kind or length than due;                        the record's offset;
 *          offered labels are not 6n - 14                                       0
 *      3   n is not 5 to 200                                                    0
 *      4   a ring entry is not below n, or is the context itself                the lowest such context
 *      5   a ring repeats an entry                                              the lowest such context
 *      6   a context lists one that does not list it                            the lowest context that lists so
 *      7   all rings together have not 6n - 14 entries                          0
 *      8   a border ring does not begin or end as it must, or has the opposite  the lowest such border context
 *      9   a dart that is not outer does not come back after three face steps   the lowest context one leaves
 *     10   the labels break the label rules                                     the lowest context that breaks them
 *     11   no placement keeps the compass rules                                 0
 *     12   the chart record is not the chart                                    0
 *     13   the sheet's stage is too early for the call                          0
 *     14   the sweep is stuck                                                   0
 *     15   a pair is no inner edge or was named before;                         the pair's index, from 0;
 *          an item is left over, or the direction is above 1                    the number of whole pairs
 *     16   `out` is too short                                                   the bytes needed
 *     17   there is no such context                                             n
 *
 * A sheet that is handed over is refused as touchchart_open refuses a file, before anything else; touchchart_same judges
 * a, then b, then the stages. Then come the refusals of the call, and 16 last. On a refusal `out` is as it was. On
 * acceptance the bytes of `out` past the value stay as they were.
 */
#ifndef TOUCHCHART_H
#define TOUCHCHART_H

#include <stddef.h>
#include <stdint.h>

#ifdef __cplusplus
extern "C" {
#endif

/* The number of a result: 0 for acceptance, else the refusal. */
#define TOUCHCHART_NUMBER(r) ((unsigned)((uint64_t)(r) >> 48))

/* The value of a result: what is accepted, or the refusal's place. */
#define TOUCHCHART_VALUE(r) ((uint64_t)(r) & UINT64_C(0xFFFFFFFFFFFF))

/* No sheet's file has more bytes than this, so an `out` of this size is never too short. */
#define TOUCHCHART_FILE_MAX 5176

/* The two arguments that stand for no bytes: a fresh sheet. */
#define TOUCHCHART_NONE ((const uint8_t *)""), ((size_t)0)

/* Opens a file, whatever it holds. Zero bytes are a file that is refused (1 at 0), not a fresh sheet.
 * Value: the length of the sheet's file, written to out. It is the very file. */
uint64_t touchchart_open(const uint8_t *file, size_t file_length, uint8_t *out, size_t out_length);

/* Works out labels from North down to South (OPEN up); a chart is dropped. 13, 14, 10, 16.
 * Value: the length of the new sheet's file, written to out. */
uint64_t touchchart_sweep(const uint8_t *sheet, size_t sheet_length, uint8_t *out, size_t out_length);

/* Stores offered labels if they keep the rules (OPEN up): a byte for each ring entry, all rings in context order; a
 * chart is dropped. 13, 2, 10, 16.
 * Value: the length of the new sheet's file, written to out. */
uint64_t touchchart_offer(const uint8_t *sheet, size_t sheet_length, const uint8_t *labels, size_t labels_length, uint8_t *out,
                          size_t out_length);

/* Turns the labels of both darts of each named edge by a quarter (LABELLED up), direction 0 clockwise, 1
 * counterclockwise; a chart is dropped, also for an empty list. `pairs` is a list of contexts, two for each edge;
 * pairs_count counts contexts. 13, 15, 10, 16.
 * Value: the length of the new sheet's file, written to out. */
uint64_t touchchart_turn(const uint8_t *sheet, size_t sheet_length, const uint16_t *pairs, size_t pairs_count, uint8_t direction,
                         uint8_t *out, size_t out_length);

/* Works out the chart (LABELLED up), in which width, height, every x and every y is as small as can be. 13, 11, 16.
 * Value: the length of the new sheet's file, written to out. */
uint64_t touchchart_chart(const uint8_t *sheet, size_t sheet_length, uint8_t *out, size_t out_length);

/* Looks for the smallest three contexts a < b < c that are mutual neighbours and no inner face (OPEN up). 13.
 * Value: 0 for none, else a * 65536 + b * 256 + c. */
uint64_t touchchart_scan(const uint8_t *sheet, size_t sheet_length);

/* Compares two charts (both CHARTED). 13.
 * Value: 1 where n, width, height and all points are equal, else 0. */
uint64_t touchchart_same(const uint8_t *a, size_t a_length, const uint8_t *b, size_t b_length);

/* Finds the body of a context's ring in a file, which is tested as touchchart_open tests it. 17.
 * Value: offset * 65536 + length, both in bytes. */
uint64_t touchchart_ring(const uint8_t *file, size_t file_length, uint16_t context);

/*
 * READERS
 *
 * They say what a sheet's bytes hold. They need bytes that the engine has accepted, in their whole length: a file that
 * touchchart_open took, or what a call wrote to `out`; or no bytes. For these each answers whatever its other arguments are,
 * with 0 where the sheet has no such thing. Of other bytes they may read past the end: open a file first.
 */

/* The stages. Each holds what those before it hold. */
enum { TOUCHCHART_EMPTY, TOUCHCHART_OPEN, TOUCHCHART_LABELLED, TOUCHCHART_CHARTED };

/* For the readers: two bytes as a number. */
static inline unsigned touchchart_word(const uint8_t *at)
{
    return at[0] + 256u * at[1];
}

/* For the readers: the body of the record of a kind with so many of that kind before it; NULL where there is none. */
static inline const uint8_t *touchchart_body(const uint8_t *sheet, size_t length, unsigned kind, unsigned before)
{
    for (size_t at = 0; at < length; at += 2 + touchchart_word(sheet + at))
        if (touchchart_word(sheet + at + 2) == kind && before-- == 0)
            return sheet + at + 4;
    return NULL;
}

/* For the readers: how many numbers of two bytes a body has. */
static inline unsigned touchchart_count(const uint8_t *body)
{
    return body == NULL ? 0 : (touchchart_word(body - 4) - 2) / 2;
}

/* For the readers: the number of two bytes at an index of a body. */
static inline unsigned touchchart_item(const uint8_t *body, size_t index)
{
    return index < touchchart_count(body) ? touchchart_word(body + 2 * index) : 0;
}

/* The stage. */
static inline unsigned touchchart_stage(const uint8_t *sheet, size_t length)
{
    if (touchchart_body(sheet, length, 4, 0) != NULL)
        return TOUCHCHART_CHARTED;
    if (touchchart_body(sheet, length, 3, 0) != NULL)
        return TOUCHCHART_LABELLED;
    return length > 0 ? TOUCHCHART_OPEN : TOUCHCHART_EMPTY;
}

/* The number of contexts (OPEN up). */
static inline unsigned touchchart_n(const uint8_t *sheet, size_t length)
{
    return touchchart_item(touchchart_body(sheet, length, 1, 0), 0);
}

/* How many entries a context's ring has (OPEN up). */
static inline unsigned touchchart_ring_size(const uint8_t *sheet, size_t length, unsigned context)
{
    return touchchart_count(touchchart_body(sheet, length, 2, context));
}

/* The neighbour at an index of a context's ring, from 0 (OPEN up). */
static inline unsigned touchchart_entry(const uint8_t *sheet, size_t length, unsigned context, size_t index)
{
    return touchchart_item(touchchart_body(sheet, length, 2, context), index);
}

/* The label of the entry at an index of a context's ring (LABELLED up). */
static inline unsigned touchchart_label(const uint8_t *sheet, size_t length, unsigned context, size_t index)
{
    const uint8_t *first = touchchart_body(sheet, length, 2, 0), *ring = touchchart_body(sheet, length, 2, context);
    const uint8_t *labels = touchchart_body(sheet, length, 3, 0);
    ptrdiff_t rings = context;
    if (labels == NULL || index >= touchchart_count(ring))
        return 0;
    /* From the first ring's body to this one's there are 2 bytes for each entry between, and 4 for the head of each ring. */
    labels += (ring - first) / 2 - 2 * rings;
    return labels[index];
}

/* The chart's width (CHARTED). */
static inline unsigned touchchart_width(const uint8_t *sheet, size_t length)
{
    return touchchart_item(touchchart_body(sheet, length, 4, 0), 0);
}

/* The chart's height (CHARTED). */
static inline unsigned touchchart_height(const uint8_t *sheet, size_t length)
{
    return touchchart_item(touchchart_body(sheet, length, 4, 0), 1);
}

/* A context's x, from 0 at West to the width at East (CHARTED). */
static inline unsigned touchchart_x(const uint8_t *sheet, size_t length, unsigned context)
{
    size_t points = context;
    return touchchart_item(touchchart_body(sheet, length, 4, 0), 2 + 2 * points);
}

/* A context's y, from 0 at South to the height at North (CHARTED). */
static inline unsigned touchchart_y(const uint8_t *sheet, size_t length, unsigned context)
{
    size_t points = context;
    return touchchart_item(touchchart_body(sheet, length, 4, 0), 3 + 2 * points);
}

#ifdef __cplusplus
}
#endif

#endif
