/*
 * draw: reads a plan file, labels it by the sweep and prints its chart.
 *
 *     cc -std=c99 -Wall examples/c/draw.c $(pkg-config --cflags --libs touchchart) -o draw
 *     ./draw examples/c/trench_b.plan
 *
 * prints width and height, then number, x and y of each context. A refusal prints its number and place. Given a second file, it
 * writes the sheet there: the plan with its labels and its chart.
 */
#include <stdio.h>

#include "touchchart.h"

/* Prints a sheet's chart: width and height, then number, x and y of each context. */
static void print_chart(const uint8_t *sheet, size_t length)
{
    printf("size %u %u\n", touchchart_width(sheet, length), touchchart_height(sheet, length));
    for (unsigned u = 0; u < touchchart_n(sheet, length); u++)
        printf("%u %u %u\n", u, touchchart_x(sheet, length, u), touchchart_y(sheet, length, u));
}

/* Writes a sheet to a file; whether it could. */
static int write_sheet(const char *name, const uint8_t *sheet, size_t length)
{
    FILE *to = fopen(name, "wb");
    int all = to != NULL && fwrite(sheet, 1, length, to) == length;
    return to != NULL && fclose(to) == 0 && all;
}

int main(int count, char **words)
{
    static uint8_t file[1 << 17], sheet[TOUCHCHART_FILE_MAX], swept[TOUCHCHART_FILE_MAX], drawn[TOUCHCHART_FILE_MAX];
    FILE *in = count == 2 || count == 3 ? fopen(words[1], "rb") : NULL;
    if (in == NULL) {
        fprintf(stderr, "usage: draw PLAN [SHEET]\n");
        return 2;
    }
    size_t length = fread(file, 1, sizeof file, in);
    fclose(in);
    uint64_t r = touchchart_open(file, length, sheet, sizeof sheet);
    if (TOUCHCHART_NUMBER(r) == 0)
        r = touchchart_sweep(sheet, TOUCHCHART_VALUE(r), swept, sizeof swept);
    if (TOUCHCHART_NUMBER(r) == 0)
        r = touchchart_chart(swept, TOUCHCHART_VALUE(r), drawn, sizeof drawn);
    if (TOUCHCHART_NUMBER(r) != 0) {
        printf("refused %u at %llu\n", TOUCHCHART_NUMBER(r), (unsigned long long)TOUCHCHART_VALUE(r));
        return 1;
    }
    print_chart(drawn, TOUCHCHART_VALUE(r));
    if (count == 3 && !write_sheet(words[2], drawn, TOUCHCHART_VALUE(r))) {
        fprintf(stderr, "draw: %s cannot be written\n", words[2]);
        return 2;
    }
    return 0;
}
