/* Times odf_read on files of many orbit records: `make bench`.
 *
 * For each number of records and of summary rows, with the summary and without it: nanoseconds a record of a memcpy of the
 * same bytes, of the plain reader in C and of odf_read, each the best of some runs, and how many times as long odf_read
 * takes. The records of a row lie scattered over the file. Both readers have to give the same report. */
#include "../c/odf.h"
#include "reader.h"

#include <stdio.h>
#include <stdlib.h>
#include <string.h>
#include <time.h>

enum { BLOCK = 8064, PACKETS = 224, PACKET = 36, SPACECRAFT = 94, BAND = 2, TYPE = 12, START = 1559967600 };

static void put(uint8_t *image, size_t k, const uint32_t *word) {
    for (int i = 0; i < PACKET; i++)
        image[k * PACKET + i] = word[i / 4] >> (24 - 8 * (i % 4));
}

static void put_header(uint8_t *image, size_t k, uint32_t key, uint32_t length) {
    put(image, k, (uint32_t[9]){key, 0, length, k});
}

/* The station and the channel of a row, ascending. */
static uint32_t station(size_t rows, size_t row) {
    return 1 + row / ((rows + 99) / 100);
}

static uint32_t channel(size_t rows, size_t row) {
    return 1 + row % ((rows + 99) / 100);
}

static size_t row_of(size_t rows, size_t i) {
    return i * 7919 % rows;
}

static void put_orbit(uint8_t *image, size_t k, size_t rows, size_t i) {
    size_t row = row_of(rows, i);
    uint32_t word[9] = {START + i, 500u << 22 | 1268, -1276400 - (int32_t)(i % 1000), -125000000};
    word[4] = 2u << 29 | station(rows, row) << 22 | 45 << 15 | TYPE << 7 | BAND << 5 | BAND << 3 | BAND << 1;
    word[5] = channel(rows, row) << 25 | SPACECRAFT << 15 | 427044 >> 8;
    word[6] = 427044u << 24 | 9043968;
    word[7] = 1000 >> 10;
    word[8] = 1000u << 22 | 1140;
    put(image, k, word);
}

static void put_row(uint8_t *image, size_t k, size_t records, size_t rows, size_t row, size_t first) {
    size_t count = (records - first + rows - 1) / rows, last = first + (count - 1) * rows;
    put(image, k, (uint32_t[9]){START + first, 500000000, station(rows, row), channel(rows, row), BAND, TYPE, count, START + last, 500000000});
}

/* A disk image of a file with so many records, which make so many rows. */
static uint8_t *file(size_t records, size_t rows, int summary, size_t *length) {
    size_t packets = 6 + records + (summary ? 1 + rows : 0), k = 5;
    *length = (packets + PACKETS - 1) / PACKETS * BLOCK;
    uint8_t *image = malloc(*length);
    size_t *first = malloc(rows * sizeof *first);
    if (image == NULL || first == NULL)
        exit(1);
    memset(image, 0x88, *length);
    put_header(image, 0, 101, 1);
    put(image, 1, (uint32_t[9]){0, 0, 0, 0, SPACECRAFT, 990613, 101530, 19500101, 0});
    memcpy(image + PACKET, "AXP2300 ODE V2.0", 16);
    put_header(image, 2, 107, 1);
    memcpy(image + 3 * PACKET, "TIMETAG OBSRVBL FREQ, ANCILLARY-DATA", PACKET);
    put_header(image, 4, 109, 1);
    for (size_t i = 0; i < records; i++)
        put_orbit(image, k++, rows, i);
    if (summary) {
        put_header(image, k, 105, 1);
        k++;
        for (size_t i = 0; i < rows; i++)
            first[row_of(rows, i)] = i;
        for (size_t row = 0; row < rows; row++)
            put_row(image, k++, records, rows, row, first[row]);
    }
    put_header(image, k, -1, 0);
    free(first);
    return image;
}

static double now(void) {
    struct timespec t;
    clock_gettime(CLOCK_MONOTONIC, &t);
    return t.tv_sec * 1e9 + t.tv_nsec;
}

/* The least time of a statement, in nanoseconds: of at least five runs, and of as many as a third of a second has. */
#define BEST(best, statement)                                      \
    do {                                                           \
        double begin = now();                                      \
        best = 1e18;                                               \
        for (int i = 0; i < 5 || now() - begin < 0.33e9; i++) {    \
            double start = now();                                  \
            statement;                                             \
            double taken = now() - start;                          \
            best = taken < best ? taken : best;                    \
        }                                                          \
    } while (0)

static void run(size_t records, size_t rows, int summary) {
    size_t length;
    uint8_t *image = file(records, rows, summary, &length), *copy = malloc(length);
    struct odf_report ours = {0}, plain = {0};
    struct odf_fault fault = {0};
    double move, reader, read;
    if (copy == NULL)
        exit(1);
    memset(copy, 0, length);
    if (odf_read(image, length, &ours, &fault) != 0 || plain_read(image, length, &plain, &fault) != 0 || memcmp(&ours, &plain, sizeof ours) != 0) {
        printf("the readers differ, or refuse: %llu at packet %llu\n", (unsigned long long)fault.number, (unsigned long long)fault.packet);
        exit(1);
    }
    BEST(move, memcpy(copy, image, length); __asm__ volatile("" : : "r"(copy) : "memory"));
    BEST(reader, plain_read(image, length, &plain, &fault));
    BEST(read, odf_read(image, length, &ours, &fault));
    printf("%8zu %6zu  %-7s %9.2f %9.2f %9.2f %10.1f %10.2f\n", records, rows, summary ? "yes" : "no", move / records, reader / records,
           read / records, read / move, read / reader);
    free(image);
    free(copy);
}

int main(void) {
    static const size_t records[] = {1000, 10000, 100000, 400000}, rows[] = {1, 10, 60, 600};
    printf("                            ns a record                  times as long as\n");
    printf(" records   rows  summary    memcpy     plain      read     memcpy      plain\n");
    for (size_t i = 0; i < 4; i++)
        for (size_t j = 0; j < 4; j++)
            for (int summary = 0; summary < 2; summary++)
                run(records[i], rows[j], summary);
    return 0;
}
