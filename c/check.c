/* Reads a disk image and picks cells of it, by the calls of odf.h:
 *
 *     check FILE [K..]
 *
 * prints what reading FILE answers, and for each K what picking cell K as each kind of record answers, a line each. A call
 * that changes what it has to leave, or whose result is not the fault's number, gets a line that says so. */
#include "odf.h"

#include <stdio.h>
#include <stdlib.h>
#include <string.h>

#define PATTERN 0xa5

/* Whether memory is as it was before the call. */
static int untouched(const void *memory, size_t size) {
    const uint8_t *bytes = memory;
    for (size_t i = 0; i < size; i++)
        if (bytes[i] != PATTERN)
            return 0;
    return 1;
}

/* Prints the answer of a call; its numbers lie in `size` bytes at `answer`. */
static void print(const char *name, uint32_t result, const int64_t *answer, size_t size, const struct odf_fault *fault) {
    if (result == 0) {
        printf("%s ok", name);
        for (size_t i = 0; i < size / sizeof *answer; i++)
            printf(" %lld", (long long)answer[i]);
        printf("%s\n", untouched(fault, sizeof *fault) ? "" : " and the fault changed");
        return;
    }
    printf("%s refused %llu layer %llu packet %llu item %llu byte %llu", name, (unsigned long long)fault->number,
           (unsigned long long)fault->layer, (unsigned long long)fault->packet, (unsigned long long)fault->item,
           (unsigned long long)fault->byte);
    printf("%s%s\n", result == fault->number ? "" : " with another result", untouched(answer, size) ? "" : " and the answer changed");
}

/* One call: its answer and its fault hold the pattern before it. */
#define CALL(name, type, call)                                       \
    do {                                                             \
        struct type answer;                                          \
        struct odf_fault fault;                                      \
        memset(&answer, PATTERN, sizeof answer);                     \
        memset(&fault, PATTERN, sizeof fault);                       \
        uint32_t result = call;                                      \
        print(name, result, (int64_t *)&answer, sizeof answer, &fault); \
    } while (0)

/* The bytes of a file, in memory of just that size. */
static uint8_t *contents(const char *path, size_t *length) {
    FILE *file = fopen(path, "rb");
    if (file == NULL || fseek(file, 0, SEEK_END) != 0)
        return NULL;
    long size = ftell(file);
    rewind(file);
    uint8_t *bytes = size < 0 ? NULL : malloc(size > 0 ? size : 1);
    if (bytes == NULL || fread(bytes, 1, size, file) != (size_t)size)
        return NULL;
    fclose(file);
    *length = size;
    return bytes;
}

int main(int argc, char **argv) {
    size_t length = 0;
    uint8_t *image = argc > 1 ? contents(argv[1], &length) : NULL;
    if (image == NULL) {
        fprintf(stderr, "usage: check FILE [K..]\n");
        return 1;
    }
    CALL("read", odf_report, odf_read(image, length, &answer, &fault));
#ifndef READ_ONLY
    for (int i = 2; i < argc; i++) {
        size_t k = strtoull(argv[i], NULL, 10);
        CALL("orbit", odf_orbit, odf_pick_orbit(image, length, k, &answer, &fault));
        CALL("ramp", odf_ramp, odf_pick_ramp(image, length, k, &answer, &fault));
        CALL("clock", odf_clock, odf_pick_clock(image, length, k, &answer, &fault));
    }
#endif
    free(image);
    return 0;
}
