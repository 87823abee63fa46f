/* Reading orbit data files on disk images from C.
 *
 * Link target/staticlib/libcapi.a, which `tools/build` writes. A call works in the caller's memory alone: it
 * allocates nothing and keeps nothing. `image` points to `length` bytes and is not null, even where there are none; the
 * structs and the image do not overlap.
 *
 * Each call answers 0, or the number of the fault. Where it is refused, the report or the record is as it was; where it is
 * accepted, the fault is as it was. docs/REFUSALS.md has the faults, docs/FORMAT.md the items. */
#ifndef ODF_H
#define ODF_H

#include <stddef.h>
#include <stdint.h>

/* What a fault tells; what does not apply is 0. */
struct odf_fault {
    uint64_t number;
    uint64_t layer;
    uint64_t packet;
    uint64_t item;
    uint64_t byte;
};

/* A file: the packet number of its end packet, and how much it has of each group. */
struct odf_report {
    uint64_t end;
    uint64_t orbits;
    uint64_t ramp_groups;
    uint64_t ramps;
    uint64_t clocks;
    uint64_t summary; /* 1 where there is a summary, else 0 */
    uint64_t rows;    /* its rows, else 0 */
};

/* The items of an orbit record. */
struct odf_orbit {
    int64_t seconds;
    int64_t millis;
    int64_t delay;
    int64_t whole;
    int64_t part;
    int64_t format;
    int64_t receiver;
    int64_t transmitter;
    int64_t network;
    int64_t kind;
    int64_t downlink;
    int64_t uplink;
    int64_t exciter;
    int64_t validity;
    int64_t channel;
    int64_t target;
    int64_t indicator;
    int64_t high;
    int64_t low;
    int64_t auxiliary;
    int64_t compression;
    int64_t updelay;
};

/* The items of a ramp. */
struct odf_ramp {
    int64_t seconds;
    int64_t fraction;
    int64_t rate;
    int64_t part;
    int64_t gigahertz;
    int64_t station;
    int64_t hertz;
    int64_t hertzpart;
    int64_t endseconds;
    int64_t endfraction;
};

/* The items of a clock offset. */
struct odf_clock {
    int64_t seconds;
    int64_t fraction;
    int64_t offset;
    int64_t part;
    int64_t primary;
    int64_t secondary;
    int64_t spare;
    int64_t endseconds;
    int64_t endfraction;
};

/* Reads the whole file and checks it. */
uint32_t odf_read(const uint8_t *image, size_t length, struct odf_report *report, struct odf_fault *fault);

/* Reads cell k as a record of the named kind, judged by the kind's own rules alone. */
uint32_t odf_pick_orbit(const uint8_t *image, size_t length, size_t k, struct odf_orbit *found, struct odf_fault *fault);
uint32_t odf_pick_ramp(const uint8_t *image, size_t length, size_t k, struct odf_ramp *found, struct odf_fault *fault);
uint32_t odf_pick_clock(const uint8_t *image, size_t length, size_t k, struct odf_clock *found, struct odf_fault *fault);

#endif
