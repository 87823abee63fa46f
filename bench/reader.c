/* A plain reader in C of files on disk images, as one would write it without proofs: one pass, and a hash table for the
 * recount. docs/FORMAT.md has the rules. */
#include "reader.h"

#include <stdlib.h>
#include <string.h>

enum { LABEL = 101, IDENTIFIER = 107, ORBITS = 109, RAMPS = 2030, CLOCKS = 2040, SUMMARY = 105, END = -1 };
enum { BLOCK = 8064, PACKETS = 224, PACKET = 36, MOST_CELLS = 1000000 };

#define BILLION 1000000000u

struct row {
    uint32_t key; /* station, band, type and channel, the first on top; 0 is a free place */
    uint32_t count;
    uint64_t first, last;
};

struct walk {
    const uint8_t *image;
    size_t cells, at;
    uint32_t word[9]; /* the words of packet `at` */
    int here;         /* whether there is a packet `at` */
    uint32_t spacecraft;
    struct odf_report report;
    struct odf_fault fault;
    struct row *rows; /* a hash table */
    size_t used, size;
};

static uint32_t word_at(const uint8_t *p) {
    uint32_t w;
    memcpy(&w, p, 4);
    return __builtin_bswap32(w);
}

/* Takes the next packet. */
static void look(struct walk *w) {
    w->here = w->at < w->cells;
    if (w->here)
        for (int i = 0; i < 9; i++)
            w->word[i] = word_at(w->image + w->at * PACKET + 4 * i);
}

static void step(struct walk *w) {
    w->at++;
    look(w);
}

static int refuse(struct walk *w, unsigned number, unsigned item) {
    w->fault = (struct odf_fault){number, number == 22 ? 2 : 3, w->at, item, 0};
    return 0;
}

static int header_like(const struct walk *w) {
    return (w->word[4] | w->word[5]) == 0;
}

static int more(const struct walk *w) {
    return w->here && !header_like(w);
}

/* Passes a header; `keys` ends in 0. The key and the secondary key are those found. */
static int header(struct walk *w, const int *keys, int *key, uint32_t *secondary) {
    if (!w->here)
        return refuse(w, 23, 0);
    int32_t found = (int32_t)w->word[0];
    while (*keys != 0 && *keys != found)
        keys++;
    if (!header_like(w) || *keys == 0)
        return refuse(w, 21, 0);
    uint32_t least = found == RAMPS, most = found == RAMPS ? 1023 : 0;
    if (w->word[1] < least || w->word[1] > most)
        return refuse(w, 22, 2);
    if (w->word[2] != (found != END))
        return refuse(w, 22, 3);
    if (w->word[3] != w->at)
        return refuse(w, 22, 4);
    for (int i = 7; i <= 9; i++)
        if (w->word[i - 1] != 0)
            return refuse(w, 22, i);
    if (found == RAMPS && *key == RAMPS && w->word[1] <= *secondary)
        return refuse(w, 24, 0);
    *key = found;
    *secondary = w->word[1];
    step(w);
    return 1;
}

/* Whether data stands here. */
static int data(struct walk *w) {
    if (!w->here)
        return refuse(w, 23, 0);
    return header_like(w) ? refuse(w, 21, 0) : 1;
}

static int is_date(uint32_t date) {
    static const int days[] = {31, 28, 31, 30, 31, 30, 31, 31, 30, 31, 30, 31};
    uint32_t year = date / 10000, month = date / 100 % 100, day = date % 100;
    if (year > 99 || month < 1 || month > 12 || day < 1)
        return 0;
    return day <= (uint32_t)days[month - 1] + (month == 2 && year % 4 == 0);
}

static int label(struct walk *w) {
    if (!data(w))
        return 0;
    const uint8_t *text = w->image + w->at * PACKET;
    for (int i = 0; i < 16; i++)
        if (text[i] < 0x20 || text[i] > 0x7e)
            return refuse(w, 22, i + 1);
    if (w->word[4] < 1 || w->word[4] > 1023)
        return refuse(w, 22, 17);
    if (!is_date(w->word[5]))
        return refuse(w, 22, 18);
    if (w->word[6] / 10000 > 23 || w->word[6] / 100 % 100 > 59 || w->word[6] % 100 > 59)
        return refuse(w, 22, 19);
    if (w->word[7] != 0 && w->word[7] != 19500101)
        return refuse(w, 22, 20);
    if (w->word[8] != 0)
        return refuse(w, 22, 21);
    w->spacecraft = w->word[4];
    step(w);
    return 1;
}

static int identifier(struct walk *w) {
    static const char text[] = "TIMETAG OBSRVBL FREQ, ANCILLARY-DATA";
    if (!data(w))
        return 0;
    for (int i = 0; i < PACKET; i++)
        if (w->image[w->at * PACKET + i] != (uint8_t)text[i])
            return refuse(w, 22, i + 1);
    step(w);
    return 1;
}

/* Whether a whole and billionths are no signed pair. */
static int torn(uint32_t whole, uint32_t part) {
    int32_t a = (int32_t)whole, b = (int32_t)part;
    return b < -(int32_t)(BILLION - 1) || b > (int32_t)(BILLION - 1) || (a < 0 && b > 0) || (a > 0 && b < 0);
}

/* bit k is set where k is a data type */
static const uint64_t TYPES = 0x07f802300000387e;

/* The lowest bad item of an orbit record; 0 where there is none. */
static unsigned bad_orbit(const uint32_t *word, uint32_t spacecraft) {
    uint32_t five = word[4], type = five >> 7 & 63, transmitter = five >> 15 & 127, network = five >> 13 & 3;
    int32_t auxiliary = (int32_t)word[7] >> 12;
    int angle = type >= 51 && type <= 58, quasar = type == 3 || type == 4 || type == 6;
    int one_way = type == 11 || (transmitter == 0 && (type == 36 || type == 37 || type == 41));
    int no_reference = angle || type == 2 || type == 4 || (network == 3 && !one_way);
    if (word[1] >> 22 > 999)
        return 2;
    if (type == 41 && word[2] >= BILLION)
        return 4;
    if (torn(word[2], word[3]) || (type == 41 && (int32_t)word[3] < 0))
        return 5;
    if (five >> 29 != 2)
        return 6;
    if ((five >> 22 & 127) == 0)
        return 7;
    if (transmitter != 0 && (angle || quasar || type == 11))
        return 8;
    if ((TYPES >> type & 1) == 0)
        return 10;
    if (angle && (five >> 5 & 3) != 0)
        return 11;
    if ((angle || one_way) && (five >> 3 & 3) != 0)
        return 12;
    if (angle && (five >> 1 & 3) != 0)
        return 13;
    if ((angle || type == 36) && word[5] >> 25 != 0)
        return 15;
    if (!quasar && (word[5] >> 15 & 1023) != spacecraft)
        return 16;
    if (angle && (word[5] >> 14 & 1) != 0)
        return 17;
    if (no_reference && ((word[5] & 0x3fff) != 0 || word[6] >> 24 != 0))
        return 18;
    if (no_reference && (word[6] & 0xffffff) != 0)
        return 19;
    if (type >= 1 && type <= 6 ? auxiliary < -100000 || (type <= 4 && auxiliary % 10000 != 0)
                               : auxiliary != 0 && type != 37 && !(type >= 11 && type <= 13 && network == 2))
        return 20;
    if ((angle || type == 36 || type == 41) && ((word[7] & 0xfff) != 0 || word[8] >> 22 != 0))
        return 21;
    if (angle && (word[8] & 0x3fffff) != 0)
        return 22;
    return 0;
}

/* The place of a key in a table of 2, 4, 8 .. places. */
static struct row *place(struct row *rows, size_t size, uint32_t key) {
    size_t i = key * 2654435761u >> (32 - __builtin_ctzll(size));
    while (rows[i].key != 0 && rows[i].key != key)
        i = (i + 1) & (size - 1);
    return rows + i;
}

static void grow(struct walk *w) {
    size_t size = w->size ? 2 * w->size : 256;
    struct row *rows = calloc(size, sizeof *rows);
    if (rows == NULL)
        abort();
    for (size_t i = 0; i < w->size; i++)
        if (w->rows[i].key != 0)
            *place(rows, size, w->rows[i].key) = w->rows[i];
    free(w->rows);
    w->rows = rows;
    w->size = size;
}

/* Counts the orbit record at hand. */
static void count(struct walk *w, uint64_t time) {
    uint32_t five = w->word[4], type = five >> 7 & 63;
    uint32_t channel = type >= 11 && type <= 13 ? w->word[5] >> 25 : 0;
    uint32_t key = (five >> 22 & 127) << 15 | (five >> 5 & 3) << 13 | type << 7 | channel;
    if (2 * w->used >= w->size)
        grow(w);
    struct row *row = place(w->rows, w->size, key);
    if (row->key == 0) {
        *row = (struct row){key, 0, time, time};
        w->used++;
    }
    row->count++;
    row->last = time;
}

static int orbits(struct walk *w) {
    uint64_t last = 0;
    while (more(w)) {
        unsigned bad = bad_orbit(w->word, w->spacecraft);
        if (bad != 0)
            return refuse(w, 22, bad);
        uint64_t time = (uint64_t)w->word[0] * BILLION + (uint64_t)(w->word[1] >> 22) * 1000000;
        if (time < last)
            return refuse(w, 24, 0);
        last = time;
        count(w, time);
        w->report.orbits++;
        step(w);
    }
    return 1;
}

/* The lowest bad item of a ramp of this station; 0 where there is none. */
static unsigned bad_ramp(const uint32_t *word, uint32_t station) {
    if (word[1] >= BILLION)
        return 2;
    if (torn(word[2], word[3]))
        return 4;
    if ((word[4] & 1023) != station)
        return 6;
    if (word[5] >= BILLION)
        return 7;
    if (word[6] >= BILLION)
        return 8;
    if (word[8] >= BILLION || word[7] < word[0] || (word[7] == word[0] && word[8] <= word[1]))
        return 9;
    return 0;
}

static int ramps(struct walk *w, uint32_t station) {
    uint64_t last = 0;
    if (!data(w))
        return 0;
    while (more(w)) {
        unsigned bad = bad_ramp(w->word, station);
        if (bad != 0)
            return refuse(w, 22, bad);
        if ((uint64_t)w->word[0] * BILLION + w->word[1] < last)
            return refuse(w, 24, 0);
        last = (uint64_t)w->word[7] * BILLION + w->word[8];
        w->report.ramps++;
        step(w);
    }
    w->report.ramp_groups++;
    return 1;
}

/* The lowest bad item of a clock offset; 0 where there is none. */
static unsigned bad_clock(const uint32_t *word) {
    if (word[1] >= BILLION)
        return 2;
    if (torn(word[2], word[3]))
        return 4;
    if (word[4] < 1 || word[4] > 1023)
        return 5;
    if (word[5] > 1023)
        return 6;
    for (int i = 7; i <= 9; i++)
        if (word[i - 1] != 0)
            return i;
    return 0;
}

static int clocks(struct walk *w) {
    uint64_t last = 0;
    if (!data(w))
        return 0;
    while (more(w)) {
        unsigned bad = bad_clock(w->word);
        if (bad != 0)
            return refuse(w, 22, bad);
        uint64_t time = (uint64_t)w->word[0] * BILLION + w->word[1];
        if (time < last)
            return refuse(w, 24, 0);
        last = time;
        w->report.clocks++;
        step(w);
    }
    return 1;
}

static int by_key(const void *a, const void *b) {
    uint32_t x = ((const struct row *)a)->key, y = ((const struct row *)b)->key;
    return (x > y) - (x < y);
}

static int summary(struct walk *w) {
    size_t used = 0;
    w->report.summary = 1;
    for (size_t i = 0; i < w->size; i++)
        if (w->rows[i].key != 0)
            w->rows[used++] = w->rows[i];
    if (used > 1)
        qsort(w->rows, used, sizeof *w->rows, by_key);
    for (size_t i = 0; i < used; i++) {
        const struct row *r = w->rows + i;
        const uint32_t due[9] = {r->first / BILLION, r->first % BILLION, r->key >> 15, r->key & 127, r->key >> 13 & 3,
                                 r->key >> 7 & 63, r->count, r->last / BILLION, r->last % BILLION};
        if (!w->here)
            return refuse(w, 23, 0);
        if (memcmp(due, w->word, sizeof due) != 0)
            return refuse(w, 25, 0);
        w->report.rows++;
        step(w);
    }
    return more(w) ? refuse(w, 25, 0) : 1;
}

static int rest(struct walk *w) {
    static const uint8_t filler[PACKET] = {[0 ... PACKET - 1] = 0x88};
    for (; w->at < w->cells; w->at++)
        if (memcmp(w->image + w->at * PACKET, filler, PACKET) != 0)
            return refuse(w, 26, 0);
    return 1;
}

static int walked(struct walk *w) {
    static const int first[] = {LABEL, 0}, second[] = {IDENTIFIER, 0}, third[] = {ORBITS, 0};
    static const int later[] = {RAMPS, CLOCKS, SUMMARY, END, 0}, last[] = {SUMMARY, END, 0}, end[] = {END, 0};
    int key = 0;
    uint32_t station = 0;
    if (!header(w, first, &key, &station) || !label(w))
        return 0;
    if (!header(w, second, &key, &station) || !identifier(w))
        return 0;
    if (!header(w, third, &key, &station) || !orbits(w))
        return 0;
    if (!header(w, later, &key, &station))
        return 0;
    while (key == RAMPS)
        if (!ramps(w, station) || !header(w, later, &key, &station))
            return 0;
    if (key == CLOCKS && (!clocks(w) || !header(w, last, &key, &station)))
        return 0;
    if (key == SUMMARY && (!summary(w) || !header(w, end, &key, &station)))
        return 0;
    w->report.end = w->at - 1;
    return rest(w);
}

uint32_t plain_read(const uint8_t *image, size_t length, struct odf_report *report, struct odf_fault *fault) {
    size_t cells = length / BLOCK * PACKETS;
    struct walk w = {.image = image, .cells = cells < MOST_CELLS ? cells : MOST_CELLS};
    look(&w);
    int good = walked(&w);
    free(w.rows);
    if (good)
        *report = w.report;
    else
        *fault = w.fault;
    return good ? 0 : w.fault.number;
}
