/* The plot unit: one call serves one sector of a primary radar's track table.
 *
 * Every call takes any input and answers a number: 0 means served, anything else is the number of a refusal (below), and
 * then nothing that was lent has changed, counts and size included. A list is lent as a pointer and a count of entries;
 * lists may be longer than needed, and what lies beyond the entries needed keeps its bytes. Lent memory must not overlap,
 * and no pointer may be null, even where its count is 0. No memory is allocated and no working room is lent. The unit keeps
 * no state: calls on different tables may run at the same time.
 *
 * Stack: allow 60 KB. plot_serve_sector takes 47 KB on x86-64: a sheet of 100 x 100 cells (40,000 bytes), the due list (808
 * bytes) and lists of up to 200 numbers. plot_pair_sheet takes 4.5 KB, the others under 2 KB.
 */
#ifndef PLOTUNIT_H
#define PLOTUNIT_H

#include <stddef.h>
#include <stdint.h>

#ifdef __cplusplus
extern "C" {
#endif

enum {
    PLOT_SLOT_BYTES = 16,
    PLOT_REPORT_BYTES = 11,
    PLOT_MOST_SLOTS = 2000,
    PLOT_MOST_REPORTS = 100, /* a batch */
    PLOT_MOST_DUE = 100,     /* tracks due in one call */
    PLOT_NO_SLOT = 65535,    /* slots[], for a report that is neither paired nor started */
    PLOT_LEFT_OUT = 268435456 /* what a due track without a pair counts in a total; the largest price and discount */
};

/* A cell of a pair that is not admissible; in a pairing, a track without a report. */
#define PLOT_NONE UINT32_C(4294967295)

/* A slot of the table: 16 bytes without gaps, low byte first, as a little-endian host lays out this struct. The calls take
 * the bytes: pass (uint8_t (*)[16])tracks for a list of structs. */
typedef struct plot_track {
    uint32_t range;        /* predicted, 1/1024 nautical mile, 0..66,560 */
    uint16_t azimuth;      /* predicted, 65,536 a turn */
    int16_t range_speed;   /* a scan, -820..820 */
    int16_t azimuth_speed; /* a scan, -8,192..8,192 */
    uint8_t updates;       /* 1..255 */
    uint8_t misses;        /* since the last pairing; at most 0, 1, 2, 3 at updates 1, 2..3, 4..7, over 7 */
    uint8_t confidence;    /* 0..7, of the last report */
    uint8_t quality;       /* 0..3, of the last report */
    uint8_t wait;          /* 0..46, calls before the one that serves it, 0 is due; (sector + wait) mod 32 is the azimuth's sector */
    uint8_t mark;          /* 0 free (the other bytes are not read), 1 holds a track */
} plot_track;

/* A report's 11 bytes, as in the SCN file; a struct of C would have a gap, so these are places in the bytes. */
enum {
    PLOT_REPORT_RANGE = 0,           /* 4 bytes, low byte first, 0..66,560 */
    PLOT_REPORT_AZIMUTH = 4,         /* 2 bytes, low byte first; it must lie in the sector served */
    PLOT_REPORT_CONFIDENCE = 6,      /* 0..7 */
    PLOT_REPORT_QUALITY = 7,         /* 0..3 */
    PLOT_REPORT_AZIMUTH_DEGRADE = 8, /* 0 or 1 */
    PLOT_REPORT_HIGH = 9,            /* high Doppler, 0..179 */
    PLOT_REPORT_LOW = 10             /* low Doppler, 0..139 */
};

/* fates[] */
enum { PLOT_PAIRED = 1, PLOT_STARTED = 2, PLOT_WEAK = 3, PLOT_FULL = 4 };

/* counts[] */
enum {
    PLOT_COUNT_PAIRED,
    PLOT_COUNT_COASTED,
    PLOT_COUNT_DROPPED,
    PLOT_COUNT_STARTED,
    PLOT_COUNT_WEAK,
    PLOT_COUNT_FULL,
    PLOT_SCORE_SUM,
    PLOT_COUNTS
};

/* What a call gives back; the first that applies, in this order. */
enum {
    PLOT_SERVED = 0,
    /* plot_serve_sector and plot_score_sheet */
    PLOT_REFUSED_TABLE = 1,        /* 0 or over 2,000 slots */
    PLOT_REFUSED_SECTOR = 2,       /* sector over 31 */
    PLOT_REFUSED_SIGMA = 3,        /* a sigma is 0 */
    PLOT_REFUSED_SLOT = 4,         /* a slot's mark or a held track is malformed */
    PLOT_REFUSED_BATCH = 5,        /* over 100 reports */
    PLOT_REFUSED_REPORT = 6,       /* a report field out of range */
    PLOT_REFUSED_OTHER_SECTOR = 7, /* a report's azimuth lies in another sector */
    PLOT_REFUSED_DUE = 8,          /* over 100 due tracks; the table stays as it is, so every further call on it is refused too:
                                      count the held slots by wait and thin the table before their turn comes */
    PLOT_REFUSED_ROOM = 9,         /* an answer list, or the sheet, too short */
    /* plot_pair_sheet (21, 22) and plot_check_pairing (21 to 26) */
    PLOT_REFUSED_SIZES = 21,     /* over 100 tracks or reports, or a list too short for them */
    PLOT_REFUSED_CELL = 22,      /* a cell out of range */
    PLOT_REFUSED_PAIRING = 23,   /* a report not there, a report twice, or a pair not admissible */
    PLOT_REFUSED_NUMBER = 24,    /* a price or discount over PLOT_LEFT_OUT */
    PLOT_REFUSED_ABOVE = 25,     /* price less discount above a score */
    PLOT_REFUSED_TOTALS = 26     /* all prices less all discounts are not the pairing's total */
};

/* Serves a sector: pairs the batch with the due tracks, settles the table, starts tracks, moves the sector on. Needs room in
 * fates, slots, shown and discounts for an entry a report, and in prices for an entry a slot. */
uint8_t plot_serve_sector(
    uint8_t (*table)[PLOT_SLOT_BYTES], size_t table_len,
    uint8_t *sector,                               /* 0..31; moves on by one */
    uint8_t range_sigma, uint8_t azimuth_sigma,    /* the site sheet, 1..255 each */
    const uint8_t (*batch)[PLOT_REPORT_BYTES], size_t batch_len,
    uint8_t *fates, size_t fates_len,              /* PLOT_PAIRED .. PLOT_FULL */
    uint16_t *slots, size_t slots_len,             /* the report's slot, or PLOT_NO_SLOT */
    uint8_t *shown, size_t shown_len,              /* 1: paired, updates now 3 or more; else 0 */
    uint32_t *discounts, size_t discounts_len,
    uint32_t *prices, size_t prices_len,           /* 0 where the slot was not due */
    uint32_t *counts);                             /* PLOT_COUNTS numbers */

/* A sector's score sheet: a row a due track in slot order, a cell a report in batch order. Needs room for all cells. */
uint8_t plot_score_sheet(
    const uint8_t (*table)[PLOT_SLOT_BYTES], size_t table_len,
    uint8_t sector, uint8_t range_sigma, uint8_t azimuth_sigma,
    const uint8_t (*batch)[PLOT_REPORT_BYTES], size_t batch_len,
    uint32_t *sheet, size_t sheet_len,             /* each a score under 2,097,152, or PLOT_NONE */
    uint32_t *size);                               /* 2 numbers: tracks, reports */

/* A best pairing of any sheet: a report number or PLOT_NONE and a price a track, a discount a report. Where several are best,
 * which one is taken is not promised, nor that a sector call takes the same. */
uint8_t plot_pair_sheet(
    size_t tracks, size_t reports,
    const uint32_t *sheet, size_t sheet_len,
    uint32_t *pairing, size_t pairing_len,
    uint32_t *prices, size_t prices_len,
    uint32_t *discounts, size_t discounts_len);

/* The check: 0 where prices and discounts show that the pairing is best. It writes nothing. */
uint8_t plot_check_pairing(
    size_t tracks, size_t reports,
    const uint32_t *sheet, size_t sheet_len,
    const uint32_t *pairing, size_t pairing_len,
    const uint32_t *prices, size_t prices_len,
    const uint32_t *discounts, size_t discounts_len);

#ifdef __cplusplus
}
#endif

#endif
