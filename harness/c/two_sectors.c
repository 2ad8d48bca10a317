/* Serves two sectors through the C border and prints their counts. */
#include <stdint.h>
#include <stdio.h>
#include "plotunit.h"

enum { SLOTS = 8, REPORTS = 2 };

/* A report: range (4 bytes, low byte first), azimuth (2), confidence, quality, azimuth-degrade, high, low. */
static const uint8_t batches[2][REPORTS][11] = {
    /* Sector 0: a return near the track below, and one out of nowhere. */
    {{0x00, 0x27, 0, 0, 0xe8, 0x03, 5, 3, 0, 60, 120}, {0x40, 0x9c, 0, 0, 0x64, 0x00, 4, 2, 0, 7, 7}},
    /* Sector 1: two returns, the second too weak to start a track. */
    {{0x30, 0x75, 0, 0, 0xb8, 0x0b, 6, 3, 0, 0, 0}, {0x30, 0x75, 0, 0, 0x00, 0x0c, 1, 3, 0, 0, 0}},
};

int main(void)
{
    /* One track, due: range 10,000, azimuth 1,000, range speed -300, 4 updates, confidence 5, quality 3. */
    uint8_t table[SLOTS][16] = {{0x10, 0x27, 0, 0, 0xe8, 0x03, 0xd4, 0xfe, 0, 0, 4, 0, 5, 3, 0, 1}};
    uint8_t sector = 0, fates[REPORTS], shown[REPORTS];
    uint16_t slots[REPORTS];
    uint32_t discounts[REPORTS], prices[SLOTS], counts[7];

    for (int call = 0; call < 2; call++) {
        int served = sector;
        uint8_t number = plot_serve_sector(table, SLOTS, &sector, 16, 16, batches[call], REPORTS, fates, REPORTS,
            slots, REPORTS, shown, REPORTS, discounts, REPORTS, prices, SLOTS, counts);
        if (number != 0) {
            printf("sector %d: refused %d\n", served, number);
            return 1;
        }
        printf("sector %d: %u paired, %u coasted, %u dropped, %u started, %u weak, %u full, score sum %u\n", served,
            counts[0], counts[1], counts[2], counts[3], counts[4], counts[5], counts[6]);
        for (int report = 0; report < REPORTS; report++)
            printf("  report %d: fate %d, slot %d%s\n", report, fates[report], slots[report],
                shown[report] ? ", shown" : "");
    }
    return 0;
}
