// A plain shortest-augmenting-path engine, as one writes it by hand: the yardstick for the proved one.
// A track is inserted by one search over the reports; a track may also be left out, at LEFT_OUT.
#pragma once
#include <cstdint>

constexpr uint32_t NONE = 0xFFFFFFFFu;
constexpr int32_t LEFT_OUT = 268435456;
constexpr int MAX_TRACKS = 100, MAX_REPORTS = 200;

// Pairing (a report a track, or NONE), prices and discounts of a sheet whose cells were tested.
inline void plain_pair(int tracks, int reports, const uint32_t *sheet, uint32_t *pairing, uint32_t *prices, uint32_t *discounts) {
    int32_t owner[MAX_REPORTS], dist[MAX_REPORTS], via[MAX_REPORTS];
    bool used[MAX_REPORTS];
    for (int j = 0; j < reports; j++) { owner[j] = -1; discounts[j] = 0; }
    for (int i = 0; i < tracks; i++) { pairing[i] = NONE; prices[i] = 0; }
    for (int first = 0; first < tracks; first++) {
        for (int j = 0; j < reports; j++) { dist[j] = INT32_MAX; used[j] = false; }
        int track = first, leaver = first, free_report = -1;
        int32_t at = 0, leave = LEFT_OUT - (int32_t)prices[first];
        for (;;) {
            const uint32_t *row = sheet + (int64_t)track * reports;
            int next = -1;
            int32_t best = leave;
            for (int j = 0; j < reports; j++) {
                if (used[j]) continue;
                if (row[j] != NONE) {
                    int32_t d = at + (int32_t)row[j] - (int32_t)prices[track] + (int32_t)discounts[j];
                    if (d < dist[j]) { dist[j] = d; via[j] = track; }
                }
                if (dist[j] < best) { best = dist[j]; next = j; }
            }
            at = best;
            if (next < 0) break;
            used[next] = true;
            if (owner[next] < 0) { free_report = next; break; }
            track = owner[next];
            int32_t out = at + (LEFT_OUT - (int32_t)prices[track]);
            if (out < leave) { leave = out; leaver = track; }
        }
        prices[first] += at;
        for (int j = 0; j < reports; j++)
            if (used[j] && dist[j] < at) {
                prices[owner[j]] += at - dist[j];
                discounts[j] += at - dist[j];
            }
        int vacant = free_report;
        if (vacant < 0) {
            if (leaver == first) continue;
            vacant = (int)pairing[leaver];
            pairing[leaver] = NONE;
        }
        while (vacant >= 0) {
            int t = via[vacant];
            int before = pairing[t] == NONE ? -1 : (int)pairing[t];
            pairing[t] = (uint32_t)vacant;
            owner[vacant] = t;
            vacant = t == first ? -1 : before;
        }
    }
}

// The cells' range, as the proved call tests it.
inline bool plain_cells(int cells, const uint32_t *sheet) {
    for (int k = 0; k < cells; k++)
        if (sheet[k] >= 2097152 && sheet[k] != NONE) return false;
    return true;
}
