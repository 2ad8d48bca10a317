// Times the proved engine against the plain one, on the same sheets in one run, and compares their totals.
#include <algorithm>
#include <chrono>
#include <cstdio>
#include <cstring>
#include <random>
#include <string>
#include <vector>
#include "plain.h"

#ifdef WITH_DLIB
#include <dlib/matrix.h>
#include <dlib/optimization/max_cost_assignment.h>
#endif

extern "C" uint8_t bench_pair(size_t tracks, size_t reports, const uint32_t *sheet, size_t sheet_len, uint32_t *pairing, size_t pairing_len,
    uint32_t *prices, size_t prices_len, uint32_t *discounts, size_t discounts_len);
extern "C" void bench_wide(const uint32_t *sheet, size_t sheet_len, size_t reports, uint32_t *pairing, size_t pairing_len, uint32_t *prices,
    size_t prices_len, uint32_t *discounts, size_t discounts_len);

struct Sheet { int tracks, reports; std::vector<uint32_t> cells; };
struct Family { std::string name; std::vector<Sheet> sheets; };
static std::mt19937 rng(298);
static uint32_t below(uint32_t n) { return rng() % n; }

static Sheet blank(int t, int r) { return {t, r, std::vector<uint32_t>((size_t)t * r, NONE)}; }
static Sheet sparse(int t, int r) { // each track reaches 1..6 reports near it
    Sheet s = blank(t, r);
    for (int i = 0; i < t; i++) {
        int k = 1 + below(6), at = below(r);
        for (int x = 0; x < k; x++) s.cells[i * r + (at + below(8)) % r] = (below(2) ? 3 : 6) * 262144 + below(262144);
    }
    return s;
}
static Sheet share(int t, int r, int percent) {
    Sheet s = blank(t, r);
    for (auto &c : s.cells) if ((int)below(100) < percent) c = below(2097152);
    return s;
}
static Sheet product(int t, int r, int k) {
    Sheet s = blank(t, r);
    for (int i = 0; i < t; i++) for (int j = 0; j < r; j++) s.cells[i * r + j] = (i + k) * (j + 1) % 2097152;
    return s;
}
static Sheet tied(int t, int r) {
    Sheet s = blank(t, r);
    for (auto &c : s.cells) c = 1000 + below(4);
    return s;
}

struct Answer { std::vector<uint32_t> p, u, w; };
static uint64_t total(const Sheet &s, const Answer &a) {
    uint64_t x = 0;
    for (int i = 0; i < s.tracks; i++) x += a.p[i] == NONE ? LEFT_OUT : s.cells[(size_t)i * s.reports + a.p[i]];
    return x;
}
static bool certified(const Sheet &s, const Answer &a) {
    uint64_t have = 0, want = total(s, a);
    for (int i = 0; i < s.tracks; i++) have += a.u[i];
    for (int j = 0; j < s.reports; j++) want += a.w[j];
    for (int i = 0; i < s.tracks; i++)
        for (int j = 0; j < s.reports; j++) {
            uint32_t c = s.cells[(size_t)i * s.reports + j];
            if (c != NONE && (uint64_t)a.u[i] > (uint64_t)c + a.w[j]) return false;
        }
    return have == want;
}
static void ours(const Sheet &s, Answer &a) {
    if (s.reports > 100) { // wider than the public call takes: the engine's own entry, after the same test
        if (!plain_cells((int)s.cells.size(), s.cells.data())) exit(1);
        bench_wide(s.cells.data(), s.cells.size(), s.reports, a.p.data(), s.tracks, a.u.data(), s.tracks, a.w.data(), s.reports);
        return;
    }
    uint8_t r = bench_pair(s.tracks, s.reports, s.cells.data(), s.cells.size(), a.p.data(), s.tracks, a.u.data(), s.tracks, a.w.data(), s.reports);
    if (r) { printf("refused %d\n", r); exit(1); }
}
static void plain(const Sheet &s, Answer &a) {
    if (!plain_cells((int)s.cells.size(), s.cells.data())) exit(1);
    plain_pair(s.tracks, s.reports, s.cells.data(), a.p.data(), a.u.data(), a.w.data());
}
template <class F> static double pass(const Family &f, Answer &a, F call, int rounds) {
    auto t0 = std::chrono::steady_clock::now();
    for (int k = 0; k < rounds; k++) for (auto &s : f.sheets) call(s, a);
    return std::chrono::duration<double, std::micro>(std::chrono::steady_clock::now() - t0).count() / rounds / f.sheets.size();
}

#ifdef WITH_DLIB
// dlib pairs squares and looks for the most: scores from LEFT_OUT down, and rows without a track.
static double dlib_time(const Family &f) {
    std::vector<dlib::matrix<int64_t>> ms;
    for (auto &s : f.sheets) {
        int n = std::max(s.tracks, s.reports);
        dlib::matrix<int64_t> c(n, n);
        c = 0;
        for (int i = 0; i < s.tracks; i++)
            for (int j = 0; j < s.reports; j++) {
                uint32_t x = s.cells[(size_t)i * s.reports + j];
                c(i, j) = x == NONE ? 0 : LEFT_OUT - (int64_t)x;
            }
        ms.push_back(c);
    }
    double best = 1e9;
    for (int k = 0; k < 2; k++) {
        auto t0 = std::chrono::steady_clock::now();
        for (auto &c : ms) dlib::max_cost_assignment(c);
        best = std::min(best, std::chrono::duration<double, std::micro>(std::chrono::steady_clock::now() - t0).count() / ms.size());
    }
    return best;
}
#else
static double dlib_time(const Family &) { return 0; }
#endif

int main(int argc, char **argv) {
    std::vector<Family> fs;
    auto add = [&](const char *n, auto make) { Family f; f.name = n; for (int k = 0; k < 32; k++) f.sheets.push_back(make(k)); fs.push_back(f); };
    add("sparse 60x80", [](int) { return sparse(60, 80); });
    add("sparse 100x100", [](int) { return sparse(100, 100); });
    add("dense 100x100", [](int) { return share(100, 100, 100); });
    add("i*j 100x100", [](int k) { return product(100, 100, k); });
    add("10% 100x100", [](int) { return share(100, 100, 10); });
    add("tied 100x100", [](int) { return tied(100, 100); });
    add("sparse 100x200", [](int) { return sparse(100, 200); });
    add("dense 100x200", [](int) { return share(100, 200, 100); });
    add("10% 100x200", [](int) { return share(100, 200, 10); });
    add("i*j 100x200", [](int k) { return product(100, 200, k); });
    if (argc > 2 && std::string(argv[1]) == "--write") { // the sheets, for another engine
        FILE *o = fopen(argv[2], "wb");
        for (auto &f : fs) for (auto &s : f.sheets) {
            uint32_t h[3] = {(uint32_t)(&f - fs.data()), (uint32_t)s.tracks, (uint32_t)s.reports};
            fwrite(h, 4, 3, o); fwrite(s.cells.data(), 4, s.cells.size(), o);
        }
        fclose(o);
        return 0;
    }
    std::vector<double> scipy(fs.size(), 0);
    if (FILE *in = argc > 1 ? fopen(argv[1], "r") : nullptr) { for (auto &x : scipy) if (fscanf(in, "%lf", &x) != 1) break; fclose(in); }
    Answer a{std::vector<uint32_t>(100), std::vector<uint32_t>(100), std::vector<uint32_t>(200)}, b = a;
    printf("microseconds a call, the best of 15 passes over 32 sheets a family; a ratio is ours / the other's\n");
    printf("%-15s %9s %9s %6s %9s %6s %10s %6s\n", "family", "ours", "plain", "ratio", "scipy", "ratio", "dlib", "ratio");
    for (size_t f = 0; f < fs.size(); f++) {
        for (auto &s : fs[f].sheets) {
            ours(s, a); plain(s, b);
            if (total(s, a) != total(s, b) || !certified(s, a) || !certified(s, b)) { printf("%s: wrong\n", fs[f].name.c_str()); return 1; }
        }
        double x = 1e9, y = 1e9, z = dlib_time(fs[f]);
        for (int k = 0; k < 15; k++) { x = std::min(x, pass(fs[f], a, ours, 4)); y = std::min(y, pass(fs[f], b, plain, 4)); }
        printf("%-15s %9.2f %9.2f %6.2f ", fs[f].name.c_str(), x, y, x / y);
        if (scipy[f] > 0) printf("%9.2f %6.2f ", scipy[f], x / scipy[f]); else printf("%9s %6s ", "-", "-");
        if (z > 0) printf("%10.2f %6.2f\n", z, x / z); else printf("%10s %6s\n", "-", "-");
    }
}
