/* The benchmark's job in plain C: turns of 256 generators, or products, many times over; prints a checksum.
   The same job stands in Rattle in crates/speed; benchmarks/leaves runs both and compares results and times. */
#include <stdint.h>
#include <stdio.h>
#include <stdlib.h>
#include <string.h>

#define LOW(x, w) ((x) & ((1u << (w)) - 1))

enum { GO, GJ, GK, GN, GM, GP, GQ, GL, GSUM, GFM, GMODE, WORDS };

static uint16_t quarter[2048], entries[1024];
static const uint8_t switches[16][4] = {
    [7] = {0, 1, 0, 2}, [9] = {1, 0, 0, 0}, [13] = {1, 1, 1, 1}, [14] = {1, 1, 1, 1}, [15] = {1, 1, 0, 1},
};

/* The tables come from a file that the benchmark makes with the reference. */
static void load_tables(const char *path) {
    FILE *f = fopen(path, "rb");
    if (!f || fread(quarter, 2, 2048, f) != 2048 || fread(entries, 2, 1024, f) != 1024) {
        fprintf(stderr, "leaves: cannot read the tables\n");
        exit(1);
    }
    fclose(f);
}

static int32_t signed20(uint32_t x) { return (int32_t)(x << 12) >> 12; }

static int leaves20(uint32_t a, uint32_t b) {
    int32_t s = signed20(a) + signed20(b);
    return s < -524288 || s > 524287;
}

/* P of a generator whose envelope is on, its registers brought up to date. */
static uint32_t sound(uint32_t *g, const uint8_t *on, uint32_t f, int *triggers) {
    uint32_t mode = g[GMODE] & 15, env = g[GMODE] >> 4 & 3;
    uint32_t high = g[GJ] >> 8, j = LOW(high + f, 20), gk = g[GK];
    uint32_t k = (mode == 8 ? j : gk) >> 7;
    int negative = 0;
    uint32_t w;
    if (mode == 0 || mode == 8) {
        uint32_t i = k & 2047;
        w = quarter[k & 2048 ? 2047 - i : i] >> g[GM];
        negative = k >= 4096;
    } else if (mode == 1) {
        negative = k >= 4096;
        w = k == 4096 ? 0 : negative ? 8192 - k : k;
    } else if (mode == 2) {
        negative = k >= 4096;
        w = 2048;
    } else if (mode == 3) {
        w = leaves20(high, f) || (on[0] && leaves20(gk, j)) ? 2048 : 0;
    } else {
        uint32_t s = 2 * LOW(k * g[GN], 12), i = s & 2047, l = k & 2047;
        uint32_t above = 4095u * quarter[s & 2048 ? 2047 - i : i];
        uint32_t below = (uint32_t)quarter[k & 2048 ? 2047 - l : l] << g[GM];
        w = above / below;
        if (w > 4095) w = 4095;
        negative = (s >= 4096) != (k >= 4096);
    }
    uint32_t x = g[GQ] >> 10, q = env >= 2 ? (uint32_t)entries[x & 1023] >> (x >> 10) : g[GQ] >> 12;
    uint32_t v = LOW(env & 1 ? g[GL] + q : g[GL] - q, 12);
    uint32_t p = (w * v + 32) / 64;
    if (on[0]) {
        g[GJ] = LOW(g[GJ] + (uint32_t)signed20(g[GO]), 28);
        g[GK] = LOW(gk + j, 20);
    }
    int32_t sum = (int32_t)g[GQ] + signed20(g[GP]);
    int over = sum < 0 || sum > 16777215;
    if (!over || on[2]) g[GQ] = LOW((uint32_t)sum, 24);
    *triggers = over && on[2];
    if (*triggers && g[GMODE] >> 6 == 13) g[GMODE] = 9 << 6 | LOW(g[GMODE], 6);
    return LOW(negative ? 0u - p : p, 20);
}

static uint32_t product(uint32_t s, uint32_t a, uint32_t b) {
    return LOW((uint32_t)((((int64_t)signed20(a) * signed20(b) << s) + 262144) >> 19), 20);
}

static uint32_t generators(uint32_t *m, uint32_t rounds) {
    uint32_t sums[64] = {0}, fired = 0, check = 0;
    for (uint32_t r = 0; r < rounds; r++)
        for (int n = 0; n < 256; n++) {
            uint32_t *g = m + 11 * n;
            const uint8_t *on = switches[g[GMODE] >> 6];
            if (!on[1]) continue;
            int triggers;
            uint32_t p = sound(g, on, sums[g[GFM] & 63], &triggers);
            sums[g[GSUM]] = LOW(sums[g[GSUM]] + p, 20);
            fired += (uint32_t)triggers;
        }
    for (int i = 0; i < 64; i++) check = check * 31 + sums[i];
    for (int i = 0; i < 2816; i++) check = check * 31 + m[i];
    return check * 31 + fired;
}

static uint32_t products(uint32_t x, uint32_t n) {
    for (uint32_t i = 0; i < n; i++) x = LOW(product(i & 3, x, LOW(x * 5 + i, 20)) + x, 20);
    return x;
}

/* leaves TABLES JOB COUNT < the eleven words of 256 generators */
int main(int argc, char **argv) {
    static uint32_t m[2816];
    if (argc != 4 || fread(m, 4, 2816, stdin) != 2816) return 2;
    load_tables(argv[1]);
    uint32_t count = (uint32_t)strtoul(argv[3], 0, 10);
    printf("%u\n", strcmp(argv[2], "products") ? generators(m, count) : products(m[0], count));
    return 0;
}
