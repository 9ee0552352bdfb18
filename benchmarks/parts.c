/* What parts two orders, in plain C beside the proved call: benchmarks/parts builds this. It has both find the same orders' points and contents, then times both
   in turn, and karvelorn_compare beside them; and it tries the contents: passes from them by the two orders must run and part.
   The C is written from the papers, in time linear in T, with the same questions asked; its contents are those of the proved call, since the papers leave open which. */
#define _POSIX_C_SOURCE 199309L
#include "plain_compare.h"

enum { GENERATORS_IN_ALL = 256, MODIFIERS_IN_ALL = 128, NONE_SOUNDS = 256 };

/* What is found of two orders: the point, its lowest place, and for the fourth the generator that is to sound. */
typedef struct {
    uint32_t point, place, sounding;
} failing;

static uint32_t first_neighbour(const uint32_t *m, const trace *a, const trace *b) {
    for (uint32_t g = 1; g < m[T]; g++) {
        uint32_t lower = m[GENERATOR_WORDS * (g - 1) + GMODE] >> 6;
        if (m[GENERATOR_WORDS * g + GMODE] >> 6 == WAIT && (lower == RUNNING_B || lower == RUNNING_C) && !same_side(a, b, g - 1, g)) return g;
    }
    return m[T];
}

static uint32_t first_difference(const uint32_t *a, const uint32_t *b, uint32_t n) {
    uint32_t i = 0;
    while (i < n && a[i] == b[i]) i++;
    return i;
}

/* The lowest word at which the fourth point fails, and the generator that is to sound for it. */
static failing first_word(const uint32_t *m, const trace *a, const trace *b) {
    uint8_t moved[64] = {0};
    uint32_t mover[64];
    for (uint32_t i = m[T]; i-- > 0;) {
        const uint32_t *g = m + GENERATOR_WORDS * i;
        uint32_t last = a->last[g[GSUM]];
        if (g[GMODE] >> 6 >= RUNNING_C && last && last == b->last[g[GSUM]] && !same_side(a, b, last - 1, i)) {
            moved[g[GSUM]] = 1;
            mover[g[GSUM]] = i;
        }
    }
    for (uint32_t w = 0; w < 64; w++) {
        if (a->last[w] != b->last[w]) return (failing){4, w, a->last[w] - 1};
        if (a->among[w] != b->among[w]) return (failing){4, w, NONE_SOUNDS};
        if (moved[w]) return (failing){4, w, mover[w]};
    }
    return (failing){0, 0, 0};
}

static failing first_failing(const uint32_t *m, const trace *a, const trace *b) {
    uint32_t place = first_neighbour(m, a, b);
    if (place < m[T]) return (failing){1, place, 0};
    if ((place = first_difference(a->fed, b->fed, 16)) < 16) return (failing){2, place, 0};
    if ((place = first_difference(a->written, b->written, a->writes)) < a->writes) return (failing){3, place, 0};
    return first_word(m, a, b);
}

/* Contents by the point: every envelope overflows; or one generator sounds; or what is sent tells its source. */
static void write_contents(const uint32_t *m, failing f, uint32_t *contents) {
    static const uint32_t silent[4] = {0, 0, 4093, 3};
    memcpy(contents, m, KARVELORN_WORDS * sizeof *m);
    for (uint32_t k = 0; k < MODIFIERS_IN_ALL; k++) contents[MODIFIERS + MODIFIER_WORDS * k + MMODE] = 0;
    if (f.point == 1) {
        for (uint32_t *g = contents; g < contents + MODIFIERS; g += GENERATOR_WORDS) {
            g[GP] = 1;
            g[GQ] = 16777215;
        }
        return;
    }
    uint32_t *first = contents + SUMS + 64 * GENERATOR_LAST, *second = contents + SUMS + 64 * MODIFIER_LAST;
    if (f.point != 4) {
        for (uint32_t w = 0; w < 64; w++) first[w] = w, second[w] = 64 + w;
        return;
    }
    for (uint32_t w = 0; w < 64; w++) first[w] = second[w] = 1;
    for (uint32_t i = 0; i < GENERATORS_IN_ALL; i++) {
        uint32_t *g = contents + GENERATOR_WORDS * i;
        g[GJ] = 134217472;
        g[GK] = 128;
        g[GN] = 1;
        g[GM] = 0;
        g[GQ] = 0;
        g[GL] = LOW(silent[g[GMODE] >> 4 & 3] + (i == f.sounding ? 64 : 0), 12);
    }
}

__attribute__((noinline)) uint32_t plain_parts(const uint32_t *m, size_t words, const uint32_t *first, size_t first_len,
                                               const uint32_t *second, size_t second_len, uint32_t *contents,
                                               size_t contents_words, uint32_t *items, size_t items_len,
                                               uint32_t *point, uint32_t *place) {
    trace a, b;
    *point = *place = 0;
    if (words != KARVELORN_WORDS) return 1;
    if (!valid_machine(m)) return 2;
    uint32_t number = orders_refusal(m, first, first_len, second, second_len), reads = 0;
    if (number) return number;
    if (contents_words != KARVELORN_WORDS) return 1;
    for (uint32_t i = 0; i < m[T]; i++) reads += m[GENERATOR_WORDS * i + GMODE] >> 6 == READ_DATA;
    if (items_len < reads) return 7;
    follow_1978(m, first, &a);
    follow_1978(m, second, &b);
    failing f = first_failing(m, &a, &b);
    if (!f.point) return 0;
    *point = f.point;
    *place = f.place;
    write_contents(m, f, contents);
    for (uint32_t i = 0; i < reads; i++) items[i] = f.point == 4 && f.sounding == NONE_SOUNDS ? i : 0;
    return 0;
}

#ifndef ONLY_PLAIN

typedef uint32_t parts_function(const uint32_t *, size_t, const uint32_t *, size_t, const uint32_t *, size_t, uint32_t *, size_t,
                                uint32_t *, size_t, uint32_t *, uint32_t *);

parts_function plain_parts_o3, plain_parts_native;

static parts_function *const sides[SIDES] = {karvelorn_parts, plain_parts, plain_parts_o3, plain_parts_native};

static const uint32_t runs[16] = {RUNNING_A, RUNNING_B, RUNNING_C, WAIT,      RUNNING_A, RUNNING_B, WRITE_DAC, WRITE_DATA,
                                  READ_DATA, RUNNING_A, WAIT,      RUNNING_B, RUNNING_C, READ_DATA, 0,         1};

/* Generators in all run modes. */
static void make_machine(uint32_t *m, uint32_t t) {
    karvelorn_fresh(m, KARVELORN_WORDS);
    set_ticks(m, t);
    for (uint32_t i = 0; i < t; i++) {
        uint32_t *g = m + GENERATOR_WORDS * i;
        g[GO] = draw(20);
        g[GSUM] = draw(6);
        g[GFM] = draw(7);
        g[GMODE] = runs[draw(4)] << 6 | draw(2) << 4;
    }
}

static void exchange(uint32_t *order, uint32_t i, uint32_t j) {
    uint32_t n = order[i];
    order[i] = order[j];
    order[j] = n;
}

static uint32_t contents[KARVELORN_WORDS], items[256], memory[KARVELORN_MEMORY_WORDS];

/* The point that parts two orders; 5 in a refusal. */
static uint32_t parting(const uint32_t *m, const uint32_t *first, const uint32_t *second) {
    uint32_t point, place;
    if (karvelorn_parts(m, KARVELORN_WORDS, first, m[T], second, m[T], contents, KARVELORN_WORDS, items, 256, &point, &place)) return 5;
    return point;
}

/* An order that equals the other but for neighbours in it: exchanges that keep it equal, then one that parts at a point. Gives 0 where none was found. */
static int part_at(uint32_t point, const uint32_t *m, const uint32_t *first, uint32_t *second) {
    uint32_t t = m[T];
    memcpy(second, first, t * sizeof *second);
    for (int k = 0; k < 20000; k++) {
        uint32_t i = draw(16) % t, j = draw(16) % t, found;
        exchange(second, i, j);
        found = parting(m, first, second);
        if (found == point && (point || k > 10000)) return 1;
        if (found) exchange(second, i, j);
    }
    return 0;
}

/* Passes from the contents by the two orders run, and leave another machine or other written data. */
static int apart(const uint32_t *first, const uint32_t *second) {
    static uint32_t left[2][KARVELORN_WORDS], places[2][256], held[KARVELORN_MEMORY_WORDS];
    const uint32_t *orders[2] = {first, second};
    for (int i = 0; i < 2; i++) {
        size_t read, written;
        uint8_t clipped[KARVELORN_MARKS];
        memcpy(left[i], contents, sizeof contents);
        memcpy(held, memory, sizeof memory);
        if (karvelorn_pass(left[i], KARVELORN_WORDS, orders[i], contents[T], items, 256, places[i], 256, held, KARVELORN_MEMORY_WORDS, &read, &written, clipped)) return 0;
    }
    return memcmp(left[0], left[1], sizeof left[0]) || memcmp(places[0], places[1], sizeof places[0]);
}

/* Both answer alike and leave the same contents and items: small machines, some of them not good, and orders of which some are not. */
static int alike(int cases) {
    static uint32_t m[KARVELORN_WORDS], left[2][KARVELORN_WORDS], read[2][32];
    uint32_t first[32], second[32], points[5] = {0}, refused = 0;
    for (int i = 0; i < cases; i++) {
        uint32_t t = 1 + draw(3), point[2], place[2], number[2];
        size_t given = draw(5) ? 32 : draw(2), words = KARVELORN_WORDS - (draw(6) == 0), room = KARVELORN_WORDS - (draw(6) == 0);
        make_machine(m, t);
        for (uint32_t k = 0; k < t; k++) m[GENERATOR_WORDS * k + GSUM] &= 1, m[GENERATOR_WORDS * k + GFM] &= 1, first[k] = second[k] = k;
        for (uint32_t k = t - 1; k; k--) exchange(first, k, draw(16) % (k + 1)), exchange(second, k, draw(16) % (k + 1));
        if (draw(1)) memcpy(second, first, sizeof second), exchange(second, draw(16) % t, draw(16) % t);
        if (draw(5) == 0) m[draw(16) % KARVELORN_WORDS] = draw(32);
        if (draw(5) == 0) second[draw(16) % t] = draw(3);
        for (int k = 0; k < KARVELORN_WORDS; k++) left[0][k] = left[1][k] = 7;
        for (int k = 0; k < 32; k++) read[0][k] = read[1][k] = 9;
        for (int side = PROVED; side <= PLAIN; side++)
            number[side] = sides[side](m, words, first, t, second, t, left[side], room, read[side], given, &point[side], &place[side]);
        if (number[0] != number[1] || point[0] != point[1] || place[0] != place[1] || memcmp(left[0], left[1], sizeof left[0]) ||
            memcmp(read[0], read[1], sizeof read[0])) {
            printf("parts: case %d: R answers %u, %u at %u, C %u, %u at %u, or what they leave differs\n", i, number[0], point[0], place[0], number[1], point[1], place[1]);
            return 0;
        }
        points[point[0]]++;
        refused += number[0] != 0;
    }
    printf("parts: %d cases alike, %u refused, parted at points 1 to 4: %u, %u, %u, %u\n", cases, refused, points[1], points[2], points[3], points[4]);
    return points[1] && points[2] && points[3] && points[4];
}

/* The median times of the sides; and R's by that of a compare of the same orders. */
static double time_all(const uint32_t *m, const uint32_t *first, const uint32_t *second, uint32_t expected) {
    enum { EACH = 20 };
    static double times[SIDES][ROUNDS], compares[ROUNDS];
    char call[48];
    for (int i = -WARM; i < ROUNDS; i++) {
        uint32_t equal = 0, point = 0, place, all = 0;
        for (int side = 0; side < SIDES; side++) {
            double start = now(), spent;
            for (int k = 0; k < EACH; k++)
                all |= sides[side](m, KARVELORN_WORDS, first, m[T], second, m[T], contents, KARVELORN_WORDS, items, 256, &point, &place);
            spent = now() - start;
            if (i >= 0) times[side][i] = spent / EACH;
            all |= point != expected;
        }
        double start = now(), spent;
        for (int k = 0; k < EACH; k++) all |= karvelorn_compare(m, KARVELORN_WORDS, first, m[T], second, m[T], &equal);
        spent = now() - start;
        if (i >= 0) compares[i] = spent / EACH;
        if (all || equal != !expected) {
            fprintf(stderr, "parts: another answer\n");
            exit(1);
        }
    }
    snprintf(call, sizeof call, "parts at T=%u, point %u", m[T], expected);
    print_times(call, times);
    double compare = median(compares, ROUNDS), ratio = median(times[PROVED], ROUNDS) / compare;
    printf("%s: compare %.0f ns, ratio %.2f\n", call, compare, ratio);
    return ratio;
}

int main(void) {
    static uint32_t m[KARVELORN_WORDS], first[256], second[256];
    static const uint32_t ticks[] = {256, 64, 1};
    int slow = 0, tried = 0;
    print_load();
    if (!alike(200000)) return 1;
    for (int i = 0; i < KARVELORN_MEMORY_WORDS; i++) memory[i] = draw(20);
    for (int k = 0; k < 3; k++)
        for (uint32_t point = 0; point <= (ticks[k] > 1 ? 4u : 0u); point++) {
            do {
                make_machine(m, ticks[k]);
                for (uint32_t i = 0; i < m[T]; i++) first[i] = i;
                for (uint32_t i = m[T] - 1; i; i--) exchange(first, i, draw(16) % (i + 1));
            } while (!part_at(point, m, first, second));
            double ratio = time_all(m, first, second, point);
            if (point && !apart(first, second)) {
                fprintf(stderr, "parts: the contents don't part the orders\n");
                return 1;
            }
            tried += point != 0;
            slow |= m[T] == 256 && ratio > 2;
        }
    printf("parts: %d contents tried, all part\n", tried);
    if (slow) fprintf(stderr, "parts: more than twice compare's time\n");
    return slow;
}

#endif
