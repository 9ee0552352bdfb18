/* An update in plain C beside the proved one: benchmarks/update builds this, and it times both in turn on the same machines.
   The C is written from the papers, on the machine's words in place, with the same questions asked. */
#define _POSIX_C_SOURCE 199309L
#include "plain.h"

#include <string.h>

enum { PAUSE = 1 };
enum { BEHIND_MOST = 4096 };

/* The bits first to last of a command, numbered 4 to 35 from the left as in the 1978 text. */
#define FIELD(c, first, last) ((c) >> (35 - (last)) & ((1u << ((last) - (first) + 1)) - 1))
#define FLAG(c, bit) FIELD(c, bit, bit)
#define DATA(c) ((c) >> 12)

/* The commands. Each is judged, by questions 3 and 4, and done in one place: what it answers is the number of its refusal, 0, or that it waits. */

enum { WAITS = 256 };

static void release(uint32_t *m, uint32_t run) {
    for (uint32_t *g = m; g < m + MODIFIERS; g += GENERATOR_WORDS)
        if (g[GMODE] >> 6 == run) g[GMODE] = RUNNING_A << 6 | (g[GMODE] & 63);
}

static uint32_t miscellany(uint32_t *m, uint32_t c) {
    if (FIELD(c, 29, 30) >= 2 || FLAG(c, 35)) return 3;
    if (FIELD(c, 29, 30) == 1) m[DX] = DATA(c);
    if (FLAG(c, 33)) release(m, WAIT);
    if (FLAG(c, 34)) release(m, PAUSE);
    return 0;
}

static uint32_t load_delay(uint32_t *d, uint32_t c) {
    switch (FIELD(c, 29, 30)) {
    case 0:
        d[X] = FIELD(c, 4, 19);
        d[Y] = 0;
        return 0;
    case 1: d[Y] = 65535 - FIELD(c, 4, 19); return 0;
    case 2:
        if (!(built_delay >> FIELD(c, 20, 23) & 1)) return 3;
        d[Z] = FIELD(c, 4, 19);
        d[P] = FIELD(c, 20, 23);
        return 0;
    default: return 3;
    }
}

static uint32_t linger(uint32_t *m, uint32_t number) {
    uint32_t behind = (m[COUNTER] - number) & 0xFFFFF;
    if (!behind) return 0;
    if (behind <= BEHIND_MOST) {
        m[OVERRUN] = 1;
        return 0;
    }
    m[LINGERING] = 1;
    m[LINGER_PASS] = number;
    return WAITS;
}

static uint32_t timer(uint32_t *m, uint32_t c) {
    switch (FIELD(c, 31, 32)) {
    case 1: m[COUNTER] = DATA(c); return 0;
    case 2: return linger(m, DATA(c));
    case 3: m[COUNTER] = 0; return linger(m, DATA(c));
    default: return 0;
    }
}

static uint32_t ticks(uint32_t *m, uint32_t c) {
    uint32_t number = FIELD(c, 14, 23);
    if (FLAG(c, 31)) return 3;
    if (FLAG(c, 32)) {
        m[N] = number + 2;
    } else {
        if (number > 255) return 4;
        m[T] = number + 1;
    }
    m[UPDATE_TICKS] = update_ticks(m[T], m[N]);
    return 0;
}

/* A register of so many bits, right-adjusted with sign extended or left-adjusted with its low bits from DX. */
static void adjusted(uint32_t *m, uint32_t *word, int width, uint32_t left, uint32_t c) {
    if (left) {
        *word = DATA(c) << (width - 20) | m[DX] >> (40 - width);
        m[DX] = 0;
    } else {
        *word = (uint32_t)((int32_t)c >> 12) & ((1u << width) - 1);
    }
}

static uint32_t load_mmode(uint32_t *u, uint32_t c) {
    if (!FLAG(c, 4)) {
        if (!(built_function >> FIELD(c, 8, 12) & 1)) return 3;
        u[MMODE] = FIELD(c, 8, 12) << 4 | (u[MMODE] & 15);
    }
    if (!FLAG(c, 7)) u[MMODE] = (u[MMODE] & ~15u) | FIELD(c, 13, 16);
    if (!FLAG(c, 5)) u[MSUM] = FIELD(c, 17, 23);
    if (FLAG(c, 6)) u[L0] = 0;
    return 0;
}

static uint32_t load_addresses(uint32_t *u, uint32_t c) {
    if ((!FLAG(c, 4) && FIELD(c, 8, 9) == 3) || (!FLAG(c, 5) && FIELD(c, 16, 17) == 3)) return 3;
    if (!FLAG(c, 4)) u[MRM] = FIELD(c, 8, 15);
    if (!FLAG(c, 5)) u[MIN] = FIELD(c, 16, 23);
    if (FLAG(c, 6)) u[L1] = 0;
    return 0;
}

static uint32_t load_gmode(uint32_t *g, uint32_t c) {
    if (!FLAG(c, 4)) {
        if (!built_gmode[FIELD(c, 7, 16)]) return 3;
        g[GMODE] = FIELD(c, 7, 16);
    }
    if (!FLAG(c, 5)) g[GFM] = FIELD(c, 17, 23);
    if (FLAG(c, 6)) g[GK] = 0;
    return 0;
}

static uint32_t take_command(uint32_t *m, uint32_t c) {
    uint32_t *g = m + GENERATOR_WORDS * FIELD(c, 28, 35), *u = m + MODIFIERS + MODIFIER_WORDS * FIELD(c, 29, 35);
    switch (FIELD(c, 24, 28)) {
    case 0: return miscellany(m, c);
    case 1: return load_delay(m + DELAYS + DELAY_WORDS * FIELD(c, 31, 35), c);
    case 2: return timer(m, c);
    case 3: return ticks(m, c);
    case 4: case 5: case 6: case 7: adjusted(m, g + GQ, 24, FLAG(c, 27), c); break;
    case 8: case 9: case 10: case 11: adjusted(m, g + GJ, 28, FLAG(c, 27), c); break;
    case 12: case 13: g[GP] = DATA(c); break;
    case 14: case 15:
        if (!FLAG(c, 4)) g[GN] = FIELD(c, 9, 19);
        if (!FLAG(c, 5)) g[GM] = FIELD(c, 20, 23);
        break;
    case 16: case 17:
        if (!FLAG(c, 4)) g[GL] = FIELD(c, 6, 17);
        if (!FLAG(c, 5)) g[GSUM] = FIELD(c, 18, 23);
        break;
    case 18: case 19: g[GK] = DATA(c); break;
    case 20: case 21: return load_gmode(g, c);
    case 22: case 23: g[GO] = DATA(c); break;
    case 24: case 25: case 26: case 27: adjusted(m, u + (FLAG(c, 28) ? M1 : M0), 30, FLAG(c, 27), c); break;
    case 28: case 29: u[FLAG(c, 28) ? L1 : L0] = DATA(c); break;
    case 30: return load_mmode(u, c);
    case 31: return load_addresses(u, c);
    }
    return 0;
}

/* The update. */
__attribute__((noinline)) uint32_t plain_update(uint32_t *m, size_t words, const uint32_t *commands, size_t count,
                                                size_t *taken) {
    *taken = 0;
    if (words != KARVELORN_WORDS) return 1;
#ifndef UNASKED
    if (!valid_machine(m)) return 2;
#else
    (void)valid_machine;
#endif
    if (m[LINGERING] && (m[COUNTER] & 0xFFFFF) != m[LINGER_PASS]) return 0;
    m[LINGERING] = 0;
    size_t most = m[UPDATE_TICKS];
    for (size_t i = 0; i < count && i < most; i++) {
        uint32_t answer = take_command(m, commands[i]);
        if (answer && answer != WAITS) return answer;
        *taken = i + 1;
        if (answer) break;
    }
    return 0;
}

#ifndef ONLY_PLAIN

/* The timing. */

enum { MOST = 256, KINDS = 16 };

typedef uint32_t update_function(uint32_t *, size_t, const uint32_t *, size_t, size_t *);

update_function plain_update_o3, plain_update_native;

/* A command by its data and its right 12 bits. */
static uint32_t command(uint32_t data, uint32_t right) { return data << 12 | right; }

/* Data with built modes, and an address with other top bits than 11. */
static uint32_t gmode_data(void) {
    static const uint32_t runs[8] = {0, 1, 2, 3, 7, 9, 14, 15}, oscillators[4] = {0, 1, 2, 8};
    return draw(1) << 18 | runs[draw(3)] << 13 | draw(2) << 11 | oscillators[draw(2)] << 7 | draw(7);
}

static uint32_t mmode_data(void) {
    static const uint32_t functions[8] = {0, 2, 7, 8, 16, 20, 24, 29};
    return draw(2) << 18 | functions[draw(3)] << 11 | draw(4) << 7 | draw(7);
}

static uint32_t address(void) { return draw(1) ? draw(7) : 128 | draw(6); }

static uint32_t delay_data(void) {
    static const uint32_t modes[4] = {0, LINE, TABLE, ROUNDED_TABLE};
    return draw(16) << 4 | modes[draw(2)];
}

/* The next of the sixteen kinds of command, in the sequence of their codes; none of them waits, and T and N stay 1 and
   265. */
static uint32_t next_command(int i) {
    switch (i % KINDS) {
    case 0: return command(draw(20), 0x020 | (i % 64 == 0) << 2 | (i % 64 == 32) << 1);
    case 1: return command(delay_data(), 0x080 | (uint32_t)(i / KINDS % 3) << 5 | draw(5));
    case 2: return i % 32 == 2 ? command(5, 0x108) : command(5, 0x110);
    case 3: return i % 32 == 3 ? command(0, 0x180) : command(263, 0x188);
    case 4: return command(draw(20), 0x200 | draw(9));
    case 5: return command(draw(20), 0x400 | draw(9));
    case 6: return command(draw(20), 0x600 | draw(8));
    case 7: return command(draw(20), 0x700 | draw(8));
    case 8: return command(draw(20), 0x800 | draw(8));
    case 9: return command(draw(20), 0x900 | draw(8));
    case 10: return command(gmode_data(), 0xA00 | draw(8));
    case 11: return command(draw(20), 0xB00 | draw(8));
    case 12: return command(draw(20), 0xC00 | draw(9));
    case 13: return command(draw(20), 0xE00 | draw(8));
    case 14: return command(mmode_data(), 0xF00 | draw(7));
    default: return command(draw(2) << 18 | address() << 8 | address(), 0xF80 | draw(7));
    }
}

/* The time of one update, from a number of updates in a row that take all their commands. */
static double timed(update_function *update, uint32_t *m, const uint32_t *commands, size_t count, int updates) {
    size_t taken = 0, all = 0;
    uint32_t refused = 0;
    double start = now();
    for (int i = 0; i < updates; i++) {
        refused |= update(m, KARVELORN_WORDS, commands, count, &taken);
        all += taken;
    }
    double time = (now() - start) / updates;
    if (refused || all != count * (size_t)updates) {
        fprintf(stderr, "update: refused, or not all taken\n");
        exit(1);
    }
    return time;
}

/* The updates in turn, each on a machine of its own that begins alike; whether they end alike. */
static int compare(size_t count, int updates) {
    static update_function *const sides[SIDES] = {karvelorn_update, plain_update, plain_update_o3, plain_update_native};
    static uint32_t machines[SIDES][KARVELORN_WORDS], commands[MOST];
    static double times[SIDES][ROUNDS];
    char call[40];
    for (int side = 0; side < SIDES; side++) karvelorn_fresh(machines[side], KARVELORN_WORDS);
    for (size_t i = 0; i < count; i++) commands[i] = next_command((int)i);
    for (int i = -WARM; i < ROUNDS; i++)
        for (int side = 0; side < SIDES; side++) {
            double time = timed(sides[side], machines[side], commands, count, updates);
            if (i >= 0) times[side][i] = time;
        }
    snprintf(call, sizeof call, "update with %zu commands", count);
    print_times(call, times);
    if (!memcmp(machines[PROVED], machines[PLAIN], sizeof *machines)) return 1;
    printf("%s: the machines differ\n", call);
    return 0;
}

int main(void) {
    print_load();
    int same = compare(MOST, 20);
    same &= compare(16, 40);
    same &= compare(0, 40);
    return same ? 0 : 1;
}

#endif
