/* Calls the library for tests/blocks.py: requests on standard input, answers on standard output, until the input ends.
 * Blocks are those of the text that the program is built for. It is C99 and C++17.
 *
 * A request is nine 32-bit numbers (the lengths of machine, commands, order and chosen DACs; the length of the delay
 * memory, the number that it is made from, and how many of its words are others; how many calls are made; whether the
 * commands that a refused call stops at are left out), then the words of the four runs, then those other words of the
 * delay memory, each as its slot and the word, then of each call how many passes it asks for and how many samples it has
 * room for. Each call gets the commands that the ones before left.
 *
 * An answer is of each call its number (32 bits), the passes done (32 bits), the commands taken (64 bits) and the run for
 * samples; then the words of the machine, how many words of the delay memory are not as they were, and these, each as its
 * slot and the word. Every run ends before a page that nobody may touch, and begins after words that are looked at.
 * Beside each call the same is done pass by pass, by karvelorn_pass and karvelorn_update: all must be the same.
 */
#define _DEFAULT_SOURCE
#include <stdio.h>
#include <stdlib.h>
#include <string.h>
#include <sys/mman.h>
#include <unistd.h>

#include "karvelorn.h"

#ifdef OLD_TEXT
#define TEXT_CALL(name) karvelorn_old_##name
enum { OLD = 1 };
#else
#define TEXT_CALL(name) karvelorn_##name
enum { OLD = 0 };
#endif

enum { BESIDE = 8, GENERATORS = 256 };
static const uint32_t untouched = 0xA5A5A5A5u, unwritten = 0x5A5A5A5Au;

static void stop(int status, const char *why) {
    fprintf(stderr, "blocks: %s\n", why);
    exit(status);
}

static void get(void *to, size_t size, size_t count) {
    if (fread(to, size, count, stdin) != count) stop(2, "the input ends within a request");
}

static void put(const void *from, size_t size, size_t count) {
    if (fwrite(from, size, count, stdout) != count) stop(2, "cannot write");
}

/* A run of words that ends before a page that nobody may touch, with BESIDE words before it, and a copy of it. */
typedef struct {
    unsigned char *pages;
    size_t bytes; /* of the pages, that one too */
    uint32_t *words, *copy;
    uint32_t length;
} run;

static run new_run(uint32_t length) {
    const size_t page = (size_t)sysconf(_SC_PAGESIZE), size = (length + (size_t)BESIDE) * sizeof(uint32_t);
    run r;
    r.length = length;
    r.bytes = (size + page - 1) / page * page + page;
    r.pages = (unsigned char *)mmap(NULL, r.bytes, PROT_READ | PROT_WRITE, MAP_PRIVATE | MAP_ANONYMOUS, -1, 0);
    r.copy = (uint32_t *)malloc((length + (size_t)1) * sizeof(uint32_t));
    if (r.pages == MAP_FAILED || !r.copy || mprotect(r.pages + r.bytes - page, page, PROT_NONE)) stop(2, "no memory");
    r.words = (uint32_t *)(void *)(r.pages + r.bytes - page) - length;
    for (int i = 1; i <= BESIDE; i++) r.words[-i] = untouched;
    return r;
}

static void keep(run *r) { memcpy(r->copy, r->words, r->length * sizeof(uint32_t)); }

static run read_run(uint32_t length) {
    run r = new_run(length);
    get(r.words, sizeof(uint32_t), length);
    keep(&r);
    return r;
}

/* As tests/runs.h makes a delay memory. */
static run read_memory(uint32_t length, uint32_t fill, uint32_t others) {
    run r = new_run(length);
    for (uint32_t i = 0; i < length; i++) r.words[i] = fill ? (i + fill) * 2654435761u >> 12 : 0;
    for (uint32_t i = 0; i < others; i++) {
        uint32_t other[2];
        get(other, sizeof other[0], 2);
        if (other[0] >= length) stop(2, "a slot is not in the delay memory");
        r.words[other[0]] = other[1];
    }
    keep(&r);
    return r;
}

static void free_run(run *r) {
    munmap(r->pages, r->bytes);
    free(r->copy);
}

static void check_beside(const run *r) {
    for (int i = 1; i <= BESIDE; i++)
        if (r->words[-i] != untouched) stop(3, "a word before a run was written");
}

static void check_kept(const run *r) {
    check_beside(r);
    if (memcmp(r->copy, r->words, r->length * sizeof(uint32_t))) stop(3, "a run that is only read was written");
}

/* What a host hands a call, and what the call answers. A run without words is handed as NULL. */
typedef struct {
    run machine, memory, commands, order, dacs;
    size_t from; /* the first command still left */
} ringing;

typedef struct {
    uint32_t number, done;
    size_t taken;
} answered;

static uint32_t *words_of(const run *r) { return r->length ? r->words : NULL; }

static answered in_a_block(ringing *a, uint32_t passes, run *frames) {
    struct {
        uint32_t before, done, behind;
        size_t taken, after;
    } told = {untouched, unwritten, untouched, unwritten, untouched};
    answered got;
    int32_t *samples = (int32_t *)(void *)words_of(frames);
    const size_t left = a->commands.length - a->from;
    got.number = TEXT_CALL(ring)(words_of(&a->machine), a->machine.length, words_of(&a->memory), a->memory.length,
                                 left ? a->commands.words + a->from : NULL, left, words_of(&a->order), a->order.length,
                                 passes, words_of(&a->dacs), a->dacs.length, samples, frames->length, &told.done,
                                 &told.taken);
    if (told.before != untouched || told.behind != untouched || told.after != untouched) stop(3, "a word beside an answer was written");
    got.done = told.done;
    got.taken = told.taken;
    return got;
}

static uint32_t one_pass(ringing *a) {
    uint32_t numbers[GENERATORS];
    uint8_t clipped[KARVELORN_MARKS];
    size_t read, written;
    size_t entries = a->order.length;
    const uint32_t *order = words_of(&a->order);
    if (!entries && a->machine.length == KARVELORN_WORDS) {
        const uint32_t t = a->machine.words[KARVELORN_T];
        entries = t <= GENERATORS ? t : 0;
        for (uint32_t g = 0; g < entries; g++) numbers[g] = g;
        order = numbers;
    }
    return TEXT_CALL(pass)(words_of(&a->machine), a->machine.length, order, entries, NULL, 0, NULL, 0,
                           words_of(&a->memory), a->memory.length, &read, &written, clipped);
}

static answered by_passes(ringing *a, uint32_t passes, run *frames) {
    answered got = {0, 0, 0};
    const size_t width = a->dacs.length;
    while (got.done < passes && (got.done + (size_t)1) * width <= frames->length) {
        size_t taken = 0;
        got.number = one_pass(a);
        if (!got.number && !OLD)
            got.number = karvelorn_update(words_of(&a->machine), a->machine.length, a->commands.words + a->from + got.taken,
                                          a->commands.length - a->from - got.taken, &taken);
        got.taken += taken;
        if (got.number) return got;
        for (size_t i = 0; i < width; i++) {
            const int32_t sample = karvelorn_sample(a->machine.words[karvelorn_dac(a->dacs.words[i] & 15)]);
            memcpy(frames->words + got.done * width + i, &sample, sizeof sample);
        }
        got.done++;
    }
    return got;
}

static int same_words(const run *a, const run *b) { return !memcmp(a->words, b->words, a->length * sizeof(uint32_t)); }

/* One call and the same pass by pass. */
static answered both(ringing *a, ringing *other, uint32_t passes, uint32_t room) {
    run frames = new_run(room), others = new_run(room);
    for (uint32_t i = 0; i < room; i++) frames.words[i] = others.words[i] = unwritten;
    const answered got = in_a_block(a, passes, &frames), expected = by_passes(other, passes, &others);
    check_beside(&a->machine), check_beside(&a->memory), check_beside(&frames);
    check_kept(&a->commands), check_kept(&a->order), check_kept(&a->dacs);
    if (got.number != expected.number || got.done != expected.done || got.taken != expected.taken || !same_words(&frames, &others) ||
        !same_words(&a->machine, &other->machine) || !same_words(&a->memory, &other->memory))
        stop(4, "a block is not what its passes are one by one");
    const uint64_t taken = got.taken;
    put(&got.number, sizeof got.number, 1), put(&got.done, sizeof got.done, 1), put(&taken, sizeof taken, 1);
    put(frames.words, sizeof(uint32_t), room);
    free_run(&frames), free_run(&others);
    return got;
}

static void put_changed(const run *r) {
    uint32_t count = 0;
    for (uint32_t i = 0; i < r->length; i++) count += r->words[i] != r->copy[i];
    put(&count, sizeof count, 1);
    for (uint32_t i = 0; count && i < r->length; i++) {
        const uint32_t changed[2] = {i, r->words[i]};
        if (r->words[i] != r->copy[i]) put(changed, sizeof changed[0], 2);
    }
}

static run copied(const run *r) {
    run c = new_run(r->length);
    memcpy(c.words, r->words, r->length * sizeof(uint32_t));
    return c;
}

int main(void) {
    uint32_t head[9];
    while (fread(head, sizeof head[0], 9, stdin) == 9) {
        ringing a;
        a.machine = read_run(head[0]), a.commands = read_run(head[1]), a.order = read_run(head[2]), a.dacs = read_run(head[3]);
        a.memory = read_memory(head[4], head[5], head[6]);
        a.from = 0;
        ringing other = a;
        other.machine = copied(&a.machine), other.memory = copied(&a.memory);
        for (uint32_t i = 0; i < head[7]; i++) {
            uint32_t cut[2];
            get(cut, sizeof cut[0], 2);
            const answered got = both(&a, &other, cut[0], cut[1]);
            const size_t out = head[8] && (got.number == 3 || got.number == 4) ? 1 : 0;
            other.from = a.from = a.from + got.taken + out;
        }
        put(a.machine.words, sizeof(uint32_t), a.machine.length);
        put_changed(&a.memory);
        free_run(&a.machine), free_run(&a.memory), free_run(&a.commands), free_run(&a.order), free_run(&a.dacs);
        free_run(&other.machine), free_run(&other.memory);
    }
    return fflush(stdout) ? 2 : 0;
}
