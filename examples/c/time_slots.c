/* The time of a slot by the library, beside a plain one in C: iSLIP for one level, with sets of ports as words, whose
 * columns are made anew from the rows in each slot.
 *
 *     time_slots [BATCHES]
 *
 * All queues of level 0 are full, and a slot has four rounds. Prints for 4 to 64 ports the least time of a slot over
 * some batches of 1,000, in nanoseconds, and first compares what the plain one and the library decide. `each` and `many`
 * are of slots with rows of their own, as of a recording: a call of tiny_tera_decide for each, and one for all. */
#define _POSIX_C_SOURCE 199309L
#include <stdint.h>
#include <stdio.h>
#include <stdlib.h>
#include <string.h>
#include <time.h>
#include <tiny_tera.h>

enum { PORTS = 64, ROUNDS = 4, SLOTS = 1000 };

/* A switch of one level, and one of four. */
struct one {
    uint64_t asks[PORTS];
    uint32_t grant[PORTS], accept[PORTS], fed[PORTS];
    struct tiny_tera_rounds used;
};

struct four {
    struct tiny_tera_row rows[PORTS];
    struct tiny_tera_pointers pointers;
    struct tiny_tera_feed feeds[PORTS];
    struct tiny_tera_rounds used;
    uint32_t waits[256 * PORTS], longest[4], slot;
};

/* Many slots of four levels, each with rows of its own. */
struct many {
    struct tiny_tera_row rows[SLOTS * PORTS];
    struct tiny_tera_pointers pointers;
    struct tiny_tera_feed feeds[SLOTS * PORTS];
    struct tiny_tera_rounds used[SLOTS];
};

static uint64_t all(uint32_t n) { return ~0ull >> (64 - n); }

/* The first member of a set from a port on, round the circle. */
static uint32_t first_from(uint64_t set, uint32_t from) {
    uint64_t above = set >> from << from;
    return __builtin_ctzll(above ? above : set);
}

static void plain_slot(struct one *s, uint32_t n) {
    uint64_t columns[PORTS] = {0}, free_inputs = all(n), free_outputs = all(n);
    for (uint32_t i = 0; i < n; i++)
        for (uint64_t rest = s->asks[i]; rest; rest &= rest - 1) columns[__builtin_ctzll(rest)] |= 1ull << i;
    uint32_t first[PORTS];
    for (uint32_t j = 0; j < n; j++) s->fed[j] = first[j] = TINY_TERA_NONE;
    for (uint32_t round = 0; round < ROUNDS; round++) {
        uint64_t grants[PORTS] = {0}, granted = 0;
        for (uint64_t rest = free_outputs; rest; rest &= rest - 1) {
            uint32_t j = __builtin_ctzll(rest);
            uint64_t asked = columns[j] & free_inputs;
            if (!asked) continue;
            uint32_t i = first_from(asked, s->grant[j]);
            grants[i] |= 1ull << j;
            granted |= 1ull << i;
        }
        if (!granted) break;
        for (; granted; granted &= granted - 1) {
            uint32_t i = __builtin_ctzll(granted), j = first_from(grants[i], s->accept[i]);
            s->fed[j] = i;
            free_inputs &= ~(1ull << i);
            free_outputs &= ~(1ull << j);
            if (round == 0) first[j] = i;
        }
    }
    /* All rounds use the pointers from before the slot, and only the pairs of the first move them. */
    for (uint32_t j = 0; j < n; j++) {
        if (first[j] == TINY_TERA_NONE) continue;
        s->grant[j] = first[j] + 1 == n ? 0 : first[j] + 1;
        s->accept[first[j]] = j + 1 == n ? 0 : j + 1;
    }
}

static void islip_slot(struct one *s, uint32_t n) {
    tiny_tera_islip_slot(n, ROUNDS, s->asks, n, s->grant, n, s->accept, n, s->fed, n, &s->used);
}

static void decide_slot(struct four *s, uint32_t n) {
    tiny_tera_decide(n, ROUNDS, s->slot++, s->rows, n, &s->pointers, s->feeds, n, &s->used);
}

static void firm_slot(struct four *s, uint32_t n) {
    tiny_tera_decide_firm(n, ROUNDS, s->slot++, s->rows, n, &s->pointers, s->feeds, n, &s->used);
}

static void decide_each(struct many *m, uint32_t n) {
    for (uint32_t s = 0; s < SLOTS; s++)
        tiny_tera_decide(n, ROUNDS, s, m->rows + s * n, n, &m->pointers, m->feeds + s * n, n, m->used + s);
}

static void decide_many(struct many *m, uint32_t n) {
    tiny_tera_decide_many(n, ROUNDS, 0, m->rows, SLOTS * n, &m->pointers, m->feeds, SLOTS * n, m->used, SLOTS);
}

static void note_slot(struct four *s, uint32_t n) {
    tiny_tera_note_waits(n, s->rows, n, s->feeds, n, s->waits, 256 * n, s->longest, 4);
}

static double now(void) {
    struct timespec t;
    clock_gettime(CLOCK_MONOTONIC, &t);
    return t.tv_sec * 1e9 + t.tv_nsec;
}

/* The least time of a slot, where so many calls decide a batch. */
#define LEAST(calls, call)                              \
    do {                                                \
        least = 1e18;                                   \
        for (int batch = 0; batch < batches; batch++) { \
            double begin = now();                       \
            for (int k = 0; k < calls; k++) call;       \
            double time = (now() - begin) / SLOTS;      \
            if (time < least) least = time;             \
        }                                               \
        printf("  %8.0f", least);                       \
    } while (0)

static void fill(struct one *one, struct four *four, uint32_t n) {
    memset(one, 0, sizeof *one);
    memset(four, 0, sizeof *four);
    for (uint32_t i = 0; i < n; i++) one->asks[i] = four->rows[i].uni[0] = all(n);
}

static void fill_many(struct many *many, uint32_t n) {
    memset(many, 0, sizeof *many);
    for (uint32_t k = 0; k < SLOTS * n; k++) many->rows[k].uni[0] = all(n);
}

/* Whether the plain slots are those of the library, with rows that change. */
static int agree(uint32_t n) {
    static struct one plain, by_library;
    static struct four none;
    uint64_t state = 1;
    fill(&plain, &none, n);
    fill(&by_library, &none, n);
    for (int k = 0; k < SLOTS; k++) {
        for (uint32_t i = 0; i < n; i++) {
            state = state * 6364136223846793005u + 1442695040888963407u;
            plain.asks[i] = by_library.asks[i] = (state >> 20 & state >> (k % 17)) & all(n);
        }
        plain_slot(&plain, n);
        islip_slot(&by_library, n);
        plain.used = by_library.used;
        if (memcmp(&plain, &by_library, sizeof plain)) return 0;
    }
    return 1;
}

int main(int argc, char **argv) {
    static struct one one;
    static struct four four;
    static struct many many;
    int batches = argc > 1 ? atoi(argv[1]) : 300;
    double least;
    printf("ports     plain  islip_slot    decide      firm     waits      each      many\n");
    for (uint32_t n = 4; n <= PORTS; n *= 2) {
        if (!agree(n)) {
            printf("%u ports: the plain slots differ from those of the library\n", n);
            return 1;
        }
        printf("%5u", n);
        fill(&one, &four, n);
        LEAST(SLOTS, plain_slot(&one, n));
        fill(&one, &four, n);
        LEAST(SLOTS, islip_slot(&one, n));
        LEAST(SLOTS, decide_slot(&four, n));
        LEAST(SLOTS, firm_slot(&four, n));
        LEAST(SLOTS, note_slot(&four, n));
        fill_many(&many, n);
        LEAST(1, decide_each(&many, n));
        LEAST(1, decide_many(&many, n));
        printf("\n");
        fflush(stdout);
    }
    return 0;
}
