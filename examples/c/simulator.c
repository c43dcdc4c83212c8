/* A slot-by-slot simulator of an input-queued switch over the library: Bernoulli traffic, virtual output queues and the
 * mean delay of a cell.
 *
 *     simulator [PORTS [ROUNDS [SLOTS [LOAD..]]]]
 *
 * prints for each load, in percent, the mean delay of a cell in slots, and the share of the cells that left. A cell that
 * comes in a slot may leave in the same slot, with delay 0. Queues are first in, first out, one for each input and
 * output, of level 0, and have no limit but memory. */
#include <stdint.h>
#include <stdio.h>
#include <stdlib.h>
#include <string.h>
#include <tiny_tera.h>

enum { PORTS = 64 };

/* A queue of the slots in which its cells came. */
struct queue {
    uint32_t *came;
    size_t first, count, room;
};

struct totals {
    uint64_t came, left, delay;
};

static uint64_t state;

/* The next of a sequence of random numbers (splitmix64). */
static uint64_t next_random(void) {
    uint64_t z = (state += 0x9e3779b97f4a7c15u);
    z = (z ^ (z >> 30)) * 0xbf58476d1ce4e5b9u;
    z = (z ^ (z >> 27)) * 0x94d049bb133111ebu;
    return z ^ (z >> 31);
}

static void push(struct queue *queue, uint32_t slot) {
    if (queue->count == queue->room) {
        size_t room = queue->room ? 2 * queue->room : 16;
        uint32_t *came = malloc(room * sizeof *came);
        if (!came) {
            fprintf(stderr, "simulator: out of memory\n");
            exit(1);
        }
        for (size_t k = 0; k < queue->count; k++) came[k] = queue->came[(queue->first + k) % queue->room];
        free(queue->came);
        *queue = (struct queue){came, 0, queue->count, room};
    }
    queue->came[(queue->first + queue->count++) % queue->room] = slot;
}

static uint32_t pop(struct queue *queue) {
    uint32_t came = queue->came[queue->first];
    queue->first = (queue->first + 1) % queue->room;
    queue->count--;
    return came;
}

/* Runs the switch: in each slot a cell comes to each input with probability `percent` / 100, for any output alike. */
static struct totals run(uint32_t n, uint32_t rounds, uint32_t slots, unsigned percent) {
    static struct queue queues[PORTS][PORTS];
    struct tiny_tera_row rows[PORTS] = {0};
    struct tiny_tera_pointers pointers = {0};
    struct tiny_tera_feed feeds[PORTS];
    struct tiny_tera_rounds used;
    struct totals totals = {0};
    state = 1;
    for (uint32_t slot = 0; slot < slots; slot++) {
        for (uint32_t i = 0; i < n; i++) {
            if (next_random() % 100 >= percent) continue;
            uint32_t j = next_random() % n;
            push(&queues[i][j], slot);
            rows[i].uni[0] |= 1ull << j;
            totals.came++;
        }
        if (tiny_tera_decide(n, rounds, slot, rows, n, &pointers, feeds, n, &used) != TINY_TERA_DONE) {
            fprintf(stderr, "simulator: the library refused slot %u\n", slot);
            exit(1);
        }
        for (uint32_t j = 0; j < n; j++) {
            uint32_t i = feeds[j].input;
            if (i == TINY_TERA_NONE) continue;
            totals.delay += slot - pop(&queues[i][j]);
            totals.left++;
            if (queues[i][j].count == 0) rows[i].uni[0] &= ~(1ull << j);
        }
    }
    for (uint32_t i = 0; i < n; i++)
        for (uint32_t j = 0; j < n; j++) {
            free(queues[i][j].came);
            queues[i][j] = (struct queue){0};
        }
    return totals;
}

/* The number that a word is; where it is none, the program ends. */
static uint32_t number(const char *word) {
    if (!*word || word[strspn(word, "0123456789")]) {
        fprintf(stderr, "simulator: %s is no whole number\n", word);
        exit(2);
    }
    return strtoul(word, NULL, 10);
}

int main(int argc, char **argv) {
    uint32_t n = argc > 1 ? number(argv[1]) : 16;
    uint32_t rounds = argc > 2 ? number(argv[2]) : 4;
    uint32_t slots = argc > 3 ? number(argv[3]) : 20000;
    if (n < 1 || n > PORTS || rounds < 1 || rounds > TINY_TERA_MAX_ROUNDS) {
        fprintf(stderr, "simulator: ports and rounds are each from 1 to 64\n");
        return 2;
    }
    static char *usual[] = {"50", "80", "90", "95", "99"};
    char **loads = argc > 4 ? argv + 4 : usual;
    int count = argc > 4 ? argc - 4 : (int)(sizeof usual / sizeof *usual);
    printf("%u ports, %u rounds, %u slots\nload %%  mean delay  left %%\n", n, rounds, slots);
    for (int k = 0; k < count; k++) {
        unsigned percent = number(loads[k]);
        struct totals totals = run(n, rounds, slots, percent);
        printf("%6u  %10.2f  %6.2f\n", percent, totals.left ? (double)totals.delay / totals.left : 0.0,
               totals.came ? 100.0 * totals.left / totals.came : 100.0);
    }
    return 0;
}
