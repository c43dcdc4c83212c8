/* Answers calls in text: each line of standard input has a call's name and its numbers, and the line that answers it the
 * status and what was written. It is how tests/run_library runs the test vectors through C.
 *
 *     islip n rounds asks.. grant.. accept..                 -> status fed.. used grant.. accept..
 *     decide n rounds slot rows.. grant.. accept.. shared..  -> status feeds.. used grant.. accept.. shared..
 *     firm   the same, and so rrm
 *     many   n rounds slot count rows.. grant.. accept.. shared..
 *                                                            -> status feeds.. used.. grant.. accept.. shared..
 *     many_firm  the same, and so many_rrm
 *     maximal n rows.. feeds..                               -> status maximal
 *     waits n rows.. feeds.. waits.. longest..               -> status waits.. longest..
 *     journal count bytes..                                  -> status verdict
 */
#include <stdio.h>
#include <stdlib.h>
#include <string.h>
#include <tiny_tera.h>

enum { PORTS = 64 };

static uint64_t number(void) {
    unsigned long long value;
    if (scanf("%llu", &value) != 1) {
        fprintf(stderr, "rows: a number is missing\n");
        exit(2);
    }
    return value;
}

static void read_words(uint32_t *words, size_t count) {
    for (size_t k = 0; k < count; k++) words[k] = number();
}

static void print_words(const uint32_t *words, size_t count) {
    for (size_t k = 0; k < count; k++) printf(" %u", words[k]);
}

static void read_rows(struct tiny_tera_row *rows, uint32_t n) {
    for (uint32_t i = 0; i < n; i++) {
        for (int level = 0; level < 4; level++) rows[i].uni[level] = number();
        for (int level = 0; level < 4; level++) rows[i].multi[level] = number();
    }
}

static void print_used(const struct tiny_tera_rounds *used) {
    printf(" %u %u %u", used->used, used->first, used->last_added);
}

static void read_pointers(struct tiny_tera_pointers *pointers) {
    read_words(&pointers->grant[0][0], 256);
    read_words(&pointers->accept[0][0], 256);
    read_words(pointers->shared, 4);
}

static void print_pointers(const struct tiny_tera_pointers *pointers) {
    print_words(&pointers->grant[0][0], 256);
    print_words(&pointers->accept[0][0], 256);
    print_words(pointers->shared, 4);
}

static uint32_t ports(void) {
    uint32_t n = number();
    if (n > PORTS) {
        fprintf(stderr, "rows: %u ports\n", n);
        exit(2);
    }
    return n;
}

static void islip(void) {
    uint64_t asks[PORTS];
    uint32_t n = ports(), rounds = number(), grant[PORTS], accept[PORTS], fed[PORTS];
    struct tiny_tera_rounds used = {0};
    for (uint32_t i = 0; i < n; i++) asks[i] = number();
    read_words(grant, n);
    read_words(accept, n);
    printf("%u", tiny_tera_islip_slot(n, rounds, asks, n, grant, n, accept, n, fed, n, &used));
    print_words(fed, n);
    print_used(&used);
    print_words(grant, n);
    print_words(accept, n);
}

typedef uint32_t decision(uint32_t n, uint32_t rounds, uint32_t slot, const struct tiny_tera_row *rows, size_t rows_len,
                          struct tiny_tera_pointers *pointers, struct tiny_tera_feed *feeds, size_t feeds_len,
                          struct tiny_tera_rounds *used);

static void decide(decision *by) {
    struct tiny_tera_row rows[PORTS];
    struct tiny_tera_pointers pointers;
    struct tiny_tera_feed feeds[PORTS];
    struct tiny_tera_rounds used = {0};
    uint32_t n = ports(), rounds = number(), slot = number();
    read_rows(rows, n);
    read_pointers(&pointers);
    printf("%u", by(n, rounds, slot, rows, n, &pointers, feeds, n, &used));
    print_words(&feeds[0].input, 3 * n);
    print_used(&used);
    print_pointers(&pointers);
}

typedef uint32_t decisions(uint32_t n, uint32_t rounds, uint32_t slot, const struct tiny_tera_row *rows, size_t rows_len,
                           struct tiny_tera_pointers *pointers, struct tiny_tera_feed *feeds, size_t feeds_len,
                           struct tiny_tera_rounds *used, size_t used_len);

static void decide_many(decisions *by) {
    uint32_t n = ports(), rounds = number(), slot = number();
    size_t count = number(), all = count * n;
    struct tiny_tera_pointers pointers;
    struct tiny_tera_row *rows = calloc(all + 1, sizeof *rows);
    struct tiny_tera_feed *feeds = calloc(all + 1, sizeof *feeds);
    struct tiny_tera_rounds *used = calloc(count + 1, sizeof *used);
    if (!rows || !feeds || !used) exit(1);
    for (size_t s = 0; s < count; s++) read_rows(rows + s * n, n);
    read_pointers(&pointers);
    printf("%u", by(n, rounds, slot, rows, all, &pointers, feeds, all, used, count));
    print_words(&feeds[0].input, 3 * all);
    print_words(&used[0].used, 3 * count);
    print_pointers(&pointers);
    free(rows);
    free(feeds);
    free(used);
}

static void maximal(void) {
    struct tiny_tera_row rows[PORTS];
    struct tiny_tera_feed feeds[PORTS];
    uint32_t n = ports(), answer = 2;
    read_rows(rows, n);
    read_words(&feeds[0].input, 3 * n);
    printf("%u", tiny_tera_is_maximal(n, rows, n, feeds, n, &answer));
    printf(" %u", answer);
}

static void waits(void) {
    static uint32_t words[256 * PORTS];
    struct tiny_tera_row rows[PORTS];
    struct tiny_tera_feed feeds[PORTS];
    uint32_t n = ports(), longest[4];
    read_rows(rows, n);
    read_words(&feeds[0].input, 3 * n);
    read_words(words, 256 * n);
    read_words(longest, 4);
    printf("%u", tiny_tera_note_waits(n, rows, n, feeds, n, words, 256 * n, longest, 4));
    print_words(words, 256 * n);
    print_words(longest, 4);
}

static void journal(void) {
    struct tiny_tera_verdict verdict = {0};
    size_t count = number();
    uint8_t *bytes = malloc(count + 1);
    if (!bytes) exit(1);
    for (size_t k = 0; k < count; k++) bytes[k] = number();
    printf("%u", tiny_tera_check_journal(bytes, count, &verdict));
    print_words(&verdict.answer, 8);
    free(bytes);
}

int main(void) {
    char name[16];
    while (scanf("%15s", name) == 1) {
        if (!strcmp(name, "islip")) islip();
        else if (!strcmp(name, "decide")) decide(tiny_tera_decide);
        else if (!strcmp(name, "firm")) decide(tiny_tera_decide_firm);
        else if (!strcmp(name, "rrm")) decide(tiny_tera_decide_rrm);
        else if (!strcmp(name, "many")) decide_many(tiny_tera_decide_many);
        else if (!strcmp(name, "many_firm")) decide_many(tiny_tera_decide_many_firm);
        else if (!strcmp(name, "many_rrm")) decide_many(tiny_tera_decide_many_rrm);
        else if (!strcmp(name, "maximal")) maximal();
        else if (!strcmp(name, "waits")) waits();
        else if (!strcmp(name, "journal")) journal();
        else {
            fprintf(stderr, "rows: no call is named %s\n", name);
            return 2;
        }
        printf("\n");
        fflush(stdout);
    }
    return 0;
}
