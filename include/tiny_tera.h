/* The schedulers of the Tiny Tera cell switch, and its checker of journal files, for C.
 *
 * What each function computes is proved (docs/EMBEDDING.md says what that means, and what no proof can say). It
 * tests what it is passed: where something is out of range it answers TINY_TERA_REFUSED and has written nothing.
 * It cannot test what C does not tell it, and that is left to the caller: a pointer is not null and points to as
 * many elements as the length after it says; what a call writes overlaps nothing else that is passed; no other
 * thread uses any of it during the call. Nothing is kept between calls, so threads may call at once, each with
 * arguments of its own.
 *
 * A switch has n ports, 1 to 64. Port i is input i and output i. A set of ports is a uint64_t, in which bit j stands
 * for port j. Levels are 0 to 3, and level 0 is the best. A slot is the time of one cell. A length counts elements,
 * not bytes. dev/check_header compares this file with the source. */
#ifndef TINY_TERA_H
#define TINY_TERA_H

#include <stddef.h>
#include <stdint.h>

#ifdef __cplusplus
extern "C" {
#endif

/* What a function answers. */
#define TINY_TERA_DONE 0u
#define TINY_TERA_REFUSED 1u   /* something is out of range: nothing was written */
#define TINY_TERA_NO_MEMORY 2u /* tiny_tera_check_journal alone: nothing was written */

/* The word of no port: what feeds an output that is free. */
#define TINY_TERA_NONE 0xffffffffu

#define TINY_TERA_MAX_PORTS 64u
#define TINY_TERA_MAX_ROUNDS 64u
#define TINY_TERA_LEVELS 4u
#define TINY_TERA_MAX_JOURNAL_BYTES 134217728u

/* The kind of what feeds an output. */
#define TINY_TERA_UNICAST 0u
#define TINY_TERA_MULTICAST 1u

/* What one input posts in a slot. 64 bytes. */
struct tiny_tera_row {
    uint64_t uni[4];   /* for each level the outputs with a unicast cell waiting */
    uint64_t multi[4]; /* for each level the outputs that the head cell of the multicast queue still has to reach,
                          0 where that queue is empty */
};

/* Where the rotating pointers are. The caller holds them from slot to slot, and begins with all at 0. Those of
 * ports from n on are not read, and stay. 2,064 bytes. */
struct tiny_tera_pointers {
    uint32_t grant[4][64];  /* grant[level][output]: the input from which the output grants unicast */
    uint32_t accept[4][64]; /* accept[level][input]: the output from which the input accepts unicast */
    uint32_t shared[4];     /* shared[level]: the input from which all outputs grant multicast */
};

/* What feeds one output in a slot. All three are TINY_TERA_NONE where the output is free. 12 bytes. */
struct tiny_tera_feed {
    uint32_t input;
    uint32_t level;
    uint32_t kind; /* TINY_TERA_UNICAST or TINY_TERA_MULTICAST */
};

/* How the rounds of a slot were used. 12 bytes. */
struct tiny_tera_rounds {
    uint32_t used;       /* how many rounds added a pair */
    uint32_t first;      /* how many outputs the first round matched */
    uint32_t last_added; /* how many outputs the last of all rounds matched, 0 where fewer rounds than all added one */
};

/* The verdict on a journal file. 32 bytes. */
struct tiny_tera_verdict {
    uint32_t answer;     /* 0: it is lawful; 1: it is not; 2: it is no journal file */
    uint32_t number;     /* at 0 the number of slots, at 1 the first slot that fails, from 0 on, at 2 the place of the
                            first byte of the first bad field, from 0 on */
    uint32_t reason;     /* at 1 why it fails: 0 it comes after a slot whose cards all said that nothing is to come,
                            1 a card posts outputs and says that nothing is to come, 2 a card's row does not keep what
                            was left of its row before, 3 an output is not fed as the scheduler decides, 4 it is the
                            last one, and some card said that more is to come; else TINY_TERA_NONE */
    uint32_t port;       /* at reasons 1 and 2 the card, at reason 3 the output, else TINY_TERA_NONE */
    uint32_t longest[4]; /* at 0 for each level the longest wait of a unicast queue, in slots; else 0 */
};

/* The number of the version of these functions and layouts: 1. */
uint32_t tiny_tera_version(void);

/* Decides one slot of iSLIP for one level of unicast, in `rounds` rounds, 1 to 64.
 *   asks    n sets: the outputs that each input asks
 *   grant   n ports: for each output the input from which it grants; before the slot, and then after it
 *   accept  n ports: for each input the output from which it accepts; before the slot, and then after it
 *   fed     n words, written: the input that feeds each output, or TINY_TERA_NONE
 *   used    written */
uint32_t tiny_tera_islip_slot(
    uint32_t n,
    uint32_t rounds,
    const uint64_t *asks, size_t asks_len,
    uint32_t *grant, size_t grant_len,
    uint32_t *accept, size_t accept_len,
    uint32_t *fed, size_t fed_len,
    struct tiny_tera_rounds *used);

/* Decides slot number `slot` in `rounds` rounds, 1 to 64, over four levels, unicast and multicast, by prioritized
 * iSLIP for unicast and in the manner of ESLIP for multicast. Even slots prefer unicast and odd ones multicast.
 *   rows      n rows: what each input posts
 *   pointers  before the slot, and then after it
 *   feeds     n elements, written: what feeds each output
 *   used      written */
uint32_t tiny_tera_decide(
    uint32_t n,
    uint32_t rounds,
    uint32_t slot,
    const struct tiny_tera_row *rows, size_t rows_len,
    struct tiny_tera_pointers *pointers,
    struct tiny_tera_feed *feeds, size_t feeds_len,
    struct tiny_tera_rounds *used);

/* The same by FIRM: an output whose unicast grant was refused in the first round
 * points its grant pointer to the input that refused it. */
uint32_t tiny_tera_decide_firm(
    uint32_t n,
    uint32_t rounds,
    uint32_t slot,
    const struct tiny_tera_row *rows, size_t rows_len,
    struct tiny_tera_pointers *pointers,
    struct tiny_tera_feed *feeds, size_t feeds_len,
    struct tiny_tera_rounds *used);

/* The same by round-robin matching, from which iSLIP starts: a unicast grant of the first round moves the output's grant
 * pointer one beyond the input, whether or not the input accepted. A queue may be left unserved for ever by it. */
uint32_t tiny_tera_decide_rrm(
    uint32_t n,
    uint32_t rounds,
    uint32_t slot,
    const struct tiny_tera_row *rows, size_t rows_len,
    struct tiny_tera_pointers *pointers,
    struct tiny_tera_feed *feeds, size_t feeds_len,
    struct tiny_tera_rounds *used);

/* Decides slots that follow each other, from slot number `slot` on, as many as there are elements of `used`: the same as so
 * many calls of tiny_tera_decide, where none of them is refused. Where one would be, nothing is written.
 *   rows      n rows for each slot: those of the first one, then those of the second, and so on
 *   pointers  before the first slot, and then after the last
 *   feeds     n elements for each slot, in the same order, written
 *   used      an element for each slot, written
 * A slot number is followed by the next one, and 0xffffffff by 0. */
uint32_t tiny_tera_decide_many(
    uint32_t n,
    uint32_t rounds,
    uint32_t slot,
    const struct tiny_tera_row *rows, size_t rows_len,
    struct tiny_tera_pointers *pointers,
    struct tiny_tera_feed *feeds, size_t feeds_len,
    struct tiny_tera_rounds *used, size_t used_len);

/* The same as so many calls of tiny_tera_decide_firm. */
uint32_t tiny_tera_decide_many_firm(
    uint32_t n,
    uint32_t rounds,
    uint32_t slot,
    const struct tiny_tera_row *rows, size_t rows_len,
    struct tiny_tera_pointers *pointers,
    struct tiny_tera_feed *feeds, size_t feeds_len,
    struct tiny_tera_rounds *used, size_t used_len);

/* The same as so many calls of tiny_tera_decide_rrm. */
uint32_t tiny_tera_decide_many_rrm(
    uint32_t n,
    uint32_t rounds,
    uint32_t slot,
    const struct tiny_tera_row *rows, size_t rows_len,
    struct tiny_tera_pointers *pointers,
    struct tiny_tera_feed *feeds, size_t feeds_len,
    struct tiny_tera_rounds *used, size_t used_len);

/* Whether a match is maximal for these rows: no free input asks a free output, and no input that is matched as
 * multicast asks a free output as multicast of the same level. The match may come from any scheduler; words that are no
 * match are refused: an input that is matched twice, except for several outputs of one multicast head.
 *   rows     n rows
 *   feeds    n elements: the match
 *   maximal  written: 1 or 0 */
uint32_t tiny_tera_is_maximal(
    uint32_t n,
    const struct tiny_tera_row *rows, size_t rows_len,
    const struct tiny_tera_feed *feeds, size_t feeds_len,
    uint32_t *maximal);

/* Notes one slot more in the waits of the unicast queues: for how many slots, one after the other, up to this one each
 * was posted and not served. A wait stands still at 0xffffffff.
 *   rows     n rows: what was posted
 *   feeds    n elements: what fed each output
 *   waits    256 * n words, that of the queue of input i and a level to output j at 256 * i + 64 * level + j; before
 *            the slot, and then after it. Begin with 0 in all.
 *   longest  4 words, written: for each level the longest of what is there and of all its waits */
uint32_t tiny_tera_note_waits(
    uint32_t n,
    const struct tiny_tera_row *rows, size_t rows_len,
    const struct tiny_tera_feed *feeds, size_t feeds_len,
    uint32_t *waits, size_t waits_len,
    uint32_t *longest, size_t longest_len);

/* The verdict on the bytes of a journal file (docs/FORMATS.md), at most TINY_TERA_MAX_JOURNAL_BYTES. It takes memory by
 * malloc, realloc and free, and gives all of it back; TINY_TERA_NO_MEMORY where there is none.
 *   verdict  written */
uint32_t tiny_tera_check_journal(
    const uint8_t *bytes, size_t bytes_len,
    struct tiny_tera_verdict *verdict);

#ifdef __cplusplus
}
#endif
#endif
