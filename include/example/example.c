/* A recording fed in two pieces, searched with a store and with none, its later blocks alone too, the finding evaluated on other bytes and on none, the
   chance of as many positives bracketed, the finding written as text and read again; then a recording with the low bit first, boards that take turns, a carry-over,
   and sweeps. Prints what it finds, in how many blocks each bit is set, the boards' blocks, and the verdicts. */
#include "../jimrawel.h"

#include <inttypes.h>
#include <stdio.h>
#include <stdlib.h>
#include <string.h>

#define B 8
#define K 2
#define BINS (1 << K)
#define BLOCKS 4

static double score(uint64_t bits) {
    double z;
    memcpy(&z, &bits, sizeof z);
    return z;
}

/* The third number is a z only where the second is 1. */
static void print_evaluated(const uint64_t *evaluated) {
    printf("positive %" PRIu64, evaluated[0]);
    if (evaluated[1] == 1) printf(", z %g\n", score(evaluated[2]));
    else printf(", no sample\n");
}

/* The chance of at least c positives among n blocks, at most BLOCKS of them, for a finding's width and division. */
static void print_bracket(const uint64_t *finding, size_t n, size_t c) {
    uint64_t scratch[BLOCKS + 1], low, high;
    uint32_t refusal = jimrawel_bracket(n, c, finding[JIMRAWEL_WIDTH], finding[JIMRAWEL_DIVISION], scratch, n + 1, &low, &high);
    printf("at least %zu of %zu: ", c, n);
    if (refusal == JIMRAWEL_OK) printf("2^-40 times %" PRIu64 " to %" PRIu64 "\n", low, high);
    else printf("refusal %" PRIu32 "\n", refusal);
}

static int failed(const char *what, uint32_t refusal) {
    fprintf(stderr, "%s: refusal %" PRIu32 "\n", what, refusal);
    return 1;
}

static void print_finding(const uint64_t *finding, const uint32_t *order) {
    printf("bits");
    for (size_t i = 0; i < finding[JIMRAWEL_WIDTH]; i++) printf(" %" PRIu64, finding[JIMRAWEL_BITS + i]);
    printf(", order");
    for (size_t i = 0; i < BINS; i++) printf(" %" PRIu32, order[i]);
    printf(", division %" PRIu64 ", z %g\n", finding[JIMRAWEL_DIVISION], score(finding[JIMRAWEL_Z]));
}

/* With K 2 a store holds one count for each bit. */
static void print_store(const uint32_t *store, size_t entries) {
    printf("blocks with each bit set");
    for (size_t i = 0; i < entries; i++) printf(" %" PRIu32, store[i]);
    printf("\n");
}

/* What a search writes beside its store. */
struct answer {
    uint64_t finding[JIMRAWEL_FINDING];
    uint32_t bins[BINS], order[BINS];
};

/* The blocks from first to before end, with a store of so many entries. */
static uint32_t search_with(
    const uint64_t *sampler, const uint64_t *words, size_t first, size_t end, uint32_t *store, size_t entries, struct answer *answer) {
    return jimrawel_bottomup(
        sampler, JIMRAWEL_SAMPLER, words, B, first, end, K, store, entries, answer->bins, BINS, answer->order, BINS, answer->finding, JIMRAWEL_FINDING);
}

/* Searches with a store that is long enough, and with none: both answer the same, a refusal too. Printed where found. */
static uint32_t search(const uint64_t *sampler, const uint64_t *words, size_t first, size_t end, struct answer *answer) {
    struct answer again = {0};
    size_t entries = jimrawel_store_needed(B, K);
    uint32_t *store = calloc(entries, sizeof *store);
    if (store == NULL) exit(1);
    *answer = again;
    uint32_t refusal = search_with(sampler, words, first, end, store, entries, answer);
    uint32_t without = search_with(sampler, words, first, end, store, 0, &again);
    if (without != refusal || memcmp(answer, &again, sizeof again) != 0) exit(failed("the searches differ", without));
    if (refusal == JIMRAWEL_OK) {
        print_finding(answer->finding, answer->order);
        print_store(store, entries);
    }
    free(store);
    return refusal;
}

/* Writes the finding to a buffer that is long enough, prints it, and reads it again: all but z is the same. */
static uint32_t exchange(const uint64_t *finding, const uint32_t *order) {
    size_t room = jimrawel_longest_text(K), length;
    uint8_t *text = malloc(room);
    uint32_t scratch[BINS], order_again[BINS];
    uint64_t again[JIMRAWEL_FINDING];
    uint32_t refusal = jimrawel_write_finding(finding, JIMRAWEL_FINDING, order, BINS, scratch, BINS, text, room, &length);
    if (refusal == JIMRAWEL_OK) {
        printf("%.*s\n", (int)length, (const char *)text);
        refusal = jimrawel_read_finding(text, length, order_again, BINS, scratch, BINS, again, JIMRAWEL_FINDING);
    }
    if (refusal == JIMRAWEL_OK) {
        again[JIMRAWEL_Z] = finding[JIMRAWEL_Z];
        int same = memcmp(again, finding, sizeof again) == 0 && memcmp(order_again, order, sizeof order_again) == 0;
        printf("read again: %s\n", same ? "the same" : "another");
        refusal = jimrawel_read_finding(text, length - 1, order_again, BINS, scratch, BINS, again, JIMRAWEL_FINDING);
        printf("without its last byte: refusal %" PRIu32 "\n", refusal);
        refusal = JIMRAWEL_OK;
    }
    free(text);
    return refusal;
}

/* Starts a recording and feeds it four bytes in two pieces. */
static void record(bool low_first, const uint8_t *bytes, uint64_t *words, uint64_t *sampler, uint8_t *unfinished) {
    uint32_t refusal = jimrawel_start(B, low_first, words, B, sampler, JIMRAWEL_SAMPLER, unfinished, JIMRAWEL_UNFINISHED);
    if (refusal != JIMRAWEL_OK) exit(failed("start", refusal));
    for (size_t at = 0; at < 4; at += 2) {
        refusal = jimrawel_feed(sampler, JIMRAWEL_SAMPLER, unfinished, JIMRAWEL_UNFINISHED, words, B, 0, bytes + at, 2);
        if (refusal != JIMRAWEL_OK) exit(failed("feed", refusal));
    }
}

/* The first bit of these bytes, at their low end, is now and then 0, and the others always: high bit first that would be bit 7, and bits 0 and 1 the first that
   never change. */
static uint32_t low_first(void) {
    const uint8_t bytes[] = {0x01, 0x01, 0x01, 0x00};
    uint64_t words[B], sampler[JIMRAWEL_SAMPLER], evaluated[JIMRAWEL_EVALUATED];
    uint8_t unfinished[JIMRAWEL_UNFINISHED];
    uint32_t bins[BINS];
    struct answer found;
    record(true, bytes, words, sampler, unfinished);
    printf("low bit first: ");
    uint32_t refusal = search(sampler, words, 0, jimrawel_blocks(sampler, JIMRAWEL_SAMPLER), &found);
    if (refusal == JIMRAWEL_OK)
        refusal = jimrawel_evaluate_histogram(
            found.finding, JIMRAWEL_FINDING, found.order, BINS, bytes, sizeof bytes, bins, BINS, evaluated, JIMRAWEL_EVALUATED);
    if (refusal != JIMRAWEL_OK) return refusal;
    print_evaluated(evaluated);
    if ((refusal = exchange(found.finding, found.order)) != JIMRAWEL_OK) return refusal;
    sampler[JIMRAWEL_SAMPLER_LOW_FIRST] = 2;
    refusal = jimrawel_feed(sampler, JIMRAWEL_SAMPLER, unfinished, JIMRAWEL_UNFINISHED, words, B, 0, bytes, sizeof bytes);
    printf("a bit order that is none: refusal %" PRIu32 "\n", refusal);
    return JIMRAWEL_OK;
}

#define WIDE 16 /* bits of a block of two bytes, one of which can be unfinished; as many words hold 64 blocks */

struct recording {
    uint64_t words[WIDE], sampler[JIMRAWEL_SAMPLER];
    uint8_t unfinished[JIMRAWEL_UNFINISHED];
};

/* The refusal, or n and each board's unfinished bytes. */
static void print_boards(const struct recording *on, uint32_t refusal) {
    if (refusal != JIMRAWEL_OK) {
        printf("refusal %" PRIu32 "\n", refusal);
        return;
    }
    printf("blocks %zu, unfinished", jimrawel_blocks(on->sampler, JIMRAWEL_SAMPLER));
    for (size_t board = 0; board < JIMRAWEL_BOARDS; board++) {
        printf(" [");
        for (size_t i = 0; i < on->sampler[JIMRAWEL_SAMPLER_LENGTHS + board]; i++) printf("%02X", on->unfinished[JIMRAWEL_BOARD_BYTES * board + i]);
        printf("]");
    }
    printf("\n");
}

static void feed_board(struct recording *on, size_t board, const uint8_t *piece, size_t length) {
    uint32_t refusal =
        jimrawel_feed(on->sampler, JIMRAWEL_SAMPLER, on->unfinished, JIMRAWEL_UNFINISHED, on->words, WIDE, board, piece, length);
    printf("  board %zu, length %zu: ", board, length);
    print_boards(on, refusal);
}

/* The bits of the first blocks: the store of a search of one block alone says which are set. */
static void print_blocks(const struct recording *on, size_t blocks) {
    uint64_t finding[JIMRAWEL_FINDING];
    uint32_t store[WIDE], bins[2], order[2];
    for (size_t e = 0; e < blocks; e++) {
        uint32_t refusal = jimrawel_bottomup(
            on->sampler, JIMRAWEL_SAMPLER, on->words, WIDE, e, e + 1, 1, store, WIDE, bins, 2, order, 2, finding, JIMRAWEL_FINDING);
        if (refusal != JIMRAWEL_OK) exit(failed("search", refusal));
        printf("  block %zu: ", e);
        for (size_t bit = 0; bit < WIDE; bit++) printf("%" PRIu32, store[bit]);
        printf("\n");
    }
}

/* Boards take turns: blocks stand in the order of completion, and none has bytes of two boards. At capacity, which board 3 reaches, unfinished bytes stay and may
   become more, and no board can complete a block. */
static void boards(void) {
    static const uint8_t zeros[2 * 61];
    struct recording on;
    uint32_t refusal = jimrawel_start(WIDE, false, on.words, WIDE, on.sampler, JIMRAWEL_SAMPLER, on.unfinished, JIMRAWEL_UNFINISHED);
    if (refusal != JIMRAWEL_OK) exit(failed("start", refusal));
    printf("boards that take turns\n");
    feed_board(&on, 0, (const uint8_t[]){0x12}, 1);
    feed_board(&on, 1, (const uint8_t[]){0x34, 0x56, 0x78}, 3);
    feed_board(&on, 0, (const uint8_t[]){0x9A}, 1);
    feed_board(&on, 2, (const uint8_t[]){0xBC}, 1);
    feed_board(&on, 1, (const uint8_t[]){0xDE, 0xF0}, 2);
    print_blocks(&on, 3);
    feed_board(&on, 4, zeros, 1);
    feed_board(&on, 3, zeros, sizeof zeros);
    feed_board(&on, 1, zeros, 1);
    feed_board(&on, 0, zeros, 1);
    feed_board(&on, 4, zeros, 2);
}

static void carry_over(struct recording *on, size_t taken) {
    const uint64_t earlier[JIMRAWEL_EARLIER] = {WIDE, WIDE, taken, 0};
    uint32_t refusal = jimrawel_carry_over(
        earlier, JIMRAWEL_EARLIER, on->words, WIDE, on->sampler, JIMRAWEL_SAMPLER, on->unfinished, JIMRAWEL_UNFINISHED);
    printf("carried over, length %zu: ", taken);
    print_boards(on, refusal);
}

/* Three bytes under the earlier rule: bit b of block e is bit e of word b, the unfinished block's too. Refused with more bytes than the words hold, the carry-over
   leaves the words as they are; the next block is put where the unfinished one was. */
static void carried(void) {
    const uint8_t bytes[] = {0xA5, 0x0F, 0xC3};
    struct recording on = {0};
    for (size_t i = 0; i < 8 * sizeof bytes; i++) on.words[i % WIDE] |= (uint64_t)(bytes[i / 8] >> (7 - i % 8) & 1) << i / WIDE;
    carry_over(&on, 2 * 64 + 1);
    carry_over(&on, sizeof bytes);
    feed_board(&on, 1, (const uint8_t[]){0x11, 0x22}, 2);
    feed_board(&on, 0, (const uint8_t[]){0x3C}, 1);
    print_blocks(&on, 3);
}

#define SWEPT_BYTES 512
#define SWEPT_WORDS 512 /* for the 4 blocks of 512 bits that are searched; the 256 of 8 bits take 32 */
#define SWEPT_ENTRIES (SWEPT_BYTES / 2 + 1)

/* Bytes of a small generator. Where it is weak, the last bit of every second byte is the first bit of the byte before it. */
static void generate(uint8_t *bytes, size_t length, bool weak) {
    uint32_t state = 1;
    for (size_t i = 0; i < length; i++) {
        state = state * 1664525 + 1013904223;
        bytes[i] = state >> 24;
        if (weak && i % 2 == 1) bytes[i] = (bytes[i] & 0xFE) | bytes[i - 1] >> 7;
    }
}

static void print_pair(const char *name, const uint64_t *pair) {
    printf("  %s: B %" PRIu64 ", bits", name, pair[JIMRAWEL_BLOCK_SIZE]);
    for (size_t i = 0; i < pair[JIMRAWEL_WIDTH]; i++) printf(" %" PRIu64, pair[JIMRAWEL_BITS + i]);
    printf(", division %" PRIu64 ", z %g, positive %" PRIu64 " of %" PRIu64, pair[JIMRAWEL_DIVISION], score(pair[JIMRAWEL_Z]), pair[JIMRAWEL_POSITIVE],
        pair[JIMRAWEL_BLOCKS]);
    printf(", 2^-40 times %" PRIu64 " to %" PRIu64 "\n", pair[JIMRAWEL_LOW], pair[JIMRAWEL_HIGH]);
}

/* Sweeps so many bytes from B 16 on. The store is long enough for the widest pair, blocks of 64 bits at width 4. */
static void sweep(bool weak, size_t length, uint64_t level) {
    static const char *const verdicts[] = {"undecided", "rejected", "not rejected"};
    uint8_t bytes[SWEPT_BYTES];
    uint64_t words[SWEPT_WORDS], entries[SWEPT_ENTRIES], swept[JIMRAWEL_SWEPT];
    uint32_t bins[256], order[256], scratch[256];
    size_t stored = jimrawel_store_needed(64, 4);
    uint32_t *store = calloc(stored, sizeof *store);
    if (store == NULL) exit(1);
    generate(bytes, length, weak);
    uint32_t refusal = jimrawel_sweep(
        bytes, length, 16, false, level, words, SWEPT_WORDS, store, stored, bins, 256, order, 256, scratch, 256, entries, SWEPT_ENTRIES, swept, JIMRAWEL_SWEPT);
    free(store);
    printf("sweep, length %zu, level %" PRIu64 ": ", length, level);
    if (refusal != JIMRAWEL_OK) {
        printf("refusal %" PRIu32 "\n", refusal);
        return;
    }
    printf("%s, %" PRIu64 " pairs tested\n", verdicts[swept[JIMRAWEL_VERDICT]], swept[JIMRAWEL_PAIRS_TESTED]);
    print_pair("best", swept + JIMRAWEL_BEST);
    print_pair("last", swept + JIMRAWEL_LAST);
}

/* A bracket among n blocks is n (n + 3) / 2 units wide, 8,384 among the 128 blocks of 16 bits that are evaluated, 2,144 among 64 of 32 bits, 560 among 32 of 64
   bits: with one of seven shares no larger than 8,384 the first of them cannot be rejected, and with 560 none, so that the third verdict is left open. 64 bytes have
   no two blocks of 512 bits. */
static void sweeps(void) {
    sweep(true, SWEPT_BYTES, 1 << 30);
    sweep(true, SWEPT_BYTES, 7 * 8384);
    sweep(true, SWEPT_BYTES, 7 * 560);
    sweep(false, 64, 1 << 30);
    sweep(false, 64, 0);
    sweep(false, 1, 1 << 30);
}

int main(void) {
    const uint8_t training[] = {0x00, 0x00, 0xFF, 0xFF};
    const uint8_t testing[BLOCKS] = {0x00, 0x80, 0xFF, 0xFF};
    uint64_t words[B], sampler[JIMRAWEL_SAMPLER], evaluated[JIMRAWEL_EVALUATED];
    uint8_t unfinished[JIMRAWEL_UNFINISHED];
    uint32_t bins[BINS], refusal;
    struct answer found, later;

    record(false, training, words, sampler, unfinished);
    size_t n = jimrawel_blocks(sampler, JIMRAWEL_SAMPLER);
    printf("entries of a store: %zu\n", jimrawel_store_needed(B, K));
    if ((refusal = search(sampler, words, 0, n, &found)) != JIMRAWEL_OK) return failed("search", refusal);
    printf("from block 2 on: ");
    if ((refusal = search(sampler, words, 2, n, &later)) != JIMRAWEL_OK) return failed("search", refusal);
    printf("past the last block: refusal %" PRIu32 "\n", search(sampler, words, 2, n + 1, &later));

    const size_t lengths[] = {sizeof testing, 0};
    for (size_t i = 0; i < 2; i++) {
        refusal = jimrawel_evaluate_histogram(
            found.finding, JIMRAWEL_FINDING, found.order, BINS, testing, lengths[i], bins, BINS, evaluated, JIMRAWEL_EVALUATED);
        if (refusal != JIMRAWEL_OK) return failed("evaluation", refusal);
        print_evaluated(evaluated);
        print_bracket(found.finding, lengths[i] / (B / 8), evaluated[0]);
    }
    print_bracket(found.finding, BLOCKS, BLOCKS + 1);

    if ((refusal = exchange(found.finding, found.order)) != JIMRAWEL_OK) return failed("text", refusal);

    static const uint8_t long_piece[61];
    refusal = jimrawel_feed(sampler, JIMRAWEL_SAMPLER, unfinished, JIMRAWEL_UNFINISHED, words, B, 0, long_piece, sizeof long_piece);
    printf("a piece past capacity: refusal %" PRIu32 "\n", refusal);

    if ((refusal = low_first()) != JIMRAWEL_OK) return failed("low bit first", refusal);
    boards();
    carried();
    sweeps();
    return 0;
}
