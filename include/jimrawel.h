/* jimrawel.h: the bias search for recordings of hardware random generators.

   Link crates/exports/out/libexports.a, which `rt lib` writes in crates/exports (x86-64 Linux).
   Every function is proved against a contract (crates/exports/src/lib.rt); the notes below say it in words.

   Rules for all calls

   - A slice is two arguments: the address of its first entry and its number of entries. The address has to be aligned for its
     type, and all entries have to be readable, and writable where the address is not const. Two slices of one call may overlap
     only where both are const. An empty slice may have any aligned address that is not null. Nothing is kept after a call
     returns, nothing is allocated, nothing is shared between calls: calls may run at the same time where no slice that one of
     them writes overlaps a slice of the other. A thread with 160 KB of stack can make every call: this is measured, not proved
     (differential/README.md, "The stack"). A search with no store takes the most, 110 KB at width 20; with a store that
     suffices it takes 45 KB, a sweep 65 KB, a ranking 11 KB, a carry-over 3 KB, and no other call takes 1 KB.
   - Each call takes any numbers at all. What it cannot take it refuses: the result is the number of the first refusal that
     applies, in the order given at the call, and 0 where there is none (enum jimrawel_refusal). jimrawel_blocks,
     jimrawel_store_needed and jimrawel_longest_text alone refuse nothing and return a number of blocks, of entries and of bytes.
   - Where a call is refused, every lent entry is as it was lent, but for three things: a record that the call writes (a sampler by
     jimrawel_start or jimrawel_carry_over, a finding, a rank, an evaluation, both ends of a bracket, two lengths, a plan, a sweep, a
     text's length; not a ranking) then has every number 0, and a sampler every unfinished byte too; after 13, after 14 but for that of
     jimrawel_bracket, and after 17 of jimrawel_write_finding, the first 2^width entries of the scratch are 0; and where
     jimrawel_read_finding has read a text and the check refuses what it says, the order begins with the text's indices. Beside 25 and
     27 nothing at all is written.
   - Entries past those that a call writes are as lent.

   Records

   - A sampler is 8 numbers: the block size B in bits, the number of lent words, n, the blocks completed so far (jimrawel_blocks), the
     bit order, and for each of the boards 0 to 3 how many unfinished bytes it has, fewer than B / 8. In a slice of their own stand 2,048
     bytes, the unfinished ones: those of board b from place 512 x b on, and 0 past them, which no call reads.
     Its words are lent anew with every call; no one else may change them, or the sampler, from start to the last search.
   - Up to four boards record on one sampler, each in pieces of its own; a block is of one board. It enters the words when it is completed,
     so that blocks are numbered in the order of completion over all boards. What a board has past its last whole block is its unfinished
     bytes: they are in no search and take no capacity.
   - A sampler of the earlier rule, of one board, is 4 numbers: B, the number of lent words, T, the bytes taken so far, and the bit order;
     an unfinished block stands in its words too. jimrawel_carry_over alone reads one.
   - A finding is 25 numbers: the block size, the width k, the division, the bits of its score z as a double, 20 bit entries, of
     which the first k count, and the bit order; a search and a reading leave the other bit entries 0, and no call reads them. Beside it
     stands its bin order in a buffer of its own.
   - The bit order is 1 where the low bit of a byte comes first and 0 where the high bit does. Start takes it, the sampler carries it to
     the finding, and an evaluation goes by it. A record that is read with another number in its place is refused with 27.
   - A finding and its order as text are one object of RFC 8259 with the keys bits, sorted_indices, best_division and block_size, as the
     upstream tool writes and reads it, and low_first, true or false, which that tool passes over.
   - Bit b of a block is, in its byte b / 8, bit 7 - b % 8 where the high bit comes first, and bit b % 8 where the low bit does. The bin of
     a block is the sum of 2^i over the i whose bits[i] is set in it. */

#ifndef JIMRAWEL_H
#define JIMRAWEL_H

#include <stdbool.h>
#include <stddef.h>
#include <stdint.h>

#ifdef __cplusplus
extern "C" {
#endif

#define JIMRAWEL_SAMPLER 8     /* numbers of a sampler */
#define JIMRAWEL_EARLIER 4     /* numbers of a sampler of the earlier rule */
#define JIMRAWEL_FINDING 25    /* numbers of a finding */
#define JIMRAWEL_RANKING 2     /* numbers of a ranking */
#define JIMRAWEL_EVALUATED 3   /* numbers of an evaluation */
#define JIMRAWEL_LENGTHS 2     /* numbers of a split */
#define JIMRAWEL_PLAN 15       /* numbers of a plan */
#define JIMRAWEL_TESTED 29     /* numbers of a pair that a sweep has tested */
#define JIMRAWEL_SWEPT 60      /* numbers of a sweep */

/* Boards of a sampler, its unfinished bytes, and the places of each board among them. */
#define JIMRAWEL_BOARDS 4
#define JIMRAWEL_UNFINISHED 2048
#define JIMRAWEL_BOARD_BYTES 512

/* Places in a finding. */
#define JIMRAWEL_BLOCK_SIZE 0
#define JIMRAWEL_WIDTH 1
#define JIMRAWEL_DIVISION 2
#define JIMRAWEL_Z 3
#define JIMRAWEL_BITS 4
#define JIMRAWEL_LOW_FIRST 24

/* Places in a sampler: the bit order, and where the boards' numbers begin. */
#define JIMRAWEL_SAMPLER_LOW_FIRST 3
#define JIMRAWEL_SAMPLER_LENGTHS 4

/* Places in a pair that a sweep has tested, behind those of its finding. */
#define JIMRAWEL_BLOCKS 25
#define JIMRAWEL_POSITIVE 26
#define JIMRAWEL_LOW 27
#define JIMRAWEL_HIGH 28

/* Places in a sweep: two numbers, and where two pairs begin. */
#define JIMRAWEL_VERDICT 0
#define JIMRAWEL_PAIRS_TESTED 1
#define JIMRAWEL_BEST 2
#define JIMRAWEL_LAST 31

enum jimrawel_refusal {
    JIMRAWEL_OK = 0,
    JIMRAWEL_BAD_BLOCK_SIZE = 1,     /* B is no multiple of 8 from 8 to 4,096 */
    JIMRAWEL_BAD_WIDTH = 2,          /* k is 0 or above 20 */
    JIMRAWEL_WIDTH_ABOVE_BLOCK = 3,  /* k is above B */
    JIMRAWEL_BAD_SAMPLER = 4,        /* its B is invalid, its number of words is not the lent one, n is above capacity, or a board has B / 8
                                        unfinished bytes or more; of the earlier rule, T is above capacity in bytes */
    JIMRAWEL_FULL = 5,               /* the piece would complete more blocks than capacity leaves; for a sweep, the training half of a pair would */
    JIMRAWEL_SHORT_BUFFER = 7,       /* bins, order or scratch have fewer than 2^k entries; for a bracket, the scratch fewer than n + 1, which
                                        a sweep asks of its entries */
    JIMRAWEL_FEW_BLOCKS = 8,         /* fewer than two blocks */
    JIMRAWEL_BITS_NOT_RISING = 9,    /* the bits do not strictly increase */
    JIMRAWEL_BIT_OUTSIDE = 10,       /* a bit is B or more */
    JIMRAWEL_ORDER_LENGTH = 11,      /* the order has not 2^k entries */
    JIMRAWEL_TOO_MANY = 12,          /* above 16,777,216 blocks to evaluate; for a rank, C(B, k) above 2^32 */
    JIMRAWEL_NO_PERMUTATION = 13,    /* the order does not list every bin once */
    JIMRAWEL_BAD_DIVISION = 14,      /* the division, or a bracket's d, is 0, or 2^k or more */
    JIMRAWEL_BAD_TEXT = 16,          /* the text is no such object, or a number of it but a z_score is above 2^32 - 1 */
    JIMRAWEL_NO_ROOM = 17,           /* the output has fewer bytes than the text, or the order fewer entries than the text has indices */
    JIMRAWEL_BAD_STRETCH = 18,       /* first is above end, or end above the sampler's n */
    JIMRAWEL_BAD_COUNTS = 19,        /* for a bracket, n is above 4,096 or c above n */
    JIMRAWEL_BAD_LEVEL = 20,         /* the level of a sweep is 0 or at least 2^40 */
    JIMRAWEL_BAD_BOARD = 21,         /* the board is above 3 */
    JIMRAWEL_SHORT_RECORD = 25,      /* a slice has fewer numbers, or bytes, than the record that is read from it or written to it */
    JIMRAWEL_TOO_MANY_COUNTED = 26,  /* the counts of a ranking add up to 2^32 or more */
    JIMRAWEL_BAD_BIT_ORDER = 27      /* a sampler or a finding that is read has a bit order that is neither 0 nor 1 */
};

/* What a sweep says of a recording. */
enum jimrawel_verdict {
    JIMRAWEL_UNDECIDED = 0,          /* none is rejected, but a pair's chance may be below its share; also beside a refusal */
    JIMRAWEL_REJECTED = 1,           /* a pair's chance is below its share of the level: so seldom does a fair source do as well there */
    JIMRAWEL_NOT_REJECTED = 2        /* no pair's chance is below its share */
};

/* Starts a recording of blocks of block_size bits.
     low_first  true where the recorder packs the first bit of a byte at its low end, false where at its high end.
     words      lent; all 0 afterwards. S = words / block_size of them hold a row of 64 x S blocks for each bit of a block:
                capacity is 64 x S blocks, and never more than 16,777,216.
     sampler, unfinished  at least 8 numbers and 2,048 bytes; the fresh sampler is written.
   Refusals: 25, 1. */
uint32_t jimrawel_start(
    size_t block_size, bool low_first, uint64_t *words, size_t words_len, uint64_t *sampler, size_t sampler_len,
    uint8_t *unfinished, size_t unfinished_len);

/* Takes the next piece of a board, of any length, also empty; a block may be cut anywhere, and other boards may be fed in between.
     sampler, unfinished  as start, the carry-over or the last feed left them; the next sampler is written in their place. As lent where refused.
     words    the same words, as that call left them.
     board    0 to 3.
     piece    is read.
   Refusals: 25, 27, 4, 21, 5. After 5 a shorter piece may still be taken, of any board.
   A recorder of one board passes 0, and its blocks are those of the earlier rule. What differs: T is gone, n and the number t of board 0's unfinished bytes
   are there instead, T being n x (B / 8) + t; these bytes no longer stand in the words; and a piece may end up to B / 8 - 1 bytes past capacity, unfinished. */
uint32_t jimrawel_feed(
    uint64_t *sampler, size_t sampler_len, uint8_t *unfinished, size_t unfinished_len, uint64_t *words, size_t words_len,
    size_t board, const uint8_t *piece, size_t piece_len);

/* Goes on from a sampler of the earlier rule, anywhere in its recording: T / (B / 8) blocks, rounded down, are completed, and its unfinished bytes
   are board 0's. Once: the words no longer have these bytes afterwards.
     earlier  at least 4 numbers; it is read.
     words    its words, as its last feed left them; the unfinished bytes are cleared from them, and nothing else is changed.
     sampler, unfinished  at least 8 numbers and 2,048 bytes; the sampler that goes on is written.
   Refusals: 25, 27, 4, the last by the earlier rule. */
uint32_t jimrawel_carry_over(
    const uint64_t *earlier, size_t earlier_len, uint64_t *words, size_t words_len, uint64_t *sampler, size_t sampler_len,
    uint8_t *unfinished, size_t unfinished_len);

/* n: the blocks that a sampler has completed. 0 where the slice has fewer than 8 numbers, or the bit order is neither 0 nor 1.
     sampler  as start, the carry-over or the last feed left it; it is read. */
size_t jimrawel_blocks(const uint64_t *sampler, size_t sampler_len);

/* The search: finds the best set of k bits over a stretch of the blocks completed. With a store that is long enough it goes by layers: it counts each set of
   up to k bits once and works out the bins of a set from the counts of its subsets. Else it counts every bin of every set. The finding, the counts and the
   order are the same with any store: search with a long one, then with none, to see that they are.
     sampler, words  as the last feed left them; they are read. The unfinished bytes are not lent.
     first, end  the stretch: blocks first to end - 1, numbered from 0; the others enter neither counts nor z. From 0 to what jimrawel_blocks
              returns it is all of them. Where first is end there is no block, and the answer is bits 0 to k - 1, division 1, z 0.
     store    any number of entries, also 0, the address then as of every empty slice. Long enough are jimrawel_store_needed(B, k), where that is not 0:
              so many afterwards hold, for each set of 1 to max(1, k - 1) bits, how many blocks of the stretch have all its bits set: first the
              sets of one bit, then those of two and so on, and of as many bits in lexicographic order (jimrawel_compute_index). A store
              that is shorter is as lent.
     bins     at least 2^k entries; the winner's counts are written to the first 2^k.
     order    at least 2^k entries; the winner's bin order is written to the first 2^k.
     finding  at least 25 numbers; the winner, with the sampler's bit order.
   Refusals: 25, 27, 4, 18, 2, 3, 7. */
uint32_t jimrawel_bottomup(
    const uint64_t *sampler, size_t sampler_len, const uint64_t *words, size_t words_len, size_t first, size_t end, size_t k,
    uint32_t *store, size_t store_len, uint32_t *bins, size_t bins_len, uint32_t *order, size_t order_len,
    uint64_t *finding, size_t finding_len);

/* How many entries a store must have for a search of width k to go by layers: the sum of C(B, d) for d from 1 to max(1, k - 1), 349,632 at B 128, k 4. 0 where
   no store makes it so: B is no multiple of 8 from 8 to 4,096, k is 0, above 20 or above B, or the sum is above 2^32. */
size_t jimrawel_store_needed(size_t block_size, size_t k);

/* The rank of a set of bits: how many sets of as many bits come before it in lexicographic order.
     bits  the bits, all of them; their number is the width.
     rank  one number, apart from the bits; the rank, or 0 where refused.
   Refusals: 1, 2, 3, 9, 10, 12. */
uint32_t jimrawel_compute_index(size_t block_size, const uint32_t *bits, size_t bits_len, size_t *rank);

/* Ranks one set of k bits by the counts of its bins.
     bins     the counts in the first 2^k entries; they are read.
     order    at least 2^k entries; the bin order is written: falling counts, equal ones by rising bin.
     ranking  at least 2 numbers; the division, and the bits of |z| there as a double. As lent where refused.
   Refusals: 25, 2, 7, 26. */
uint32_t jimrawel_from_bins(
    size_t k, const uint32_t *bins, size_t bins_len, uint32_t *order, size_t order_len, uint64_t *ranking, size_t ranking_len);

/* Checks a finding and its order before they are used: what a search left always passes.
     finding  at least 25 numbers, each taken as it stands, however large. z and the bit entries past the width are never read, nor is any
              bit entry where the width is refused: they may be uninitialised. Either bit order passes.
     order    2^width entries.
     scratch  at least 2^width entries; its first 2^width are 0 afterwards unless the refusal comes before 13.
   Refusals: 25, 27, 1, 2, 9, 10, 11, 7, 13, 14. */
uint32_t jimrawel_validate(
    const uint64_t *finding, size_t finding_len, const uint32_t *order, size_t order_len, uint32_t *scratch, size_t scratch_len);

/* Evaluates a finding on the whole blocks of other bytes, whose bits are taken in the finding's bit order.
     finding, order, scratch  as for the check; after success the counts stand in the scratch's first 2^width entries.
     bytes      are read; what is left after the last whole block counts nowhere.
     evaluated  at least 3 numbers: how many blocks are in the first `division` bins of the order; 1 where there is a score and 0 for "no
                sample", which is where there is no block; the bits of the score z, with its sign, as a double. For "no sample" the third
                number is 0 and stands for no z: look at the second first.
   Refusals: 25, 27, 1, 2, 9, 10, 11, 12, 7, 13, 14. */
uint32_t jimrawel_evaluate_histogram(
    const uint64_t *finding, size_t finding_len, const uint32_t *order, size_t order_len, const uint8_t *bytes, size_t bytes_len,
    uint32_t *scratch, size_t scratch_len, uint64_t *evaluated, size_t evaluated_len);

/* Brackets the chance of at least c positives among n blocks, each of them positive with probability d / 2^k. With a finding's division and width as d and k,
   the blocks of an evaluation as n and its positive ones as c, this is the chance that a fair source has at least as many. Both ends are in units of 2^-40 and
   made of whole numbers alone: the exact chance times 2^40 is at least low and at most high. With no block yet, entry 0 is 2^40; each block makes of entry j
   (entry j x (2^k - d) + entry (j - 1) x d) / 2^k, rounded down, a missing entry being 0.
     scratch  at least n + 1 entries; entries 0 to n after the last block are written to the first n + 1.
     low      one number, apart from the scratch and from high; the sum of entries c to n, or 0 where refused.
     high     one number, apart likewise; low + n (n + 3) / 2, which may be above 2^40, or 0 where refused.
   Refusals: 19, 2, 14, 7. */
uint32_t jimrawel_bracket(
    size_t n, size_t c, size_t k, size_t d, uint64_t *scratch, size_t scratch_len, uint64_t *low, uint64_t *high);

/* Writes a finding and its order as text: {"bits":[..],"sorted_indices":[..],"best_division":..,"block_size":..,"low_first":..}, in decimal
   digits without leading zeros and without white space, the first `width` bits alone and no z; low_first is true or false. No zero byte ends it.
     finding, order, scratch  as for the check, which is made first; the scratch is left as by the check, after 17 too.
     out      the text is written to its first bytes. jimrawel_longest_text(width) bytes are always enough.
     length   one number, apart from the slices; how many bytes were written, or 0 where refused.
   Refusals: 25, 27, 1, 2, 9, 10, 11, 7, 13, 14, 17. */
uint32_t jimrawel_write_finding(
    const uint64_t *finding, size_t finding_len, const uint32_t *order, size_t order_len, uint32_t *scratch, size_t scratch_len,
    uint8_t *out, size_t out_len, size_t *length);

/* Reads a finding and its order from a text: such an object and nothing beside it, its keys in any order, each once and without an
   escape, white space of RFC 8259 around every token. The first four keys hold whole numbers in digits alone, without leading zeros, up to
   2^32 - 1. low_first may be absent, which says false: the high bit comes first. A z_score, any number of RFC 8259, may stand among them,
   at most once, and is passed over: z is 0. The width is the number of bits; more than 20 are refused as a width above 20.
     text     is read, all of it.
     order    at least as many entries as the text has indices, which are written to its first entries; text_len / 2 entries are always
              enough. As lent after 16 and 17.
     scratch  at least 2^width entries; as lent after 16 and 17, else as the check leaves it. text_len / 2 entries are always enough.
     finding  at least 25 numbers; what was read, its bit entries past the width 0.
   Refusals: 25, 16, 17, then the check's of the finding and the indices: 1, 2, 9, 10, 11, 7, 13, 14. */
uint32_t jimrawel_read_finding(
    const uint8_t *text, size_t text_len, uint32_t *order, size_t order_len, uint32_t *scratch, size_t scratch_len,
    uint64_t *finding, size_t finding_len);

/* As many bytes as every text of a finding of width k fits into; 0 where k is 0 or above 20. */
size_t jimrawel_longest_text(size_t k);

/* Splits raw bytes into two parts of whole blocks.
     training  true: the first part is half of the blocks, rounded down, and the second the others. False: the first part is all blocks.
     lengths   at least 2 numbers: the bytes of the first part, which starts at raw, and of the second, which follows it.
   Refusals: 25, 1, 8. */
uint32_t jimrawel_whole_blocks(
    const uint8_t *raw, size_t raw_len, size_t block_size, bool training, uint64_t *lengths, size_t lengths_len);

/* The plan of a sweep over block sizes for a recording of data_size bytes.
     plan  at least 15 numbers: how many pairs there are, at most 7; 7 block sizes; their 7 widths. Entries past the pairs are 0.
   Refusals: 25, 1. */
uint32_t jimrawel_configurations(size_t block_size, size_t data_size, uint64_t *plan, size_t plan_len);

/* Sweeps a recording and gives a verdict. Each pair of the plan for block_size and raw_len (jimrawel_configurations) is tested in turn: the first half of the
   recording's m blocks of B bits, rounded down, is searched for the best set of k bits, the finding is evaluated on the first 4,096 of the other blocks, or
   on all where they are fewer, and the chance that a fair source has at least as many positive ones is bracketed (jimrawel_bracket). Each pair planned has an
   equal share of the level, rounded down. The first pair whose upper end is below the share is rejected and ends the sweep: its chance is certainly below the
   share. Where there is none, the recording is undecided if some lower end is below the share, and else not rejected. A pair with fewer than two blocks is
   skipped, and its share with it.
     raw        the recording, whole; it is read.
     low_first  as for start.
     level      how often a fair source may be rejected, in units of 2^-40: from 1 to 2^40 - 1. A bracket of n blocks is n (n + 3) / 2 units wide, so that
                with a share that is no larger nothing can be rejected: where a pair has 4,096 blocks to be evaluated, its share has to be above 8,394,752.
                Seven pairs, the most, have that from a level of 58,763,271 on, a chance of 0.0000535. Below the number of pairs the share is 0, nothing is
                below it, and every recording is not rejected.
     words      for each pair that is not skipped B x ceil(h / 64) are needed, where h = m / 2, rounded down, is how many blocks are searched. h may be at
                most 16,777,216 whatever the words: with blocks of one byte, which every plan begins with, that is a recording of 33,554,433 bytes.
     store      any number of entries, also 0, as for the search: a pair is searched by layers where there are jimrawel_store_needed(B, k).
     bins, order, scratch  at least 2^k entries each for each pair that is not skipped: 256, since a plan begins with width 8 and has none above.
     entries    at least n + 1 for the n blocks that are evaluated of each pair that is not skipped: 4,097 are always enough.
     swept      at least 60 numbers: the verdict (enum jimrawel_verdict); how many pairs were tested; 29 numbers of the best pair, which is that with the
                lowest lower end, the earlier where two are equal; 29 of the pair tested last, which is the rejected one where one is. The 29 of a pair are
                its finding's 25, the blocks that it was evaluated on, the positive ones, and the lower and the upper end in units of 2^-40.
   After success the other six buffers are free: nothing is promised of what they hold. A finding's bin order is that of its counts over the searched blocks
   (jimrawel_evaluate_histogram, jimrawel_from_bins).
   Refusals: 25, 20, 1, then 5 and 7 of each pair that is not skipped, in the plan's order, then 8 where every pair is skipped, which is below two bytes. All
   are found before the first search: the six buffers are then as lent, and the 60 numbers are 0, or as lent beside 25. */
uint32_t jimrawel_sweep(
    const uint8_t *raw, size_t raw_len, size_t block_size, bool low_first, uint64_t level, uint64_t *words, size_t words_len,
    uint32_t *store, size_t store_len, uint32_t *bins, size_t bins_len, uint32_t *order, size_t order_len, uint32_t *scratch, size_t scratch_len,
    uint64_t *entries, size_t entries_len, uint64_t *swept, size_t swept_len);

#ifdef __cplusplus
}
#endif

#endif
