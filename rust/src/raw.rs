//! The C interface as it stands in include/jimrawel.h, which says what is lent and what is left.
//! A slice is an address and a number of entries; the address has to be aligned, not null and valid for all of them, and a slice that is written may
//! overlap no other.

extern "C" {
    pub fn jimrawel_start(
        block_size: usize,
        low_first: bool,
        words: *mut u64, words_len: usize,
        sampler: *mut u64, sampler_len: usize,
        unfinished: *mut u8, unfinished_len: usize,
    ) -> u32;

    pub fn jimrawel_feed(
        sampler: *mut u64, sampler_len: usize,
        unfinished: *mut u8, unfinished_len: usize,
        words: *mut u64, words_len: usize,
        board: usize,
        piece: *const u8, piece_len: usize,
    ) -> u32;

    pub fn jimrawel_carry_over(
        earlier: *const u64, earlier_len: usize,
        words: *mut u64, words_len: usize,
        sampler: *mut u64, sampler_len: usize,
        unfinished: *mut u8, unfinished_len: usize,
    ) -> u32;

    pub fn jimrawel_blocks(sampler: *const u64, sampler_len: usize) -> usize;

    pub fn jimrawel_bottomup(
        sampler: *const u64, sampler_len: usize,
        words: *const u64, words_len: usize,
        first: usize, end: usize,
        k: usize,
        store: *mut u32, store_len: usize,
        bins: *mut u32, bins_len: usize,
        order: *mut u32, order_len: usize,
        finding: *mut u64, finding_len: usize,
    ) -> u32;

    pub fn jimrawel_store_needed(block_size: usize, k: usize) -> usize;

    pub fn jimrawel_compute_index(
        block_size: usize,
        bits: *const u32, bits_len: usize,
        rank: *mut usize,
    ) -> u32;

    pub fn jimrawel_from_bins(
        k: usize,
        bins: *const u32, bins_len: usize,
        order: *mut u32, order_len: usize,
        ranking: *mut u64, ranking_len: usize,
    ) -> u32;

    pub fn jimrawel_validate(
        finding: *const u64, finding_len: usize,
        order: *const u32, order_len: usize,
        scratch: *mut u32, scratch_len: usize,
    ) -> u32;

    pub fn jimrawel_evaluate_histogram(
        finding: *const u64, finding_len: usize,
        order: *const u32, order_len: usize,
        bytes: *const u8, bytes_len: usize,
        scratch: *mut u32, scratch_len: usize,
        evaluated: *mut u64, evaluated_len: usize,
    ) -> u32;

    pub fn jimrawel_bracket(
        n: usize,
        c: usize,
        k: usize,
        d: usize,
        scratch: *mut u64, scratch_len: usize,
        low: *mut u64,
        high: *mut u64,
    ) -> u32;

    pub fn jimrawel_write_finding(
        finding: *const u64, finding_len: usize,
        order: *const u32, order_len: usize,
        scratch: *mut u32, scratch_len: usize,
        out: *mut u8, out_len: usize,
        length: *mut usize,
    ) -> u32;

    pub fn jimrawel_read_finding(
        text: *const u8, text_len: usize,
        order: *mut u32, order_len: usize,
        scratch: *mut u32, scratch_len: usize,
        finding: *mut u64, finding_len: usize,
    ) -> u32;

    pub fn jimrawel_longest_text(k: usize) -> usize;

    pub fn jimrawel_whole_blocks(
        raw: *const u8, raw_len: usize,
        block_size: usize,
        training: bool,
        lengths: *mut u64, lengths_len: usize,
    ) -> u32;

    pub fn jimrawel_configurations(
        block_size: usize,
        data_size: usize,
        plan: *mut u64, plan_len: usize,
    ) -> u32;

    pub fn jimrawel_sweep(
        raw: *const u8, raw_len: usize,
        block_size: usize,
        low_first: bool,
        level: u64,
        words: *mut u64, words_len: usize,
        store: *mut u32, store_len: usize,
        bins: *mut u32, bins_len: usize,
        order: *mut u32, order_len: usize,
        scratch: *mut u32, scratch_len: usize,
        entries: *mut u64, entries_len: usize,
        swept: *mut u64, swept_len: usize,
    ) -> u32;
}
