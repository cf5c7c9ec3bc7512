//! The calls of include/vinegarspit.h as they are exported; tests/limits compares both with the exported calls.

extern "C" {
    pub fn vinegarspit_check(card: *const u32, card_len: usize, table: *mut u32, table_len: usize) -> u64;
    pub fn vinegarspit_judge(
        card: *const u32,
        card_len: usize,
        log: *const u8,
        log_len: usize,
        table: *mut u32,
        table_len: usize,
        memo: *mut u16,
        memo_len: usize,
    ) -> u64;
    pub fn vinegarspit_judge_for(
        client: u32,
        share: u32,
        limit: u32,
        card: *const u32,
        card_len: usize,
        log: *const u8,
        log_len: usize,
        table: *mut u32,
        table_len: usize,
        memo: *mut u16,
        memo_len: usize,
        usage: *mut u32,
    ) -> u64;
    pub fn vinegarspit_usage_totals(usage: *const u32, totals: *mut u64);
    pub fn vinegarspit_judge_plain(
        card: *const u32,
        card_len: usize,
        log: *const u8,
        log_len: usize,
        spans: *mut u32,
        spans_len: usize,
    ) -> u64;
    pub fn vinegarspit_tree(
        card: *const u32,
        card_len: usize,
        log: *const u8,
        log_len: usize,
        table: *mut u32,
        table_len: usize,
        memo: *mut u16,
        memo_len: usize,
        tree: *mut u32,
        tree_len: usize,
        written: *mut u32,
    ) -> u64;
    pub fn vinegarspit_check2(card: *const u32, card_len: usize, table2: *mut u64, table2_len: usize) -> u64;
    pub fn vinegarspit_judge2(
        card: *const u32,
        card_len: usize,
        log: *const u8,
        log_len: usize,
        table2: *mut u64,
        table2_len: usize,
        memo: *mut u16,
        memo_len: usize,
    ) -> u64;
    pub fn vinegarspit_log_add(events: *mut u8, state: *mut u16, event: u8) -> u64;
    pub fn vinegarspit_log_mark(state: *mut u16, mark: u32) -> u64;
    pub fn vinegarspit_log_return(state: *mut u16, mark: u32) -> u64;
    pub fn vinegarspit_log_judge(
        card: *const u32,
        card_len: usize,
        events: *const u8,
        state: *const u16,
        table: *mut u32,
        table_len: usize,
        memo: *mut u16,
        memo_len: usize,
    ) -> u64;
    pub fn vinegarspit_log_judge2(
        card: *const u32,
        card_len: usize,
        events: *const u8,
        state: *const u16,
        table2: *mut u64,
        table2_len: usize,
        memo: *mut u16,
        memo_len: usize,
    ) -> u64;
    pub fn vinegarspit_costliest(
        card: *const u32,
        card_len: usize,
        length: usize,
        log: *mut u8,
        log_len: usize,
        table: *mut u32,
        table_len: usize,
        memo: *mut u16,
        memo_len: usize,
    ) -> u64;
}
