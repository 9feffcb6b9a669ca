//! The functions of `include/single_limit.h`; `tests/header` holds their parameters to the header's.

unsafe extern "C" {
    pub fn single_limit_check_tables(
        clearing: *const i64,
        clearing_length: usize,
        own: *const i64,
        own_length: usize,
        groups: *const i64,
        groups_length: usize,
        place: *mut u64,
    ) -> u8;

    pub fn single_limit_covers(
        clearing: *const i64,
        clearing_length: usize,
        own: *const i64,
        own_length: usize,
        asset: i64,
    ) -> u8;

    pub fn single_limit_open(book: *mut i64, book_length: usize, account: i64, kind: i64, code: i64) -> u8;

    pub fn single_limit_move(
        book: *mut i64,
        book_length: usize,
        clearing: *const i64,
        clearing_length: usize,
        own: *const i64,
        own_length: usize,
        groups: *const i64,
        groups_length: usize,
        account: i64,
        asset: i64,
        amount: i64,
    ) -> u8;

    pub fn single_limit_order(
        book: *mut i64,
        book_length: usize,
        clearing: *const i64,
        clearing_length: usize,
        own: *const i64,
        own_length: usize,
        groups: *const i64,
        groups_length: usize,
        account: i64,
        asset: i64,
        date: i64,
        side: i64,
        quantity: i64,
        money: i64,
    ) -> u8;

    pub fn single_limit_roll(book: *mut i64, book_length: usize, account: i64) -> u8;

    pub fn single_limit_report(
        book: *const i64,
        book_length: usize,
        clearing: *const i64,
        clearing_length: usize,
        own: *const i64,
        own_length: usize,
        groups: *const i64,
        groups_length: usize,
        account: i64,
        figures: *mut i64,
        figures_length: usize,
    ) -> u8;

    pub fn single_limit_app(
        book: *const i64,
        book_length: usize,
        clearing: *const i64,
        clearing_length: usize,
        own: *const i64,
        own_length: usize,
        groups: *const i64,
        groups_length: usize,
        account: i64,
        bits: *mut u64,
        bits_length: usize,
        gauge: *mut u8,
        shown: *mut f64,
    ) -> u8;

    pub fn single_limit_app_read(bits: *const u64, bits_length: usize, figures: *mut f64, figures_length: usize) -> u8;
}
