//! The functions of the archive as they are: a slice is a pointer and a length, and a number that is lent
//! for an answer is a reference. `tests/c/header` holds them to their signatures in Rattle.

unsafe extern "C" {
    pub fn rb_first_zeros_aligned(v: u64, order: usize, place: &mut usize, row: &mut u64) -> u32;
    pub fn rb_bitfield_set(rows: *mut u64, rows_len: usize, start: usize, end: usize, value: u32) -> u32;
    pub fn rb_bitfield_toggle(
        rows: *mut u64,
        rows_len: usize,
        place: usize,
        order: usize,
        expected: u32,
    ) -> u32;
    pub fn rb_bitfield_is_zero(
        rows: *const u64,
        rows_len: usize,
        place: usize,
        order: usize,
        yes: &mut u32,
    ) -> u32;
    pub fn rb_bitfield_first_zeros(
        rows: *const u64,
        rows_len: usize,
        start_row: usize,
        order: usize,
        place: &mut usize,
    ) -> u32;
    pub fn rb_bitfield_set_first_zeros(
        rows: *mut u64,
        rows_len: usize,
        start_row: usize,
        order: usize,
        place: &mut usize,
    ) -> u32;
    pub fn rb_bitfield_fill(rows: *mut u64, rows_len: usize, value: u32) -> u32;
    pub fn rb_bitfield_count_zeros(rows: *const u64, rows_len: usize, zeros: &mut usize) -> u32;

    pub fn rb_free_all(
        n: usize,
        t: usize,
        rows: *mut u64,
        rows_len: usize,
        entries: *mut u16,
        entries_len: usize,
    ) -> u32;
    pub fn rb_reserve_all(
        n: usize,
        t: usize,
        rows: *mut u64,
        rows_len: usize,
        entries: *mut u16,
        entries_len: usize,
    ) -> u32;
    pub fn rb_get(
        n: usize,
        t: usize,
        rows: *mut u64,
        rows_len: usize,
        entries: *mut u16,
        entries_len: usize,
        row: usize,
        order: usize,
        frame: &mut usize,
        probes: &mut usize,
    ) -> u32;
    pub fn rb_get_at(
        n: usize,
        t: usize,
        rows: *mut u64,
        rows_len: usize,
        entries: *mut u16,
        entries_len: usize,
        frame: usize,
        order: usize,
        taken: &mut usize,
        probes: &mut usize,
    ) -> u32;
    pub fn rb_put(
        n: usize,
        t: usize,
        rows: *mut u64,
        rows_len: usize,
        entries: *mut u16,
        entries_len: usize,
        frame: usize,
        order: usize,
    ) -> u32;
    pub fn rb_is_free(
        n: usize,
        t: usize,
        rows: *const u64,
        rows_len: usize,
        entries: *const u16,
        entries_len: usize,
        frame: usize,
        order: usize,
        yes: &mut u32,
    ) -> u32;
    pub fn rb_stats(
        n: usize,
        t: usize,
        rows: *const u64,
        rows_len: usize,
        entries: *const u16,
        entries_len: usize,
        free_frames: &mut usize,
        free_huge: &mut usize,
        free_trees: &mut usize,
    ) -> u32;
    pub fn rb_stats_at(
        n: usize,
        t: usize,
        rows: *const u64,
        rows_len: usize,
        entries: *const u16,
        entries_len: usize,
        frame: usize,
        order: usize,
        free_frames: &mut usize,
        free_huge: &mut usize,
        free_trees: &mut usize,
    ) -> u32;
    pub fn rb_audit(
        n: usize,
        t: usize,
        rows: *const u64,
        rows_len: usize,
        entries: *const u16,
        entries_len: usize,
        huge: &mut usize,
        reason: &mut u32,
    ) -> u32;
    pub fn rb_recover(
        n: usize,
        t: usize,
        rows: *mut u64,
        rows_len: usize,
        entries: *mut u16,
        entries_len: usize,
        entries_changed: &mut usize,
        bitfields_changed: &mut usize,
    ) -> u32;
    pub fn rb_why_get(
        n: usize,
        t: usize,
        rows: *const u64,
        rows_len: usize,
        entries: *const u16,
        entries_len: usize,
        row: usize,
        order: usize,
        reason: &mut u32,
        frame: &mut usize,
    ) -> u32;
    pub fn rb_why_get_at(
        n: usize,
        t: usize,
        rows: *const u64,
        rows_len: usize,
        entries: *const u16,
        entries_len: usize,
        frame: usize,
        order: usize,
        reason: &mut u32,
        at: &mut usize,
    ) -> u32;
    pub fn rb_why_put(
        n: usize,
        t: usize,
        rows: *const u64,
        rows_len: usize,
        entries: *const u16,
        entries_len: usize,
        frame: usize,
        order: usize,
        reason: &mut u32,
        at: &mut usize,
    ) -> u32;
    pub fn rb_room(
        n: usize,
        t: usize,
        rows: *const u64,
        rows_len: usize,
        entries: *const u16,
        entries_len: usize,
        frame: usize,
        counts: &mut [usize; 19],
    ) -> u32;
    pub fn rb_tree_run(
        n: usize,
        t: usize,
        rows: *const u64,
        rows_len: usize,
        entries: *const u16,
        entries_len: usize,
        frame: usize,
        offset: &mut usize,
        length: &mut usize,
    ) -> u32;
}
