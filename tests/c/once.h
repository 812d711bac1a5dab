/* Each call once, through a state as one argument where it takes a state, with numbers that can't change places: for the
 * tests from C, and for the kernel of tests/boot. CHECK is theirs. */

#include "ravelbeam.h"

RB_STATE(zone, 2500, 2);

static void each_call_once(void)
{
    static const size_t room[RB_ORDERS] = {452, 226, 113, 56, 28, 14, 7, 3, 1};
    static uint64_t field[8];
    size_t frame, probes, free_frames, free_huge, free_trees, huge, entries_changed, bitfields_changed, offset, length,
        place, zeros, counts[RB_ORDERS];
    uint32_t yes, reason;
    uint64_t row;

    /* Not started. */
    CHECK(rb_state_get(&zone, 9, 3, &frame, &probes) == RB_MEMORY && frame == 0 && probes == 2);
    CHECK(rb_state_put(&zone, 576, 3) == RB_MEMORY);
    CHECK(rb_state_reserve_all(&zone) == RB_DONE);
    CHECK(zone.entries[0] == RB_MARK && zone.entries[4] == 0 && zone.rows[32] == UINT64_MAX);
    CHECK(rb_state_free_all(&zone) == RB_DONE);
    CHECK(zone.entries[0] == 512 && zone.entries[4] == 452 && zone.rows[32] == 0);

    CHECK(rb_state_get(&zone, 9, 3, &frame, &probes) == RB_DONE && frame == 576 && probes == 1);
    CHECK(rb_state_get_at(&zone, 1024, 9, &frame, &probes) == RB_DONE && frame == 1024 && probes == 1);
    CHECK(rb_state_is_free(&zone, 576, 3, &yes) == RB_DONE && yes == 0);
    CHECK(rb_state_is_free(&zone, 584, 3, &yes) == RB_DONE && yes == 1);
    CHECK(rb_state_stats(&zone, &free_frames, &free_huge, &free_trees) == RB_DONE);
    CHECK(free_frames == 1980 && free_huge == 2 && free_trees == 0);
    CHECK(rb_state_stats_at(&zone, 600, 9, &free_frames, &free_huge, &free_trees) == RB_DONE);
    CHECK(free_frames == 504 && free_huge == 0 && free_trees == 0);
    CHECK(rb_state_stats_at(&zone, 0, 10, &free_frames, &free_huge, &free_trees) == RB_DONE);
    CHECK(free_frames == 1016 && free_huge == 1 && free_trees == 0);
    CHECK(rb_state_room(&zone, 2048, counts) == RB_DONE);
    for (size_t order = 0; order < RB_ORDERS; order++)
        CHECK(counts[order] == room[order]);
    CHECK(rb_state_tree_run(&zone, 2049, &offset, &length) == RB_DONE && offset == 4 && length == 2);
    CHECK(rb_state_why_get(&zone, 9, 10, &reason, &frame) == RB_DONE && reason == RB_WHY_TOO_FEW && frame == 0);
    CHECK(rb_state_why_get_at(&zone, 512, 9, &reason, &frame) == RB_DONE && reason == RB_WHY_HELD && frame == 576);
    CHECK(rb_state_why_put(&zone, 576, 4, &reason, &frame) == RB_DONE && reason == RB_WHY_FREE && frame == 584);
    CHECK(rb_state_why_put(&zone, 1024, 9, &reason, &frame) == RB_DONE && reason == RB_WHY_DONE && frame == 0);
    zone.entries[3] = 5;
    CHECK(rb_state_audit(&zone, &huge, &reason) == RB_DONE && huge == 3 && reason == RB_WRONG_COUNT);
    CHECK(rb_state_recover(&zone, &entries_changed, &bitfields_changed) == RB_DONE);
    CHECK(entries_changed == 1 && bitfields_changed == 0);
    CHECK(rb_state_put(&zone, 576, 3) == RB_DONE && rb_state_put(&zone, 1024, 9) == RB_DONE);
    CHECK(rb_state_stats(&zone, &free_frames, &free_huge, &free_trees) == RB_DONE);
    CHECK(free_frames == 2500 && free_huge == 4 && free_trees == 2);

    CHECK(rb_bitfield_fill(field, 8, 1) == RB_DONE && field[0] == UINT64_MAX && field[7] == UINT64_MAX);
    CHECK(rb_bitfield_set(field, 8, 60, 130, 0) == RB_DONE && field[0] == UINT64_MAX >> 4 && field[2] == UINT64_MAX << 2);
    CHECK(rb_bitfield_count_zeros(field, 8, &zeros) == RB_DONE && zeros == 70);
    CHECK(rb_bitfield_first_zeros(field, 8, 1, 4, &place) == RB_DONE && place == 64);
    CHECK(rb_bitfield_set_first_zeros(field, 8, 1, 5, &place) == RB_DONE && place == 64 && field[1] == UINT32_MAX);
    CHECK(rb_bitfield_is_zero(field, 8, 96, 5, &yes) == RB_DONE && yes == 1);
    CHECK(rb_bitfield_toggle(field, 8, 64, 5, 1) == RB_DONE && field[1] == 0);
    CHECK(rb_first_zeros_aligned(1, 2, &place, &row) == RB_DONE && place == 4 && row == 0xf1);
}
