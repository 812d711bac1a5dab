/* The painter is refused a huge frame, since the log holds one frame in each of the tree's four: what it is told when it
 * asks why. From the folder of the repository:
 *
 *     cc -Iinclude examples/why.c $(tools/native) -o target/why && target/why */

#include "ravelbeam.h"

#include <stdio.h>

RB_STATE(frames, 2048, 4);

int main(void)
{
    static const size_t log[] = {5, 700, 1024, 2047};
    size_t frame, probes, free_frames, free_huge, free_trees;
    uint32_t reason;

    rb_state_free_all(&frames);
    for (size_t note = 0; note < 4; note++)
        rb_state_get_at(&frames, log[note], 0, &frame, &probes);

    uint32_t code = rb_state_get(&frames, 0, 9, &frame, &probes); /* order 9, from row 0 on */
    printf("The painter asks for a huge frame, and is answered %u.\n", (unsigned)code);
    code = rb_state_why_get(&frames, 0, 9, &reason, &frame);
    printf("Why? Reason %u: %s.\n", (unsigned)reason, rb_why_text(reason));
    for (size_t huge = 0; huge < 4 && code == RB_DONE; huge++) {
        rb_state_stats_at(&frames, huge * 512, 9, &free_frames, &free_huge, &free_trees);
        code = rb_state_why_get_at(&frames, huge * 512, 9, &reason, &frame);
        printf("Huge frame %zu has %zu free frames. Reason %u: %s, frame %zu.\n", huge, free_frames, (unsigned)reason,
               rb_why_text(reason), frame);
    }
    return code != RB_DONE;
}
