/* 1,000 frames in trees of two huge frames: take one, and give it back. From the folder of the repository:
 *
 *     cc -Iinclude examples/ravelbeam.c $(tools/native) -o target/example && target/example */

#include "ravelbeam.h"

#include <stdio.h>

RB_STATE(frames, 1000, 2);

int main(void)
{
    size_t frame, probes;

    rb_state_free_all(&frames);
    uint32_t code = rb_state_get(&frames, 3, 0, &frame, &probes); /* order 0, from row 3 on */
    printf("get: %s, frame %zu, probes %zu\n", rb_text(code), frame, probes);
    code = rb_state_put(&frames, frame, 0);
    printf("put: %s\n", rb_text(code));
    return code != RB_DONE;
}
