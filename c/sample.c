/* An alarm from C: armed for 5 s after the origin, it rings when the clock is advanced to 6 s. */
#include "juopmorin.h"

#include <inttypes.h>
#include <stdio.h>

enum { TIMERS = 64, ENTRIES = 16 };

int main(void) {
    static juop_node nodes[JUOP_BUCKETS + TIMERS];
    static bool dated[ENTRIES];
    static uint64_t deadline[ENTRIES];
    static uint32_t generation[ENTRIES];
    static juop_wheel wheel;

    juop_wheel_lend(&wheel, nodes, JUOP_BUCKETS + TIMERS, dated, deadline, generation, ENTRIES);
    juop_wheel_create(&wheel, 0);
    juop_wheel_enable(&wheel);
    juop_wheel_set_entry(&wheel, 3, 5000000000, 0);
    const juop_answer timer = juop_wheel_schedule(&wheel, 3, 0);

    juop_wheel_start(&wheel, 6000000000);
    for (;;) {
        const juop_answer event = juop_wheel_pull(&wheel);
        if (event.refused != 0 || event.kind == JUOP_END) {
            break;
        }
        if (event.kind == JUOP_EXPIRED) {
            printf("entry %" PRIu64 " rings, due at %" PRIu64 "\n", event.value[0], event.value[2]);
        }
    }
    /* it has been handed out, so its handle is stale */
    const juop_answer again = juop_wheel_deschedule(&wheel, timer.value[0], timer.value[1], 0);
    printf("refused %" PRIu64 "\n", again.refused);
    return 0;
}
