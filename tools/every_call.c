/* Calls every function of overlay.h with memories of length 0, but for the nine counts of a survey, takes every field of an answer, reads the counts
 * of nodes and makes sets of one: C99 and C++. Its answer is 0 where each call is refused by OVERLAY_SHORT_MEMORY, and where the counts are the words
 * 8m + 6 and 8m + 7 of node m, the set is bit m - 1, and all are 0 for a number that no node can have. tools/check_header compiles and runs it. */
#include "overlay.h"

static int refused(uint64_t answer)
{
    unsigned fields = overlay_new_node(answer) | overlay_kind(answer) | overlay_attach_level(answer) | overlay_settled(answer) |
                      overlay_arrived(answer) | overlay_hops(answer) | overlay_last_node(answer) | overlay_consistent(answer) |
                      overlay_short_node(answer) | overlay_short_level(answer) | overlay_short_digit(answer) | overlay_trace_path(answer) |
                      overlay_trace_place(answer);
    return overlay_refusal(answer) == OVERLAY_SHORT_MEMORY && fields == 0 && overlay_record(answer) == 0 &&
           overlay_additions(answer) == 0 && overlay_image_length(answer) == 0;
}

/* The counts of nodes 1 and 64, and of numbers that are none. */
static int counts_read(void)
{
    static uint64_t state[OVERLAY_STATE_WORDS];
    state[6] = state[7] = 1;
    state[14] = 3;
    state[15] = 62;
    state[OVERLAY_STATE_WORDS - 2] = 9;
    state[OVERLAY_STATE_WORDS - 1] = 4;
    return overlay_requests(state, 1) == 3 && overlay_notices(state, 1) == 62 && overlay_requests(state, OVERLAY_MOST_NODES) == 9 &&
           overlay_notices(state, OVERLAY_MOST_NODES) == 4 && overlay_requests(state, 0) == 0 && overlay_notices(state, 0) == 0 &&
           overlay_requests(state, OVERLAY_MOST_NODES + 1) == 0 && overlay_notices(state, (uint64_t)1 << 63) == 0;
}

/* The sets of nodes 1 and 64, and of numbers that are none. */
static int sets_made(void)
{
    return overlay_only(1) == 1 && overlay_only(OVERLAY_MOST_NODES) == (uint64_t)1 << 63 && overlay_only(0) == 0 &&
           overlay_only(OVERLAY_MOST_NODES + 1) == 0 && overlay_only((uint64_t)1 << 63) == 0;
}

#define NONE NULL, 0

int main(void)
{
    uint64_t counts[OVERLAY_SURVEY_COUNTS];
    return !(counts_read() && sets_made() && refused(overlay_found(NONE, NONE, 2, 2, 1, 0)) && refused(overlay_read(NONE, NONE, NONE)) &&
             refused(overlay_begin(NONE, NONE, 0, 1)) && refused(overlay_withdraw(NONE, NONE, 2)) &&
             refused(overlay_deliver(NONE, NONE, 2, 1)) && refused(overlay_lookup(NONE, NONE, 1, 1, 0)) &&
             refused(overlay_verdict(NONE, NONE)) && refused(overlay_fill(NONE, NONE, NONE)) &&
             refused(overlay_write(NONE, NONE, 2, NONE)) && refused(overlay_sound(NONE, NONE)) &&
             refused(overlay_trace(NONE, NONE, NONE)) &&
             refused(overlay_survey(NONE, NONE, 0, counts)));
}
