/* After a restart: five workers under the line, four of them under vision. Which events may a supervisor start? */
#include <stdio.h>
#include "yarrowbeam.h"

static const uint8_t net[] = {
    1, 5, 5, 2, 1,                /* edition 1; 5 places, 5 events, 2 limits; on the outside 1 group, */
    1, 5, 3, 0, 1, 0, 2,          /* the line, head count 5: place 1 waiting, 2 running, and inside it */
    1, 4, 3, 0, 3, 0, 4, 0, 5,    /* vision, head count 4: place 3 waiting, 4 loading, 5 running */
    2, 1, 1, 0, 2, 0, 1,          /* event 1: a worker of the line starts to run, from place 1 to place 2 */
    2, 1, 0, 1, 2, 1, 0,          /* event 2: it stops */
    2, 3, 1, 0, 4, 0, 1,          /* event 3: a worker of vision starts to load */
    2, 4, 1, 0, 5, 0, 1,          /* event 4: it starts to run */
    2, 3, 0, 1, 5, 1, 0,          /* event 5: it stops */
    14, 3, 2, 4, 4, 2, 5, 4,      /* limit 1: the line has 7 processors; loading needs 1 and running 2 */
    12, 2, 4, 2, 5, 4,            /* limit 2: vision has 6 of them */
};

int main(void) {
    static const unsigned wanted[] = {4, 5, 4, 2, 4, 1, 2};
    uint8_t state[YARROWBEAM_LARGEST_STATE];
    int64_t length = fresh(net, sizeof net, state, sizeof state);
    for (int i = 0; i < 7 && length > 0; i++) {
        int64_t answer = judge(net, sizeof net, state, (size_t)length, wanted[i]);
        if (answer < 0) printf("judge %u -> refused %d\n", wanted[i], (int)-answer);
        if (answer > 0) printf("judge %u -> hold %d\n", wanted[i], (int)answer);
        if (answer != 0) continue;
        length = record(net, sizeof net, state, (size_t)length, wanted[i], state, sizeof state);
        printf("judge %u -> allow\nrecord %u ->", wanted[i], wanted[i]);
        for (int64_t b = 0; b < length; b++) printf(" %02X", state[b]);
        printf("\n");
    }
    return length > 0 ? 0 : 1;
}
