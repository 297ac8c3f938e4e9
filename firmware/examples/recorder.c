/* The recorder's firmware as a Linux program.
 *
 *     riscv64-linux-gnu-gcc -g -O1 -static -I../../include recorder.c visit.c -o recorder
 *     bodlarina-firmware recorder                                           the readings of four loops, as in recorder.out
 *     bodlarina-firmware recorder missing                                   refused with 5: nobody loaded loop four
 *     bodlarina-firmware --seal-after enter_counts:counts recorder over     refused with 7: the readings would go over the counts
 *     bodlarina-firmware --seal-after enter_counts:counts recorder drift    stopped at a scalar store over the counts
 *
 * recorder.out by hand: reading one of loop one is 12 x 1 + 40 x 2 + 7 x 3 + 0 x -4 = 113, reading two 12 x -1 + 40 x 0 + 7 x 5 + 0 x 10 = 23. Without
 * a seal `over` leaves every reading 0, and `drift` takes 2 x (1 + 2 + 3 - 4) = 4 off each first reading and 2 x (-1 + 0 + 5 + 10) = 28 off each second,
 * and nobody says so.
 */
#include <stdio.h>
#include <string.h>

#include "visit.h"

static void put(const char *text) { fputs(text, stdout); }

int main(int argc, char **argv)
{
    static const char *const names[] = {"", "missing", "over", "drift"};
    unsigned slip = NO_SLIP;
    while (argc > 1 && slip <= DRIFT && strcmp(argv[1], names[slip]) != 0)
        slip++;
    if (argc > 2 || slip > DRIFT) {
        fprintf(stderr, "usage: recorder [missing | over | drift]\n");
        return 2;
    }
    visit((enum slip)slip, put);
    return 0;
}
