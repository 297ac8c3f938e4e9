#include "kept.h"

#include <inttypes.h>
#include <stdio.h>

void write_kept(const uint8_t report[BODLARINA_REPORT_BYTES], uint64_t length, char text[KEPT_TEXT_BYTES])
{
    uint64_t kept = bodlarina_get64(report + BODLARINA_REPORT_KEPT_AT), announced = bodlarina_get64(report + BODLARINA_REPORT_ANNOUNCED_AT);
    uint64_t place = bodlarina_get64(report + BODLARINA_REPORT_PLACE_AT);
    const char *before, *after = "";
    if (kept == announced && place == length) {
        before = "no damage in";
        after = " bytes";
    } else if (place == length) {
        before = "cut short at byte";
    } else if (kept == announced) {
        before = "bytes too many from byte";
        after = " on";
    } else {
        before = "damaged at byte";
    }
    snprintf(text, KEPT_TEXT_BYTES, "kept %" PRIu64 " of %" PRIu64 " run%s, %s %" PRIu64 "%s", kept, announced, announced == 1 ? "" : "s", before,
             place, after);
}
