/* What a salvage kept, in words. */
#ifndef KEPT_H
#define KEPT_H

#include "bodlarina.h"

/* So many bytes of a file are read: one more than any image has. Of a longer file the place of the fault lies among them, so what is kept
 * is the same as of all of it. */
#define SALVAGED_BYTES_MOST (BODLARINA_IMAGE_BYTES_MOST(BODLARINA_MLEN_MOST) + 1)

/* The runs kept, the runs announced and the place, of the report on an image of this length, as one line:
 *     kept 8 of 10 runs, cut short at byte 60 */
#define KEPT_TEXT_BYTES 128
void write_kept(const uint8_t report[BODLARINA_REPORT_BYTES], uint64_t length, char text[KEPT_TEXT_BYTES]);

#endif
