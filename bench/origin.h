/* Where bytes come from: a tree of the elements and words that made them, down to the lines that entered numbers. */
#ifndef ORIGIN_H
#define ORIGIN_H

#include "track.h"

struct origin {
    struct place place;
    unsigned long before; /* as it was before this event */
    uint8_t bytes[ELEMENT_BYTES];
    enum form form; /* BYTE where it is not known by what reads it */
    unsigned depth;

    enum how how;
    struct event event; /* that wrote it */
    struct flow flow;   /* of its word */
    struct origin *old; /* the element before the word, where the word added to it; NULL if that is left out */
    uint8_t old_bytes[ELEMENT_BYTES];
    int reduced; /* whether the sum or product of whole numbers was too large, and was reduced to the element's width */
    struct origin **sources;
    size_t count;
    size_t terms_left_out; /* of a multiply */
    size_t words_left_out; /* older than this one */

    struct event near; /* of a register element that nobody wrote: the last word that wrote others of the register, and which; number 0 if none did */
    struct tile near_tile;

    struct origin *next; /* in the order in which they were found: all of the tree follow its root */
};

/* The tree of the bytes at a place, as the machine of the session has them now; `form` is BYTE if it is not known. Where the tree is not asked
 * for whole it is cut in its depth, in the terms of a multiply and in the words that added to an element. NULL if there is no room. */
struct origin *origin_of(const struct session *session, const struct place *place, enum form form, int whole);
void origin_free(struct origin *root);

#endif
