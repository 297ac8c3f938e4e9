/* What bodlarina-firmware and its plugin inside QEMU share: a file in memory that both map, and a line, a socket, on which the plugin tells what
 * became of a word and waits for the answer. */
#ifndef SHARED_H
#define SHARED_H

#include <pthread.h>
#include <sys/types.h>

#include "device.h"

/* Bytes of guest memory. */
struct range {
    uint64_t start, length;
};

/* The most places behind calls of one function that are kept; its own return instructions are seen too. */
#define RETURNS_MOST 256

/* A range to be sealed when a function has returned. */
struct after {
    struct range function, range;
    uint64_t returns[RETURNS_MOST]; /* addresses behind its calls */
    uint32_t returns_len;
    uint32_t sealed; /* the plugin writes it */
};

/* The most places between the sections of a bare-metal program that are kept. */
#define GAPS_MOST 16

/* What the plugin tells. */
enum told {
    CARRIED_OUT,    /* a word; told with --trace only */
    REFUSED,        /* a word */
    STORED,         /* a scalar store over a sealed byte */
    CHANGED,        /* a sealed byte, found changed before a word */
    CHANGED_BY_END, /* the same, found at the end */
    NO_PLACE,       /* bare metal: no room for the trap vector in reach of the program's own and of the code that sets it */
    NO_STACK,       /* user mode: the signal of an illegal instruction finds no stack, and QEMU tries it again and again */
    SET_AGAIN       /* bare metal: the trap vector was set again by code that had run before */
};

struct report {
    uint32_t told;
    uint32_t word;
    pid_t process;
    uint64_t pc, address; /* of the word or store, and of the sealed byte */
    uint64_t x[32];       /* the scalars before the word */
    struct settings before;
};

struct shared {
    uint64_t size; /* of this struct: tool and plugin have to be of one version */

    /* the tool writes, before the program's first instruction */
    int bare, trace;
    uint64_t rlen, mlen, elen, rule, group;
    uint64_t base;       /* user mode: where guest address 0 lies in QEMU's process */
    struct range ram;    /* bare metal */
    uint64_t end;        /* the first byte behind the program */
    struct range gaps[GAPS_MOST]; /* bytes between its sections */
    uint32_t gaps_len;
    struct range seals[BODLARINA_SEALS_MOST];
    struct after afters[BODLARINA_SEALS_MOST];
    uint32_t seals_len, afters_len;
    uint8_t fillers[64]; /* user mode: descriptors to be closed again once the handler stands */
    int ready;           /* all of this is written */

    /* the plugin writes */
    int installed;
    pthread_mutex_t turn; /* who may speak on the line: threads and forked processes, one at a time */
    struct report report;
    struct device device; /* the unit that the report is about */
    struct device first;  /* the unit of the first thread */
};

#endif
