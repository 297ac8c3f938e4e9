#define _GNU_SOURCE
#include <errno.h>
#include <fcntl.h>
#include <inttypes.h>
#include <stdio.h>
#include <string.h>
#include <sys/socket.h>
#include <unistd.h>

#include "plugin.h"

static int line;

void line_open(int opened)
{
    line = opened;
    fcntl(line, F_SETFD, FD_CLOEXEC);
}

/* One byte there and one back; 0 if the other side has ended, or the program has closed our side. */
static int ask(void)
{
    char byte = 0;
    ssize_t done;
    do
        done = send(line, &byte, 1, MSG_NOSIGNAL);
    while (done < 0 && errno == EINTR);
    while (done == 1) {
        done = recv(line, &byte, 1, 0);
        if (done == 1)
            return 1;
        if (done < 0 && errno == EINTR)
            done = 1;
    }
    return 0;
}

/* Without a line the plugin ends the process itself, and says what it knows. */
static void __attribute__((noreturn)) end_alone(const struct report *report, const struct device *device)
{
    int is_seal = report->told == STORED || report->told == CHANGED || report->told == CHANGED_BY_END;
    if (report->told == REFUSED)
        fprintf(stderr, "bodlarina-firmware: the word %08" PRIx32 ": refused with %u, %s\n  at 0x%" PRIx64 "\n", report->word,
                BODLARINA_ANSWER(device->result), bodlarina_answer_text(device->result), report->pc);
    else if (is_seal)
        fprintf(stderr, "bodlarina-firmware: the sealed byte 0x%" PRIx64 " was changed\n  at 0x%" PRIx64 "\n", report->address, report->pc);
    else
        fprintf(stderr, "bodlarina-firmware: the program has closed the line to the tool\n  at 0x%" PRIx64 "\n", report->pc);
    _exit(report->told == REFUSED ? 120 : is_seal ? 121 : 125);
}

/* The part of a device that a line of the trace needs; a refusal needs it whole. */
static void copy_device(struct device *to, const struct device *from, int whole)
{
    if (whole) {
        *to = *from;
        return;
    }
    memcpy(to->machine, from->machine, sizeof to->machine);
    memcpy(to->scalars, from->scalars, sizeof to->scalars);
    to->group = from->group;
    to->rlen = from->rlen;
    to->mlen = from->mlen;
    to->elen = from->elen;
    to->rule = from->rule;
    to->started = from->started;
    to->result = from->result;
    to->steps = from->steps;
    to->named.known = 0;
}

void line_tell(struct report *report, const struct device *device)
{
    if (pthread_mutex_lock(&shared->turn) == EOWNERDEAD)
        pthread_mutex_consistent(&shared->turn);
    report->process = getpid();
    shared->report = *report;
    copy_device(&shared->device, device, report->told != CARRIED_OUT);
    if (!ask())
        end_alone(report, device);
    pthread_mutex_unlock(&shared->turn);
}

void line_tell_trouble(enum told told, uint64_t pc)
{
    struct report report;
    memset(&report, 0, sizeof report);
    report.told = (uint32_t)told;
    report.pc = pc;
    line_tell(&report, unit_device());
}
