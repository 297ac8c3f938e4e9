#define _GNU_SOURCE
#include "emulator.h"

#include <errno.h>
#include <fcntl.h>
#include <libgen.h>
#include <limits.h>
#include <signal.h>
#include <stdarg.h>
#include <stdio.h>
#include <stdlib.h>
#include <string.h>
#include <sys/mman.h>
#include <sys/prctl.h>
#include <sys/socket.h>
#include <sys/syscall.h>
#include <sys/uio.h>
#include <sys/wait.h>
#include <unistd.h>

#include "complain.h"
#include "files.h"
#include "guest_code.h"
#include "qemu_interface.h"

/* Descriptors that QEMU is handed have numbers from here on, out of the program's way. */
#define HIGH_DESCRIPTOR 900

void emulator_word(struct emulator *emulator, const char *format, ...)
{
    va_list list;
    char *word = NULL;
    va_start(list, format);
    if (emulator->words_len == EMULATOR_WORDS_MOST || vasprintf(&word, format, list) < 0)
        emulator->no_room = 1;
    else
        emulator->words[emulator->words_len++] = word;
    va_end(list);
}

/* ---- files ---- */

/* The path of a program on PATH; NULL if it is not there. The caller frees it. */
static char *on_path(const char *name)
{
    const char *folders = getenv("PATH");
    while (folders != NULL) {
        size_t length = strcspn(folders, ":");
        char *path;
        if (asprintf(&path, "%.*s/%s", length == 0 ? 1 : (int)length, length == 0 ? "." : folders, name) < 0) {
            complain("no room to look for %s", name);
            _exit(STATUS_TROUBLE);
        }
        if (access(path, X_OK) == 0)
            return path;
        free(path);
        folders = folders[length] == '\0' ? NULL : folders + length + 1;
    }
    return NULL;
}

static int find_emulator(struct emulator *emulator, int bare)
{
    const char *name = bare ? "qemu-system-riscv64" : "qemu-riscv64";
    char *path;
    if (emulator->options->qemu != NULL) {
        emulator_word(emulator, "%s", emulator->options->qemu);
        return access(emulator->options->qemu, X_OK) == 0 || complain("--qemu: %s: %s", emulator->options->qemu, strerror(errno));
    }
    path = on_path(name);
    if (path == NULL)
        return complain("%s is not on the path; on Debian it is in the package %s", name, bare ? "qemu-system-misc" : "qemu-user");
    emulator_word(emulator, "%s", path);
    free(path);
    return 1;
}

/* The plugin lies beside the tool, in ../lib/bodlarina. In QEMU's options a comma is written twice. */
static int add_plugin(struct emulator *emulator)
{
    char self[PATH_MAX], path[PATH_MAX + 64], doubled[2 * sizeof path];
    ssize_t length = readlink("/proc/self/exe", self, sizeof self - 1);
    size_t from, to = 0;
    if (length < 0)
        return complain("/proc/self/exe: %s", strerror(errno));
    self[length] = '\0';
    snprintf(path, sizeof path, "%s/../lib/bodlarina/bodlarina-qemu.so", dirname(self));
    if (access(path, R_OK) != 0)
        return complain("%s: %s", path, strerror(errno));
    for (from = 0; path[from] != '\0'; from++) {
        doubled[to++] = path[from];
        if (path[from] == ',')
            doubled[to++] = ',';
    }
    doubled[to] = '\0';
    emulator_word(emulator, "-plugin");
    emulator_word(emulator, emulator->ram < 0 ? "%s,memory=%d,line=%d" : "%s,memory=%d,line=%d,ram=%d", doubled, emulator->memory,
                  emulator->its_line, emulator->ram);
    return 1;
}

/* ---- what is shared ---- */

/* The descriptor under a high number where there is one. */
static int raised(int descriptor)
{
    int high = fcntl(descriptor, F_DUPFD_CLOEXEC, HIGH_DESCRIPTOR);
    if (high < 0)
        return descriptor;
    close(descriptor);
    return high;
}

static void *new_memory(const char *name, size_t bytes, int *descriptor)
{
    *descriptor = raised(memfd_create(name, MFD_CLOEXEC));
    if (*descriptor < 0 || ftruncate(*descriptor, (off_t)bytes) != 0)
        return MAP_FAILED;
    return mmap(NULL, bytes, PROT_READ | PROT_WRITE, MAP_SHARED, *descriptor, 0);
}

static int make_line(struct emulator *emulator)
{
    int ends[2];
    pthread_mutexattr_t robust;
    if (socketpair(AF_UNIX, SOCK_STREAM | SOCK_CLOEXEC, 0, ends) != 0)
        return 0;
    emulator->line = ends[0];
    emulator->its_line = raised(ends[1]);
    return pthread_mutexattr_init(&robust) == 0 && pthread_mutexattr_setpshared(&robust, PTHREAD_PROCESS_SHARED) == 0
           && pthread_mutexattr_setrobust(&robust, PTHREAD_MUTEX_ROBUST) == 0
           && pthread_mutex_init(&emulator->shared->turn, &robust) == 0;
}

static int make_shared(struct emulator *emulator, int bare)
{
    const struct options *options = emulator->options;
    struct shared *shared = emulator->shared = new_memory("bodlarina", sizeof *shared, &emulator->memory);
    if (shared == MAP_FAILED || !make_line(emulator))
        return complain("no memory to share with QEMU: %s", strerror(errno));
    shared->size = sizeof *shared;
    shared->bare = bare;
    shared->trace = options->trace;
    shared->rlen = options->rlen;
    shared->mlen = options->mlen;
    shared->elen = options->elen;
    shared->rule = options->rule;
    shared->group = options->group;
    shared->end = elf_file_end(emulator->file);
    if (!bare)
        return 1;
    shared->gaps_len = elf_file_gaps(emulator->file, VECTOR_CODE_BYTES, shared->gaps);
    shared->ram.start = 0x80000000u;
    shared->ram.length = 128u << 20;
    emulator->ram_bytes = new_memory("ram", shared->ram.length, &emulator->ram);
    return emulator->ram_bytes != MAP_FAILED || complain("no memory for the machine: %s", strerror(errno));
}

int emulator_prepare(struct emulator *emulator, const struct options *options, const struct elf_file *file, int bare)
{
    memset(emulator, 0, sizeof *emulator);
    emulator->options = options;
    emulator->file = file;
    emulator->ram = emulator->line = emulator->ended = -1;
    emulator->has_terminal = bare && tcgetattr(STDIN_FILENO, &emulator->terminal) == 0;
    return find_emulator(emulator, bare) && make_shared(emulator, bare) && add_plugin(emulator);
}

/* ---- the process ---- */

/* ^C is for QEMU, and for a Linux program to handle; the tool only remembers it. */
static volatile sig_atomic_t interrupted;

static void remember_interrupt(int number) { interrupted = number; }

/* Low descriptors are taken for a while, so that those which QEMU opens for itself have others than the program expects. */
static void take_low_descriptors(struct shared *shared)
{
    int i, flags, none = raised(open("/dev/null", O_RDWR | O_CLOEXEC));
    for (i = 3; i < (int)sizeof shared->fillers && none >= 0; i++) {
        flags = fcntl(i, F_GETFD);
        if (flags < 0 || (flags & FD_CLOEXEC) != 0)
            shared->fillers[i] = dup2(none, i) == i;
    }
}

static void keep_open(int descriptor)
{
    if (descriptor >= 0)
        fcntl(descriptor, F_SETFD, 0);
}

/* QEMU ends with the tool, however that ends. */
static void __attribute__((noreturn)) become_emulator(struct emulator *emulator, char **words, const struct sigaction *interrupt, pid_t tool)
{
    if (prctl(PR_SET_PDEATHSIG, SIGKILL) != 0 || getppid() != tool)
        _exit(STATUS_TROUBLE);
    sigaction(SIGINT, interrupt, NULL);
    hand_on_standard_files();
    keep_open(emulator->memory);
    keep_open(emulator->its_line);
    keep_open(emulator->ram);
    if (!emulator->shared->bare)
        take_low_descriptors(emulator->shared);
    execv(words[0], words);
    complain("%s: %s", words[0], strerror(errno));
    _exit(STATUS_TROUBLE);
}

/* The command line: QEMU's words, then the program and its arguments; bare metal has neither. NULL if there is no room. */
static char **command_line(const struct emulator *emulator)
{
    char **program = emulator->options->program, **words;
    size_t i, arguments = 0;
    while (!emulator->shared->bare && program[arguments] != NULL)
        arguments++;
    words = calloc(emulator->words_len + arguments + 1, sizeof *words);
    for (i = 0; words != NULL && i < emulator->words_len + arguments; i++)
        words[i] = i < emulator->words_len ? emulator->words[i] : program[i - emulator->words_len];
    return words;
}

int emulator_start(struct emulator *emulator)
{
    struct sigaction remembered, interrupt;
    char **words = command_line(emulator);
    pid_t tool = getpid();
    if (words == NULL || emulator->no_room) {
        free(words);
        return complain("no room for QEMU's command line");
    }
    memset(&remembered, 0, sizeof remembered);
    remembered.sa_handler = remember_interrupt;
    remembered.sa_flags = SA_RESTART;
    sigaction(SIGINT, &remembered, &interrupt);
    emulator->process = fork();
    if (emulator->process == 0)
        become_emulator(emulator, words, &interrupt, tool);
    free(words);
    close(emulator->its_line);
    if (emulator->process < 0)
        return complain("no process for QEMU: %s", strerror(errno));
    emulator->ended = (int)syscall(SYS_pidfd_open, emulator->process, 0);
    return emulator->ended >= 0 || complain("QEMU cannot be waited for: %s", strerror(errno));
}

int emulator_took_plugin(const struct emulator *emulator)
{
    return emulator->shared->installed
           || complain("QEMU has not taken the plugin, and says why above; the plugin is for version %d of QEMU's interface, that of QEMU 7.2 (Debian 12)",
                       QEMU_INTERFACE_VERSION);
}

void emulator_kill(struct emulator *emulator)
{
    if (emulator->process > 0) {
        kill(emulator->process, SIGKILL);
        emulator_status(emulator);
    }
}

int emulator_status(struct emulator *emulator)
{
    int status = 0;
    while (waitpid(emulator->process, &status, 0) < 0)
        if (errno != EINTR)
            return STATUS_TROUBLE;
    emulator->process = 0;
    if (emulator->shared->bare && interrupted)
        return 128 + SIGINT;
    return WIFSIGNALED(status) ? 128 + WTERMSIG(status) : WEXITSTATUS(status);
}

void emulator_close(struct emulator *emulator)
{
    emulator_kill(emulator);
    if (emulator->has_terminal && tcgetpgrp(STDIN_FILENO) == getpgrp()) /* in the background that would stop the tool */
        tcsetattr(STDIN_FILENO, TCSANOW, &emulator->terminal);
    while (emulator->words_len > 0)
        free(emulator->words[--emulator->words_len]);
}

int emulator_read(void *of, uint64_t address, uint64_t *value)
{
    const struct emulator *emulator = of;
    const struct shared *shared = emulator->shared;
    uint64_t offset = address - shared->ram.start;
    struct iovec here, there;
    if (shared->bare) {
        if (address < shared->ram.start || offset > shared->ram.length - sizeof *value)
            return 0;
        memcpy(value, emulator->ram_bytes + offset, sizeof *value);
        return 1;
    }
    here.iov_base = value;
    there.iov_base = (void *)(uintptr_t)(shared->base + address);
    here.iov_len = there.iov_len = sizeof *value;
    return process_vm_readv(shared->report.process, &here, 1, &there, 1, 0) == (ssize_t)sizeof *value;
}
