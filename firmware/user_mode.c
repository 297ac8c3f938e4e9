/* A Linux program: QEMU is started with its stub for debuggers, the handler of SIGILL is put into the program before its first instruction, by two
 * system calls that the program is made to make, and the stub is left. */
#define _GNU_SOURCE
#include <elf.h>
#include <errno.h>
#include <fcntl.h>
#include <stdio.h>
#include <stdlib.h>
#include <string.h>
#include <sys/socket.h>
#include <sys/un.h>
#include <sys/wait.h>
#include <time.h>
#include <unistd.h>

#include "complain.h"
#include "emulator.h"
#include "guest_code.h"
#include "seal_ranges.h"
#include "stub.h"

/* Where guest address 0 lies in QEMU's process, by its option -B. */
#define GUEST_BASE 0x100000000000u

/* The program's system calls that are made for it, and their arguments. */
enum { RT_SIGACTION = 134, MMAP = 222 };
enum { READ_WRITE_EXECUTE = 7, PRIVATE_ANONYMOUS = 0x22, SIGILL_NUMBER = 4, MASK_BYTES = 8, PAGE = 4096, ACTION_AT = 2048 };
#define NODEFER_SIGINFO 0x40000004u

enum { A0 = 10, A7 = 17, PC = 32 };

struct setting {
    struct stub stub;
    int memory; /* of QEMU's process */
    uint64_t pc;
    uint8_t registers[STUB_REGISTER_BYTES];
};

/* ---- the stub's line ---- */

static int connect_to(const char *path)
{
    struct sockaddr_un address;
    int line = socket(AF_UNIX, SOCK_STREAM | SOCK_CLOEXEC, 0);
    memset(&address, 0, sizeof address);
    address.sun_family = AF_UNIX;
    strcpy(address.sun_path, path);
    if (line >= 0 && connect(line, (struct sockaddr *)&address, sizeof address) == 0)
        return line;
    close(line);
    return -1;
}

/* Waits until QEMU listens there; -1 if it has ended. */
static int connect_stub(struct emulator *emulator, const char *path)
{
    static const struct timespec pause = {0, 1000000};
    siginfo_t ended;
    int line;
    while ((line = connect_to(path)) < 0) {
        ended.si_pid = 0;
        if (waitid(P_PID, (id_t)emulator->process, &ended, WEXITED | WNOHANG | WNOWAIT) != 0 || ended.si_pid != 0)
            return -1;
        nanosleep(&pause, NULL);
    }
    return line;
}

/* ---- the program's memory, also where it may not write itself ---- */

static int put_bytes(const struct setting *setting, uint64_t address, const void *bytes, size_t length)
{
    return pwrite(setting->memory, bytes, length, (off_t)(GUEST_BASE + address)) == (ssize_t)length;
}

static int get_bytes(const struct setting *setting, uint64_t address, void *bytes, size_t length)
{
    return pread(setting->memory, bytes, length, (off_t)(GUEST_BASE + address)) == (ssize_t)length;
}

/* ---- the handler ---- */

/* The program makes one system call at its first instruction, where ecall and ebreak stand for now. */
static int make_call(struct setting *setting, uint64_t number, const uint64_t arguments[6], uint64_t *result)
{
    uint8_t registers[STUB_REGISTER_BYTES];
    unsigned i;
    for (i = 0; i < 6; i++)
        if (!stub_set_register(&setting->stub, A0 + i, arguments[i]))
            return 0;
    if (!stub_set_register(&setting->stub, A7, number) || !stub_set_register(&setting->stub, PC, setting->pc)
        || !stub_ask(&setting->stub, "c") || strncmp(setting->stub.reply, "T05", 3) != 0
        || !stub_registers(&setting->stub, registers))
        return 0;
    *result = bodlarina_get64(registers + 8 * A0);
    return 1;
}

/* A page with the handler, and the action for SIGILL. */
static int make_calls(struct setting *setting)
{
    uint64_t page, result, map[6] = {0, PAGE, READ_WRITE_EXECUTE, PRIVATE_ANONYMOUS, (uint64_t)-1, 0};
    uint64_t set[6] = {SIGILL_NUMBER, 0, 0, MASK_BYTES, 0, 0}, action[3] = {0, NODEFER_SIGINFO, 0};
    if (!make_call(setting, MMAP, map, &page) || page > (uint64_t)-PAGE)
        return 0;
    action[0] = page;
    set[1] = page + ACTION_AT;
    return put_bytes(setting, page, handler_code, sizeof handler_code) && put_bytes(setting, page + ACTION_AT, action, sizeof action)
           && make_call(setting, RT_SIGACTION, set, &result) && result == 0;
}

/* Everything is then as it was, but for the page and the action. */
static int put_handler(struct setting *setting)
{
    static const uint32_t calls[2] = {0x00000073, 0x00100073}; /* ecall, ebreak */
    uint8_t kept[sizeof calls];
    unsigned i;
    if (!stub_registers(&setting->stub, setting->registers))
        return 0;
    setting->pc = bodlarina_get64(setting->registers + 8 * PC);
    if (!get_bytes(setting, setting->pc, kept, sizeof kept) || !put_bytes(setting, setting->pc, calls, sizeof calls) || !make_calls(setting)
        || !put_bytes(setting, setting->pc, kept, sizeof kept))
        return 0;
    for (i = 1; i < STUB_REGISTERS; i++)
        if (!stub_set_register(&setting->stub, i, bodlarina_get64(setting->registers + 8 * i)))
            return 0;
    return 1;
}

/* The program stands before its first instruction. Registers are set only for a client that has asked for their description. */
static int set_up(struct emulator *emulator, struct setting *setting)
{
    char name[64];
    uint64_t entry;
    snprintf(name, sizeof name, "/proc/%ld/mem", (long)emulator->process);
    setting->memory = open(name, O_RDWR | O_CLOEXEC);
    if (setting->memory < 0 || !stub_ask(&setting->stub, "qXfer:features:read:target.xml:0,ffb")
        || !stub_auxiliary(&setting->stub, AT_ENTRY, &entry))
        return 0;
    emulator->bias = entry - emulator->file->header.e_entry;
    return put_handler(setting);
}

static int let_go(struct emulator *emulator, struct setting *setting)
{
    if (!set_up(emulator, setting))
        return complain("the handler of the matrix words could not be put into the program");
    if (!seal_ranges(emulator->options, emulator->file, emulator->bias, emulator->shared))
        return 0;
    __atomic_store_n(&emulator->shared->ready, 1, __ATOMIC_RELEASE);
    return stub_leave(&setting->stub) || complain("QEMU's stub could not be left: %s", strerror(errno));
}

/* A folder of its own for QEMU's socket, whose path has to be short, where temporary files go. */
static int own_folder(char *folder, size_t room)
{
    const char *where = getenv("TMPDIR");
    if (where == NULL || *where == '\0')
        where = P_tmpdir;
    if ((size_t)snprintf(folder, room, "%s/bodlarina-XXXXXX", where) >= room)
        return complain("%s: too long a path for a socket", where);
    return mkdtemp(folder) != NULL || complain("%s: %s", where, strerror(errno));
}

int start_user(struct emulator *emulator)
{
    static struct setting setting;
    char folder[96], path[sizeof folder + 8];
    int started, done = 0;
    if (!own_folder(folder, sizeof folder))
        return 0;
    snprintf(path, sizeof path, "%s/stub", folder);
    emulator->shared->base = GUEST_BASE;
    emulator_word(emulator, "-B");
    emulator_word(emulator, "0x%llx", (unsigned long long)GUEST_BASE);
    emulator_word(emulator, "-g");
    emulator_word(emulator, "%s", path);
    started = emulator_start(emulator);
    setting.memory = -1;
    setting.stub.line = started ? connect_stub(emulator, path) : -1;
    unlink(path);
    rmdir(folder);
    if (setting.stub.line >= 0)
        done = let_go(emulator, &setting);
    else if (started && emulator_took_plugin(emulator))
        complain("QEMU has not started the program, and says why above");
    if (setting.memory >= 0)
        close(setting.memory);
    return done;
}
