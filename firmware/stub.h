/* QEMU's stub for debuggers, by which the handler is put into a Linux program; left before its first instruction. */
#ifndef STUB_H
#define STUB_H

#include <stddef.h>
#include <stdint.h>

/* x0 .. x31 and pc, low byte first. */
#define STUB_REGISTERS 33
#define STUB_REGISTER_BYTES (8 * STUB_REGISTERS)

struct stub {
    int line;
    int owed; /* a reply is still to be acknowledged */
    char reply[4096];
    size_t length;
};

/* Sends a packet and takes its reply; 0 if the line has ended. */
int stub_ask(struct stub *stub, const char *format, ...) __attribute__((format(printf, 2, 3)));

int stub_registers(struct stub *stub, uint8_t registers[STUB_REGISTER_BYTES]);
int stub_set_register(struct stub *stub, unsigned number, uint64_t value);

/* A value of the auxiliary vector that the program was started with; 0 if it is not there. */
int stub_auxiliary(struct stub *stub, uint64_t type, uint64_t *value);

/* Lets the program go. The line stays half open: closed, QEMU would send the program a SIGPIPE. */
int stub_leave(struct stub *stub);

#endif
