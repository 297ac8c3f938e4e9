#define _GNU_SOURCE
#include "stub.h"

#include <errno.h>
#include <inttypes.h>
#include <stdarg.h>
#include <stdio.h>
#include <string.h>
#include <sys/socket.h>

#include "bodlarina.h"
#include "files.h"
#include "reader.h"

/* A packet is $TEXT#SUM, the sum of its bytes in two digits; + acknowledges one. */
static int send_packet(struct stub *stub, const char *text)
{
    char packet[640];
    unsigned char sum = 0;
    size_t i;
    int length;
    for (i = 0; text[i] != '\0'; i++)
        sum = (unsigned char)(sum + (unsigned char)text[i]);
    length = snprintf(packet, sizeof packet, "%s$%s#%02x", stub->owed ? "+" : "", text, sum);
    stub->owed = 0;
    return length < (int)sizeof packet && write_all(stub->line, (const uint8_t *)packet, (size_t)length);
}

static int next_byte(struct stub *stub)
{
    unsigned char byte;
    ssize_t got;
    do
        got = recv(stub->line, &byte, 1, 0);
    while (got < 0 && errno == EINTR);
    return got == 1 ? byte : -1;
}

/* The text of the next packet: a * repeats the byte before it, a } changes bit 5 of the next one. */
static int take_packet(struct stub *stub)
{
    int byte, count;
    stub->length = 0;
    while ((byte = next_byte(stub)) != '$')
        if (byte < 0)
            return 0;
    while ((byte = next_byte(stub)) != '#') {
        count = 1;
        if (byte == '}')
            byte = next_byte(stub) ^ 0x20;
        else if (byte == '*' && stub->length > 0) {
            count = next_byte(stub) - 29;
            byte = (unsigned char)stub->reply[stub->length - 1];
        }
        if (byte < 0 || count < 0 || stub->length + (size_t)count >= sizeof stub->reply)
            return 0;
        memset(stub->reply + stub->length, byte, (size_t)count);
        stub->length += (size_t)count;
    }
    stub->reply[stub->length] = '\0';
    stub->owed = 1;
    return next_byte(stub) >= 0 && next_byte(stub) >= 0;
}

int stub_ask(struct stub *stub, const char *format, ...)
{
    char text[600];
    va_list list;
    int length;
    va_start(list, format);
    length = vsnprintf(text, sizeof text, format, list);
    va_end(list);
    return length < (int)sizeof text && send_packet(stub, text) && take_packet(stub);
}

int stub_registers(struct stub *stub, uint8_t registers[STUB_REGISTER_BYTES])
{
    size_t i;
    if (!stub_ask(stub, "g") || stub->length < 2 * STUB_REGISTER_BYTES)
        return 0;
    for (i = 0; i < STUB_REGISTER_BYTES; i++) {
        int high = hex_digit(stub->reply[2 * i]), low = hex_digit(stub->reply[2 * i + 1]);
        if (high < 0 || low < 0)
            return 0;
        registers[i] = (uint8_t)(high << 4 | low);
    }
    return 1;
}

int stub_set_register(struct stub *stub, unsigned number, uint64_t value)
{
    uint8_t bytes[8];
    char digits[17];
    size_t i;
    bodlarina_put64(bytes, value);
    for (i = 0; i < sizeof bytes; i++)
        snprintf(digits + 2 * i, 3, "%02x", bytes[i]);
    return stub_ask(stub, "P%x=%s", number, digits) && strcmp(stub->reply, "OK") == 0;
}

int stub_auxiliary(struct stub *stub, uint64_t type, uint64_t *value)
{
    size_t i;
    if (!stub_ask(stub, "qXfer:auxv:read::0,400"))
        return 0;
    for (i = 1; i + 16 <= stub->length; i += 16)
        if (bodlarina_get64((const uint8_t *)stub->reply + i) == type) {
            *value = bodlarina_get64((const uint8_t *)stub->reply + i + 8);
            return 1;
        }
    return 0;
}

int stub_leave(struct stub *stub)
{
    return stub_ask(stub, "D") && write_all(stub->line, (const uint8_t *)"+", 1) && shutdown(stub->line, SHUT_WR) == 0;
}
