/* The recorder's firmware without an operating system, for QEMU's machine virt: the sheet goes out by its UART, and the test device ends the run.
 * The slip is chosen when it is compiled: -DSLIP=MISSING.
 *
 *     riscv64-unknown-elf-gcc -g -O1 -march=rv64imac_zicsr -mabi=lp64 -mcmodel=medany -ffreestanding -nostdlib -static -I../../include \
 *       -T bare.ld bare.S bare.c visit.c -o bare.elf
 *     bodlarina-firmware bare.elf
 *
 * riscv64-linux-gnu-gcc compiles it with the same options.
 */
#include <stdint.h>

#include "visit.h"

#ifndef SLIP
#define SLIP NO_SLIP
#endif

/* The UART takes a byte at a time. */
static void put(const char *text)
{
    volatile uint8_t *uart = (volatile uint8_t *)0x10000000;
    while (*text != 0)
        *uart = (uint8_t)*text++;
}

/* bare.S calls it and ends the run with the status that it gives. */
int main(void)
{
    visit(SLIP, put);
    return 0;
}
