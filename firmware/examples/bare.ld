/* Memory of the machine virt starts at 0x80000000, and there QEMU starts the program, whatever its entry says: nothing may stand before it. */
OUTPUT_ARCH(riscv)
ENTRY(_start)
SECTIONS
{
    . = 0x80000000;
    .text : { *(.text.start) *(.text*) }
    . = ALIGN(4096);
    .rodata : { *(.rodata*) *(.srodata*) }
    .note : { *(.note.gnu.*) }
    . = ALIGN(4096);
    .data : { *(.data*) *(.sdata*) }
    .bss : { *(.bss*) *(.sbss*) *(COMMON) }
    . = ALIGN(16);
    . += 16384;
    stack_top = .;
}
