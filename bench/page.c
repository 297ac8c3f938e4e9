#include "page.h"

/* The assembler takes the file into the program; it is looked for from the folder of the tree on, where cc is run. */
__asm__(".pushsection .rodata\n"
        ".global page\n"
        ".global page_end\n"
        "page:\n"
        ".incbin \"bench/page.html\"\n"
        "page_end:\n"
        ".byte 0\n"
        ".popsection\n");
