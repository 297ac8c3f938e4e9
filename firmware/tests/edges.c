/* edges NAME BYTES: the load or store NAME of a tile of m 4, k 2 and n 3 of 8 bits, in rows of 8 bytes, so many bytes before the end of what is mapped. */
#define _GNU_SOURCE
#include <stdio.h>
#include <stdlib.h>
#include <string.h>
#include <sys/mman.h>

#include "bodlarina_asm.h"

#define EDGE(form, reg) \
    if (strcmp(name, #form) == 0) \
    asm_##form##e8_m(reg, at, 8)

int main(int argc, char **argv)
{
    const char *name = argc == 3 ? argv[1] : "";
    char *pages = mmap(NULL, 8192, PROT_READ | PROT_WRITE, MAP_PRIVATE | MAP_ANONYMOUS, -1, 0), *at = pages + 4096;
    if (argc != 3 || pages == MAP_FAILED || munmap(pages + 4096, 4096) != 0)
        return 2;
    asm_msettypei(BODLARINA_E8);
    asm_msettilemi(4);
    asm_msettileki(2);
    asm_msettileni(3);
    asm_mlae8_m(tr0, pages, 8); /* so that there is something to be stored */
    asm_mlbe8_m(tr1, pages, 8);
    asm_mlce8_m(acc0, pages, 8);
    at -= atoi(argv[2]);
    EDGE(mla, tr0);
    EDGE(mlb, tr1);
    EDGE(mlc, acc0);
    EDGE(mlat, tr0);
    EDGE(mlbt, tr1);
    EDGE(mlct, acc0);
    EDGE(msa, tr0);
    EDGE(msb, tr1);
    EDGE(msc, acc0);
    EDGE(msat, tr0);
    EDGE(msbt, tr1);
    EDGE(msct, acc0);
    puts("done");
    return 0;
}
