#define _GNU_SOURCE
#include "options.h"

#include <errno.h>
#include <getopt.h>
#include <stdio.h>
#include <stdlib.h>
#include <string.h>

#include "complain.h"

enum { MACHINE = 256, HALVING, SEAL, SEAL_AFTER, GROUP, TRACE, MARKS, SAVE, BARE_METAL, USER_MODE, EMULATOR, DEBUGGER, HELP, VERSION };

static const struct option known[] = {
    {"machine", required_argument, NULL, MACHINE}, {"halving", no_argument, NULL, HALVING},
    {"seal", required_argument, NULL, SEAL}, {"seal-after", required_argument, NULL, SEAL_AFTER},
    {"group", required_argument, NULL, GROUP}, {"trace", no_argument, NULL, TRACE},
    {"marks", required_argument, NULL, MARKS}, {"save", required_argument, NULL, SAVE},
    {"bare", no_argument, NULL, BARE_METAL}, {"user", no_argument, NULL, USER_MODE},
    {"qemu", required_argument, NULL, EMULATOR}, {"gdb", required_argument, NULL, DEBUGGER},
    {"help", no_argument, NULL, HELP}, {"version", no_argument, NULL, VERSION},
    {NULL, 0, NULL, 0},
};

static const char help[] =
    "usage: bodlarina-firmware [options] FIRMWARE [ARGS]\n"
    "Runs a RISC-V 64 program under QEMU; its matrix words are carried out by the Bodlarina library.\n"
    "\n"
    "  --machine RLEN,MLEN[,ELEN]     the unit, in bits (64,256,32)\n"
    "  --halving                      its rule: of a tile size between the maximum and twice it half is taken\n"
    "  --group N                      vector registers that a move takes: 1, 2, 4 or 8; they are the unit's own\n"
    "  --seal SYMBOL                  seals the object of that name\n"
    "  --seal ADDRESS,LENGTH          seals these bytes\n"
    "  --seal-after FUNCTION:SYMBOL   seals the object when the function has returned\n"
    "  --trace                        a line for each word\n"
    "  --marks FILE.svg               draws what is written of the registers, at the end or at the refusal\n"
    "  --save FILE.img                writes the machine's image, likewise\n"
    "  --bare, --user                 a bare-metal program or one for Linux, whatever its header says\n"
    "  --gdb PORT                     bare metal: waits for a debugger on that port\n"
    "  --qemu FILE                    the emulator, instead of the one on the path\n"
    "  --help, --version              this text; the version\n"
    "\n"
    "The exit status is the program's; 120 if a word was refused, 121 if a sealed byte was changed, 125 for other trouble.\n";

/* ---- values ---- */

/* A number, decimal or 0x and hexadecimal digits; what follows it is in *end. */
static int take_number(const char *text, char **end, uint64_t *value)
{
    if (text[0] < '0' || text[0] > '9')
        return 0;
    *value = strtoull(text, end, strncmp(text, "0x", 2) == 0 ? 16 : 10);
    return 1;
}

static int take_machine(const char *text, struct options *options)
{
    char *end;
    if (!take_number(text, &end, &options->rlen) || *end != ',' || !take_number(end + 1, &end, &options->mlen))
        return 0;
    return *end == '\0' || (*end == ',' && take_number(end + 1, &end, &options->elen) && *end == '\0');
}

static int take_after(const char *text, struct seal_option *seal)
{
    const char *colon = strchr(text, ':');
    if (colon == NULL || colon == text || colon[1] == '\0')
        return 0;
    seal->function = strndup(text, (size_t)(colon - text));
    seal->symbol = strdup(colon + 1);
    return seal->function != NULL && seal->symbol != NULL;
}

static int take_range(const char *text, struct seal_option *seal)
{
    char *end;
    if (strchr(text, ',') == NULL) {
        seal->symbol = strdup(text);
        return text[0] != '\0' && seal->symbol != NULL;
    }
    return take_number(text, &end, &seal->range.start) && *end == ',' && take_number(end + 1, &end, &seal->range.length) && *end == '\0';
}

static int take_seal(const char *text, struct options *options, int after)
{
    struct seal_option *seal = &options->seals[options->seals_len];
    if (options->seals_len == SEALS_MOST)
        return 0;
    options->seals_len++;
    seal->text = text;
    return after ? take_after(text, seal) : take_range(text, seal);
}

static int take_port(const char *text, struct options *options)
{
    uint64_t port = 0;
    char *end;
    if (!take_number(text, &end, &port) || *end != '\0' || port == 0 || port > 65535)
        return 0;
    options->port = (unsigned)port;
    return 1;
}

static int take_group(const char *text, struct options *options)
{
    char *end;
    return take_number(text, &end, &options->group) && *end == '\0'
           && (options->group == 1 || options->group == 2 || options->group == 4 || options->group == 8);
}

/* ---- options ---- */

static int take_option(int option, struct options *options)
{
    switch (option) {
    case MACHINE: return take_machine(optarg, options);
    case HALVING: options->rule = BODLARINA_HALVING; return 1;
    case SEAL: return take_seal(optarg, options, 0);
    case SEAL_AFTER: return take_seal(optarg, options, 1);
    case GROUP: return take_group(optarg, options);
    case TRACE: options->trace = 1; return 1;
    case MARKS: options->marks = optarg; return 1;
    case SAVE: options->save = optarg; return 1;
    case BARE_METAL: options->mode = BARE; return 1;
    case USER_MODE: options->mode = USER; return 1;
    case EMULATOR: options->qemu = optarg; return 1;
    case DEBUGGER: return take_port(optarg, options);
    }
    return 0;
}

static int say(const char *text)
{
    if (fputs(text, stdout) != EOF && fflush(stdout) == 0)
        return 0;
    complain("standard output cannot be written: %s", strerror(errno));
    return STATUS_TROUBLE;
}

static int bad_option(int option, int at, char **words)
{
    if (option == '?')
        complain("%s: no such option; --help lists them", words[optind - 1]);
    else if (option == ':')
        complain("%s: a value is missing", words[optind - 1]);
    else
        complain("%s: %s: not such a value as --help says", words[at], optarg);
    return STATUS_TROUBLE;
}

void free_options(struct options *options)
{
    size_t i;
    for (i = 0; i < options->seals_len; i++) {
        free(options->seals[i].function);
        free(options->seals[i].symbol);
    }
}

int read_options(int count, char **words, struct options *options, int *status)
{
    int option, at = 1;
    memset(options, 0, sizeof *options);
    options->rlen = 64;
    options->mlen = 256;
    options->elen = 32;
    options->group = 1;
    opterr = 0;
    *status = 0;
    while ((option = getopt_long(count, words, "+:", known, NULL)) != -1) {
        if (option == HELP || option == VERSION) {
            *status = say(option == HELP ? help : "bodlarina-firmware " BODLARINA_VERSION "\n");
            return 0;
        }
        if (!take_option(option, options)) {
            *status = bad_option(option, at, words);
            return 0;
        }
        at = optind;
    }
    options->program = words + optind;
    if (optind < count)
        return 1;
    complain("no firmware is named; usage: bodlarina-firmware [options] FIRMWARE [ARGS]");
    *status = STATUS_TROUBLE;
    return 0;
}
