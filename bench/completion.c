#include "completion.h"

#include <ctype.h>
#include <stdio.h>
#include <string.h>

#include "commands.h"
#include "numbers.h"
#include "prompt.h"

/* Who gets the words that begin with `part`. */
struct offer {
    const char *part;
    void (*take)(void *to, const char *word);
    void *to;
};

static void offer(void *made, const char *word)
{
    const struct offer *offer = made;
    if (strncmp(word, offer->part, strlen(offer->part)) == 0)
        offer->take(offer->to, word);
}

static void offer_numbered(struct offer *to, const char *name, unsigned count)
{
    char word[16];
    unsigned i;
    for (i = 0; i < count; i++) {
        snprintf(word, sizeof word, "%s%u", name, i);
        offer(to, word);
    }
}

/* The registers that `show` knows; with `scalars` also those of an instruction. */
static void offer_registers(struct offer *to, int scalars)
{
    char name[8];
    unsigned i;
    for (i = 0; i < REGISTERS; i++) {
        register_name(i, name);
        offer(to, name);
    }
    offer_numbered(to, "v", VECTORS);
    if (!scalars)
        return;
    offer_numbered(to, "x", 32);
    for (i = 0; i < 32; i++)
        offer(to, scalar_name(i));
}

static void offer_forms(struct offer *to)
{
    enum form form;
    for (form = INT8; form <= FLOAT32; form++)
        offer(to, form_name(form));
}

/* A word of a command's arguments: it stands for itself, or for what it names. */
static void offer_argument(struct offer *to, const char *argument)
{
    if (strcmp(argument, "FORM") == 0)
        offer_forms(to);
    else if (strcmp(argument, "REGISTER") == 0)
        offer_registers(to, 0);
    else if (islower((unsigned char)argument[0]))
        offer(to, argument);
}

static void offer_arguments(struct offer *to, const char *arguments)
{
    char word[32];
    size_t length = 0;
    do
        if (isalnum((unsigned char)*arguments) && length < sizeof word - 1) {
            word[length++] = *arguments;
        } else if (length > 0) {
            word[length] = '\0';
            offer_argument(to, word);
            length = 0;
        }
    while (*arguments++ != '\0');
}

/* What may stand at the start of a line. */
static void offer_first(struct offer *to)
{
    const struct command *command;
    size_t i;
    for (i = 0; (command = typed_command_at(i)) != NULL; i++)
        offer(to, command->name);
    each_mnemonic(to->part, offer, to);
}

/* The command whose name is the first word of a line; NULL if there is none. */
static const struct command *first_command(const char *line)
{
    const struct command *command;
    size_t i, length = strcspn(line, " \t");
    for (i = 0; (command = typed_command_at(i)) != NULL; i++)
        if (strlen(command->name) == length && memcmp(line, command->name, length) == 0)
            break;
    return command;
}

int complete_word(const char *before, const char *part, void (*take)(void *to, const char *word), void *to)
{
    struct offer offered = {part, take, to};
    const struct command *command;
    before += strspn(before, " \t");
    if (*before == '\0') {
        offer_first(&offered);
        return 0;
    }
    command = first_command(before);
    if (command == NULL)
        offer_registers(&offered, 1);
    else
        offer_arguments(&offered, command->arguments);
    return command != NULL && strstr(command->arguments, "FILE") != NULL;
}
