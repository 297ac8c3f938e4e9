/* An input is a line of assembler text, good or bad; its first four bytes are also a word. Line and word go both ways. */
#include "input.h"

#include <string.h>

int LLVMFuzzerTestOneInput(const uint8_t *data, size_t size);

/* A word to rooms around the length of its line, and its line back. */
static void list(uint32_t word)
{
    uint8_t text[BODLARINA_TEXT_BYTES_MOST + 8], back[BODLARINA_WORD_BYTES];
    uint64_t result, length;
    memset(text, 0xa5, sizeof text);
    memset(back, 0xa5, sizeof back);
    result = held_word_text(word, text, sizeof text);
    length = BODLARINA_LENGTH(result);
    if (BODLARINA_ANSWER(result) != 0) {
        held_word_text(word, text, 0);
        return;
    }
    must(length <= BODLARINA_TEXT_BYTES_MOST, "no line is longer than the longest");
    must(held_word_text(word, text, length) == result, "a line fits room of its length");
    must(BODLARINA_ANSWER(held_word_text(word, text, length - 1)) == BODLARINA_NO_ROOM, "a line does not fit less room");
    must(held_text_word(text, length, back, sizeof back) == 0 && bodlarina_get64(back) == word, "a word's line gives the word back");
}

int LLVMFuzzerTestOneInput(const uint8_t *data, size_t size)
{
    struct input input = {data, size};
    uint8_t word[BODLARINA_WORD_BYTES + 1], text[BODLARINA_TEXT_BYTES_MOST];
    uint64_t result;
    if (size > 4096)
        return 0;
    memset(word, 0xa5, sizeof word);
    memset(text, 0xa5, sizeof text);
    result = held_text_word(data, size, word, BODLARINA_WORD_BYTES);
    held_text_word(data, size, word, size % (sizeof word + 1));
    if (result == 0) {
        result = held_word_text((uint32_t)bodlarina_get64(word), text, sizeof text);
        must(result == (uint64_t)size << 16 && memcmp(text, data, size) == 0, "an accepted line is the line of its word");
    }
    list(next_32(&input));
    list((uint32_t)bodlarina_get64(word));
    return 0;
}
