/* A plain random driver for the fuzzer's entry, where no fuzzer can be had.
   Usage: drive SECONDS SEED FILE.. : changes the files at random for so many seconds. */
#include <stdint.h>
#include <stdio.h>
#include <stdlib.h>
#include <string.h>
#include <time.h>

enum { ROOM = 16384, MOST_CHANGES = 4 };

int LLVMFuzzerTestOneInput(const uint8_t *data, size_t size);

/* The next random number below the limit (xorshift). */
static size_t roll(uint64_t *state, size_t limit)
{
    *state ^= *state << 13;
    *state ^= *state >> 7;
    *state ^= *state << 17;
    return (size_t)(*state % limit);
}

/* Puts a text into the bytes at this place. */
static size_t insert(uint8_t *bytes, size_t length, size_t at, const void *text, size_t size)
{
    if (length + size > ROOM)
        return length;
    memmove(bytes + at + size, bytes + at, length - at);
    memcpy(bytes + at, text, size);
    return length + size;
}

/* Changes the bytes at one place; answers their new length. */
static size_t change(uint64_t *state, uint8_t *bytes, size_t length)
{
    static const char *const words[] = {",", "/", "/\n88,", "\n16,165,5,1,A,B,TEXT", "S,1,2,3", "V,040621,",
                                        "D,2,0,1,1,2", "88,MORE\n", "-", "9", "\r\n", " ", "\x1B"};
    size_t at = roll(state, length + 1), size = 1 + roll(state, 40);
    const char *word = words[roll(state, sizeof words / sizeof words[0])];
    uint8_t copy[64];
    if (size > length - at)
        size = length - at;
    switch (roll(state, 4)) {
    case 0: return insert(bytes, length, at, word, strlen(word));
    case 1:
        memmove(bytes + at, bytes + at + size, length - at - size);
        return length - size;
    case 2:
        memcpy(copy, bytes + at, size);
        return insert(bytes, length, roll(state, length + 1), copy, size);
    default:
        if (at < length)
            bytes[at] = (uint8_t)roll(state, 256);
        return length;
    }
}

/* Reads a file; its length, or 0. */
static size_t load(const char *path, uint8_t *bytes)
{
    FILE *from = fopen(path, "rb");
    if (from == NULL)
        return 0;
    size_t length = fread(bytes, 1, ROOM, from);
    fclose(from);
    return length;
}

/* Tries a copy that has exactly the bytes, so that a step past its end is noticed. */
static void try_copy(const uint8_t *bytes, size_t length)
{
    uint8_t *copy = malloc(length > 0 ? length : 1);
    if (copy == NULL)
        abort();
    memcpy(copy, bytes, length);
    LLVMFuzzerTestOneInput(copy, length);
    free(copy);
}

/* Changes one file after the other until the time has passed. */
int main(int argc, char **argv)
{
    static uint8_t bytes[ROOM];
    if (argc < 4)
        return 2;
    uint64_t state = strtoull(argv[2], NULL, 10) * 2 + 1, tries = 0;
    time_t end = time(NULL) + strtol(argv[1], NULL, 10);
    for (int i = 3; i < argc; i++)
        try_copy(bytes, load(argv[i], bytes));
    for (; time(NULL) < end; tries++) {
        size_t length = load(argv[3 + roll(&state, (size_t)argc - 3)], bytes);
        for (size_t changes = 1 + roll(&state, MOST_CHANGES); changes > 0; changes--)
            length = change(&state, bytes, length);
        try_copy(bytes, length);
    }
    printf("drive: %llu files tried\n", (unsigned long long)tries);
    return 0;
}
