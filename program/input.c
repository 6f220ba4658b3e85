/* Reading a file, or standard input, whole into memory. */
#include "input.h"

#include <errno.h>
#include <fcntl.h>
#include <stdlib.h>
#include <string.h>
#include <unistd.h>

#include "bai2.h"
#include "message.h"

enum {
    FIRST_ROOM = 65536,
    ENOUGH = BAI2_LONGEST_FILE + 1 /* one byte past the limit is all that its refusal needs */
};

/* Whether this argument stands for standard input. */
bool is_standard_input(const char *path)
{
    return strcmp(path, "-") == 0;
}

/* Makes the memory twice as large, up to what is enough; false where there is none. */
static bool grow(uint8_t **memory, size_t *room)
{
    size_t wanted = *room == 0 ? FIRST_ROOM : *room * 2;
    if (wanted > ENOUGH)
        wanted = ENOUGH;
    uint8_t *larger = realloc(*memory, wanted);
    if (larger == NULL)
        return false;
    *memory = larger;
    *room = wanted;
    return true;
}

/* Reads to the end, or one byte past the longest file; false, with errno, where it can't. */
static bool read_all(int from, uint8_t **memory, size_t *length)
{
    size_t room = 0;
    while (*length < ENOUGH) {
        if (*length == room && !grow(memory, &room))
            return false;
        ssize_t got = read(from, *memory + *length, room - *length);
        if (got == 0)
            return true;
        if (got < 0 && errno != EINTR)
            return false;
        if (got > 0)
            *length += (size_t)got;
    }
    return true;
}

/* Reads the file of that path; false, with errno, where it can't be read. */
bool fetch(input *in, const char *path)
{
    bool standard = is_standard_input(path);
    size_t length = 0;
    *in = (input){.name = standard ? "standard input" : path};
    int from = standard ? STDIN_FILENO : open(path, O_RDONLY | O_CLOEXEC);
    bool good = from >= 0 && read_all(from, &in->memory, &length);
    int why = errno;
    if (from >= 0 && !standard)
        close(from);
    in->file = (slice){in->memory, length};
    if (!good)
        unload(in);
    errno = why;
    return good;
}

/* Reads the file of that path; tells the trouble and answers false where it can't be read. */
bool load(input *in, const char *path)
{
    if (fetch(in, path))
        return true;
    complain("can't read %s: %s", in->name, strerror(errno));
    return false;
}

/* Gives the file's memory back. */
void unload(input *in)
{
    free(in->memory);
    in->memory = NULL;
    in->file = (slice){NULL, 0};
}
