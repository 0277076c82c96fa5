/* See files.h. */
#include "files.h"

#include <errno.h>
#include <stdlib.h>
#include <string.h>

static bool failed(const char *name)
{
    fprintf(stderr, "%s: %s\n", shown(name), strerror(errno));
    return false;
}

/* Twice the room each time, so that a long file is not copied over and over. In errno realloc says why it fails. */
static bool grow(struct file *file, size_t *room)
{
    size_t more = *room == 0 ? MOST_READ : 2 * *room;
    uint8_t *bytes = realloc(file->bytes, more);

    if (bytes == NULL)
        return false;
    file->bytes = bytes;
    *room = more;
    return true;
}

/* Up to `most` bytes. Short of these, only at the end of a stream, or where it fails, is there room left. */
static bool read_up_to(size_t most, FILE *stream, struct file *file)
{
    size_t room = 0;

    do {
        if (!grow(file, &room))
            return false;
        file->length += fread(file->bytes + file->length, 1, room - file->length, stream);
    } while (file->length == room && room < most);
    return !ferror(stream);
}

static bool read_from(const char *name, FILE *stream, size_t most, struct file *file)
{
    *file = (struct file){name, NULL, 0};
    if (read_up_to(most, stream, file))
        return true;
    free(file->bytes);
    return failed(name);
}

bool read_stream(const char *name, FILE *stream, struct file *file)
{
    return read_from(name, stream, SIZE_MAX, file);
}

bool read_file(const char *name, struct file *file)
{
    FILE *stream = fopen(name, "rb");
    bool done;

    if (stream == NULL)
        return failed(name);
    done = read_from(name, stream, MOST_READ, file);
    fclose(stream);
    return done;
}

/* Closing writes out what is left, so it may fail too. */
bool write_file(const char *name, const uint8_t *bytes, size_t length)
{
    FILE *stream = fopen(name, "wb");
    bool whole;

    if (stream == NULL)
        return failed(name);
    whole = fwrite(bytes, 1, length, stream) == length;
    if (fclose(stream) != 0 || !whole)
        return failed(name);
    return true;
}

bool written_out(void)
{
    return fflush(stdout) == 0 && !ferror(stdout) ? true : failed("standard output");
}

const char *shown(const char *word)
{
    return word[0] == '\0' ? "\"\"" : word;
}

const char *plural(uint64_t count)
{
    return count == 1 ? "" : "s";
}
