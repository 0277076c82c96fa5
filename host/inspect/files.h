/* Whole files of bytes, and what else the two tools share. What cannot be read or written is said on standard error. */
#ifndef FILES_H
#define FILES_H

#include <stdbool.h>
#include <stddef.h>
#include <stdint.h>
#include <stdio.h>

/* Exit statuses. */
enum { WELL = 0, OFF = 1, FAILED = 2 };

/*
 * More than any table or ledger has. Of a longer file no more is read, for its length is wrong whatever it is, and it may have
 * no end: a length of this much is this much or more.
 */
#define MOST_READ ((size_t)1 << 16)

/* The bytes are never null, also where there are none, since no pointer that the library is given may be. */
struct file {
    const char *name;
    uint8_t *bytes;
    size_t length;
};

/* Reads a stream to its end, however long it is. */
bool read_stream(const char *name, FILE *stream, struct file *file);

/* Reads a table or a ledger. */
bool read_file(const char *name, struct file *file);
bool write_file(const char *name, const uint8_t *bytes, size_t length);

/* Whether all that was printed has been written out. */
bool written_out(void);

/* A word of the command as messages show it: an empty one as two quotes, so that it is seen. */
const char *shown(const char *word);

/* The ending of a word that counts: "1 byte", "2 bytes". */
const char *plural(uint64_t count);

#endif
