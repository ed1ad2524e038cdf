/*
 * What the reader of vectors is made of: a buffer that grows, the text that is read with what is said
 * of a fault in it, and the names that it has defined.
 */
#ifndef READER_H
#define READER_H

#include "check.h"

#include <ctype.h>
#include <stdlib.h>

typedef struct {
    uint8_t *bytes;
    size_t length, room;
} buffer;

/* Where the text stands that is read, and the place in it. */
static const char *file_name;
static unsigned line_number;
static const char *at;

/* A text that can't be read ends the program without a count. */
static inline void fault(const char *what)
{
    printf("%s:%u: %s at \"%.30s\"\n", file_name, line_number, what, at);
    exit(2);
}

static inline void reserve(buffer *b, size_t more)
{
    if (b->room - b->length >= more && b->bytes != NULL)
        return;
    b->room = 2 * (b->length + more) + 64;
    b->bytes = realloc(b->bytes, b->room);
    if (b->bytes == NULL)
        fault("no memory");
}

static inline void append(buffer *b, const void *bytes, size_t length)
{
    reserve(b, length);
    memcpy(b->bytes + b->length, bytes, length);
    b->length += length;
}

/* ---- names */

static struct {
    const char *name;
    size_t length;
    buffer value;
} names[512];
static size_t name_count;

static inline size_t name_length(void)
{
    size_t n = 0;
    while (isalnum((unsigned char)at[n]) || at[n] == '.' || at[n] == '_')
        n++;
    return n;
}

static inline void named(buffer *out)
{
    size_t n = name_length();
    for (size_t i = name_count; i-- > 0;)
        if (names[i].length == n && memcmp(names[i].name, at, n) == 0) {
            at += n;
            append(out, names[i].value.bytes, names[i].value.length);
            return;
        }
    fault("an unknown name");
}

#endif
