/*
 * Bytes as a file of vectors has them: vectors/README.md says how they are written. An expression is
 * read and appended to a buffer in one pass.
 */
#ifndef EXPRESSION_H
#define EXPRESSION_H

#include "reader.h"

/* ---- parts of an expression */

static inline void expression(buffer *out);

static inline void take(char c)
{
    if (*at != c)
        fault("not what is expected");
    at++;
}

static inline uint64_t number(void)
{
    char *end;
    uint64_t n = strtoull(at, &end, 10);
    if (end == at)
        fault("no number");
    at = end;
    return n;
}

/* The counter of the each that is written. */
static uint64_t counter;

static inline void put_counter(buffer *out)
{
    const uint8_t bytes[2] = {(uint8_t)(counter >> 8), (uint8_t)counter};
    size_t width = at[0] == '#' && at[1] == '#' ? 2 : 1;
    append(out, bytes + 2 - width, width);
    at += width;
}

static inline unsigned digit(char c)
{
    static const char digits[] = "0123456789abcdef";
    const char *found = c == '\0' ? NULL : strchr(digits, c);
    if (found == NULL)
        fault("no hexadecimal digit");
    return (unsigned)(found - digits);
}

static inline void put_hex(buffer *out, size_t n)
{
    for (const char *end = at + n; at < end; at += 2) {
        uint8_t byte = (uint8_t)(16 * digit(at[0]) + digit(at[1]));
        append(out, &byte, 1);
    }
}

/* A text in quotes: \t and \n are a tab and a line's end. */
static inline void put_text(buffer *out)
{
    for (take('"'); *at != '"'; at++) {
        char c = *at;
        if (c == '\0')
            fault("a text without an end");
        if (c == '\\')
            c = *++at == 't' ? '\t' : '\n';
        append(out, &c, 1);
    }
    at++;
}

/* ---- words */

static inline void put_record(buffer *out, uint64_t field, const buffer *key)
{
    uint8_t record[JD_RECORD_SIZE];
    slice bytes = {key->bytes, key->length};
    if (key->length > JD_MAX_LEN)
        fault("more than 64 bytes");
    put(record, (unsigned)field, bytes);
    append(out, record, sizeof record);
}

static inline void put_mark(buffer *out, unsigned field)
{
    const buffer empty = {(uint8_t *)"", 0, 0};
    put_record(out, field, &empty);
}

/* A key in brackets, as a record with its length or with this one. */
static inline void put_key(buffer *out, const uint64_t *field)
{
    buffer key = {0};
    reserve(&key, JD_MAX_LEN);
    expression(&key);
    put_record(out, field != NULL ? *field : key.length, &key);
    free(key.bytes);
}

static inline void put_records(buffer *out)
{
    for (put_key(out, NULL); *at == ','; put_key(out, NULL))
        at++;
}

static inline void put_field(buffer *out)
{
    uint64_t field = number();
    if (*at == ')') {
        put_mark(out, (unsigned)field);
        return;
    }
    take(',');
    put_key(out, &field);
}

static inline void put_entry(buffer *out)
{
    put_key(out, NULL);
    take(',');
    expression(out);
}

static inline void put_pair(buffer *out)
{
    uint8_t pair[JD_PAIR_SIZE] = {1};
    size_t places[2] = {5, 5 + JD_MAX_LEN};
    for (size_t i = 0; i < 2; i++) {
        buffer prefix = {0};
        reserve(&prefix, JD_MAX_LEN);
        if (i == 1)
            take(',');
        expression(&prefix);
        if (prefix.length > JD_MAX_LEN)
            fault("more than 64 bytes");
        pair[2 * i + 2] = (uint8_t)prefix.length;
        memcpy(pair + places[i], prefix.bytes, prefix.length);
        free(prefix.bytes);
    }
    append(out, pair, sizeof pair);
}

/* Once for each number from the first up to the second, by steps of the third. */
static inline void put_each(buffer *out)
{
    uint64_t bounds[3], before = counter;
    for (size_t i = 0; i < 3; i++) {
        bounds[i] = number();
        take(',');
    }
    const char *body = at;
    for (counter = bounds[0]; counter < bounds[1]; counter += bounds[2]) {
        at = body;
        expression(out);
    }
    counter = before;
}

/* A word of the format, or hexadecimal digits. */
static inline void word(buffer *out)
{
    static const struct {
        const char *word;
        void (*put)(buffer *out);
    } words[] = {{"rec", put_records}, {"field", put_field}, {"entry", put_entry},
                 {"pair", put_pair},   {"each", put_each}};
    size_t n = name_length();
    int is_max = n == 3 && memcmp(at, "max", n) == 0;
    if (is_max || (n == 4 && memcmp(at, "none", n) == 0)) {
        at += n;
        put_mark(out, is_max ? JD_MAX : JD_NO_EDGE);
        return;
    }
    for (size_t i = 0; i < sizeof words / sizeof *words; i++)
        if (strlen(words[i].word) == n && memcmp(words[i].word, at, n) == 0) {
            at += n;
            take('(');
            words[i].put(out);
            take(')');
            return;
        }
    put_hex(out, n);
}

static inline void atom(buffer *out)
{
    if (*at == '-')
        at++;
    else if (*at == '#')
        put_counter(out);
    else if (*at == '"')
        put_text(out);
    else if (isupper((unsigned char)*at))
        named(out);
    else if (isalnum((unsigned char)*at))
        word(out);
    else
        fault("no bytes");
}

/* What was written from a place on, so many times. */
static inline void repeat(buffer *out, size_t from)
{
    size_t length = out->length - from;
    uint64_t times = number();
    reserve(out, length * times);
    out->length = from;
    for (uint64_t i = 0; i < times; i++)
        memmove(out->bytes + from + i * length, out->bytes + from, length);
    out->length = from + length * times;
}

/* Of what was written from a place on, the bytes between two numbers. */
static inline void part(buffer *out, size_t from)
{
    size_t length = out->length - from;
    uint64_t first = *at == ':' ? 0 : number();
    take(':');
    uint64_t end = *at == ']' ? length : number();
    take(']');
    if (first > end || end > length)
        fault("a part that isn't there");
    memmove(out->bytes + from, out->bytes + from + first, end - first);
    out->length = from + end - first;
}

static inline void term(buffer *out)
{
    size_t from = out->length;
    for (atom(out); *at == '*' || *at == '[';)
        if (*at++ == '*')
            repeat(out, from);
        else
            part(out, from);
}

static inline void expression(buffer *out)
{
    for (term(out); *at == '+'; term(out))
        at++;
}

#endif
