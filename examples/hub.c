/*
 * A hub: renames the keys on standard input, by the table in a file. Built by
 * cc -Iinclude examples/hub.c target/staticlib/libjoistdenim.a -o hub
 * it prints 433107 for echo 413107 | ./hub examples/t.table
 *
 * Keys are in hexadecimal, one a line; an empty line is the empty key. A line that isn't renamed is
 * told on standard error, and the next is read. The status is 0 where all are renamed, 1 where the
 * library refuses the table or a key, and 2 where something can't be read or written.
 */
#include <errno.h>
#include <joistdenim.h>
#include <stdio.h>
#include <string.h>

enum status { DONE, REFUSED, UNREAD };

/* A file has the count of the pivots in two bytes, high byte first, the pivots, and the edges. One
 * byte more is read, so that a file that is too long is seen. */
struct table {
    uint8_t bytes[2 + (2 * JD_MAX_PIVOTS - 1) * JD_RECORD_SIZE + 1];
    const uint8_t *pivots, *edges;
    size_t pivots_len, edges_len;
};

/* Bytes that are missing or left over make too few edges or too many, and the library refuses. */
static void split(struct table *t, size_t length)
{
    size_t rest = length < 2 ? 0 : length - 2;
    size_t pivots_len = ((size_t)t->bytes[0] << 8 | t->bytes[1]) * JD_RECORD_SIZE;
    t->pivots_len = pivots_len < rest ? pivots_len : rest;
    t->edges_len = rest - t->pivots_len;
    t->pivots = t->bytes + 2;
    t->edges = t->pivots + t->pivots_len;
}

static enum status load(struct table *t, const char *name)
{
    FILE *file = fopen(name, "rb");
    size_t length = file == NULL ? 0 : fread(t->bytes, 1, sizeof t->bytes, file);
    if (file == NULL || ferror(file)) {
        fprintf(stderr, "hub: %s: %s; 'joistdenim table' makes a table\n", name, strerror(errno));
        return UNREAD;
    }
    fclose(file);
    split(t, length);
    uint32_t refusal = jd_wf_edges(t->pivots, t->pivots_len, t->edges, t->edges_len);
    if (refusal == 0)
        return DONE;
    fprintf(stderr, "refused %u: %s: %s; 'joistdenim check' says more\n", (unsigned)refusal, name,
            jd_refusal_text(refusal));
    return REFUSED;
}

/* Reads a line. Answers what is wrong with it and how to mend it, or NULL. */
static const char *read_key(uint8_t *key, size_t *length)
{
    static const char hex[] = "0123456789abcdef0123456789ABCDEF";
    const char *fault = NULL;
    size_t digits = 0;
    int c, ended = 0; /* a CR may come before the end of the line, and nowhere else */
    while ((c = getchar()) != EOF && c != '\n') {
        const char *digit = memchr(hex, c, sizeof hex - 1);
        if (ended || (digit == NULL && c != '\r'))
            fault = "a key is in hexadecimal, two digits for each byte, as 413107";
        ended |= c == '\r';
        if (digit == NULL || digits / 2 > JD_MAX_LEN)
            continue;
        key[digits / 2] = (uint8_t)(key[digits / 2] << 4 | (digit - hex) % 16);
        digits++;
    }
    *length = digits / 2;
    if (fault == NULL && digits % 2 != 0)
        fault = "the last byte has one digit; write two for each, as 0a";
    return ferror(stdin) ? strerror(errno) : fault;
}

static enum status rename_key(const struct table *t, unsigned long line)
{
    uint8_t key[JD_MAX_LEN + 1] = {0}; /* one more, by which the library sees a longer key */
    uint8_t renamed[JD_MAX_LEN];
    size_t key_len;
    uint64_t length;
    const char *fault = read_key(key, &key_len);
    if (fault != NULL) {
        fprintf(stderr, "hub: line %lu: %s\n", line, fault);
        return UNREAD;
    }
    uint32_t refusal = jd_translate_key(t->pivots, t->pivots_len, t->edges, t->edges_len,
                                        key, key_len, renamed, sizeof renamed, &length);
    if (refusal != 0) {
        fprintf(stderr, "refused %u: line %lu: %s\n", (unsigned)refusal, line,
                jd_refusal_text(refusal));
        return REFUSED;
    }
    for (uint64_t i = 0; i < length; i++)
        printf("%02x", renamed[i]);
    putchar('\n');
    return DONE;
}

int main(int argc, char **argv)
{
    static struct table table;
    enum status worst = argc == 2 ? load(&table, argv[1]) : UNREAD;
    if (argc != 2)
        fprintf(stderr, "usage: hub TABLE <KEYS\n");
    if (worst != DONE)
        return worst;
    setvbuf(stdout, NULL, _IOLBF, BUFSIZ); /* each answer goes out before the next key is read */
    int c;
    for (unsigned long line = 1; (c = getchar()) != EOF && !ferror(stdout); line++) {
        ungetc(c, stdin);
        enum status status = rename_key(&table, line);
        worst = status > worst ? status : worst;
    }
    if (!ferror(stdin) && !ferror(stdout) && fclose(stdout) == 0)
        return worst;
    fprintf(stderr, "hub: standard input or output: %s\n", strerror(errno));
    return UNREAD;
}
