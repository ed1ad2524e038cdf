/*
 * The list of a table from C: the header line byte by byte, and the longest texts of 2 and 64 pivots,
 * put together here. More is in vectors/list.vectors.
 */
#include "table.h"

#define HEADER "slot\tleft\tright\tshared\tedge\n"

/* The header line is these bytes exactly. */
static void header(void)
{
    static const uint8_t bytes[] = {'s', 'l', 'o', 't', 9,   'l', 'e', 'f', 't', 9,
                                    'r', 'i', 'g', 'h', 't', 9,   's', 'h', 'a', 'r',
                                    'e', 'd', 9,   'e', 'd', 'g', 'e', 10};
    slice in = input(3, (pair){pivots_of_t(), edges_of_t()});
    uint64_t length = 0;
    uint8_t *to = refill(list_room, sizeof list_room);
    uint32_t got = jd_list_table(in.bytes, in.length, to, LONGEST_LIST, &length);
    count(got == 0 && length > sizeof bytes, "a header and more");
    for (size_t i = 0; i < sizeof bytes; i++)
        count(to[i] == bytes[i], "a byte of the header");
}

/* A text, into all the room, into exactly enough, and into a byte less, where nothing changes. */
static void lists(const char *name, slice in, slice text)
{
    list(name, in, LONGEST_LIST, 0, text);
    list(name, in, text.length, 0, text);
    list(name, in, text.length - 1, JD_NO_ROOM, none);
    list(name, in, 0, JD_NO_ROOM, none);
}

/* Neighbours of 64 bytes, so that each is the prefix of its slot, and edges of 64 bytes. */
static slice longest(unsigned count)
{
    uint8_t *pivots = next_table(), *edges = next_table(), bytes[JD_MAX_LEN];
    memcpy(bytes, long_bytes, sizeof bytes);
    for (unsigned i = 0; i < count; i++) {
        bytes[JD_MAX_LEN - 1] = (uint8_t)i;
        put(pivots + i * JD_RECORD_SIZE, JD_MAX_LEN, (slice){bytes, sizeof bytes});
        put(edges + i * JD_RECORD_SIZE, JD_MAX_LEN, full);
    }
    return input(count, (pair){{pivots, count * JD_RECORD_SIZE},
                               {edges, (count - 1) * JD_RECORD_SIZE}});
}

static size_t put_hex(char *at, unsigned last)
{
    for (size_t i = 0; i < JD_MAX_LEN - 1; i++)
        sprintf(at + 2 * i, "%02x", long_bytes[i]);
    sprintf(at + 2 * (JD_MAX_LEN - 1), "%02x", last);
    return 2 * JD_MAX_LEN;
}

/* The text of the longest list of so many pivots. */
static slice longest_text(unsigned count)
{
    static char text[LONGEST_LIST + 1];
    size_t length = (size_t)sprintf(text, HEADER);
    for (unsigned slot = 0; slot + 1 < count; slot++) {
        const unsigned last[] = {slot, slot + 1, slot, long_bytes[JD_MAX_LEN - 1]};
        length += (size_t)sprintf(text + length, "%u", slot);
        for (size_t field = 0; field < 4; field++) {
            text[length++] = '\t';
            length += put_hex(text + length, last[field]);
        }
        text[length++] = '\n';
    }
    return (slice){(const uint8_t *)text, length};
}

static void limits(void)
{
    slice two = longest_text(2);
    count(two.length == 28 + 518, "length of the longest text of 2 pivots");
    lists("2 pivots", longest(2), two);
    slice many = longest_text(64);
    count(many.length == LONGEST_LIST, "length of the longest text of 64 pivots");
    lists("64 pivots", longest(64), many);
}

int main(void)
{
    header();
    limits();
    return report();
}
