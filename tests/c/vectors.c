/*
 * The cases of vectors, from C: each file that is named is read, and each of its cases is run with two
 * fillings of its destinations. What is lent, and what lies around it and beyond what is written, must
 * not change; after a refusal nothing may. Each call must have a case that is taken and one that is
 * refused.
 */
#include "case.h"
#include "expression.h"

/* ---- the text of a case */

#define MOST_TRIES 80
#define MOST_AT_ONCE 8

/* The calls that the cases below are for, which are lent alike. */
static const struct call *asked_calls[MOST_AT_ONCE];
static size_t asked_count;

/* What a case is run with, once each. No call takes a number and has a destination. */
static try tries[MOST_TRIES];
static size_t try_count;

static void blanks(void)
{
    at += strspn(at, " ");
}

static int next_is(const char *word)
{
    size_t n = strlen(word);
    int is = strncmp(at, word, n) == 0 && (at[n] == ' ' || at[n] == '\0');
    if (is) {
        at += n;
        blanks();
    }
    return is;
}

static try *next_try(void)
{
    if (try_count == MOST_TRIES)
        fault("too many runs");
    return &tries[try_count++];
}

static void read_rooms(void)
{
    size_t dests = asked_calls[0]->dests;
    try *lent = next_try();
    for (size_t i = 0; i < dests; i++) {
        take(i == 0 ? '[' : ',');
        lent->rooms[i] = number();
    }
    take(']');
}

/* Numbers, parted by commas, each a run; 0..3 are four. */
static void read_numbers(void)
{
    do {
        at++;
        uint64_t first = number(), last = first;
        if (at[0] == '.' && at[1] == '.') {
            at += 2;
            last = number();
        }
        for (uint64_t n = first; n - first <= last - first; n++)
            next_try()->number = n;
    } while (*at == ',');
}

static void read_bytes(buffer *list, size_t *filled, size_t most)
{
    if (*filled == most)
        fault("bytes too many");
    buffer *b = &list[(*filled)++];
    b->length = 0;
    reserve(b, 1);
    expression(b);
}

/* A slice, numbers, or the rooms of one run. */
static void read_argument(vector *v)
{
    if (*at == '@') {
        read_numbers();
    } else if (*at == '[') {
        read_rooms();
    } else {
        read_bytes(v->slices, &v->slice_count, asked_calls[0]->slices);
    }
    blanks();
}

static void read_answers(vector *v)
{
    while (*at == '-' || isdigit((unsigned char)*at)) {
        int below = *at == '-';
        at += below;
        if (v->answer_count == MOST_ANSWERS)
            fault("an answer too many");
        uint64_t n = number();
        v->answers[v->answer_count++] = below ? 0 - n : n;
        blanks();
    }
}

static void read_written(vector *v)
{
    while (*at != '\0') {
        read_bytes(v->written, &v->written_count, asked_calls[0]->dests);
        blanks();
    }
    if (v->written_count != asked_calls[0]->dests)
        fault("not as many written as there are destinations");
}

/* Whether this is how the case ends. */
static int read_outcome(vector *v)
{
    if (next_is("refused")) {
        v->refusal = (uint32_t)number();
        blanks();
        return 1;
    }
    if (next_is("answers")) {
        read_answers(v);
        next_is("writes");
        read_written(v);
        return 1;
    }
    return next_is("taken");
}

static void run_case(void)
{
    static vector v;
    v.slice_count = v.answer_count = v.written_count = try_count = 0;
    v.refusal = 0;
    v.written[0].length = v.written[1].length = 0;
    while (!read_outcome(&v))
        read_argument(&v);
    if (*at != '\0' || v.slice_count != asked_calls[0]->slices)
        fault("not as many as the call takes");
    if (try_count == 0 && asked_calls[0]->dests == 0)
        next_try();
    if (try_count == 0)
        fault("no room for the destination");
    for (size_t i = 0; i < asked_count * try_count; i++)
        run(asked_calls[i / try_count], &v, &tries[i % try_count]);
}

/* ---- lines */

static void read_calls(void)
{
    for (asked_count = 0; *at != '\0'; blanks()) {
        size_t n = name_length(), i = 0;
        while (i < CALL_COUNT && (strlen(calls[i].name) != n || memcmp(calls[i].name, at, n) != 0))
            i++;
        if (i == CALL_COUNT || asked_count == MOST_AT_ONCE)
            fault("no such call, or too many");
        asked_calls[asked_count++] = &calls[i];
        at += n;
    }
}

/* A name and its bytes; blanks between the parts are for the reader. */
static void define(char *text)
{
    char *to = text;
    for (const char *from = text; *from != '\0'; from++)
        if (*from != ' ')
            *to++ = *from;
    *to = '\0';
    at = text;
    names[name_count].name = text;
    names[name_count].length = name_length();
    at += name_length();
    take('=');
    buffer value = {0};
    reserve(&value, 1);
    expression(&value);
    if (*at != '\0' || name_count + 1 == sizeof names / sizeof *names)
        fault("more than an expression, or too many names");
    names[name_count++].value = value;
}

static void read_line(char *line)
{
    at = line;
    char *name_end = strstr(line, " : ");
    if (*line == '#' || *line == '\0') {
        return;
    } else if (next_is("let")) {
        define(line + strlen("let"));
    } else if (next_is("call")) {
        read_calls();
    } else if (name_end != NULL && asked_count > 0) {
        *name_end = '\0';
        case_name = line;
        at = name_end + strlen(" : ");
        blanks();
        run_case();
    } else {
        fault("a line of no sort");
    }
}

/* Lines that begin with a blank go on with the line before. */
static void read_lines(char *text)
{
    line_number = 1;
    while (*text != '\0') {
        unsigned lines = 1;
        char *end = strchr(text, '\n');
        while (end != NULL && end[1] == ' ') {
            *end = ' ';
            end = strchr(end, '\n');
            lines++;
        }
        if (end == NULL)
            fault("a line without an end");
        *end = '\0';
        read_line(text);
        line_number += lines;
        text = end + 1;
    }
}

static void read_file(const char *path)
{
    FILE *file = fopen(path, "rb");
    buffer text = {0};
    size_t got = 1;
    file_name = path;
    at = "";
    if (file == NULL)
        fault("no such file");
    while (got > 0) {
        reserve(&text, 65536);
        got = fread(text.bytes + text.length, 1, 65536, file);
        text.length += got;
    }
    append(&text, "", 1);
    fclose(file);
    name_count = asked_count = 0;
    read_lines((char *)text.bytes);
}

int main(int argc, char **argv)
{
    for (int i = 1; i < argc; i++)
        read_file(argv[i]);
    for (size_t i = 0; i < CALL_COUNT; i++)
        count(outcomes[i][0] > 0 && outcomes[i][1] > 0, calls[i].name);
    return report();
}
