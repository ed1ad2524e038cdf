/*
 * The headers in C++, and empty slices: what an empty std::vector hands out is null, and goes
 * through jd_lent and jd_dest.
 */
#include "check.h"

#include <vector>

typedef std::vector<uint8_t> bytes;

static void pointers()
{
    uint8_t one = 0;
    count(jd_lent(nullptr, 0) != nullptr && jd_dest(nullptr, 0) != nullptr, "null, length 0");
    count(jd_lent(nullptr, 1) == nullptr && jd_dest(nullptr, 1) == nullptr, "null, length 1");
    count(jd_lent(&one, 1) == &one && jd_dest(&one, 1) == &one, "a byte");
    count(jd_lent(&one, 0) == &one && jd_dest(&one, 0) == &one, "none of a byte");
}

/* The empty key, with the empty prefix changed to the empty one, into no bytes. */
static void changed(const bytes &empty, bytes &dest)
{
    const uint8_t *lent = jd_lent(empty.data(), empty.size());
    uint64_t length = NUMBER_BEFORE;
    uint32_t refusal = jd_change_prefix(lent, empty.size(), lent, empty.size(), lent, empty.size(),
                                        jd_dest(dest.data(), dest.size()), dest.size(), &length);
    result("the empty key", refusal, length, 0, 0);
}

/* No entries, none kept. */
static void translated(const bytes &empty, bytes &dest)
{
    const uint8_t *lent = jd_lent(empty.data(), empty.size());
    uint64_t kept = NUMBER_BEFORE;
    uint32_t refusal = jd_translate_bucket(lent, empty.size(), lent, empty.size(),
                                           lent, empty.size(),
                                           jd_dest(dest.data(), dest.size()), dest.size(), &kept);
    result("the empty bucket", refusal, kept, 0, 0);
}

static void refused(const bytes &empty, bytes &dest)
{
    const uint8_t *lent = jd_lent(empty.data(), empty.size());
    uint64_t length = NUMBER_BEFORE;
    uint32_t refusal = jd_list_table(lent, empty.size(),
                                     jd_dest(dest.data(), dest.size()), dest.size(), &length);
    result("a list into no bytes", refusal, length, JD_NO_ROOM, 0);
    count(jd_wf_pivots(lent, empty.size()) == JD_SHAPE, "no pivots");
}

int main()
{
    const bytes empty;
    bytes dest;
    count(empty.data() == nullptr && dest.data() == nullptr, "an empty vector's pointer is null");
    pointers();
    changed(empty, dest);
    translated(empty, dest);
    refused(empty, dest);
    return report();
}
