/*
 * jd_refusal_text as it runs: a text for each refusal and for no other number. That the texts are
 * the wrapper's is a test in rust/joistdenim/tests/header.rs.
 */
#include "check.h"

static int same_text(uint32_t a, uint32_t b)
{
    return strcmp(jd_refusal_text(a), jd_refusal_text(b)) == 0;
}

int main(void)
{
    count(strcmp(jd_refusal_text(0), "accepted") == 0, "0");
    count(strcmp(jd_refusal_text(JD_SHAPE),
                 "a slice isn't the records, entries or pair it should be") == 0, "the first");
    count(strcmp(jd_refusal_text(jd_wf_pivots(long_bytes, 0)), jd_refusal_text(JD_SHAPE)) == 0,
          "what a call returned");
    for (uint32_t number = JD_SHAPE; number <= JD_WRONG_INDEX; number++)
        for (uint32_t other = 0; other < number; other++)
            count(!same_text(number, other), "two with one text");
    count(strstr(jd_refusal_text(JD_WRONG_INDEX + 1), "no refusal") != NULL, "16");
    count(same_text(JD_WRONG_INDEX + 1, UINT32_MAX), "the last number there is");
    count(!same_text(JD_WRONG_INDEX, UINT32_MAX), "the last refusal");
    return report();
}
