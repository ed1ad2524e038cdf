#include <joistdenim.h>
#include <stdio.h>

int main(void) {
    const uint8_t key[] = "A0", old_prefix[] = "A", new_prefix[] = "C";
    uint8_t dest[JD_MAX_LEN];
    uint64_t length;
    uint32_t refusal = jd_change_prefix(key, 2, old_prefix, 1, new_prefix, 1, dest, sizeof dest, &length);
    if (refusal == 0) printf("%.*s\n", (int)length, (const char *)dest);
    return (int)refusal;
}
