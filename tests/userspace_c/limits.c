/* Calls the permission leaf at its limits from C and prints what it answers; `run` compiles, runs and compares. */
#include <inttypes.h>
#include <stdbool.h>
#include <stdint.h>
#include <stdio.h>

uint32_t userspace_grant(uint64_t *word, uint32_t tid);
uint32_t userspace_revoke(uint64_t *word, uint32_t tid);
uint32_t userspace_recycle(uint8_t *flags, uint64_t *word, uint32_t tid);
uint32_t userspace_has_perm(uint64_t word, uint32_t tid, uint32_t *value);
bool userspace_check_access(uint8_t flags, uint64_t word, uint32_t tid, bool supervisor);
uint32_t userspace_validate(uint8_t kind, uint8_t flags, uint64_t word, uint8_t expected, uint32_t tid, bool supervisor, int32_t mode);

int main(void) {
    const uint32_t tids[] = {0, 63, 64, 4294967295u};
    const uint64_t words[] = {0, 1, 9223372036854775808u, 18446744073709551615u};
    const uint8_t all_flags[] = {0, 1, 2, 255};
    const int32_t modes[] = {0, -1, 1, -2, 2147483647, -2147483647 - 1};
    for (int t = 0; t < 4; t++)
        for (int w = 0; w < 4; w++)
            for (int f = 0; f < 4; f++) {
                uint64_t word = words[w];
                uint8_t flags = all_flags[f];
                uint32_t value = 7;
                uint32_t code = userspace_grant(&word, tids[t]);
                printf("grant %" PRIu32 " %" PRIu64 "\n", code, word);
                word = words[w];
                code = userspace_revoke(&word, tids[t]);
                printf("revoke %" PRIu32 " %" PRIu64 "\n", code, word);
                code = userspace_has_perm(words[w], tids[t], &value);
                printf("has_perm %" PRIu32 " %" PRIu32 "\n", code, value);
                for (int s = 0; s < 2; s++) {
                    printf("access %d\n", userspace_check_access(flags, words[w], tids[t], s == 1));
                    for (int m = 0; m < 6; m++)
                        for (int e = 0; e < 3; e++)
                            printf("validate %" PRIu32 "\n", userspace_validate(2, flags, words[w], (uint8_t)e * 2, tids[t], s == 1, modes[m]));
                }
                word = words[w];
                code = userspace_recycle(&flags, &word, tids[t]);
                printf("recycle %" PRIu32 " %d %" PRIu64 "\n", code, flags, word);
            }
    return 0;
}
