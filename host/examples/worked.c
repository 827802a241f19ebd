/* What the loader of a class is: object 3 of the worked dump, asked in the columns that a build of it leaves. */
#include "../yokefathom.h"
#include <stdio.h>

int main(void) {
    const uint64_t bases[1] = {0}, no_values[1] = {0};
    const uint16_t offsets[5] = {0, 1, 1, 2, 4}, codes[4] = {0, 0x8001, 2, 3};
    const uint32_t targets[4] = {1, 0, 0, 2}, fields[4] = {0, 1, 2, YOKEFATHOM_LOADER}, no_rows[1] = {0};
    for (size_t object = 3; object < 5; object++) {
        uint64_t answer[4]; /* how many numbers; 0 and a target, or nothing more; or a refusal and its place */
        yokefathom_field(object, YOKEFATHOM_LOADER, bases, 1, offsets, 5, no_rows, 0, no_values, 0, codes, 4, targets, 4, fields, 4, no_values, 0,
            no_rows, 0, answer);
        printf("object %zu: %llu numbers: %llu %llu\n", object, (unsigned long long)answer[0], (unsigned long long)answer[1],
            (unsigned long long)answer[2]);
    }
    return 0;
}
