/* What a host without a C library brings: memcpy and memset, and nothing else. tools/link links the whole library to this, so that a name more that it
   wanted from outside would show. It is linked, and not run. */
#include <stdint.h>

void *memcpy(void *to, const void *from, uint64_t count) {
    for (uint64_t k = 0; k < count; k++) ((uint8_t *)to)[k] = ((const uint8_t *)from)[k];
    return to;
}

void *memset(void *to, int value, uint64_t count) {
    for (uint64_t k = 0; k < count; k++) ((uint8_t *)to)[k] = (uint8_t)value;
    return to;
}
