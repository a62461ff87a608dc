/* The content of data files: each has the same bytes, which look like noise, from another place on. So bytes that come
 * from another file or another place than was asked for are seen. */
#include "load.h"

enum { STEP = 28673 };

static uint8_t *noise; /* DATA_FILE_BYTES, and then the first MOST_DATA of them again */

void make_content(void)
{
    uint64_t word = 88172645463325252u;

    noise = allocate(DATA_FILE_BYTES + MOST_DATA, 1);
    for (size_t at = 0; at < DATA_FILE_BYTES; at += sizeof word) {
        word ^= word << 13;
        word ^= word >> 7;
        word ^= word << 17;
        memcpy(noise + at, &word, sizeof word);
    }
    memcpy(noise + DATA_FILE_BYTES, noise, MOST_DATA);
}

const uint8_t *content(uint32_t file, uint64_t offset)
{
    return noise + (offset + (uint64_t)file * STEP) % DATA_FILE_BYTES;
}
