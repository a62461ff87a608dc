/* Prints COUNT names that a directory has in one bucket and, with up to eight names for each of 2^BITS parts, in one
   part of it: the sum of a name's bytes is 0 modulo 64, and its hash ends in BITS zeros. The hash is the kit's, which
   has no key here: SipHash-1-3 under a key of zeros.

   usage: flood COUNT BITS */
#include <stdint.h>
#include <stdio.h>
#include <stdlib.h>
#include <string.h>

typedef uint64_t word;

enum { DIGITS = 11, LENGTH = DIGITS + 1 };

static word turned(word value, int bits) { return value << bits | value >> (64 - bits); }

static void mix(word v[4]) {
    v[0] += v[1], v[2] += v[3];
    v[1] = turned(v[1], 13) ^ v[0], v[3] = turned(v[3], 16) ^ v[2];
    v[0] = turned(v[0], 32);
    v[2] += v[1], v[0] += v[3];
    v[1] = turned(v[1], 17) ^ v[2], v[3] = turned(v[3], 21) ^ v[0];
    v[2] = turned(v[2], 32);
}

/* The hash of LENGTH bytes: of eight, and of four with the length as the highest byte. */
static word hash(const char *name) {
    word v[4] = {0x736f6d6570736575u, 0x646f72616e646f6du, 0x6c7967656e657261u, 0x7465646279746573u};
    word piece = 0;
    memcpy(&piece, name, 8);
    v[3] ^= piece, mix(v), v[0] ^= piece;
    piece = 0;
    memcpy(&piece, name + 8, LENGTH - 8);
    piece |= (word)LENGTH << 56;
    v[3] ^= piece, mix(v), v[0] ^= piece;
    v[2] ^= 255, mix(v), mix(v), mix(v);
    return v[0] ^ v[1] ^ v[2] ^ v[3];
}

int main(int count, char **words) {
    if (count != 3) return 2;
    long left = atol(words[1]);
    word mask = ((word)1 << atoi(words[2])) - 1;
    char name[LENGTH + 1] = "";
    for (word number = 0; left > 0; number++) {
        int sum = 0;
        for (int place = 0; place < DIGITS; place++) {
            name[place] = "0123456789abcdef"[number >> 4 * place & 15];
            sum += name[place];
        }
        name[DIGITS] = (char)(64 + (64 - sum % 64) % 64);
        if ((hash(name) & mask) == 0) {
            puts(name);
            left--;
        }
    }
    return 0;
}
