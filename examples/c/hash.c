/* The hash function SHA-256, over a text in .rodata that fills two blocks with its padding.
   It prints the digest, as `printf %s 'A processor that may be wrong, and a checker that may not.' | sha256sum` does.
   The status is the digest's last byte, 164. */
#include "machine.h"

static const char text[] = "A processor that may be wrong, and a checker that may not.";
enum { LENGTH = sizeof text - 1, PADDED = (LENGTH + 9 + 63) / 64 * 64 };
static unsigned char message[PADDED];

static const unsigned constants[64] = {
    0x428a2f98, 0x71374491, 0xb5c0fbcf, 0xe9b5dba5, 0x3956c25b, 0x59f111f1, 0x923f82a4, 0xab1c5ed5,
    0xd807aa98, 0x12835b01, 0x243185be, 0x550c7dc3, 0x72be5d74, 0x80deb1fe, 0x9bdc06a7, 0xc19bf174,
    0xe49b69c1, 0xefbe4786, 0x0fc19dc6, 0x240ca1cc, 0x2de92c6f, 0x4a7484aa, 0x5cb0a9dc, 0x76f988da,
    0x983e5152, 0xa831c66d, 0xb00327c8, 0xbf597fc7, 0xc6e00bf3, 0xd5a79147, 0x06ca6351, 0x14292967,
    0x27b70a85, 0x2e1b2138, 0x4d2c6dfc, 0x53380d13, 0x650a7354, 0x766a0abb, 0x81c2c92e, 0x92722c85,
    0xa2bfe8a1, 0xa81a664b, 0xc24b8b70, 0xc76c51a3, 0xd192e819, 0xd6990624, 0xf40e3585, 0x106aa070,
    0x19a4c116, 0x1e376c08, 0x2748774c, 0x34b0bcb5, 0x391c0cb3, 0x4ed8aa4a, 0x5b9cca4f, 0x682e6ff3,
    0x748f82ee, 0x78a5636f, 0x84c87814, 0x8cc70208, 0x90befffa, 0xa4506ceb, 0xbef9a3f7, 0xc67178f2,
};

static unsigned state[8] = {
    0x6a09e667, 0xbb67ae85, 0x3c6ef372, 0xa54ff53a, 0x510e527f, 0x9b05688c, 0x1f83d9ab, 0x5be0cd19,
};

static unsigned turned(unsigned word, int places) { return word >> places | word << (32 - places); }

static void add_block(const unsigned char *block)
{
    unsigned words[64], s[8];

    for (int k = 0; k < 16; k++, block += 4)
        words[k] = (unsigned)block[0] << 24 | block[1] << 16 | block[2] << 8 | block[3];
    for (int k = 16; k < 64; k++) {
        unsigned near = words[k - 2], far = words[k - 15];
        words[k] = words[k - 16] + (turned(far, 7) ^ turned(far, 18) ^ far >> 3)
                 + words[k - 7] + (turned(near, 17) ^ turned(near, 19) ^ near >> 10);
    }
    for (int k = 0; k < 8; k++)
        s[k] = state[k];
    for (int k = 0; k < 64; k++) {
        unsigned choice = (s[4] & s[5]) ^ (~s[4] & s[6]);
        unsigned majority = (s[0] & s[1]) ^ (s[0] & s[2]) ^ (s[1] & s[2]);
        unsigned mixed = s[7] + (turned(s[4], 6) ^ turned(s[4], 11) ^ turned(s[4], 25)) + choice
                       + constants[k] + words[k];
        unsigned added = (turned(s[0], 2) ^ turned(s[0], 13) ^ turned(s[0], 22)) + majority;
        for (int place = 7; place > 0; place--)
            s[place] = s[place - 1];
        s[4] += mixed;
        s[0] = mixed + added;
    }
    for (int k = 0; k < 8; k++)
        state[k] += s[k];
}

int main(void)
{
    for (int place = 0; place < LENGTH; place++)
        message[place] = text[place];
    message[LENGTH] = 0x80;
    message[PADDED - 2] = 8 * LENGTH >> 8;
    message[PADDED - 1] = 8 * LENGTH & 0xff;
    for (int start = 0; start < PADDED; start += 64)
        add_block(message + start);
    for (int digit = 0; digit < 64; digit++)
        put("0123456789abcdef"[state[digit / 8] >> (28 - digit % 8 * 4) & 15]);
    put('\n');
    return state[7] & 0xff;
}
