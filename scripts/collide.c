/* collide numbers|texts COUNT: prints so many numbers, or texts, that fall into one bucket of a hash table of the kit's, whose hash is
   folded multiplication from a seed that is always the same: the low 14 bits of the folded hash are 0, and so are not told apart by a table
   of 16,384 buckets. Texts are hashed with the byte FF behind them. */
#include <stdint.h>
#include <stdio.h>
#include <stdlib.h>
#include <string.h>

static const uint64_t FACTOR = UINT64_C(0x9E3779B97F4A7C15);
static const uint64_t SEED = UINT64_C(0x243F6A8885A308D3);
static const uint32_t BUCKET = (UINT32_C(1) << 14) - 1;

static uint64_t fold(uint64_t a, uint64_t b) {
    unsigned __int128 product = (unsigned __int128)a * b;
    return (uint64_t)product ^ (uint64_t)(product >> 64);
}

static uint64_t word(const uint8_t *bytes, size_t length) {
    uint64_t value = 0;
    memcpy(&value, bytes, length);
    return value;
}

/* The state after at most 16 bytes. */
static uint64_t hashed(uint64_t state, const uint8_t *bytes, size_t length) {
    if (length > 8) {
        return fold(word(bytes, 8) ^ (state + length), word(bytes + length - 8, 8) ^ FACTOR);
    }
    uint64_t value = length >= 4 ? word(bytes, 4) | word(bytes + length - 4, 4) << 32
                                 : bytes[0] | (uint64_t)bytes[length / 2] << 8 | (uint64_t)bytes[length - 1] << 16;
    return fold(state ^ value, FACTOR ^ (2 * length));
}

static int falls_together(uint64_t hash) {
    uint32_t folded = (uint32_t)(hash ^ (hash >> 32));
    return (folded & BUCKET) == 0;
}

/* Adds 1 to a number in decimal. */
static void count_on(uint8_t *last_digit) {
    while (*last_digit == '9') {
        *last_digit-- = '0';
    }
    ++*last_digit;
}

int main(int count, char **words) {
    if (count != 3) {
        return 64;
    }
    int numbers = words[1][0] == 'n';
    long left = strtol(words[2], NULL, 10);
    const uint8_t end = 0xFF;
    uint8_t text[] = "id-0000000000";
    const size_t length = sizeof text - 1;
    for (uint32_t number = 1; left > 0 && number < INT32_MAX; number++) {
        count_on(text + length - 1);
        uint64_t hash = numbers ? hashed(SEED, (const uint8_t *)&number, sizeof number) : hashed(hashed(SEED, text, length), &end, 1);
        if (falls_together(hash)) {
            puts((const char *)text + (numbers ? 3 : 0));
            left--;
        }
    }
    return left == 0 ? 0 : 1;
}
