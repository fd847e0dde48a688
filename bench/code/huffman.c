#include "words.h"

static const u8 COUNTS[] = { 0, 0, 1, 2, 5, 2, 6, 4 };
static const u8 SYMBOLS[] = {
    32, 101, 116, 97, 104, 105, 110, 115, 100, 112, 102, 108, 111, 114, 117, 120,
    0, 44, 99, 107,
};

two symbol(u32 p, u32 at) {
    u32 symbol = 256;
    u32 code = 0;
    u32 first = 0;
    u32 index = 0;
    u32 length = 1;
    while (symbol == 256) {
        code = code | (LOAD1(p + (at >> 3)) >> (7 - (at & 7)) & 1);
        at = at + 1;
        u32 count = COUNTS[length];
        u32 place = code - first;
        if (place < count) {
            symbol = SYMBOLS[index + place];
        } else {
            index = index + count;
            first = (first + count) << 1;
            code = code << 1;
            length = length + 1;
        }
    }
    two results = { symbol, at };
    return results;
}

u32 main(u32 p, u32 to) {
    u32 n = 0;
    u32 at = 0;
    u32 byte = 1;
    while (byte) {
        two results = symbol(p, at);
        byte = results.first;
        at = results.second;
        if (byte) {
            STORE1(to + n, byte);
            n = n + 1;
        }
    }
    return n;
}
