#include "words.h"

u32 exchange(u32 byte) {
    u32 got = 0x80000000;
    u32 full = got;
    u32 tries = 100;
    while ((i32)full < 0 && tries) {
        full = DEVICE(0x10024048);
        tries = tries - 1;
    }
    if (!((i32)full < 0)) {
        DEVICE(0x10024048) = byte;
        tries = 100;
        while ((i32)got < 0 && tries) {
            got = DEVICE(0x1002404C);
            tries = tries - 1;
        }
    }
    return got;
}

u32 main(u32 address, u32 to, u32 n) {
    DEVICE(0x10024018) = 2;
    u32 got = exchange(3);
    u32 bad = got >> 31;
    u32 shift = 24;
    while (shift) {
        shift = shift - 8;
        got = exchange(address >> shift & 255);
        bad = bad | got >> 31;
    }
    while (!bad && n) {
        got = exchange(0);
        bad = got >> 31;
        STORE1(to, got);
        to = to + 1;
        n = n - 1;
    }
    DEVICE(0x10024018) = 0;
    return bad;
}
