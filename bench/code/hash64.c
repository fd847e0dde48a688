#include "words.h"

two times(u32 a, u32 a_high, u32 b, u32 b_high) {
    two product;
    product.first = a * b;
    product.second = (u32)((uint64_t)a * b >> 32) + a * b_high + a_high * b;
    return product;
}

two main(u32 p, u32 n) {
    two hash = { 0x84222325, 0xCBF29CE4 };
    while (n) {
        hash.first = hash.first ^ LOAD1(p);
        hash = times(hash.first, hash.second, 0x1B3, 0x100);
        p = p + 1;
        n = n - 1;
    }
    hash.first = hash.first ^ hash.second >> 1;
    hash = times(hash.first, hash.second, 0xED558CCD, 0xFF51AFD7);
    hash.first = hash.first ^ hash.second >> 1;
    return hash;
}
