#include "words.h"

void put(u32 byte) {
    u32 full = DEVICE(0x10013000);
    while ((i32)full < 0) full = DEVICE(0x10013000);
    DEVICE(0x10013000) = byte;
}

void print(u32 n) {
    u8 digits[12];
    u32 count = 0;
    u32 more = 1;
    while (more) {
        digits[count] = (u8)(n % 10 + 48);
        count = count + 1;
        n = n / 10;
        more = n;
    }
    while (count) {
        count = count - 1;
        put(digits[count]);
    }
    put(10);
}

two parse(u32 p) {
    u32 n = 0;
    u32 digit = LOAD1(p) - 48;
    while (digit < 10) {
        n = n * 10 + digit;
        p = p + 1;
        digit = LOAD1(p) - 48;
    }
    two results = { n, p };
    return results;
}

u32 main(u32 p) {
    u32 sum = 0;
    while (LOAD1(p)) {
        two parsed = parse(p);
        p = parsed.second;
        print(parsed.first * parsed.first);
        sum = sum + parsed.first;
        while (LOAD1(p) == 32) p = p + 1;
    }
    print(sum);
    return sum;
}
