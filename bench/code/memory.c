#include "words.h"

void move(u32 to, u32 from, u32 n) {
    if (to - from < n) {
        while (n) {
            n = n - 1;
            STORE1(to + n, LOAD1(from + n));
        }
    } else {
        if (!((to | from) & 3)) {
            while (3 < n) {
                STORE4(to, LOAD4(from));
                to = to + 4;
                from = from + 4;
                n = n - 4;
            }
        }
        while (n) {
            STORE1(to, LOAD1(from));
            to = to + 1;
            from = from + 1;
            n = n - 1;
        }
    }
}

void fill(u32 to, u32 byte, u32 n) {
    while (n) {
        STORE1(to, byte);
        to = to + 1;
        n = n - 1;
    }
}

u32 compare(u32 a, u32 b, u32 n) {
    u32 order = 0;
    while (n) {
        order = LOAD1(a) - LOAD1(b);
        a = a + 1;
        b = b + 1;
        n = order ? 0 : n - 1;
    }
    return order;
}

two main(u32 p, u32 n) {
    u32 half = n >> 1;
    u32 middle = p + half;
    two results;
    move(middle, p, half);
    move(p + 1, p, half - 1);
    move(p, p + 1, half - 1);
    results.first = compare(middle, p, half - 1);
    fill(p, 32, 8);
    results.second = compare(p, middle, half);
    return results;
}
