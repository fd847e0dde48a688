#include "words.h"

u32 clamp(u32 y) {
    if ((i32)y < -0x8000) {
        y = 0xFFFF8000;
    } else if (0x7FFF < (i32)y) {
        y = 0x7FFF;
    }
    return y;
}

void main(u32 from, u32 to, u32 n) {
    u32 x1 = 0;
    u32 x2 = 0;
    u32 y1 = 0;
    u32 y2 = 0;
    while (n) {
        u32 x = (u32)((i32)(LOAD2(from) << 16) >> 16);
        u32 sum = x * 1105 + x1 * 2210 + x2 * 1105;
        sum = sum + y1 * 18727 - y2 * 6763;
        u32 y = clamp((u32)((i32)sum >> 14));
        STORE2(to, y);
        x2 = x1;
        x1 = x;
        y2 = y1;
        y1 = y;
        from = from + 2;
        to = to + 2;
        n = n - 1;
    }
}
