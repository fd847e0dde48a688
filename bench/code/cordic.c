#include "words.h"

static const u32 TURNS[16] = {
    210828714, 124459457, 65760959, 33381290,
    16755422, 8385879, 4193963, 2097109,
    1048571, 524287, 262144, 131072,
    65536, 32768, 16384, 8192,
};

two turned(u32 angle) {
    u32 x = 163008219;
    u32 y = 0;
    u32 k = 0;
    while (k < 16) {
        u32 dx = (u32)((i32)y >> k);
        u32 dy = (u32)((i32)x >> k);
        u32 turn = TURNS[k];
        if ((i32)angle < 0) {
            x = x + dx;
            y = y - dy;
            angle = angle + turn;
        } else {
            x = x - dx;
            y = y + dy;
            angle = angle - turn;
        }
        k = k + 1;
    }
    two results = { x, y };
    return results;
}

void main(u32 p, u32 to, u32 n) {
    while (n) {
        two results = turned(LOAD4(p));
        STORE4(to, results.first);
        STORE4(to + 4, results.second);
        p = p + 4;
        to = to + 8;
        n = n - 1;
    }
}
