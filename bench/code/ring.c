#include "words.h"

u32 put(u32 ring, u32 item) {
    u32 count = LOAD4(ring);
    u32 lost = count - LOAD4(ring + 4) == 16;
    if (!lost) {
        STORE1(ring + 8 + (count & 15), item);
        STORE4(ring, count + 1);
    }
    return lost;
}

u32 take(u32 ring) {
    u32 item;
    u32 count = LOAD4(ring + 4);
    if (count == LOAD4(ring)) {
        item = 0x80000000;
    } else {
        item = LOAD1(ring + 8 + (count & 15));
        STORE4(ring + 4, count + 1);
    }
    return item;
}

u32 main(u32 ring, u32 turns) {
    STORE4(ring, 0);
    STORE4(ring + 4, 0);
    u32 lost = 0;
    while (turns) {
        u32 got = DEVICE(0x10013004);
        if (!((i32)got < 0)) {
            u32 full = put(ring, got & 255);
            lost = lost + full;
        }
        u32 busy = DEVICE(0x10013000);
        if (!((i32)busy < 0)) {
            u32 item = take(ring);
            if (!((i32)item < 0)) DEVICE(0x10013000) = item;
        }
        turns = turns - 1;
    }
    return lost;
}
