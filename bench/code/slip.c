#include "words.h"

two main(u32 from, u32 n, u32 to) {
    u32 frames = 0;
    u32 bad = 0;
    u32 escaped = 0;
    u32 length = 0;
    while (n) {
        u32 byte = LOAD1(from);
        if (byte == 192) {
            if (length) {
                DEVICE(0x1001200C) = length;
                frames = frames + 1;
                length = 0;
            }
        } else if (byte == 219) {
            escaped = 1;
        } else {
            if (escaped) {
                escaped = 0;
                if (byte == 220) {
                    byte = 192;
                } else if (byte == 221) {
                    byte = 219;
                } else {
                    bad = bad + 1;
                }
            }
            STORE1(to, byte);
            to = to + 1;
            length = length + 1;
        }
        from = from + 1;
        n = n - 1;
    }
    two results = { frames, bad };
    return results;
}
