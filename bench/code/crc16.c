#include "words.h"

u32 crc16(u32 p, u32 n) {
    u32 crc = 0xFFFF;
    while (n) {
        crc = crc ^ LOAD1(p) << 8;
        u32 bits = 8;
        while (bits) {
            crc = crc << 1;
            if (crc & 0x10000) crc = crc ^ 0x11021;
            bits = bits - 1;
        }
        p = p + 1;
        n = n - 1;
    }
    return crc;
}

u32 main(u32 p, u32 n) {
    return crc16(p, n);
}
