#include "words.h"

static const u32 TABLE[16] = {
    0x00000000, 0x1DB71064, 0x3B6E20C8, 0x26D930AC,
    0x76DC4190, 0x6B6B51F4, 0x4DB26158, 0x5005713C,
    0xEDB88320, 0xF00F9344, 0xD6D6A3E8, 0xCB61B38C,
    0x9B64C2B0, 0x86D3D2D4, 0xA00AE278, 0xBDBDF21C,
};

u32 step(u32 crc) {
    return crc >> 4 ^ TABLE[crc & 15];
}

u32 main(u32 p, u32 n) {
    u32 crc = 0xFFFFFFFF;
    while (n) {
        crc = crc ^ LOAD1(p);
        crc = step(crc);
        crc = step(crc);
        p = p + 1;
        n = n - 1;
    }
    return crc ^ 0xFFFFFFFF;
}
