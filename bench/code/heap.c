#include "words.h"

void sift(u32 p, u32 root, u32 n) {
    u32 item = LOAD4(p + (root << 2));
    u32 child = root + root + 1;
    while (child < n) {
        u32 next = child + 1;
        if (next < n) {
            if ((i32)LOAD4(p + (child << 2)) < (i32)LOAD4(p + (next << 2))) child = next;
        }
        u32 larger = LOAD4(p + (child << 2));
        if ((i32)item < (i32)larger) {
            STORE4(p + (root << 2), larger);
            root = child;
            child = root + root + 1;
        } else {
            child = n;
        }
    }
    STORE4(p + (root << 2), item);
}

void main(u32 p, u32 n) {
    u32 root = n >> 1;
    while (root) {
        root = root - 1;
        sift(p, root, n);
    }
    while (1 < n) {
        n = n - 1;
        u32 last = LOAD4(p + (n << 2));
        STORE4(p + (n << 2), LOAD4(p));
        STORE4(p, last);
        sift(p, 0, n);
    }
}
