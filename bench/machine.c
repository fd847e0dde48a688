/* A plain emulator of RV32IM that decodes each word when it comes to it, on the loop of bench_machine:
 * what the machine is measured beside. */
#include <stdint.h>
#include <stdio.h>
#include <stdlib.h>
#include <string.h>
#include <time.h>

static const uint32_t code[] = {
    0x00000293, 0x80100337, 0x004003b7, 0x00532023, 0x00032403, 0x008484b3, 0x00954533, 0x00341593, 0x02940633,
    0x00c302a3, 0x00534683, 0x010000ef, 0x00128293, 0xfc72ece3, 0x00000073, 0x40868733, 0x00008067,
};

struct layout {
    const char *name;
    uint32_t code_base, ram_base, ram_end;
};

static uint8_t *ram;
static uint32_t x[32];

static uint32_t load(uint32_t place, int n) {
    uint32_t v = 0;
    for (int i = 0; i < n; i++) v |= (uint32_t)ram[place + i] << 8 * i;
    return v;
}

static void store(uint32_t place, int n, uint32_t v) {
    for (int i = 0; i < n; i++) ram[place + i] = (uint8_t)(v >> 8 * i);
}

static uint32_t reg(uint32_t f3, uint32_t f7, uint32_t a, uint32_t b) {
    if (f7 == 1) {
        switch (f3) {
        case 0: return a * b;
        case 1: return (uint32_t)((int64_t)(int32_t)a * (int32_t)b >> 32);
        case 2: return (uint32_t)((int64_t)(int32_t)a * (int64_t)b >> 32);
        case 3: return (uint32_t)((uint64_t)a * b >> 32);
        case 4: return !b ? ~0u : a == 1u << 31 && b == ~0u ? a : (uint32_t)((int32_t)a / (int32_t)b);
        case 5: return b ? a / b : ~0u;
        case 6: return !b ? a : a == 1u << 31 && b == ~0u ? 0 : (uint32_t)((int32_t)a % (int32_t)b);
        default: return b ? a % b : a;
        }
    }
    switch (f3) {
    case 0: return f7 ? a - b : a + b;
    case 1: return a << (b & 31);
    case 2: return (int32_t)a < (int32_t)b;
    case 3: return a < b;
    case 4: return a ^ b;
    case 5: return f7 ? (uint32_t)((int32_t)a >> (b & 31)) : a >> (b & 31);
    case 6: return a | b;
    default: return a & b;
    }
}

static int taken(uint32_t f3, uint32_t a, uint32_t b) {
    switch (f3) {
    case 0: return a == b;
    case 1: return a != b;
    case 4: return (int32_t)a < (int32_t)b;
    case 5: return (int32_t)a >= (int32_t)b;
    case 6: return a < b;
    default: return a >= b;
    }
}

/* the steps before the one that ends the loop */
static uint32_t run(const struct layout *l) {
    const uint32_t first = l->code_base - l->ram_base, size = l->ram_end - l->ram_base;
    uint32_t pc = l->code_base, steps = 0;
    for (unsigned i = 0; i < sizeof code / 4; i++) store(first + 4 * i, 4, code[i]);
    memset(x, 0, sizeof x);
    for (;; steps++) {
        if (pc - l->code_base >= sizeof code) return steps;
        uint32_t w = load(pc - l->ram_base, 4), next = pc + 4, v = 0;
        uint32_t rd = w >> 7 & 31, f3 = w >> 12 & 7, f7 = w >> 25, a = x[w >> 15 & 31], b = x[w >> 20 & 31];
        uint32_t imm = (uint32_t)((int32_t)w >> 20), place;
        switch (w & 127) {
        case 0x37: v = w & ~0xfffu; break;
        case 0x17: v = pc + (w & ~0xfffu); break;
        case 0x6f:
            v = next;
            next = pc + ((uint32_t)((int32_t)w >> 31 << 20) | (w & 0xff000) | (w >> 9 & 0x800) | (w >> 20 & 0x7fe));
            if (next & 3) return steps;
            break;
        case 0x67:
            v = next;
            next = (a + imm) & ~1u;
            if (f3 || next & 3) return steps;
            break;
        case 0x63:
            rd = 0;
            if (f3 == 2 || f3 == 3) return steps;
            if (taken(f3, a, b)) {
                next = pc + ((uint32_t)((int32_t)w >> 31 << 12) | (w << 4 & 0x800) | (w >> 20 & 0x7e0) | (w >> 7 & 0x1e));
                if (next & 3) return steps;
            }
            break;
        case 0x03: {
            int n = 1 << (f3 & 3);
            place = a + imm - l->ram_base;
            if ((f3 & 3) == 3 || f3 > 5 || place > size - n) return steps;
            v = load(place, n);
            if (f3 == 0) v = (uint32_t)(int32_t)(int8_t)v;
            if (f3 == 1) v = (uint32_t)(int32_t)(int16_t)v;
            break;
        }
        case 0x23: {
            int n = 1 << f3;
            place = a + ((imm & ~31u) | rd) - l->ram_base;
            if (f3 > 2 || place > size - n || (place < first + sizeof code && place + n > first)) return steps;
            store(place, n, b);
            rd = 0;
            break;
        }
        case 0x13:
            if (f3 == 1 || f3 == 5) {
                if (f7 && (f7 != 0x20 || f3 == 1)) return steps;
                v = reg(f3, f7, a, imm & 31);
            } else
                v = reg(f3, 0, a, imm);
            break;
        case 0x33:
            if (f7 > 1 && (f7 != 0x20 || (f3 && f3 != 5))) return steps;
            v = reg(f3, f7, a, b);
            break;
        default: return steps;
        }
        if (rd) x[rd] = v;
        pc = next;
    }
}

int main(void) {
    const struct layout layouts[] = {
        { "One", 0x80000000u, 0x80000000u, 0x80300000u },
        { "Two", 0x80300000u, 0x80100000u, 0x80700000u },
    };
    for (int i = 0; i < 2; i++) {
        ram = calloc(layouts[i].ram_end - layouts[i].ram_base, 1);
        if (!ram) return 1;
        struct timespec start, end;
        clock_gettime(CLOCK_MONOTONIC, &start);
        uint32_t steps = run(&layouts[i]);
        clock_gettime(CLOCK_MONOTONIC, &end);
        double spent = (double)(end.tv_sec - start.tv_sec) + (double)(end.tv_nsec - start.tv_nsec) / 1e9;
        fprintf(stderr, "C, layout %s: %u steps, %.0f in a second\n", layouts[i].name, steps, steps / spent);
        free(ram);
    }
    return 0;
}
