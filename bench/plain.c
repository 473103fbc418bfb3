/* A plain interpreter in C for the loop of bench/loop.s, to compare speeds with. It takes the image's file and a number of
   steps, plays them from reset, and prints the sum of the registers, so that no step is left out. */
#include <stdint.h>
#include <stdio.h>
#include <stdlib.h>
#include <string.h>

static uint8_t rom[0x400000], secure[0x1A000], ns_ram[0x20000], ns_rom[0x40000];
static uint32_t r[16], limit;
static int n_flag, z_flag, c_flag, v_flag;

static void stop(const char *why) { fprintf(stderr, "stopped %s at %08x\n", why, r[15]); exit(1); }

static uint8_t *place(uint32_t a, uint32_t size, int write)
{
    if (a & (size - 1)) stop("Unaligned");
    if (a - 0x30000000u < sizeof secure && a - 0x30000000u + size <= sizeof secure) return secure + (a - 0x30000000u);
    if (a - 0x20000000u < sizeof ns_ram && a - 0x20000000u + size <= sizeof ns_ram) return ns_ram + (a - 0x20000000u);
    if (!write && a - 0x10000000u < sizeof rom && a - 0x10000000u + size <= sizeof rom) return rom + (a - 0x10000000u);
    if (!write && a < sizeof ns_rom && a + size <= sizeof ns_rom) return ns_rom + a;
    stop("Unmapped");
    return 0;
}
static uint32_t load(uint32_t a, uint32_t size)
{
    uint8_t *p = place(a, size, 0);
    uint32_t x = p[0];
    if (size > 1) x |= (uint32_t)p[1] << 8;
    if (size > 2) x |= (uint32_t)p[2] << 16 | (uint32_t)p[3] << 24;
    return x;
}
static void store(uint32_t a, uint32_t size, uint32_t x)
{
    uint8_t *p = place(a, size, 1);
    p[0] = x;
    if (size > 1) p[1] = x >> 8;
    if (size > 2) { p[2] = x >> 16; p[3] = x >> 24; }
}
static uint32_t half(uint32_t a)
{
    uint32_t at = a - 0x10000000u;
    if (at + 2 > sizeof rom) stop("BadState");
    return rom[at] | (uint32_t)rom[at + 1] << 8;
}
static void set_sp(uint32_t x) { x &= ~3u; if (x < limit) stop("StackLimit"); r[13] = x; }
static int holds(uint32_t c)
{
    int yes;
    switch (c >> 1) {
    case 0: yes = z_flag; break;
    case 1: yes = c_flag; break;
    case 2: yes = n_flag; break;
    case 3: yes = v_flag; break;
    case 4: yes = c_flag && !z_flag; break;
    case 5: yes = n_flag == v_flag; break;
    default: yes = n_flag == v_flag && !z_flag; break;
    }
    return (c & 1) ? !yes : yes;
}
static uint32_t extend(uint32_t x, int bits) { uint32_t s = 1u << (bits - 1); return (x ^ s) - s; }
static uint32_t tt(uint32_t a)
{
    if (a < 0x40000) return 0x00940000u;
    if (a - 0x20000000u < 0x20000) return 0x01BC0000u;
    if (a - 0x10000000u < 0x3FF000) return 0x02C40000u;
    if (a - 0x103FF000u < 0x1000) return 0x03C40000u;
    if (a - 0x30000000u < 0x10000) return 0x04CC0000u;
    if (a - 0x30010000u < 0xA000) return 0x05CC0000u;
    return 0;
}
static void step(void)
{
    uint32_t pc = r[15], h = half(pc);
    if (h < 0xE800) {
        r[15] = pc + 2;
        if (h == 0xBF00) return;
        if (h >> 8 == 0x46) {
            uint32_t d = (h & 7) | (h >> 4 & 8), x = r[h >> 3 & 15];
            if (d == 13) set_sp(x); else r[d] = x;
            return;
        }
        if ((h & 0xFF87) == 0x4700) {
            uint32_t x = r[h >> 3 & 15];
            if (!(x & 1)) stop("BadState");
            r[15] = x & ~1u;
            return;
        }
        stop("Undefined");
    }
    uint32_t k = half(pc + 2), n = h & 15, d = k >> 8 & 15, t = k >> 12, m = k & 15;
    uint32_t i12 = (h >> 10 & 1) << 11 | (k >> 12 & 7) << 8 | (k & 255);
    r[15] = pc + 4;
    switch (h >> 4) {
    case 0xEA0: r[d] = r[n] & r[m]; return;
    case 0xEA2: r[d] = r[n] & ~r[m]; return;
    case 0xEA4: r[d] = r[n] | r[m]; return;
    case 0xEA6: r[d] = ~r[m]; return;
    case 0xEA8: r[d] = r[n] ^ r[m]; return;
    case 0xEB0: r[d] = r[n] + r[m]; return;
    case 0xEBA: r[d] = r[n] - r[m]; return;
    case 0xEBC: r[d] = r[m] - r[n]; return;
    case 0xEBB: {
        uint32_t x = r[n], y = r[m], z = x - y;
        n_flag = z >> 31; z_flag = z == 0; c_flag = x >= y; v_flag = ((x ^ y) & (x ^ z)) >> 31;
        return;
    }
    case 0xFA0: if (k & 0x80) { r[d] = (uint32_t)(int32_t)(int16_t)r[m]; return; } { uint32_t s = r[m] & 255; r[d] = s > 31 ? 0 : r[n] << s; } return;
    case 0xFA1: r[d] = r[m] & 0xFFFF; return;
    case 0xFA2: { uint32_t s = r[m] & 255; r[d] = s > 31 ? 0 : r[n] >> s; } return;
    case 0xFA4: if (k & 0x80) { r[d] = (uint32_t)(int32_t)(int8_t)r[m]; return; } { uint32_t s = r[m] & 255; r[d] = (uint32_t)((int32_t)r[n] >> (s > 31 ? 31 : s)); } return;
    case 0xFA5: r[d] = r[m] & 0xFF; return;
    case 0xFB0: if (k & 0x10) r[d] = r[t] - r[n] * r[m]; else r[d] = r[n] * r[m]; return;
    case 0xFB9: { int32_t y = (int32_t)r[m]; r[d] = y == 0 ? 0 : y == -1 ? 0u - r[n] : (uint32_t)((int32_t)r[n] / y); } return;
    case 0xFBB: r[d] = r[m] == 0 ? 0 : r[n] / r[m]; return;
    case 0xF8D: r[t] = load(r[n] + (k & 0xFFF), 4); return;
    case 0xF89: r[t] = load(r[n] + (k & 0xFFF), 1); return;
    case 0xF8B: r[t] = load(r[n] + (k & 0xFFF), 2); return;
    case 0xF99: r[t] = extend(load(r[n] + (k & 0xFFF), 1), 8); return;
    case 0xF9B: r[t] = extend(load(r[n] + (k & 0xFFF), 2), 16); return;
    case 0xF8C: store(r[n] + (k & 0xFFF), 4, r[t]); return;
    case 0xF88: store(r[n] + (k & 0xFFF), 1, r[t]); return;
    case 0xF8A: store(r[n] + (k & 0xFFF), 2, r[t]); return;
    case 0xE84: r[d] = tt(r[n]); return;
    case 0xE92: {
        uint32_t a = r[13] - 4u * (uint32_t)__builtin_popcount(k);
        uint32_t low = a;
        if (a < limit) stop("StackLimit");
        for (int j = 0; j < 15; j++) if (k >> j & 1) { store(a, 4, r[j]); a += 4; }
        r[13] = low;
        return;
    }
    case 0xE8B: {
        uint32_t a = r[13];
        for (int j = 0; j < 15; j++) if (k >> j & 1) { r[j] = load(a, 4); a += 4; }
        set_sp(a);
        return;
    }
    }
    if ((h & 0xFBF0) == 0xF240) { r[d] = (h & 15) << 12 | i12; return; }
    if ((h & 0xFBF0) == 0xF2C0) { r[d] = (r[d] & 0xFFFF) | ((h & 15) << 12 | i12) << 16; return; }
    if ((h & 0xFBF0) == 0xF200) { uint32_t x = r[n] + i12; if (d == 13) set_sp(x); else r[d] = x; return; }
    if ((h & 0xFBF0) == 0xF2A0) { uint32_t x = r[n] - i12; if (d == 13) set_sp(x); else r[d] = x; return; }
    if ((h & 0xF800) == 0xF000 && (k & 0x8000)) {
        uint32_t s = h >> 10 & 1, j1 = k >> 13 & 1, j2 = k >> 11 & 1;
        if (k & 0x1000) {
            uint32_t off = s << 24 | (j1 ^ s ^ 1) << 23 | (j2 ^ s ^ 1) << 22 | (h & 0x3FF) << 12 | (k & 0x7FF) << 1;
            if (k & 0x4000) r[14] = (pc + 4) | 1;
            r[15] = pc + 4 + extend(off, 25);
            return;
        }
        if ((h >> 6 & 14) != 14) {
            uint32_t off = s << 20 | j2 << 19 | j1 << 18 | (h & 63) << 12 | (k & 0x7FF) << 1;
            if (holds(h >> 6 & 15)) r[15] = pc + 4 + extend(off, 21);
            return;
        }
        if (h == 0xF3EF) {
            r[d] = (uint32_t)n_flag << 31 | (uint32_t)z_flag << 30 | (uint32_t)c_flag << 29 | (uint32_t)v_flag << 28;
            return;
        }
        if ((h & 0xFFF0) == 0xF380) {
            uint32_t x = r[n];
            n_flag = x >> 31; z_flag = x >> 30 & 1; c_flag = x >> 29 & 1; v_flag = x >> 28 & 1;
            return;
        }
    }
    stop("Undefined");
}
static uint32_t word(const uint8_t *p) { return p[0] | (uint32_t)p[1] << 8 | (uint32_t)p[2] << 16 | (uint32_t)p[3] << 24; }

int main(int argc, char **argv)
{
    static uint8_t file[1 << 23];
    FILE *f = argc == 3 ? fopen(argv[1], "rb") : 0;
    size_t size = f ? fread(file, 1, sizeof file, f) : 0;
    if (size < 52) return 2;
    for (uint32_t i = 0, at = word(file + 28); i < file[44]; i++, at += 32)
        if (word(file + at) == 1) memcpy(rom + (word(file + at + 12) - 0x10000000u), file + word(file + at + 4), word(file + at + 16));
    r[13] = word(rom);
    r[15] = word(rom + 4) & ~1u;
    for (unsigned long n = strtoul(argv[2], 0, 10); n > 0; n--) step();
    uint32_t sum = 0;
    for (int i = 0; i < 15; i++) sum += r[i];
    printf("%08x\n", sum);
    return 0;
}
