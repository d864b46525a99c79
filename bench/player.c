/* The script player as an unverified engineer would write it, to compare times with: script on standard input, printout on standard output. */
#include <stdint.h>
#include <stdio.h>
#include <string.h>

typedef struct { int sector; char key; int stage, kind, block; int full; int32_t value; uint8_t address; } session_t;

static uint8_t in[23101], image[4096], first[4096];
static char out[65536];
static const char *DATA[8][4] = {{"AB", "AB", "AB", "AB"}, {"AB", "", "", "AB"}, {"AB", "", "", ""}, {"B", "B", "", ""},
                                 {"AB", "B", "", ""},      {"B", "", "", ""},    {"AB", "B", "B", "AB"}, {"", "", "", ""}};
static const char *PART[8][3] = {{"A", "", "A"}, {"A", "A", "A"}, {"", "", ""}, {"B", "B", "B"}, {"B", "", "B"}, {"", "B", ""}, {"", "", ""}, {"", "", ""}};
static const int SHOWN[8] = {1, 1, 1, 0, 0, 0, 0, 0};

static int sector_of(int b) { return b < 128 ? b / 4 : 32 + (b - 128) / 16; }
static int trailer_of(int s) { return s < 32 ? 4 * s + 3 : 128 + 16 * (s - 32) + 15; }
static int group_of(int b) { return b < 128 ? b % 4 : b % 16 / 5; }

static int bits_of(int sector, int group) {
    const uint8_t *t = image + 16 * trailer_of(sector);
    if ((t[7] >> 4 ^ (t[6] & 15)) != 15 || ((t[8] & 15) ^ t[6] >> 4) != 15 || (t[8] >> 4 ^ (t[7] & 15)) != 15) return -1;
    return (t[7] >> 4 >> group & 1) * 4 + (t[8] >> group & 1) * 2 + (t[8] >> 4 >> group & 1);
}

static int is_value(const uint8_t *b) {
    for (int i = 0; i < 4; i++)
        if (b[i] != b[8 + i] || b[i] != 255 - b[4 + i]) return 0;
    return b[12] == b[14] && b[13] == b[15] && b[12] == 255 - b[13];
}

static int32_t number(const uint8_t *b) { return (int32_t)(b[0] | b[1] << 8 | b[2] << 16 | (uint32_t)b[3] << 24); }

static void encode(uint8_t *b, int32_t v, uint8_t a) {
    for (int i = 0; i < 4; i++) {
        b[i] = b[8 + i] = (uint8_t)((uint32_t)v >> 8 * i);
        b[4 + i] = (uint8_t)~b[i];
    }
    b[12] = b[14] = a;
    b[13] = b[15] = (uint8_t)~a;
}

/* column: 0 read, 1 write, 2 increment, 3 decrement */
static int check(const session_t *s, int size, int b, int column) {
    if (16 * b >= size) return 2;
    int sector = sector_of(b);
    if (s->sector != sector) return 3;
    int n = bits_of(sector, group_of(b));
    if (n < 0) return 5;
    int trailer = group_of(b) == 3;
    if (column && b == 0) return 6;
    if (column > 1 && trailer) return 6;
    int own = bits_of(sector, 3);
    if (s->key == 'B' && SHOWN[own]) return 7;
    if (!trailer) return strchr(DATA[n][column], s->key) ? 0 : 7;
    if (column == 1 && !strchr(PART[own][0], s->key) && !strchr(PART[own][1], s->key) && !strchr(PART[own][2], s->key)) return 7;
    return 0;
}

static int second(session_t *s, int size, const uint8_t *f, int n, char *sign) {
    int b = s->block, r;
    uint8_t *p = image + 16 * b;
    if (s->stage == 1) {
        if (n != 16) return 1;
        if ((r = check(s, size, b, 1))) return r;
        if (group_of(b) == 3) {
            int own = bits_of(sector_of(b), 3);
            if (strchr(PART[own][0], s->key)) memcpy(p, f, 6);
            if (strchr(PART[own][2], s->key)) memcpy(p + 10, f + 10, 6);
            if (strchr(PART[own][1], s->key)) memcpy(p + 6, f + 6, 4);
        } else
            memcpy(p, f, 16);
        *sign = 'A';
    } else {
        if (n != 4) return 1;
        if ((r = check(s, size, b, s->kind == 0xC1 ? 2 : 3))) return r;
        if (!is_value(p)) return 8;
        int64_t v = number(p), o = number(f), sum = s->kind == 0xC1 ? v + o : s->kind == 0xC0 ? v - o : v;
        if (s->kind != 0xC2 && o < 0) return 13;
        if (sum < INT32_MIN || sum > INT32_MAX) return 10;
        s->full = 1, s->value = (int32_t)sum, s->address = p[12];
        *sign = '-';
    }
    s->stage = 0;
    return 0;
}

static int step(session_t *s, int size, const uint8_t *f, int n, char *sign, uint8_t *reply) {
    int r;
    if (s->stage) return second(s, size, f, n, sign);
    *sign = 'A';
    if (n == 8 && (f[0] == 0x60 || f[0] == 0x61)) {
        if (16 * f[1] >= size) return 2;
        int sector = sector_of(f[1]);
        const uint8_t *t = image + 16 * trailer_of(sector);
        if (bits_of(sector, 0) < 0) return 5;
        if (memcmp(f[0] == 0x60 ? t : t + 10, f + 2, 6)) return 4;
        s->sector = sector, s->key = f[0] == 0x60 ? 'A' : 'B', s->full = 0;
        return 0;
    }
    if (n != 2) return 1;
    int b = f[1];
    uint8_t *p = image + 16 * b;
    switch (f[0]) {
    case 0x50:
        if (b) return 1;
        s->sector = -1, s->full = 0, *sign = '-';
        return 0;
    case 0x30:
        if ((r = check(s, size, b, 0))) return r;
        memcpy(reply, p, 16);
        if (group_of(b) == 3) {
            memset(reply, 0, 6);
            if (!SHOWN[bits_of(sector_of(b), 3)]) memset(reply + 10, 0, 6);
        }
        *sign = 'D';
        return 0;
    case 0xA0:
        if ((r = check(s, size, b, 1))) return r;
        s->stage = 1, s->block = b;
        return 0;
    case 0xC0: case 0xC1: case 0xC2:
        if ((r = check(s, size, b, f[0] == 0xC1 ? 2 : 3))) return r;
        if (!is_value(p)) return 8;
        s->stage = 2, s->kind = f[0], s->block = b;
        return 0;
    case 0xB0:
        if ((r = check(s, size, b, 3))) return r;
        if (!s->full) return 9;
        encode(p, s->value, s->address);
        return 0;
    }
    return 1;
}

static int refusal(int len) {
    if (len < 2) return 20;
    int size = in[0] | in[1] << 8;
    if (size != 1024 && size != 4096) return 21;
    if (len < 4 + size) return 20;
    int count = in[2 + size] | in[3 + size] << 8, at = 4 + size;
    if (count > 1000) return 22;
    for (int i = 0; i < count; i++) {
        if (at >= len) return 20;
        if (in[at] > 18) return 23;
        if (at + 1 + in[at] > len) return 20;
        at += 1 + in[at];
    }
    return at < len ? 24 : 0;
}

static char *hex(char *to, const uint8_t *b) {
    for (int i = 0; i < 16; i++) *to++ = "0123456789ABCDEF"[b[i] >> 4], *to++ = "0123456789ABCDEF"[b[i] & 15];
    return to;
}

static char *decimal(char *to, int n) {
    char d[8];
    int k = 0;
    do d[k++] = (char)('0' + n % 10); while (n /= 10);
    while (k) *to++ = d[--k];
    return to;
}

int main(void) {
    int len = (int)fread(in, 1, sizeof in, stdin), r = refusal(len);
    if (r) return printf("script %d\n", r), 0;
    int size = in[0] | in[1] << 8, count = in[2 + size] | in[3 + size] << 8, at = 4 + size;
    memcpy(image, in + 2, (size_t)size), memcpy(first, in + 2, (size_t)size);
    session_t s = {.sector = -1};
    char *to = out + sprintf(out, "card %d events %d\n", size, count);
    for (int i = 1; i <= count; i++, at += 1 + in[at]) {
        char sign = '-';
        uint8_t reply[16];
        int n = 0;
        if (in[at] == 0)
            s = (session_t){.sector = -1};
        else if ((n = step(&s, size, in + at + 1, in[at], &sign, reply))) {
            s = (session_t){.sector = -1};
            sign = n == 1 || n == 4 ? '-' : 'N';
        }
        to = decimal(to, i), *to++ = ' ', to = decimal(to, n), *to++ = ' ';
        if (sign == 'D') to = hex(to, reply); else *to++ = sign;
        *to++ = '\n';
    }
    for (int b = 0; b < size / 16; b++)
        if (memcmp(image + 16 * b, first + 16 * b, 16)) {
            memcpy(to, "block ", 6), to = decimal(to + 6, b), *to++ = ' ';
            to = hex(to, image + 16 * b), *to++ = '\n';
        }
    fwrite(out, 1, (size_t)(to - out), stdout);
    return 0;
}
