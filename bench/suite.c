// Takes turns of 128-EEA1, 128-EIA1, 128-EEA3 or 128-EIA3 over a text in plain C, with the words and the output of the
// program cipher_bench. SNOW 3G and ZUC are by words and tables with the register in a ring, as most C code has them; the
// tables are made at the start. 128-EIA1 multiplies by rows of four bits, 128-EIA3 adds a window for each bit.
#include <stdint.h>
#include <stdio.h>
#include <stdlib.h>
#include <string.h>

typedef uint8_t u8;
typedef uint32_t u32;
typedef uint64_t u64;

static const u8 key[17] = "sixteen octets k";
static const u32 bearer = 3, direction = 1;

static u32 load(const u8 *o) { return (u32)o[0] << 24 | (u32)o[1] << 16 | (u32)o[2] << 8 | o[3]; }
static void store(u8 *o, u32 w) { o[0] = w >> 24, o[1] = w >> 16, o[2] = w >> 8, o[3] = w; }
static u32 left(u32 w, int n) { return w << n | w >> (32 - n); }

// ---- tables

static u32 s1_words[4][256], s2_words[4][256], mul_alpha[256], div_alpha[256];
static u8 s0[256], s1[256];

static unsigned times(unsigned a, unsigned b, unsigned modulus) {
    unsigned product = 0;
    for (int i = 0; i < 8; i++)
        product ^= (b >> i & 1) * (a << i);
    for (int i = 6; i >= 0; i--)
        product ^= (product >> (8 + i) & 1) * (modulus << i);
    return product;
}

static unsigned power(unsigned a, int n, unsigned modulus) {
    unsigned product = 1;
    while (n--)
        product = times(product, a, modulus);
    return product;
}

static void put_box(u32 words[4][256], unsigned x, unsigned s, unsigned modulus) {
    unsigned twice = times(2, s, modulus);
    words[0][x] = twice << 24 | (twice ^ s) << 16 | s << 8 | s;
    for (int i = 1; i < 4; i++)
        words[i][x] = left(words[i - 1][x], 24);
}

static void make_tables(void) {
    static const int sq[] = {1, 9, 13, 15, 33, 41, 45, 47, 49};
    static const int mul[] = {23, 245, 48, 239}, div[] = {16, 39, 6, 64};
    static const u8 p1[] = {9, 15, 0, 14, 15, 15, 2, 10, 0, 4, 0, 12, 7, 5, 3, 9};
    static const u8 p2[] = {8, 13, 6, 5, 7, 0, 12, 4, 11, 1, 14, 10, 15, 3, 9, 2};
    static const u8 p3[] = {2, 6, 10, 6, 0, 13, 10, 15, 3, 3, 13, 5, 0, 9, 12, 13};
    static const u8 rows[] = {0xed, 0xdb, 0xb7, 0x7e, 0xe3, 0xd6, 0xbc, 0x79};
    for (unsigned x = 0; x < 256; x++) {
        unsigned inverse = power(x, 254, 0x11b), s = 0, t = 0x25, z = 0;
        for (int i = 0; i < 8; i++)
            s |= ((inverse >> i ^ inverse >> (i + 4) % 8 ^ inverse >> (i + 5) % 8 ^ inverse >> (i + 6) % 8
                   ^ inverse >> (i + 7) % 8 ^ 0x63 >> i) & 1) << i;
        for (int i = 0; i < 9; i++)
            t ^= power(x, sq[i], 0x169);
        put_box(s1_words, x, s, 0x11b);
        put_box(s2_words, x, t, 0x169);
        for (int i = 0; i < 4; i++) {
            mul_alpha[x] = mul_alpha[x] << 8 | times(power(2, mul[i], 0x1a9), x, 0x1a9);
            div_alpha[x] = div_alpha[x] << 8 | times(power(2, div[i], 0x1a9), x, 0x1a9);
        }
        unsigned q = x / 16 ^ p1[x % 16], r = x % 16 ^ p2[q], y = (q ^ p3[r]) * 16 + r;
        s0[x] = y << 5 | y >> 3;
        for (int i = 0; i < 8; i++)
            z |= (__builtin_popcount(power(x, 254, 0x18b) & rows[i]) + (0x55 >> i)) % 2 << i;
        s1[x] = z;
    }
}

// ---- SNOW 3G

struct snow { u32 s[16], r1, r2, r3; unsigned at; };

static u32 box(u32 t[4][256], u32 w) { return t[0][w >> 24] ^ t[1][w >> 16 & 255] ^ t[2][w >> 8 & 255] ^ t[3][w & 255]; }

static u32 snow_word(const struct snow *g) { return (g->s[(g->at + 15) % 16] + g->r1) ^ g->r2; }

static void snow_clock(struct snow *g, u32 more) {
    u32 first = g->s[g->at], eleventh = g->s[(g->at + 11) % 16], r = g->r2 + (g->r3 ^ g->s[(g->at + 5) % 16]);
    u32 fed = first << 8 ^ mul_alpha[first >> 24] ^ g->s[(g->at + 2) % 16] ^ eleventh >> 8 ^ div_alpha[eleventh & 255] ^ more;
    g->r3 = box(s2_words, g->r2), g->r2 = box(s1_words, g->r1), g->r1 = r;
    g->s[g->at] = fed, g->at = (g->at + 1) % 16;
}

static void snow_start(struct snow *g, const u32 iv[4]) {
    u32 k[4];
    for (int i = 0; i < 4; i++) {
        k[i] = load(key + 12 - 4 * i);
        g->s[i] = g->s[8 + i] = ~k[i], g->s[4 + i] = g->s[12 + i] = k[i];
    }
    g->s[9] ^= iv[3], g->s[10] ^= iv[2], g->s[12] ^= iv[1], g->s[15] ^= iv[0];
    g->r1 = g->r2 = g->r3 = g->at = 0;
    for (int i = 0; i < 32; i++)
        snow_clock(g, snow_word(g));
    snow_clock(g, 0);
}

static u32 snow_next(struct snow *g) {
    u32 z = snow_word(g) ^ g->s[g->at];
    snow_clock(g, 0);
    return z;
}

// ---- ZUC

struct zuc { u32 s[16], r1, r2; unsigned at; };

static u32 halves(u32 high, u32 low) { return (high >> 15 & 0xffff) << 16 | (low & 0xffff); }

static u32 stage(const struct zuc *g, unsigned i) { return g->s[(g->at + i) % 16]; }

static u32 boxes(u32 w) { return (u32)s0[w >> 24] << 24 | (u32)s1[w >> 16 & 255] << 16 | (u32)s0[w >> 8 & 255] << 8 | s1[w & 255]; }

static u32 zuc_word(const struct zuc *g) { return (halves(stage(g, 15), stage(g, 14)) ^ g->r1) + g->r2; }

static void zuc_clock(struct zuc *g, u32 u) {
    u32 w1 = g->r1 + left(halves(stage(g, 9), stage(g, 11)), 16), w2 = g->r2 ^ left(halves(stage(g, 5), stage(g, 7)), 16);
    u64 sum = ((u64)stage(g, 15) << 15) + ((u64)stage(g, 13) << 17) + ((u64)stage(g, 10) << 21) + ((u64)stage(g, 4) << 20)
        + ((u64)stage(g, 0) << 8) + stage(g, 0) + u;
    u32 a = w1 << 16 | w2 >> 16, b = w2 << 16 | w1 >> 16;
    sum = (sum & 0x7fffffff) + (sum >> 31);
    sum = (sum & 0x7fffffff) + (sum >> 31);
    g->r1 = boxes(a ^ left(a, 2) ^ left(a, 10) ^ left(a, 18) ^ left(a, 24));
    g->r2 = boxes(b ^ left(b, 8) ^ left(b, 14) ^ left(b, 22) ^ left(b, 30));
    g->s[g->at] = sum ? sum : 0x7fffffff, g->at = (g->at + 1) % 16;
}

static void zuc_start(struct zuc *g, const u8 iv[16]) {
    static const u32 d[] = {0x44d7, 0x26bc, 0x626b, 0x135e, 0x5789, 0x35e2, 0x7135, 0x09af, 0x4d78, 0x2f13, 0x6bc4, 0x1af1, 0x5e26, 0x3c4d, 0x789a, 0x47ac};
    for (int i = 0; i < 16; i++)
        g->s[i] = (u32)key[i] << 23 | d[i] << 8 | iv[i];
    g->r1 = g->r2 = g->at = 0;
    for (int i = 0; i < 32; i++)
        zuc_clock(g, zuc_word(g) >> 1);
    zuc_clock(g, 0);
}

static u32 zuc_next(struct zuc *g) {
    u32 z = zuc_word(g) ^ left(halves(stage(g, 0), stage(g, 2)), 16);
    zuc_clock(g, 0);
    return z;
}

// ---- the algorithms

static void combine(u8 *text, size_t place, size_t octets, u32 z) {
    u8 stream[4];
    if (place + 4 <= octets) {
        store(text + place, load(text + place) ^ z);
        return;
    }
    store(stream, z);
    for (size_t i = place; i < octets; i++)
        text[i] ^= stream[i - place];
}

static void eea1(u32 count, u8 *text, size_t octets) {
    u32 word = bearer << 27 | direction << 26, iv[] = {word, count, word, count};
    struct snow g;
    snow_start(&g, iv);
    for (size_t i = 0; i < octets; i += 4)
        combine(text, i, octets, snow_next(&g));
}

static void eea3(u32 count, u8 *text, size_t octets) {
    u8 iv[16] = {0};
    struct zuc g;
    store(iv, count), store(iv + 8, count), iv[4] = iv[12] = bearer << 3 | direction << 2;
    zuc_start(&g, iv);
    for (size_t i = 0; i < octets; i += 4)
        combine(text, i, octets, zuc_next(&g));
}

static u64 times_x(u64 v) { return v << 1 ^ (v >> 63) * 0x1b; }

static u64 block(const u8 *text, size_t octets, size_t width) {
    u8 whole[8] = {0};
    memcpy(whole, text, octets < width ? octets : width);
    return (u64)load(whole) << 32 | load(whole + 4);
}

static u32 eia1(u32 count, const u8 *text, size_t octets) {
    u32 fresh = bearer << 27, iv[] = {fresh ^ direction << 15, count ^ direction << 31, fresh, count}, z[5];
    struct snow g;
    u64 rows[16][16], value = 0, closed = 0, p, q;
    snow_start(&g, iv);
    for (int i = 0; i < 5; i++)
        z[i] = snow_next(&g);
    p = (u64)z[0] << 32 | z[1], q = (u64)z[2] << 32 | z[3];
    for (int j = 0; j < 16; j++) {
        rows[j][0] = 0;
        for (int b = 1; b < 16; b *= 2, p = times_x(p))
            for (int n = 0; n < b; n++)
                rows[j][b + n] = rows[j][n] ^ p;
    }
    for (size_t i = 0; i < octets; i += 8) {
        u64 sum = 0;
        value ^= block(text + i, octets - i, 8);
        for (int j = 0; j < 16; j++)
            sum ^= rows[j][value >> 4 * j & 15];
        value = sum;
    }
    value ^= (u64)octets * 8;
    for (int i = 0; i < 64; i++, value = times_x(value))
        closed ^= (q >> i & 1) * value;
    return (u32)(closed >> 32) ^ z[4];
}

static u32 eia3(u32 count, const u8 *text, size_t octets) {
    u8 iv[16] = {0};
    struct zuc g;
    u32 sum = 0;
    store(iv, count), iv[4] = iv[12] = bearer << 3;
    store(iv + 8, count ^ direction << 31), iv[14] = direction << 7;
    zuc_start(&g, iv);
    u64 pair = zuc_next(&g);
    pair = pair << 32 | zuc_next(&g);
    for (size_t i = 0; i < octets; i += 4) {
        u32 m = block(text + i, octets - i, 4) >> 32;
        size_t bits = octets - i < 4 ? 8 * (octets - i) : 32;
        for (int k = 0; k < 32; k++)
            sum ^= (m >> (31 - k) & 1) * (u32)(pair >> (32 - k));
        if (bits < 32) {
            sum ^= (u32)(pair >> (32 - bits));
            return sum ^ zuc_next(&g);
        }
        pair = pair << 32 | zuc_next(&g);
    }
    return sum ^ (u32)(pair >> 32) ^ (u32)pair;
}

int main(int count, char **words) {
    static u8 text[1536];
    if (count != 4)
        return 1;
    size_t octets = strtoul(words[2], NULL, 10);
    unsigned turns = strtoul(words[3], NULL, 10), sum = 0;
    if (octets > sizeof text)
        return 1;
    make_tables();
    for (unsigned turn = 0; turn < turns; turn++) {
        if (!strcmp(words[1], "eea1"))
            eea1(turn, text, octets);
        else if (!strcmp(words[1], "eea3"))
            eea3(turn, text, octets);
        else
            sum ^= !strcmp(words[1], "eia1") ? eia1(turn, text, octets) : eia3(turn, text, octets);
    }
    if (words[1][1] == 'e')
        sum = words[1][3] == '1' ? eia1(0, text, octets) : eia3(0, text, octets);
    printf("%08x\n", sum);
    return 0;
}
