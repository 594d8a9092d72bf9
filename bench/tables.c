// Takes turns of 128-EEA2 or of 128-EIA2 over a text by plain C, with the words and the output of the
// program cipher_bench: AES by four tables of 256 words, the last round by the S-box, CMAC block by block.
// The tables are made once at the start. Each turn takes the key anew.
#include <stdint.h>
#include <stdio.h>
#include <stdlib.h>
#include <string.h>

static const uint8_t key[] = "sixteen octets k";
static uint8_t s_box[256];
static uint32_t table[4][256];

static uint8_t product(uint8_t a, uint8_t b) {
    uint8_t sum = 0;
    for (; b; b >>= 1, a = a << 1 ^ (a >> 7) * 0x1b)
        if (b & 1)
            sum ^= a;
    return sum;
}

static void make_tables(void) {
    for (int x = 0; x < 256; x++) {
        uint8_t b = 0, s = 0x63;
        for (int y = 1; y < 256; y++)
            if (product(x, y) == 1)
                b = y;
        for (int i = 0; i < 5; i++)
            s ^= b << i | b >> (8 - i);
        uint32_t word = (uint32_t)product(2, s) << 24 | s << 16 | s << 8 | product(3, s);
        s_box[x] = s;
        for (int r = 0; r < 4; r++)
            table[r][x] = r ? word >> 8 * r | word << (32 - 8 * r) : word;
    }
}

static uint32_t word_at(const uint8_t *octets) {
    return (uint32_t)octets[0] << 24 | octets[1] << 16 | octets[2] << 8 | octets[3];
}

static void put_word(uint8_t *octets, uint32_t word) {
    for (int i = 0; i < 4; i++)
        octets[i] = word >> (24 - 8 * i);
}

static uint32_t substituted(uint32_t a, uint32_t b, uint32_t c, uint32_t d) {
    return (uint32_t)s_box[a >> 24] << 24 | s_box[b >> 16 & 255] << 16 | s_box[c >> 8 & 255] << 8 | s_box[d & 255];
}

static void expand_key(uint32_t words[44]) {
    uint8_t power = 1;
    for (int i = 0; i < 4; i++)
        words[i] = word_at(key + 4 * i);
    for (int i = 4; i < 44; i++) {
        uint32_t mask = words[i - 1];
        if (i % 4 == 0) {
            uint32_t turned = mask << 8 | mask >> 24;
            mask = substituted(turned, turned, turned, turned) ^ (uint32_t)power << 24;
            power = power << 1 ^ (power >> 7) * 0x1b;
        }
        words[i] = words[i - 4] ^ mask;
    }
}

static uint32_t mixed(uint32_t a, uint32_t b, uint32_t c, uint32_t d) {
    return table[0][a >> 24] ^ table[1][b >> 16 & 255] ^ table[2][c >> 8 & 255] ^ table[3][d & 255];
}

__attribute__((noinline)) static void encrypt(const uint32_t words[44], const uint8_t from[16], uint8_t to[16]) {
    uint32_t a = word_at(from) ^ words[0], b = word_at(from + 4) ^ words[1];
    uint32_t c = word_at(from + 8) ^ words[2], d = word_at(from + 12) ^ words[3];
    for (int round = 1; round < 10; round++) {
        uint32_t e = mixed(a, b, c, d) ^ words[4 * round], f = mixed(b, c, d, a) ^ words[4 * round + 1];
        uint32_t g = mixed(c, d, a, b) ^ words[4 * round + 2], h = mixed(d, a, b, c) ^ words[4 * round + 3];
        a = e, b = f, c = g, d = h;
    }
    put_word(to, substituted(a, b, c, d) ^ words[40]);
    put_word(to + 4, substituted(b, c, d, a) ^ words[41]);
    put_word(to + 8, substituted(c, d, a, b) ^ words[42]);
    put_word(to + 12, substituted(d, a, b, c) ^ words[43]);
}

// COUNT, BEARER 3, DIRECTION 1 and zeros (TS 33.401 B.1.3 and B.2.3).
static void put_header(uint8_t header[16], unsigned count) {
    memset(header, 0, 16);
    put_word(header, count);
    header[4] = 3 << 3 | 1 << 2;
}

static void double_block(uint8_t block[16]) {
    uint8_t high = block[0] >> 7;
    for (int i = 0; i < 16; i++)
        block[i] = block[i] << 1 | (i < 15 ? block[i + 1] >> 7 : 0);
    block[15] ^= high * 0x87;
}

static unsigned code_of(const uint8_t *text, size_t octets, unsigned count) {
    uint32_t words[44];
    uint8_t header[16], subkey[16] = {0}, mixed[16] = {0};
    expand_key(words);
    put_header(header, count);
    size_t filled = 8;
    memcpy(mixed, header, 8);
    while (octets) {
        if (filled == 16) {
            encrypt(words, mixed, mixed);
            filled = 0;
        }
        size_t taken = octets < 16 - filled ? octets : 16 - filled;
        if (taken == 16)
            for (int i = 0; i < 16; i++)
                mixed[i] ^= text[i];
        else
            for (size_t i = 0; i < taken; i++)
                mixed[filled + i] ^= text[i];
        filled += taken, text += taken, octets -= taken;
    }
    encrypt(words, subkey, subkey);
    double_block(subkey);
    if (filled < 16) {
        double_block(subkey);
        mixed[filled] ^= 0x80;
    }
    for (int i = 0; i < 16; i++)
        mixed[i] ^= subkey[i];
    encrypt(words, mixed, mixed);
    return word_at(mixed);
}

static unsigned code_turns(const uint8_t *text, size_t octets, unsigned turns) {
    unsigned sum = 0;
    for (unsigned count = 0; count < turns; count++)
        sum ^= code_of(text, octets, count);
    return sum;
}

static unsigned cipher_turns(uint8_t *text, size_t octets, unsigned turns) {
    for (unsigned count = 0; count < turns; count++) {
        uint32_t words[44];
        uint8_t counter[16], stream[16];
        expand_key(words);
        put_header(counter, count);
        for (size_t place = 0; place < octets; place += 16) {
            put_word(counter + 12, place / 16);
            encrypt(words, counter, stream);
            size_t taken = octets - place < 16 ? octets - place : 16;
            if (taken == 16)
                for (int i = 0; i < 16; i++)
                    text[place + i] ^= stream[i];
            else
                for (size_t i = 0; i < taken; i++)
                    text[place + i] ^= stream[i];
        }
    }
    return code_turns(text, octets, 1);
}

int main(int count, char **words) {
    static uint8_t text[1536];
    if (count != 4)
        return 1;
    size_t octets = strtoul(words[2], NULL, 10);
    unsigned turns = strtoul(words[3], NULL, 10);
    if (octets > sizeof text)
        return 1;
    make_tables();
    int ciphers = strcmp(words[1], "eea2") == 0;
    printf("%08x\n", ciphers ? cipher_turns(text, octets, turns) : code_turns(text, octets, turns));
    return 0;
}
