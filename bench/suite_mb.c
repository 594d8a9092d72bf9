// Takes turns of 128-EEA1, 128-EIA1, 128-EEA3 or 128-EIA3 over a text by libipsec-mb, one buffer a call, with the words and the
// output of the program cipher_bench. Each turn takes the key anew.
#include <intel-ipsec-mb.h>
#include <stdint.h>
#include <stdio.h>
#include <stdlib.h>
#include <string.h>

typedef uint8_t u8;
typedef uint32_t u32;

static const u8 key[17] = "sixteen octets k";
static const u32 bearer = 3, direction = 1;
static IMB_MGR *manager;

static void store(u8 *o, u32 w) { o[0] = w >> 24, o[1] = w >> 16, o[2] = w >> 8, o[3] = w; }

static u32 code(const char *algorithm, u32 count, const u8 *text, size_t octets) {
    u8 iv[16] = {0}, mac[4];
    if (algorithm[3] == '1') {
        snow3g_key_schedule_t schedule;
        IMB_SNOW3G_INIT_KEY_SCHED(manager, key, &schedule);
        store(iv, count), store(iv + 4, bearer << 27);
        store(iv + 8, count ^ direction << 31), store(iv + 12, bearer << 27 ^ direction << 15);
        IMB_SNOW3G_F9_1_BUFFER(manager, &schedule, iv, text, octets * 8, mac);
    } else {
        store(iv, count), iv[4] = iv[12] = bearer << 3;
        store(iv + 8, count ^ direction << 31), iv[14] = direction << 7;
        IMB_ZUC_EIA3_1_BUFFER(manager, key, iv, text, octets * 8, (u32 *)mac);
    }
    return (u32)mac[0] << 24 | mac[1] << 16 | mac[2] << 8 | mac[3];
}

static void cipher(const char *algorithm, u32 count, u8 *text, size_t octets) {
    u8 iv[16] = {0};
    u32 word = bearer << 27 | direction << 26;
    if (algorithm[3] == '1') {
        snow3g_key_schedule_t schedule;
        IMB_SNOW3G_INIT_KEY_SCHED(manager, key, &schedule);
        store(iv, count), store(iv + 4, word), store(iv + 8, count), store(iv + 12, word);
        IMB_SNOW3G_F8_1_BUFFER(manager, &schedule, iv, text, text, octets);
    } else {
        store(iv, count), store(iv + 4, word), store(iv + 8, count), store(iv + 12, word);
        IMB_ZUC_EEA3_1_BUFFER(manager, key, iv, text, text, octets);
    }
}

int main(int count, char **words) {
    static u8 text[1536];
    if (count != 4)
        return 1;
    size_t octets = strtoul(words[2], NULL, 10);
    unsigned turns = strtoul(words[3], NULL, 10), sum = 0;
    if (octets > sizeof text || !(manager = alloc_mb_mgr(0)))
        return 1;
    init_mb_mgr_auto(manager, NULL);
    int ciphers = words[1][1] == 'e';
    for (unsigned turn = 0; turn < turns; turn++) {
        if (ciphers)
            cipher(words[1], turn, text, octets);
        else
            sum ^= code(words[1], turn, text, octets);
    }
    printf("%08x\n", ciphers ? code(words[1], 0, text, octets) : sum);
    return 0;
}
