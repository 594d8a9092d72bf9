/* Tests of the library for C: published vectors, 2,000 random cases of each cipher and derivation beside OpenSSL (with
 * WITH_OPENSSL) and libipsec-mb (with WITH_IPSEC_MB), each call once, and each status. What a refusal must leave is compared octet by octet. It prints one line
 * on each part, and ends with status 1 at the first that differs. */
#include <lte_sec.h>
#include <stdio.h>
#include <stdlib.h>
#include <string.h>
#ifdef WITH_OPENSSL
#include <openssl/core_names.h>
#include <openssl/evp.h>
#include <openssl/hmac.h>
#endif
#ifdef WITH_IPSEC_MB
#include <intel-ipsec-mb.h>
#endif

#define CHECK(holds) \
    do { \
        if (!(holds)) { \
            fprintf(stderr, "library/test.c:%d: %s\n", __LINE__, #holds); \
            exit(1); \
        } \
    } while (0)

#define ROOM 4096

static uint32_t draws = 1;
static uint32_t draw(void) { return (draws = draws * 1664525u + 1013904223u) >> 8; }
static uint32_t wide(void) { return draw() << 16 ^ draw(); }
static void fill(uint8_t *octets, size_t length) {
    while (length) octets[--length] = (uint8_t)draw();
}

static void of_hex(const char *hex, uint8_t *octets) {
    for (unsigned octet; *hex && sscanf(hex, "%2x", &octet) == 1; hex += 2) *octets++ = (uint8_t)octet;
}

/* TS 33.401 C.1 set 1 (whole octets) and C.2 sets 2 and 5; a KeNB. */
static void vectors(void) {
    uint8_t key[16], text[128], wanted[128], mac[4], root[32], out[32];
    of_hex("d3c5d592327fb11c4035c6680af8c6d1", key);
    of_hex("981ba6824c1bfb1ab485472029b71d808ce33e2cc3c0b5fc1f3de8a6dc66b1", text);
    of_hex("e9fed8a63d155304d71df20bf3e82214b20ed7dad2f233dc3c22d7bdeeed8e", wanted);
    CHECK(ltesec_eea2(key, 0x398a59b4, 21, LTESEC_DOWNLINK, text, 31) == LTESEC_DONE && !memcmp(text, wanted, 31));
    of_hex("484583d5afe082ae", text);
    CHECK(ltesec_eia2(key, 0x398a59b4, 26, 1, text, 8, mac) == LTESEC_DONE && !memcmp(mac, "\xb9\x37\x87\xe6", 4));
    of_hex("83fd23a244a74cf358da3019f1722635", key);
    of_hex("35c68716633c66fb750c266865d53c11ea05b1e9fa49c8398d48e1efa5909d3947902837f5ae96d5a05bc8d61ca8dbef"
           "1b13a4b4abfe4fb1006045b674bb54729304c382be53a5af05556176f6eaa2ef1d05e4b083181ee674cda5a485f74d7a", text);
    CHECK(ltesec_eia2(key, 0x36af6144, 15, 1, text, 96, mac) == LTESEC_DONE && !memcmp(mac, "\xe6\x57\xe1\x82", 4));
    for (int i = 0; i < 32; i++) root[i] = (uint8_t)i;
    CHECK(ltesec_kenb(root, 0, out) == LTESEC_DONE);
    of_hex("e6267359de012d9bda173d1b6fae57dec0e04e01cfcf57cb33a7573f142b8b95", wanted); /* by Python's hmac */
    CHECK(!memcmp(out, wanted, 32));
    of_hex("20dacc4ea11469989be30900ac3fe304a1075f26ca4489c78eadc9543f6cd1a6", root); /* CK and IK; by libosmocore's osmo_kdf_kasme */
    of_hex("3020d8a22366217db8", text);
    of_hex("147f0b58861b19065e402b33ab5b5f6aeb58c8b2d2f4798e9d358f47fc20ab36", wanted);
    ltesec_kasme(root, root + 16, text, text + 3, out);
    CHECK(!memcmp(out, wanted, 32));
    of_hex("d3c5d592327fb11c4035c6680af8c6d1", key); /* 128-EEA1, TS 33.401 C.1 with its text of 256 bits */
    of_hex("981ba6824c1bfb1ab485472029b71d808ce33e2cc3c0b5fc1f3de8a6dc66b1f0", text);
    of_hex("5d5bfe75eb04f68ce0a12377ea00b37d47c6a0ba06309155086a859c4341b37c", wanted);
    CHECK(ltesec_eea1(key, 965368244, 21, LTESEC_DOWNLINK, text, 32) == LTESEC_DONE && !memcmp(text, wanted, 32));
    CHECK(ltesec_version() == LTESEC_VERSION);
    printf("vectors: as published\n");
}

#ifdef WITH_OPENSSL
static void counter(uint32_t count, uint32_t bearer, uint32_t direction, uint8_t block[16]) {
    memset(block, 0, 16);
    for (int i = 0; i < 4; i++) block[i] = (uint8_t)(count >> (24 - 8 * i));
    block[4] = (uint8_t)(8 * bearer + 4 * direction);
}

static void as_openssl(void) {
    uint8_t key[32], text[ROOM + 8], ours[ROOM], theirs[ROOM + 16], block[16], mac[4], out[32], input[35];
    for (int turn = 0; turn < 2000; turn++) {
        uint32_t count = wide(), bearer = draw() % 32, direction = draw() % 2;
        size_t length = turn < 1900 ? draw() % 300 : draw() % ROOM, size;
        unsigned int long_ = 0;
        int moved;
        fill(key, 32);
        fill(text + 8, length);
        counter(count, bearer, direction, block);
        memcpy(ours, text + 8, length);
        CHECK(ltesec_eea2(key, count, bearer, direction, ours, length) == LTESEC_DONE);
        EVP_CIPHER_CTX *cipher = EVP_CIPHER_CTX_new();
        CHECK(EVP_EncryptInit_ex(cipher, EVP_aes_128_ctr(), NULL, key, block) == 1);
        CHECK(EVP_EncryptUpdate(cipher, theirs, &moved, text + 8, (int)length) == 1);
        CHECK((size_t)moved == length && !memcmp(ours, theirs, length));
        EVP_CIPHER_CTX_free(cipher);
        memcpy(text, block, 8);
        CHECK(ltesec_eia2(key, count, bearer, direction, text + 8, length, mac) == LTESEC_DONE);
        EVP_MAC *cmac = EVP_MAC_fetch(NULL, "CMAC", NULL);
        EVP_MAC_CTX *context = EVP_MAC_CTX_new(cmac);
        OSSL_PARAM with[] = {OSSL_PARAM_construct_utf8_string(OSSL_MAC_PARAM_CIPHER, (char *)"AES-128-CBC", 0), OSSL_PARAM_construct_end()};
        CHECK(EVP_MAC_init(context, key, 16, with) == 1 && EVP_MAC_update(context, text, length + 8) == 1);
        CHECK(EVP_MAC_final(context, theirs, &size, sizeof theirs) == 1 && !memcmp(mac, theirs, 4));
        EVP_MAC_CTX_free(context);
        EVP_MAC_free(cmac);
        counter(count %= 1 << 24, bearer, direction, block);
        input[0] = 0x11;
        memcpy(input + 1, block, 4);
        memcpy(input + 5, "\0\4", 2);
        CHECK(ltesec_kenb(key, count, out) == LTESEC_DONE);
        CHECK(HMAC(EVP_sha256(), key, 32, input, 7, theirs, &long_) && !memcmp(out, theirs, 32));
        input[0] = 0x12;
        memcpy(input + 1, text, 8);
        fill(input + 9, 24);
        memcpy(input + 33, "\0\40", 2);
        ltesec_nh(key, input + 1, out);
        CHECK(HMAC(EVP_sha256(), key, 32, input, 35, theirs, &long_) && !memcmp(out, theirs, 32));
        uint32_t pci = draw() % 504, earfcn = draw() % 262144, octets = earfcn > 65535 ? 3 : 2;
        memcpy(input, "\x13\0\0\0\2", 5);
        input[1] = (uint8_t)(pci >> 8), input[2] = (uint8_t)pci;
        for (uint32_t i = 0; i < octets; i++) input[5 + i] = (uint8_t)(earfcn >> 8 * (octets - 1 - i));
        input[5 + octets] = 0, input[6 + octets] = (uint8_t)octets;
        CHECK(ltesec_kenb_star(key, pci, earfcn, out) == LTESEC_DONE);
        CHECK(HMAC(EVP_sha256(), key, 32, input, 7 + octets, theirs, &long_) && !memcmp(out, theirs, 32));
        uint8_t alg[] = {0x15, (uint8_t)(1 + draw() % 6), 0, 1, (uint8_t)(draw() % 16), 0, 1};
        CHECK(ltesec_algorithm_key(key, alg[1], alg[4], out) == LTESEC_DONE);
        CHECK(HMAC(EVP_sha256(), key, 32, alg, 7, theirs, &long_) && !memcmp(out, theirs, 32));
    }
    printf("ciphers and derivations: 2000 random cases each as OpenSSL has them\n");
}
#else
static void as_openssl(void) { printf("ciphers and derivations: skipped beside OpenSSL, whose headers are not installed\n"); }
#endif

#ifdef WITH_IPSEC_MB
/* 128-EEA1, 128-EIA1, 128-EEA3 and 128-EIA3. It takes no empty text. */
static void as_ipsec_mb(void) {
    uint8_t key[16], iv[16], text[ROOM], ours[ROOM], theirs[ROOM], mac[4];
    IMB_MGR *manager = alloc_mb_mgr(0);
    init_mb_mgr_auto(manager, NULL);
    snow3g_key_schedule_t *schedule = malloc(IMB_SNOW3G_KEY_SCHED_SIZE(manager));
    CHECK(schedule);
    for (int turn = 0; turn < 2000; turn++) {
        uint32_t count = wide(), bearer = draw() % 32, tag, direction = draw() % 2;
        size_t length = 1 + (turn < 1900 ? draw() % 300 : draw() % (ROOM - 1));
        fill(key, 16);
        fill(text, length);
        IMB_SNOW3G_INIT_KEY_SCHED(manager, key, schedule);
        snow3g_f8_iv_gen(count, (uint8_t)bearer, (uint8_t)direction, iv);
        IMB_SNOW3G_F8_1_BUFFER(manager, schedule, iv, text, theirs, (uint32_t)length);
        memcpy(ours, text, length);
        CHECK(ltesec_eea1(key, count, bearer, direction, ours, length) == LTESEC_DONE && !memcmp(ours, theirs, length));
        snow3g_f9_iv_gen(count, bearer << 27, (uint8_t)direction, iv);
        IMB_SNOW3G_F9_1_BUFFER(manager, schedule, iv, text, length * 8, theirs);
        CHECK(ltesec_eia1(key, count, bearer, direction, text, length, mac) == LTESEC_DONE && !memcmp(mac, theirs, 4));
        zuc_eea3_iv_gen(count, (uint8_t)bearer, (uint8_t)direction, iv);
        IMB_ZUC_EEA3_1_BUFFER(manager, key, iv, text, theirs, (uint32_t)length);
        memcpy(ours, text, length);
        CHECK(ltesec_eea3(key, count, bearer, direction, ours, length) == LTESEC_DONE && !memcmp(ours, theirs, length));
        zuc_eia3_iv_gen(count, (uint8_t)bearer, (uint8_t)direction, iv);
        IMB_ZUC_EIA3_1_BUFFER(manager, key, iv, text, (uint32_t)length * 8, &tag);
        CHECK(ltesec_eia3(key, count, bearer, direction, text, length, mac) == LTESEC_DONE && !memcmp(mac, &tag, 4));
    }
    free(schedule);
    free_mb_mgr(manager);
    printf("SNOW 3G and ZUC: 2000 random cases of each algorithm as libipsec-mb has them\n");
}
#else
static void as_ipsec_mb(void) { printf("SNOW 3G and ZUC: skipped beside libipsec-mb, whose headers are not installed\n"); }
#endif

/* the MAC by the integrity algorithm of an identity, 1 to 3 */
static uint32_t mac_by(uint32_t eia, const uint8_t *key, uint32_t count, uint32_t bearer, uint32_t direction, const uint8_t *text, size_t length, uint8_t mac[4]) {
    return (eia == 1 ? ltesec_eia1 : eia == 2 ? ltesec_eia2 : ltesec_eia3)(key, count, bearer, direction, text, length, mac);
}

/* ---- what is kept at a refusal */

static struct {
    uint8_t text[ROOM];
    ltesec_found found;
} before, now;

static void mark(void) {
    fill(now.text, sizeof now.text);
    fill((uint8_t *)&now.found, sizeof now.found);
    before = now;
}
static int is_kept(void) { return !memcmp(&before, &now, sizeof now); }
static int has_text(const uint8_t *text, size_t length, uint32_t count, uint32_t header) {
    return now.found.length == length && now.found.count == count && now.found.header == header && !memcmp(now.text, text, length)
           && !memcmp(now.text + length, before.text + length, ROOM - length) && !memcmp(now.found.wanted, "\0\0\0\0\0\0\0\0", 8);
}
static int has_macs(uint32_t count, const uint8_t got[4]) {
    return now.found.length == 0 && now.found.count == count && now.found.header == 0 && !memcmp(now.text, before.text, ROOM)
           && !memcmp(now.found.got, got, 4) && memcmp(now.found.wanted, got, 4);
}

static void nas(void) {
    uint8_t text[ROOM], pdu[ROOM], old[ROOM];
    for (int turn = 0; turn < 2000; turn++) {
        ltesec_nas context = {.eea = draw() % 4, .eia = 1 + draw() % 3}, kept;
        size_t length = draw() % 300, written = 7;
        uint32_t header = 1 + draw() % 4, count = draw() % (1 << 24), direction = draw() % 2;
        fill(context.enc_key, 64);
        fill(text, length);
        fill(pdu, ROOM);
        memcpy(old, pdu, ROOM);
        kept = context;
        context.send = count;
        CHECK(ltesec_nas_seal(&context, header, direction, text, length, pdu, ROOM, &written) == LTESEC_DONE);
        CHECK(written == length + 6 && context.send == count + 1 && !memcmp(pdu + written, old + written, ROOM - written));
        context.send = 0;
        CHECK(!memcmp(&context, &kept, sizeof kept));
        context.receive = count > 255 ? count - draw() % 256 : 0;
        if (count - context.receive > 255) context.receive = count;
        kept = context;
        mark();
        CHECK(ltesec_nas_open(&context, direction, pdu, written, now.text, ROOM, &now.found) == LTESEC_DONE && has_text(text, length, count, header) && now.found.checked == 1);
        mark();
        CHECK(ltesec_nas_open_at(&context, count, direction, pdu, written, now.text, ROOM, &now.found) == LTESEC_DONE && has_text(text, length, count, header));
        mark();
        CHECK(ltesec_nas_open_at(&context, count ^ 1, direction, pdu, written, now.text, ROOM, &now.found) == LTESEC_OTHER_COUNT && is_kept());
        CHECK(ltesec_nas_open(&context, direction, pdu, draw() % 6, now.text, ROOM, &now.found) == LTESEC_SHORT && is_kept());
        CHECK(ltesec_nas_open(&context, 2, pdu, written, now.text, ROOM, &now.found) == LTESEC_OUT_OF_RANGE && is_kept());
        CHECK(ltesec_nas_open_at(&context, 1 << 24, direction, pdu, written, now.text, ROOM, &now.found) == LTESEC_OUT_OF_RANGE && is_kept());
        if (length)
            CHECK(ltesec_nas_open(&context, direction, pdu, written, now.text, length - 1, &now.found) == LTESEC_NO_ROOM && is_kept());
        context.receive = 1 << 24;
        CHECK(ltesec_nas_open(&context, direction, pdu, written, now.text, ROOM, &now.found) == LTESEC_COUNT_SPENT && is_kept());
        CHECK(ltesec_nas_accept(&context, (1 << 24) - 1) == LTESEC_OUT_OF_RANGE && context.receive == 1 << 24);
        context.receive = count;
        pdu[0] ^= 0x08;
        CHECK(ltesec_nas_open(&context, direction, pdu, written, now.text, ROOM, &now.found) == LTESEC_BAD_HEADER && is_kept());
        pdu[0] ^= 0x08;
        pdu[1 + draw() % 4] ^= (uint8_t)(1 << draw() % 8);
        CHECK(ltesec_nas_open(&context, direction, pdu, written, now.text, ROOM, &now.found) == LTESEC_MAC_FAILS && has_macs(count, pdu + 1));
        context.eia = LTESEC_EIA0; /* any MAC is taken, and it is told that nothing was checked */
        mark();
        CHECK(ltesec_nas_open(&context, direction, pdu, written, now.text, ROOM, &now.found) == LTESEC_DONE && has_text(text, length, count, header) && now.found.checked == 0);
        CHECK(ltesec_nas_accept(&context, count) == LTESEC_DONE && context.receive == count + 1);
        CHECK(ltesec_nas_accept(&context, count) == LTESEC_OUT_OF_RANGE && context.receive == count + 1);
        kept = context;
        memcpy(old, pdu, ROOM);
        CHECK(ltesec_nas_seal(&context, 5, direction, text, length, pdu, ROOM, &written) == LTESEC_OUT_OF_RANGE);
        CHECK(ltesec_nas_seal(&context, 0, direction, text, length, pdu, ROOM, &written) == LTESEC_OUT_OF_RANGE);
        CHECK(ltesec_nas_seal(&context, 1, 2, text, length, pdu, ROOM, &written) == LTESEC_OUT_OF_RANGE);
        CHECK(ltesec_nas_seal(&context, 1, 1, text, length, pdu, length + 5, &written) == LTESEC_NO_ROOM);
        CHECK(!memcmp(&context, &kept, sizeof kept) && !memcmp(pdu, old, ROOM) && written == length + 6);
        context.send = 1 << 24;
        CHECK(ltesec_nas_seal(&context, 1, 1, text, length, pdu, ROOM, &written) == LTESEC_COUNT_SPENT && context.send == 1 << 24);
        context.eea = 4;
        CHECK(ltesec_nas_seal(&context, 1, 1, text, length, pdu, ROOM, &written) == LTESEC_OUT_OF_RANGE && !memcmp(pdu, old, ROOM));
        context.eea = 0, context.eia = 4;
        CHECK(ltesec_nas_seal(&context, 1, 1, text, length, pdu, ROOM, &written) == LTESEC_OUT_OF_RANGE && !memcmp(pdu, old, ROOM));
        context.eia = LTESEC_EIA0, context.send = 0;
        CHECK(ltesec_nas_seal(&context, 1, 1, text, length, pdu, ROOM, &written) == LTESEC_DONE && !memcmp(pdu + 1, "\0\0\0\0", 4));
    }
    printf("NAS messages: 2000 made, opened and refused\n");
}

static void srb(void) {
    uint8_t text[8192], pdu[8200];
    static uint8_t long_text[8200];
    for (int turn = 0; turn < 2000; turn++) {
        ltesec_srb context = {.eea = draw() % 4, .eia = 1 + draw() % 3, .bearer = draw() % 32};
        size_t length = draw() % 300, written = 7;
        uint32_t count = wide(), direction = draw() % 2;
        fill(context.enc_key, 64);
        fill(text, length);
        context.send = count;
        CHECK(ltesec_srb_send(&context, direction, text, length, pdu, ROOM, &written) == LTESEC_DONE && written == length + 5);
        CHECK(context.send == (uint64_t)count + 1 && pdu[0] == count % 32);
        context.receive = count > 31 ? count - draw() % 32 : count;
        mark();
        CHECK(ltesec_srb_open(&context, direction, pdu, written, now.text, ROOM, &now.found) == LTESEC_DONE && has_text(text, length, count, 0));
        mark();
        CHECK(ltesec_srb_open_at(&context, count, direction, pdu, written, now.text, ROOM, &now.found) == LTESEC_DONE && has_text(text, length, count, 0));
        mark();
        CHECK(ltesec_srb_open_at(&context, count ^ 1, direction, pdu, written, now.text, ROOM, &now.found) == LTESEC_OTHER_COUNT && is_kept());
        CHECK(ltesec_srb_open(&context, direction, pdu, draw() % 5, now.text, ROOM, &now.found) == LTESEC_SHORT && is_kept());
        CHECK(ltesec_srb_open(&context, 2, pdu, written, now.text, ROOM, &now.found) == LTESEC_OUT_OF_RANGE && is_kept());
        if (length)
            CHECK(ltesec_srb_open(&context, direction, pdu, written, now.text, length - 1, &now.found) == LTESEC_NO_ROOM && is_kept());
        pdu[0] ^= 0x20;
        CHECK(ltesec_srb_open(&context, direction, pdu, written, now.text, ROOM, &now.found) == LTESEC_BAD_HEADER && is_kept());
        pdu[0] ^= 0x20;
        context.receive = (uint64_t)1 << 32;
        CHECK(ltesec_srb_open(&context, direction, pdu, written, now.text, ROOM, &now.found) == LTESEC_COUNT_SPENT && is_kept());
        context.receive = count;
        pdu[written - 1 - draw() % 4] ^= (uint8_t)(1 << draw() % 8);
        CHECK(ltesec_srb_open(&context, direction, pdu, written, now.text, ROOM, &now.found) == LTESEC_MAC_FAILS && now.found.count == count && !memcmp(now.text, before.text, ROOM));
        CHECK(ltesec_srb_accept(&context, count) == LTESEC_DONE && context.receive == (uint64_t)count + 1);
        CHECK(ltesec_srb_accept(&context, count) == LTESEC_OUT_OF_RANGE && context.receive == (uint64_t)count + 1);
        CHECK(ltesec_srb_send(&context, direction, text, length, pdu, length + 4, &written) == (context.send >> 32 ? LTESEC_COUNT_SPENT : LTESEC_NO_ROOM));
        context.bearer = 32;
        CHECK(ltesec_srb_send(&context, direction, text, length, pdu, ROOM, &written) == LTESEC_OUT_OF_RANGE);
    }
    ltesec_srb longest = {.eea = LTESEC_EEA2, .eia = LTESEC_EIA2};
    size_t written;
    CHECK(ltesec_srb_send(&longest, 0, long_text, 8189, pdu, sizeof pdu, &written) == LTESEC_OUT_OF_RANGE);
    CHECK(ltesec_srb_send(&longest, 0, long_text, 8188, pdu, sizeof pdu, &written) == LTESEC_DONE && written == 8193);
    CHECK(ltesec_srb_open(&longest, 0, pdu, 8193, text, sizeof text, &now.found) == LTESEC_DONE && !memcmp(text, long_text, 8188));
    CHECK(ltesec_srb_open(&longest, 0, pdu, 8194, text, sizeof text, &now.found) == LTESEC_OUT_OF_RANGE);
    longest.send = (uint64_t)1 << 32;
    CHECK(ltesec_srb_send(&longest, 0, text, 1, pdu, sizeof pdu, &written) == LTESEC_COUNT_SPENT && longest.send >> 32);
    printf("PDUs of SRBs: 2000 made, opened and refused\n");
}

static void drb(void) {
    static const uint32_t bits[] = {7, 12, 15, 18}, octets[] = {1, 2, 2, 3};
    uint8_t text[ROOM], pdu[ROOM];
    for (int turn = 0; turn < 2000; turn++) {
        ltesec_drb context = {.eea = draw() % 4, .bearer = draw() % 32, .bits = bits[turn % 4]};
        size_t length = draw() % 1600, head = octets[turn % 4], written = 7;
        uint32_t count = wide(), direction = draw() % 2, values = 1u << bits[turn % 4];
        fill(context.enc_key, 32);
        fill(text, length);
        context.send = count;
        CHECK(ltesec_drb_send(&context, direction, text, length, pdu, ROOM, &written) == LTESEC_DONE && written == length + head);
        CHECK(context.send == (uint64_t)count + 1 && pdu[0] >= 128);
        context.receive = count > values ? count - draw() % values : count;
        mark();
        CHECK(ltesec_drb_open_at(&context, count, direction, pdu, written, now.text, ROOM, &now.found) == LTESEC_DONE && has_text(text, length, count, 0));
        mark();
        uint64_t receive = context.receive;
        CHECK(ltesec_drb_open_at(&context, count ^ 1, direction, pdu, written, now.text, ROOM, &now.found) == LTESEC_OTHER_COUNT && is_kept());
        CHECK(ltesec_drb_receive(&context, direction, pdu, draw() % head, now.text, ROOM, &now.found) == LTESEC_SHORT && is_kept());
        CHECK(ltesec_drb_receive(&context, 2, pdu, written, now.text, ROOM, &now.found) == LTESEC_OUT_OF_RANGE && is_kept());
        if (length)
            CHECK(ltesec_drb_receive(&context, direction, pdu, written, now.text, length - 1, &now.found) == LTESEC_NO_ROOM && is_kept());
        pdu[0] ^= 0x80;
        CHECK(ltesec_drb_receive(&context, direction, pdu, written, now.text, ROOM, &now.found) == LTESEC_BAD_HEADER && is_kept());
        pdu[0] ^= 0x80;
        CHECK(context.receive == receive);
        CHECK(ltesec_drb_receive(&context, direction, pdu, written, now.text, ROOM, &now.found) == LTESEC_DONE && has_text(text, length, count, 0));
        CHECK(context.receive == (uint64_t)count + 1);
        context.receive = (uint64_t)1 << 32;
        mark();
        CHECK(ltesec_drb_receive(&context, direction, pdu, written, now.text, ROOM, &now.found) == LTESEC_COUNT_SPENT && is_kept());
        context.send = (uint64_t)1 << 32;
        CHECK(ltesec_drb_send(&context, direction, text, length, pdu, ROOM, &written) == LTESEC_COUNT_SPENT);
        context.send = 0;
        CHECK(ltesec_drb_send(&context, direction, text, length, pdu, length + head - 1, &written) == LTESEC_NO_ROOM && context.send == 0);
        context.bits = 16;
        CHECK(ltesec_drb_send(&context, direction, text, length, pdu, ROOM, &written) == LTESEC_OUT_OF_RANGE);
    }
    printf("PDUs of DRBs: 2000 made, opened and refused, at 7, 12, 15 and 18 bits\n");
}

/* A receiver on RLC AM whose least COUNT not handed on is `first`: what it finds of each COUNT around, by the sender's own. */
static void drb_am(void) {
    static const uint32_t bits[] = {12, 15, 18};
    uint8_t text[64], pdu[64];
    for (int turn = 0; turn < 2000; turn++) {
        uint32_t values = 1u << bits[turn % 3], window = values / 2, fate = 7, before_fate;
        ltesec_drb context = {.eea = draw() % 4, .bearer = draw() % 32, .bits = bits[turn % 3]}, old;
        uint64_t first = turn % 2 ? wide() : draw() % 3000, next = first + draw() % (window + 1), count = first + draw() % (2 * window) - window;
        size_t length = draw() % 48, written;
        uint32_t last = (uint32_t)((first + values - 1) % values);
        if (next > (uint64_t)1 << 32 || count >> 32) continue;
        fill(context.enc_key, 32);
        fill(text, length);
        context.send = count;
        CHECK(ltesec_drb_send(&context, 1, text, length, pdu, sizeof pdu, &written) == LTESEC_DONE);
        context.receive = next;
        old = context;
        mark();
        before_fate = fate;
        CHECK(ltesec_drb_receive_am(&context, values, 1, pdu, written, now.text, ROOM, &now.found, &fate) == LTESEC_OUT_OF_RANGE && is_kept());
        CHECK(ltesec_drb_receive_am(&context, last, 1, pdu, 1, now.text, ROOM, &now.found, &fate) == LTESEC_SHORT && is_kept());
        if (length)
            CHECK(ltesec_drb_receive_am(&context, last, 1, pdu, written, now.text, length - 1, &now.found, &fate) == LTESEC_NO_ROOM && is_kept());
        CHECK(fate == before_fate && !memcmp(&context, &old, sizeof old));
        if (count >= first || next < count + values) {
            uint32_t wanted = count < first ? LTESEC_DISCARDED : count < next ? LTESEC_LATE : LTESEC_NEW;
            CHECK(ltesec_drb_receive_am(&context, last, 1, pdu, written, now.text, ROOM, &now.found, &fate) == LTESEC_DONE);
            CHECK(has_text(text, length, (uint32_t)count, 0) && fate == wanted && context.receive == (wanted == LTESEC_NEW ? count + 1 : next));
        }
        context.bits = 7;
        CHECK(ltesec_drb_receive_am(&context, 0, 1, pdu, written, now.text, ROOM, &now.found, &fate) == LTESEC_OUT_OF_RANGE);
    }
    ltesec_drb fresh = {.bits = 12};
    uint32_t fate;
    mark();
    CHECK(ltesec_drb_receive_am(&fresh, 4095, 0, (const uint8_t *)"\x8f\xff", 2, now.text, ROOM, &now.found, &fate) == LTESEC_BEFORE_FIRST && is_kept());
    printf("PDUs of DRBs on RLC AM: 2000 found in the reordering window, at 12, 15 and 18 bits\n");
}

static void others(void) {
    uint8_t key[32], request[4], other[4], mac[2], four[4], whole[32], out[32];
    ltesec_phone phone;
    ltesec_reached reached;
    for (int turn = 0; turn < 2000; turn++) {
        uint32_t count = draw() % (1 << 24), ksi = draw() % 8, next = count > 31 ? count - draw() % 32 : count, eia = 1 + draw() % 3;
        fill(key, 32);
        CHECK(ltesec_service_request(eia, key, ksi, count, request) == LTESEC_DONE && request[0] == 0xc7 && request[1] == 32 * ksi + count % 32);
        CHECK(mac_by(eia, key + 16, count, 0, LTESEC_UPLINK, request, 2, four) == LTESEC_DONE && !memcmp(four + 2, request + 2, 2));
        mark();
        CHECK(ltesec_service_request_check(eia, key, next, request, &now.found) == LTESEC_DONE && now.found.count == count && now.found.header == 12);
        mark();
        memcpy(other, request, 4);
        CHECK(ltesec_service_request(eia, key, 8, count, other) == LTESEC_OUT_OF_RANGE && ltesec_service_request(eia, key, 0, 1 << 24, other) == LTESEC_OUT_OF_RANGE && !memcmp(other, request, 4));
        CHECK(ltesec_service_request_check(eia, key, 1 << 24, request, &now.found) == LTESEC_COUNT_SPENT && is_kept());
        CHECK(ltesec_service_request_check(eia, key, (1 << 24) + 1, request, &now.found) == LTESEC_OUT_OF_RANGE && is_kept());
        other[0] = 0x17;
        CHECK(ltesec_service_request_check(eia, key, next, other, &now.found) == LTESEC_BAD_HEADER && is_kept());
        request[2 + draw() % 2] ^= (uint8_t)(1 << draw() % 8);
        CHECK(ltesec_service_request_check(eia, key, next, request, &now.found) == LTESEC_MAC_FAILS && now.found.count == count && !memcmp(now.found.got, request + 2, 2));
        CHECK(ltesec_short_mac_i(eia, key, whole, 7 < turn ? 7 : 0, mac) == LTESEC_DONE && ltesec_short_mac_i(4, key, whole, 0, mac) == LTESEC_OUT_OF_RANGE);
        CHECK(mac_by(eia, key + 16, 0xffffffff, 31, LTESEC_DOWNLINK, whole, 7 < turn ? 7 : 0, four) == LTESEC_DONE && !memcmp(four + 2, mac, 2));
        fill((uint8_t *)&phone, sizeof phone);
        phone.ncc %= 8;
        uint32_t ncc = draw() % 8, steps = (ncc + 8 - phone.ncc) % 8, pci = draw() % 504, earfcn = draw() % 262144;
        memcpy(whole, phone.sync, 32);
        for (uint32_t i = 0; i < steps; i++) {
            ltesec_nh(phone.kasme, whole, out);
            memcpy(whole, out, 32);
        }
        CHECK(ltesec_kenb_star(steps ? whole : phone.active, pci, earfcn, out) == LTESEC_DONE);
        CHECK(ltesec_reach(&phone, ncc, pci, earfcn, &reached) == LTESEC_DONE && reached.steps == steps);
        CHECK(!memcmp(reached.sync, whole, 32) && !memcmp(reached.star, out, 32));
        CHECK(ltesec_reach(&phone, 8, pci, earfcn, &reached) == LTESEC_OUT_OF_RANGE && ltesec_reach(&phone, ncc, 504, earfcn, &reached) == LTESEC_OUT_OF_RANGE);
        CHECK(ltesec_reach(&phone, ncc, pci, 262144, &reached) == LTESEC_OUT_OF_RANGE && !memcmp(reached.star, out, 32));
    }
    memcpy(out, key, 32);
    CHECK(ltesec_kenb(key, (1 << 24) - 1, whole) == LTESEC_DONE && ltesec_kenb(key, 1 << 24, out) == LTESEC_OUT_OF_RANGE);
    CHECK(ltesec_kenb_star(key, 504, 0, out) == LTESEC_OUT_OF_RANGE && ltesec_kenb_star(key, 0, 262144, out) == LTESEC_OUT_OF_RANGE);
    CHECK(ltesec_algorithm_key(key, 0, 0, out) == LTESEC_OUT_OF_RANGE && ltesec_algorithm_key(key, 7, 0, out) == LTESEC_OUT_OF_RANGE);
    CHECK(ltesec_algorithm_key(key, 257, 0, out) == LTESEC_OUT_OF_RANGE && ltesec_algorithm_key(key, 1, 16, out) == LTESEC_OUT_OF_RANGE);
    CHECK(ltesec_eea2(key, 0, 32, 0, out, 32) == LTESEC_OUT_OF_RANGE && ltesec_eea2(key, 0, 0, 2, out, 32) == LTESEC_OUT_OF_RANGE);
    CHECK(ltesec_eia2(key, 0, 32, 0, out, 32, four) == LTESEC_OUT_OF_RANGE && !memcmp(out, key, 32));
    printf("short MACs, a phone's chain and ranges: 2000 each\n");
}

int main(void) {
    vectors();
    as_openssl();
    as_ipsec_mb();
    nas();
    srb();
    drb();
    drb_am();
    others();
    return 0;
}
