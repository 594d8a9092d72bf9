// Makes HMACs, CMACs and counter-mode texts by OpenSSL, and nothing else. The words are triples: hmac, cmac or ctr, the
// octets of a text, and how many. HMAC-SHA-256 has keys of 32 octets, AES keys have 16. Each text takes a key anew.
#include <openssl/core_names.h>
#include <openssl/evp.h>
#include <openssl/params.h>
#include <stdio.h>
#include <stdlib.h>
#include <string.h>

static unsigned char key[32], text[1536], made[32];
static unsigned sum;

// The next key and the next text: what was made last is in them, as a run of the program derives keys of keys.
static void turn(unsigned count) {
    memcpy(text, &count, sizeof count);
    for (int i = 0; i < 32; i++)
        key[i] ^= made[i];
    sum = sum * 31 + made[0];
}

static void codes(const char *name, const char *part, char *of, size_t key_octets, size_t octets, unsigned count) {
    EVP_MAC *mac = EVP_MAC_fetch(NULL, name, NULL);
    EVP_MAC_CTX *context = EVP_MAC_CTX_new(mac);
    OSSL_PARAM params[] = {OSSL_PARAM_construct_utf8_string(part, of, 0), OSSL_PARAM_construct_end()};
    size_t length;
    if (!EVP_MAC_CTX_set_params(context, params))
        exit(1);
    for (; count > 0; count--) {
        if (!EVP_MAC_init(context, key, key_octets, NULL) || !EVP_MAC_update(context, text, octets)
            || !EVP_MAC_final(context, made, &length, sizeof made))
            exit(1);
        turn(count);
    }
}

static void ciphers(size_t octets, unsigned count) {
    EVP_CIPHER *cipher = EVP_CIPHER_fetch(NULL, "AES-128-CTR", NULL);
    EVP_CIPHER_CTX *context = EVP_CIPHER_CTX_new();
    int length;
    if (!EVP_EncryptInit_ex2(context, cipher, NULL, NULL, NULL))
        exit(1);
    for (; count > 0; count--) {
        unsigned char counter[16] = {0};
        memcpy(counter, &count, sizeof count);
        if (!EVP_EncryptInit_ex2(context, NULL, key, counter, NULL)
            || !EVP_EncryptUpdate(context, text, &length, text, (int)octets))
            exit(1);
        made[0] = text[0];
        turn(count);
    }
}

int main(int words, char **word) {
    for (int i = 1; i + 2 < words; i += 3) {
        size_t octets = strtoul(word[i + 1], NULL, 10);
        unsigned count = strtoul(word[i + 2], NULL, 10);
        if (octets > sizeof text)
            return 1;
        if (strcmp(word[i], "hmac") == 0)
            codes("HMAC", OSSL_MAC_PARAM_DIGEST, "SHA256", 32, octets, count);
        else if (strcmp(word[i], "cmac") == 0)
            codes("CMAC", OSSL_MAC_PARAM_CIPHER, "AES-128-CBC", 16, octets, count);
        else
            ciphers(octets, count);
    }
    printf("%08x\n", sum);
    return 0;
}
