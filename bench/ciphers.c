// Takes turns of AES-CTR or of CMAC over a text by OpenSSL, with the words and the output of the program
// cipher_bench. Each turn takes the key anew.
#include <openssl/core_names.h>
#include <openssl/evp.h>
#include <openssl/params.h>
#include <stdio.h>
#include <stdlib.h>
#include <string.h>

static const unsigned char key[] = "sixteen octets k";

// COUNT, BEARER 3, DIRECTION 1 and zeros (TS 33.401 B.1.3 and B.2.3).
static void put_header(unsigned char header[16], unsigned count) {
    memset(header, 0, 16);
    for (int i = 0; i < 4; i++)
        header[i] = count >> (24 - 8 * i);
    header[4] = 3 << 3 | 1 << 2;
}

static unsigned code_turns(const unsigned char *text, size_t octets, unsigned turns) {
    EVP_MAC *mac = EVP_MAC_fetch(NULL, "CMAC", NULL);
    EVP_MAC_CTX *context = EVP_MAC_CTX_new(mac);
    OSSL_PARAM params[] = {
        OSSL_PARAM_construct_utf8_string(OSSL_MAC_PARAM_CIPHER, "AES-128-CBC", 0),
        OSSL_PARAM_construct_end(),
    };
    unsigned sum = 0;
    for (unsigned count = 0; count < turns; count++) {
        unsigned char header[16], code[16];
        size_t length;
        put_header(header, count);
        if (!EVP_MAC_init(context, key, 16, params) || !EVP_MAC_update(context, header, 8)
            || !EVP_MAC_update(context, text, octets) || !EVP_MAC_final(context, code, &length, 16))
            exit(1);
        sum ^= (unsigned)code[0] << 24 | code[1] << 16 | code[2] << 8 | code[3];
    }
    return sum;
}

static unsigned cipher_turns(unsigned char *text, size_t octets, unsigned turns) {
    EVP_CIPHER *cipher = EVP_CIPHER_fetch(NULL, "AES-128-CTR", NULL);
    EVP_CIPHER_CTX *context = EVP_CIPHER_CTX_new();
    for (unsigned count = 0; count < turns; count++) {
        unsigned char header[16];
        int length;
        put_header(header, count);
        if (!EVP_EncryptInit_ex2(context, cipher, key, header, NULL)
            || !EVP_EncryptUpdate(context, text, &length, text, (int)octets))
            exit(1);
    }
    return code_turns(text, octets, 1);
}

int main(int count, char **words) {
    static unsigned char text[1536];
    if (count != 4)
        return 1;
    size_t octets = strtoul(words[2], NULL, 10);
    unsigned turns = strtoul(words[3], NULL, 10);
    if (octets > sizeof text)
        return 1;
    int ciphers = strcmp(words[1], "eea2") == 0;
    printf("%08x\n", ciphers ? cipher_turns(text, octets, turns) : code_turns(text, octets, turns));
    return 0;
}
