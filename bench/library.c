// Takes turns of 128-EEA2 or of 128-EIA2 over a text by the library for C, with the words and the output of the program
// cipher_bench. Each turn takes the key anew.
#include <lte_sec.h>
#include <stdio.h>
#include <stdlib.h>
#include <string.h>

static const uint8_t key[] = "sixteen octets k";

static uint32_t code_turns(const uint8_t *text, size_t octets, uint32_t turns) {
    uint32_t sum = 0;
    for (uint32_t count = 0; count < turns; count++) {
        uint8_t code[4];
        if (ltesec_eia2(key, count, 3, LTESEC_DOWNLINK, text, octets, code))
            exit(1);
        sum ^= (uint32_t)code[0] << 24 | code[1] << 16 | code[2] << 8 | code[3];
    }
    return sum;
}

static uint32_t cipher_turns(uint8_t *text, size_t octets, uint32_t turns) {
    for (uint32_t count = 0; count < turns; count++)
        if (ltesec_eea2(key, count, 3, LTESEC_DOWNLINK, text, octets))
            exit(1);
    return code_turns(text, octets, 1);
}

int main(int count, char **words) {
    static uint8_t text[1536];
    if (count != 4)
        return 1;
    size_t octets = strtoul(words[2], NULL, 10);
    uint32_t turns = (uint32_t)strtoul(words[3], NULL, 10);
    if (octets > sizeof text)
        return 1;
    printf("%08x\n", strcmp(words[1], "eea2") == 0 ? cipher_turns(text, octets, turns) : code_turns(text, octets, turns));
    return 0;
}
