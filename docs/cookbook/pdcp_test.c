// Compares the header of a product's PDU of a DRB with that of the library: this product takes one bit of COUNT too many.
#include <lte_sec.h>
#include <stdio.h>
#include <string.h>

static void product_header(uint32_t count, uint8_t header[2]) {
    header[0] = (uint8_t)(0x80 | (count >> 8 & 0x1f));
    header[1] = (uint8_t)count;
}

int main(void) {
    ltesec_drb bearer = {.eea = LTESEC_EEA2, .bits = 12};
    uint8_t pdu[64], own[2];
    size_t written;
    for (uint32_t count = 0; count < 10000; count++) {
        if (ltesec_drb_send(&bearer, LTESEC_UPLINK, (const uint8_t *)"text", 4, pdu, sizeof pdu, &written)) return 1;
        product_header(count, own);
        if (memcmp(own, pdu, 2)) {
            printf("COUNT %u: the header is %02x%02x, and the product has %02x%02x\n", count, pdu[0], pdu[1], own[0], own[1]);
            return 0;
        }
    }
    return 0;
}
