/* Protects a NAS message and a PDCP PDU, and opens them: all that a product needs of lte_sec.h, in one page.
 *
 *     ./lte_sec library && cc -I library/built examples/c/protect.c library/built/liblte_sec.a -o protect && ./protect */
#include <lte_sec.h>
#include <stdio.h>
#include <string.h>

static void show(const char *what, const uint8_t *octets, size_t length) {
    printf("%-10s", what);
    for (size_t i = 0; i < length; i++) printf("%02x", octets[i]);
    printf("\n");
}

int main(void) {
    uint8_t kasme[32], kenb[32], pdu[64], text[64];
    size_t written;
    ltesec_found found;
    if (ltesec_version() != LTESEC_VERSION) return 1; /* header and library are of one version */
    for (int i = 0; i < 32; i++) kasme[i] = (uint8_t)i;

    /* The keys: identity 2 is that of 128-EEA2 and of 128-EIA2. */
    ltesec_nas phone = {.eea = LTESEC_EEA2, .eia = LTESEC_EIA2}, core;
    ltesec_algorithm_key(kasme, 1, 2, phone.enc_key);
    ltesec_algorithm_key(kasme, 2, 2, phone.int_key);
    core = phone;
    ltesec_kenb(kasme, 0, kenb);
    ltesec_drb sender = {.bearer = 0, .eea = LTESEC_EEA2, .bits = 12}, receiver;
    ltesec_algorithm_key(kenb, 5, 2, sender.enc_key);
    receiver = sender;

    /* A NAS message from the phone: integrity protected and ciphered, header type 2. */
    const uint8_t attach[] = {0x07, 0x43, 0x00};
    if (ltesec_nas_seal(&phone, 2, LTESEC_UPLINK, attach, sizeof attach, pdu, sizeof pdu, &written)) return 1;
    show("message", pdu, written);
    if (ltesec_nas_open(&core, LTESEC_UPLINK, pdu, written, text, sizeof text, &found)) return 1;
    ltesec_nas_accept(&core, found.count);
    show("text", text, found.length);

    /* One bit of it is turned: it is refused, and both MACs are told. */
    pdu[7] ^= 1;
    core.receive = 0;
    if (ltesec_nas_open(&core, LTESEC_UPLINK, pdu, written, text, sizeof text, &found) != LTESEC_MAC_FAILS) return 1;
    show("wanted", found.wanted, 4);
    show("got", found.got, 4);

    /* A packet to the phone on DRB1. */
    const char *packet = "an IP packet";
    if (ltesec_drb_send(&sender, LTESEC_DOWNLINK, (const uint8_t *)packet, strlen(packet), pdu, sizeof pdu, &written)) return 1;
    show("PDU", pdu, written);
    if (ltesec_drb_receive(&receiver, LTESEC_DOWNLINK, pdu, written, text, sizeof text, &found)) return 1;
    printf("%-10s%.*s\n", "packet", (int)found.length, (const char *)text);
    return 0;
}
