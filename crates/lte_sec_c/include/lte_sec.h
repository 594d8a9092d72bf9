/* The proved derivations, ciphers and protections of LTE access security, for C and C++.
 *
 * Of every call it is proved that its status is exactly the one said here, that what it writes is what the standard says, and
 * that it changes nothing where the status is not LTESEC_DONE, but `found` at LTESEC_MAC_FAILS. What is not proved and is up to
 * the caller:
 *   - Each pointer points to memory of the size said, and is not null, also with length 0. What a call writes overlaps nothing else
 *     that it is given.
 *   - Two calls at one time share no memory that one of them writes. No call keeps anything, takes memory or calls anything back.
 *   - A struct is plain memory. Whoever copies one and sends with both uses a COUNT twice.
 *   - AES, SNOW 3G and ZUC go by tables, so that the time of a call may depend on key and text. It is for tests, references and tools that work
 *     on files; in a product only where that does not matter.
 *
 * Keys and MACs are octets in the order of the standard, highest first; numbers are in the machine's own order. Lengths are in octets. A
 * text has any length unless something else is said.
 *
 * The structs are those of a machine with 64 bits (see the assertions at the end).
 */
#ifndef LTE_SEC_H
#define LTE_SEC_H

#include <stddef.h>
#include <stdint.h>

#ifdef __cplusplus
extern "C" {
#endif

/* ---- statuses: where more than one fits, the first in the order that a call names */

enum {
    LTESEC_DONE = 0,         /* the call did what it is for */
    LTESEC_OUT_OF_RANGE = 1, /* an argument, or a field of a struct, is not in the range said */
    LTESEC_COUNT_SPENT = 2,  /* no COUNT is left to send; or the COUNT of the PDU has more bits than a COUNT */
    LTESEC_NO_ROOM = 3,      /* the output has too little room */
    LTESEC_SHORT = 4,        /* the PDU has fewer octets than the shortest one */
    LTESEC_BAD_HEADER = 5,   /* the first octet is none of such a PDU */
    LTESEC_MAC_FAILS = 6,    /* the MAC differs: both stand in `found`, with the COUNT */
    LTESEC_OTHER_COUNT = 7,  /* the sequence number of the PDU is not that of the COUNT that was named */
    LTESEC_BEFORE_FIRST = 8  /* on RLC AM: the HFN of the PDU would be before the first */
};

enum { LTESEC_UPLINK = 0, LTESEC_DOWNLINK = 1 }; /* DIRECTION */

/* Identities of the encryption and integrity algorithms: null, SNOW 3G, AES and ZUC (TS 33.401 5.1.3.2 and 5.1.4.2). Under EIA0 each MAC is
 * four zero octets, and a receiver takes any MAC: `found->checked` is 0 then (B.0). Only unauthenticated emergency calls may use it:
 * a context whose eia was left 0 is not protected. */
enum { LTESEC_EEA0 = 0, LTESEC_EEA1 = 1, LTESEC_EEA2 = 2, LTESEC_EEA3 = 3 };
enum { LTESEC_EIA0 = 0, LTESEC_EIA1 = 1, LTESEC_EIA2 = 2, LTESEC_EIA3 = 3 };

/* ---- the version of this header: a library of another version has other calls or structs, so compare them once at the start */

#define LTESEC_VERSION 2
uint32_t ltesec_version(void);

/* 1 if this library was built by its proof, and 0 if without, by `./lte_sec library --unproved`. */
uint32_t ltesec_proved(void);

/* ---- derivations (TS 33.401 Annex A): keys of 32 octets */

/* KASME from CK and IK, for the PLMN identity of the serving network in three octets, as TS 24.301 9.9.3.32 writes it, and SQN xor AK, the
 * first six octets of AUTN (A.2). */
void ltesec_kasme(const uint8_t ck[16], const uint8_t ik[16], const uint8_t plmn[3], const uint8_t sqn_xor_ak[6],
                  uint8_t kasme[32]);

/* KeNB from KASME at an uplink NAS COUNT, 0 to 2^24 - 1 (A.3). DONE or OUT_OF_RANGE. */
uint32_t ltesec_kenb(const uint8_t kasme[32], uint32_t count, uint8_t kenb[32]);

/* NH from KASME and the SYNC-input: the KeNB for the first NH, and else the NH before (A.4). */
void ltesec_nh(const uint8_t kasme[32], const uint8_t sync[32], uint8_t nh[32]);

/* KeNB* from NH or KeNB for a cell: PCI 0 to 503, EARFCN-DL 0 to 262143 (A.5). DONE or OUT_OF_RANGE. */
uint32_t ltesec_kenb_star(const uint8_t key[32], uint32_t pci, uint32_t earfcn, uint8_t star[32]);

/* An algorithm key from KASME (NAS) or KeNB (RRC, user plane): type 1 NAS-enc, 2 NAS-int, 3 RRC-enc, 4 RRC-int, 5 UP-enc, 6
 * UP-int; identity 0 to 15 (A.7). A 128-bit algorithm takes its last 16 octets. DONE or OUT_OF_RANGE. */
uint32_t ltesec_algorithm_key(const uint8_t key[32], uint32_t type, uint32_t identity, uint8_t out[32]);

/* ---- ciphers (TS 33.401 Annex B): keys of 16 octets, BEARER 0 to 31 */

/* 128-EEA1, 128-EEA2 and 128-EEA3: encipher a text in place, or decipher it (B.1.2 to B.1.4). DONE or OUT_OF_RANGE. */
uint32_t ltesec_eea1(const uint8_t key[16], uint32_t count, uint32_t bearer, uint32_t direction,
                     uint8_t *text, size_t text_length);
uint32_t ltesec_eea2(const uint8_t key[16], uint32_t count, uint32_t bearer, uint32_t direction,
                     uint8_t *text, size_t text_length);
uint32_t ltesec_eea3(const uint8_t key[16], uint32_t count, uint32_t bearer, uint32_t direction,
                     uint8_t *text, size_t text_length);

/* 128-EIA1, 128-EIA2 and 128-EIA3: the MAC of a text (B.2.2 to B.2.4). DONE or OUT_OF_RANGE. */
uint32_t ltesec_eia1(const uint8_t key[16], uint32_t count, uint32_t bearer, uint32_t direction,
                     const uint8_t *text, size_t text_length, uint8_t mac[4]);
uint32_t ltesec_eia2(const uint8_t key[16], uint32_t count, uint32_t bearer, uint32_t direction,
                     const uint8_t *text, size_t text_length, uint8_t mac[4]);
uint32_t ltesec_eia3(const uint8_t key[16], uint32_t count, uint32_t bearer, uint32_t direction,
                     const uint8_t *text, size_t text_length, uint8_t mac[4]);

/* ---- what is found where a PDU is opened
 *
 * At DONE: the text's length, COUNT and header type, MACs of zeros, and whether a MAC was compared. At MAC_FAILS: COUNT and both
 * MACs, `checked` 1, and else zeros. At every other status it is as it was. */
typedef struct {
    size_t length;     /* octets of the text */
    uint32_t count;    /* COUNT */
    uint32_t header;   /* the security header type of a NAS message, and else 0 */
    uint8_t wanted[4]; /* the MAC computed */
    uint8_t got[4];    /* the MAC received, deciphered on an SRB */
    uint32_t checked;  /* 1 where a MAC was compared; 0 under EIA0 and on a DRB, where nothing is checked */
} ltesec_found;

/* ---- NAS messages (TS 24.301 4.4): a context, in range with eea and eia 0 to 3 and COUNTs up to 2^24
 *
 * 2^24 stands where no COUNT is left. A new context begins with both COUNTs 0. */
typedef struct {
    uint8_t enc_key[32]; /* KNASenc, all 32 octets */
    uint8_t int_key[32]; /* KNASint, all 32 octets */
    uint32_t send;       /* the next COUNT to send */
    uint32_t receive;    /* the next COUNT to receive */
    uint32_t eea;        /* LTESEC_EEA0 to LTESEC_EEA3 */
    uint32_t eia;        /* LTESEC_EIA0 to LTESEC_EIA3 */
} ltesec_nas;

/* Protects a text under the next COUNT to send, and takes that COUNT (4.4.3.3, 4.4.3.4). header: the security header type, 1 to 4;
 * 2 and 4 are ciphered. The message, *written octets, is six longer than the text; what is behind it in `pdu` stays.
 * DONE, else the first of OUT_OF_RANGE, COUNT_SPENT, NO_ROOM. */
uint32_t ltesec_nas_seal(ltesec_nas *context, uint32_t header, uint32_t direction, const uint8_t *text,
                         size_t text_length, uint8_t *pdu, size_t pdu_room, size_t *written);

/* Opens a message under the least COUNT at or above the next one to receive with its sequence number (4.4.3.1, 4.4.3.3, 4.4.3.4). The
 * context stays: `ltesec_nas_accept` takes the COUNT. The text is six octets shorter than the message; what is behind it in `text`
 * stays. DONE, else the first of OUT_OF_RANGE, NO_ROOM, SHORT, BAD_HEADER, COUNT_SPENT, MAC_FAILS. */
uint32_t ltesec_nas_open(const ltesec_nas *context, uint32_t direction, const uint8_t *pdu, size_t pdu_length,
                         uint8_t *text, size_t text_room, ltesec_found *found);

/* The same at this COUNT, below 2^24, whatever the context expects, for a trace. OTHER_COUNT stands behind OUT_OF_RANGE. */
uint32_t ltesec_nas_open_at(const ltesec_nas *context, uint32_t count, uint32_t direction, const uint8_t *pdu,
                            size_t pdu_length, uint8_t *text, size_t text_room, ltesec_found *found);

/* Takes the COUNT of a message that opened: the one after it is the next to receive. DONE, or OUT_OF_RANGE also for a COUNT below
 * the next one or not below 2^24. */
uint32_t ltesec_nas_accept(ltesec_nas *context, uint32_t count);

/* ---- short MACs: eia is LTESEC_EIA0 to LTESEC_EIA3 */

/* A Service Request under KNASint at an uplink NAS COUNT below 2^24: C7 hex, KSI (0 to 7) with 5 bits of COUNT, and the short MAC,
 * which is the last two octets of the MAC over the first two (TS 24.301 8.2.25, 9.9.3.28). DONE or OUT_OF_RANGE. */
uint32_t ltesec_service_request(uint32_t eia, const uint8_t int_key[32], uint32_t ksi, uint32_t count,
                                uint8_t request[4]);

/* Finds the COUNT of a Service Request: the least at or above `next`, up to 2^24, with its 5 bits. At DONE found->header is 12; at
 * MAC_FAILS the short MACs are the first two octets of `wanted` and `got`. DONE, else the first of OUT_OF_RANGE, BAD_HEADER,
 * COUNT_SPENT, MAC_FAILS. */
uint32_t ltesec_service_request_check(uint32_t eia, const uint8_t int_key[32], uint32_t next,
                                      const uint8_t request[4], ltesec_found *found);

/* shortMAC-I of re-establishment under KRRCint of the source cell, over the encoded VarShortMAC-Input: the last two octets of the
 * MAC with all bits of COUNT, BEARER and DIRECTION ones (TS 36.331 5.3.7.4). DONE or OUT_OF_RANGE. */
uint32_t ltesec_short_mac_i(uint32_t eia, const uint8_t int_key[32], const uint8_t *input, size_t input_length,
                            uint8_t mac[2]);

/* ---- PDCP PDUs of a signalling radio bearer (TS 36.323 5.6, 5.7, 6.2.2): sequence numbers of 5 bits
 *
 * In range with eea and eia 0 to 3, bearer 0 to 31, COUNTs up to 2^32, which stands where none is left, and texts up to 8,188 octets. */
typedef struct {
    uint8_t enc_key[32]; /* KRRCenc, all 32 octets */
    uint8_t int_key[32]; /* KRRCint, all 32 octets */
    uint64_t send;       /* the next COUNT to send */
    uint64_t receive;    /* the next COUNT to receive */
    uint32_t bearer;     /* BEARER, the identity minus 1: 0 for SRB1, 1 for SRB2 */
    uint32_t eea;        /* LTESEC_EEA0, also for PDUs that are not ciphered yet, to LTESEC_EEA3 */
    uint32_t eia;        /* LTESEC_EIA0 to LTESEC_EIA3 */
} ltesec_srb;

/* As ltesec_nas_seal, _open, _open_at and _accept, with PDUs five octets longer than the text. A COUNT is any of 32 bits. */
uint32_t ltesec_srb_send(ltesec_srb *context, uint32_t direction, const uint8_t *text, size_t text_length,
                         uint8_t *pdu, size_t pdu_room, size_t *written);
uint32_t ltesec_srb_open(const ltesec_srb *context, uint32_t direction, const uint8_t *pdu, size_t pdu_length,
                         uint8_t *text, size_t text_room, ltesec_found *found);
uint32_t ltesec_srb_open_at(const ltesec_srb *context, uint32_t count, uint32_t direction, const uint8_t *pdu,
                            size_t pdu_length, uint8_t *text, size_t text_room, ltesec_found *found);
uint32_t ltesec_srb_accept(ltesec_srb *context, uint32_t count);

/* ---- PDCP PDUs of a data radio bearer (TS 36.323 5.6, 6.2.3, 6.2.4, 6.2.9, 6.2.11): ciphered alone
 *
 * In range with eea 0 to 3, bearer 0 to 31, bits 7, 12, 15 or 18, and COUNTs up to 2^32, which stands where none is left. */
typedef struct {
    uint8_t enc_key[32]; /* KUPenc, all 32 octets */
    uint64_t send;       /* the next COUNT to send */
    uint64_t receive;    /* the next COUNT to receive */
    uint32_t bearer;     /* BEARER, the identity minus 1: 0 for DRB1 */
    uint32_t eea;        /* LTESEC_EEA0 to LTESEC_EEA3 */
    uint32_t bits;       /* of the sequence numbers: 7, 12, 15 or 18, with headers of 1, 2, 2 and 3 octets */
} ltesec_drb;

/* As ltesec_srb_send, with PDUs longer than the text by the header. */
uint32_t ltesec_drb_send(ltesec_drb *context, uint32_t direction, const uint8_t *text, size_t text_length,
                         uint8_t *pdu, size_t pdu_room, size_t *written);

/* Opens a PDU under the least COUNT at or above the next one to receive with its sequence number, and takes that COUNT: the one after
 * it is the next to receive. This is the rule of RLC UM (TS 36.323 5.1.2.1.3), for each length of sequence numbers. Those of 15 and 18
 * bits, and mostly those of 12, are of RLC AM, where a PDU may come late: here it would be taken a whole turn of the sequence numbers
 * too high, and there ltesec_drb_receive_am is right. Nothing is verified: any PDU with a good header opens to some text. D/C has to be 1 and each reserved
 * bit 0; P, at 18 bits, is either. DONE, else the first of OUT_OF_RANGE, NO_ROOM, SHORT, BAD_HEADER, COUNT_SPENT. */
uint32_t ltesec_drb_receive(ltesec_drb *context, uint32_t direction, const uint8_t *pdu, size_t pdu_length,
                            uint8_t *text, size_t text_room, ltesec_found *found);

/* What becomes of a PDU on RLC AM. */
enum {
    LTESEC_NEW = 0,      /* it is kept, and the next COUNT is the one after its own */
    LTESEC_LATE = 1,     /* it is kept, and the next COUNT stays */
    LTESEC_DISCARDED = 2 /* it is outside the reordering window: its text is for header decompression alone */
};

/* Opens a PDU of a bearer on RLC AM by the reordering window, of half the sequence numbers (TS 36.323 5.1.2.1.2 and 7.3), for 12, 15 or 18
 * bits. context->receive is RX_HFN and Next_PDCP_RX_SN as one COUNT, and moves behind a new PDU. last: Last_Submitted_PDCP_RX_SN, the
 * sequence number of the last text that the caller handed on, and at first the greatest one (7.1). Each PDU that has a COUNT opens; *fate
 * tells what becomes of it. DONE, else the first of OUT_OF_RANGE, NO_ROOM, SHORT, BAD_HEADER, BEFORE_FIRST, COUNT_SPENT. */
uint32_t ltesec_drb_receive_am(ltesec_drb *context, uint32_t last, uint32_t direction, const uint8_t *pdu,
                               size_t pdu_length, uint8_t *text, size_t text_room, ltesec_found *found,
                               uint32_t *fate);

/* As ltesec_drb_receive at this COUNT, whatever the bearer expects, and the bearer stays. OTHER_COUNT stands behind OUT_OF_RANGE. */
uint32_t ltesec_drb_open_at(const ltesec_drb *context, uint32_t count, uint32_t direction, const uint8_t *pdu,
                            size_t pdu_length, uint8_t *text, size_t text_room, ltesec_found *found);

/* ---- the chain of a phone (TS 33.401 7.2.8.4.4) */

typedef struct {
    uint8_t kasme[32];
    uint8_t active[32]; /* the active KeNB */
    uint8_t sync[32];   /* the NH of the present NCC, or the first KeNB of the chain where there was none yet */
    uint32_t ncc;       /* the present NCC, 0 to 7 */
} ltesec_phone;

typedef struct {
    uint8_t sync[32]; /* the NH of the NCC, or the phone's `sync` where there were no steps */
    uint8_t star[32]; /* KeNB* */
    uint32_t steps;   /* the NH steps, 0 to 7: after none KeNB* comes of the active KeNB (horizontal), else of the NH (vertical) */
} ltesec_reached;

/* What a phone makes of a handover command with this NCC, 0 to 7, for a cell, with ranges as in ltesec_kenb_star. The phone stays: where
 * it obeys, the caller puts `star` into active, `sync` into sync and the NCC into ncc. DONE or OUT_OF_RANGE. */
uint32_t ltesec_reach(const ltesec_phone *phone, uint32_t ncc, uint32_t pci, uint32_t earfcn,
                      ltesec_reached *reached);

#ifdef __cplusplus
}
#define LTESEC_ASSERT(holds) static_assert(holds, "the layout of lte_sec.h is that of the library")
#else
#define LTESEC_ASSERT(holds) _Static_assert(holds, "the layout of lte_sec.h is that of the library")
#endif

LTESEC_ASSERT(sizeof(size_t) == 8);
LTESEC_ASSERT(sizeof(ltesec_found) == 32 && offsetof(ltesec_found, got) == 20 && offsetof(ltesec_found, checked) == 24);
LTESEC_ASSERT(sizeof(ltesec_nas) == 80 && offsetof(ltesec_nas, send) == 64 && offsetof(ltesec_nas, eia) == 76);
LTESEC_ASSERT(sizeof(ltesec_srb) == 96 && offsetof(ltesec_srb, send) == 64 && offsetof(ltesec_srb, eia) == 88);
LTESEC_ASSERT(sizeof(ltesec_drb) == 64 && offsetof(ltesec_drb, send) == 32 && offsetof(ltesec_drb, bits) == 56);
LTESEC_ASSERT(sizeof(ltesec_phone) == 100 && offsetof(ltesec_phone, ncc) == 96);
LTESEC_ASSERT(sizeof(ltesec_reached) == 68 && offsetof(ltesec_reached, steps) == 64);

#endif
