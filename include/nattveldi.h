/* Nattveldi: road certificates (ETSI TS 103 097 V1.2.1), proved in Rattle.
 *
 * Every function takes any octets and any lengths and always returns. It
 * returns one of the answers below, with three exceptions: nattveldi_list and
 * nattveldi_standing return a count or minus the number of an answer, and
 * nattveldi_page the length of a text. It writes to no more than the buffer
 * that its comment names, and a refusal leaves that unchanged, but for
 * nattveldi_page, whose text says the refusal.
 *
 * A pointer may be anything if its length is 0; otherwise it must be valid for
 * that many octets, at any alignment. A buffer that is written must not overlap
 * another argument.
 *
 * The library has no state, allocates nothing and takes no lock. Its functions
 * are reentrant and may run in several threads at once. Threads that share a
 * store need a lock of the caller's: while nattveldi_install, nattveldi_admit or
 * nattveldi_withdraw writes a store, nothing else may read or write it.
 *
 * The archive is for x86-64 Linux. It is position independent, so it can be
 * linked into programs and into shared libraries.
 *
 * Times count seconds or microseconds of TAI since the start of 2004:
 *
 *   second = Unix seconds - 1,072,915,200 + leap seconds since 2004
 *
 * The leap seconds since 2004 are 5 from 2017-01-01 on, after which none has been
 * announced; before that they are 4 from 2015-07-01 on, 3 from 2012-07-01, 2 from
 * 2009-01-01 and 1 from 2006-01-01.
 */
#ifndef NATTVELDI_H
#define NATTVELDI_H

#include <stddef.h>
#include <stdint.h>

#ifdef __cplusplus
extern "C" {
#endif

/* The version of the library. ./install reads the first line; tests hold the
 * three numbers, and the version of the bindings, to it.
 */
#define NATTVELDI_VERSION "2.0.0"
#define NATTVELDI_MAJOR_VERSION 2
#define NATTVELDI_MINOR_VERSION 0
#define NATTVELDI_PATCH_VERSION 0

/* Stands before every function: an answer that is not looked at is a mistake,
 * and compilers that can say so do.
 */
#if (defined(__cplusplus) && __cplusplus >= 201703L) || \
    (defined(__STDC_VERSION__) && __STDC_VERSION__ >= 202311L)
#define NATTVELDI_MUST_USE [[nodiscard]]
#elif defined(__GNUC__)
#define NATTVELDI_MUST_USE __attribute__((warn_unused_result))
#else
#define NATTVELDI_MUST_USE
#endif

/* Lengths count octets. */
#define NATTVELDI_ID_LENGTH 8
#define NATTVELDI_KEY_LENGTH 32
#define NATTVELDI_LONGEST_CERTIFICATE 1024
#define NATTVELDI_LONGEST_MESSAGE 2048
#define NATTVELDI_LONGEST_NAME 32
#define NATTVELDI_MOST_PERMISSIONS 16 /* of a certificate */
#define NATTVELDI_MOST_RECTANGLES 4   /* of a region */

/* The chip's verdict on a good signature; any other octet means a bad one. */
#define NATTVELDI_GOOD 1

/* The answers, and what each of them means; nattveldi_meaning says the same. */
enum {
    NATTVELDI_ACCEPTED = 0,         /* every test passed */
    NATTVELDI_BAD_CALL = 1,         /* a length, position or age is out of range, or a slot is
                                     * above 63 */
    NATTVELDI_BAD_STORE = 2,        /* a slot of the store breaks a rule, or two slots share an
                                     * id */
    NATTVELDI_TOO_LONG = 3,         /* the certificate has more than 1,024 octets, or the message
                                     * more than 2,048 */
    NATTVELDI_CUT = 4,              /* a field or vector passes the end of what holds it */
    NATTVELDI_MALFORMED = 5,        /* it breaks a rule of the layout */
    NATTVELDI_UNSUPPORTED = 6,      /* a version, type or algorithm is not read, or a number or
                                     * count is too large */
    NATTVELDI_UNKNOWN = 7,          /* the issuer, the signer or the id is not in the store, or
                                     * the slot is empty */
    NATTVELDI_WITHDRAWN = 8,        /* the issuer, the signer or the certificate with the id is
                                     * withdrawn */
    NATTVELDI_OTHER_CERTIFICATE = 9, /* the carried certificate differs from the stored one */
    NATTVELDI_WRONG_KIND = 10,      /* the call takes other kinds, an issuer is a ticket, or a
                                     * signer is not a ticket */
    NATTVELDI_NOT_PERMITTED = 11,   /* the issuer lacks a certificate's permission, or the signer
                                     * the message's */
    NATTVELDI_OUTSIDE_PERIOD = 12,  /* a period is not inside the issuer's, or the message's
                                     * second is not in it */
    NATTVELDI_OUTSIDE_PLACE = 13,   /* a region is not inside the issuer's, or the position is
                                     * not in it */
    NATTVELDI_OUT_OF_DATE = 14,     /* the message is too old, too far ahead of now, or expired */
    NATTVELDI_BAD_SIGNATURE = 15,   /* the verdict on a signature is not good */
    NATTVELDI_FULL = 16,            /* no slot of the store is empty */
    NATTVELDI_ALREADY_HELD = 17,    /* the id is in the store already, held or withdrawn */
    NATTVELDI_CHAIN_TOO_LONG = 18   /* the eighth certificate from the signer upward is not a
                                     * root */
};

/* The name of an answer, for messages to people. Where nattveldi_list or
 * nattveldi_standing returned n below 0, the answer is -n.
 */
NATTVELDI_MUST_USE static inline const char *nattveldi_name(int answer)
{
    switch (answer) {
    case NATTVELDI_ACCEPTED: return "accepted";
    case NATTVELDI_BAD_CALL: return "bad call";
    case NATTVELDI_BAD_STORE: return "bad store";
    case NATTVELDI_TOO_LONG: return "too long";
    case NATTVELDI_CUT: return "cut";
    case NATTVELDI_MALFORMED: return "malformed";
    case NATTVELDI_UNSUPPORTED: return "unsupported";
    case NATTVELDI_UNKNOWN: return "unknown";
    case NATTVELDI_WITHDRAWN: return "withdrawn";
    case NATTVELDI_OTHER_CERTIFICATE: return "other certificate under this id";
    case NATTVELDI_WRONG_KIND: return "wrong kind";
    case NATTVELDI_NOT_PERMITTED: return "not permitted";
    case NATTVELDI_OUTSIDE_PERIOD: return "outside period";
    case NATTVELDI_OUTSIDE_PLACE: return "outside place";
    case NATTVELDI_OUT_OF_DATE: return "out of date";
    case NATTVELDI_BAD_SIGNATURE: return "signature";
    case NATTVELDI_FULL: return "full";
    case NATTVELDI_ALREADY_HELD: return "already held";
    case NATTVELDI_CHAIN_TOO_LONG: return "chain too long";
    default: return "not an answer";
    }
}

/* What an answer means, as the end of a sentence. docs/ANSWERS.md has the same
 * words, and the order in which each function tests.
 */
NATTVELDI_MUST_USE static inline const char *nattveldi_meaning(int answer)
{
    switch (answer) {
    case NATTVELDI_ACCEPTED: return "every test passed";
    case NATTVELDI_BAD_CALL:
        return "a length, position or age is out of range, or a slot is above 63";
    case NATTVELDI_BAD_STORE: return "a slot of the store breaks a rule, or two slots share an id";
    case NATTVELDI_TOO_LONG:
        return "the certificate has more than 1,024 octets, or the message more than 2,048";
    case NATTVELDI_CUT: return "a field or vector passes the end of what holds it";
    case NATTVELDI_MALFORMED: return "it breaks a rule of the layout";
    case NATTVELDI_UNSUPPORTED:
        return "a version, type or algorithm is not read, or a number or count is too large";
    case NATTVELDI_UNKNOWN:
        return "the issuer, the signer or the id is not in the store, or the slot is empty";
    case NATTVELDI_WITHDRAWN:
        return "the issuer, the signer or the certificate with the id is withdrawn";
    case NATTVELDI_OTHER_CERTIFICATE: return "the carried certificate differs from the stored one";
    case NATTVELDI_WRONG_KIND:
        return "the call takes other kinds, an issuer is a ticket, or a signer is not a ticket";
    case NATTVELDI_NOT_PERMITTED:
        return "the issuer lacks a certificate's permission, or the signer the message's";
    case NATTVELDI_OUTSIDE_PERIOD:
        return "a period is not inside the issuer's, or the message's second is not in it";
    case NATTVELDI_OUTSIDE_PLACE:
        return "a region is not inside the issuer's, or the position is not in it";
    case NATTVELDI_OUT_OF_DATE: return "the message is too old, too far ahead of now, or expired";
    case NATTVELDI_BAD_SIGNATURE: return "the verdict on a signature is not good";
    case NATTVELDI_FULL: return "no slot of the store is empty";
    case NATTVELDI_ALREADY_HELD: return "the id is in the store already, held or withdrawn";
    case NATTVELDI_CHAIN_TOO_LONG:
        return "the eighth certificate from the signer upward is not a root";
    default: return "the library returns no such number";
    }
}

/* What the functions write consists of words, long words, coordinates and
 * parts; each of these is read from its first octet on.
 */
#define NATTVELDI_WORD_LENGTH 4

/* A word: 4 octets, big-endian. */
NATTVELDI_MUST_USE static inline uint32_t nattveldi_word_at(const uint8_t *octets)
{
    uint32_t word = 0;
    int i;
    for (i = 0; i < NATTVELDI_WORD_LENGTH; i++)
        word = word << 8 | octets[i];
    return word;
}

/* A long word: 8 octets, big-endian. */
NATTVELDI_MUST_USE static inline uint64_t nattveldi_long_word_at(const uint8_t *octets)
{
    uint64_t high = nattveldi_word_at(octets);
    return high << 32 | nattveldi_word_at(octets + NATTVELDI_WORD_LENGTH);
}

/* A coordinate: a word in two's complement, in tenths of a microdegree; north
 * and east are positive.
 */
NATTVELDI_MUST_USE static inline int32_t nattveldi_coordinate_at(const uint8_t *octets)
{
    uint32_t word = nattveldi_word_at(octets);
    return word <= INT32_MAX ? (int32_t)word : -1 - (int32_t)(UINT32_MAX - word);
}

/* A part: two words that name octets of the certificate or message that was
 * passed, `length` of them from octet `start` on, counted from 0.
 */
struct nattveldi_part {
    size_t start;
    size_t length;
};

NATTVELDI_MUST_USE static inline struct nattveldi_part nattveldi_part_at(const uint8_t *octets)
{
    struct nattveldi_part part;
    part.start = nattveldi_word_at(octets);
    part.length = nattveldi_word_at(octets + NATTVELDI_WORD_LENGTH);
    return part;
}

/* The fields of a certificate: 90 words, 360 octets. The numbers below count
 * words; nattveldi_field gives the octets of a field. Parts name octets of the
 * certificate. Unused places are zero.
 */
#define NATTVELDI_FIELDS_LENGTH 360

enum {
    NATTVELDI_SIGNER = 0,               /* 0 self, 1 digest */
    NATTVELDI_ISSUER = 1,               /* part: the issuer's id; empty at 0 for signer 0 */
    NATTVELDI_KIND = 3,                 /* 1 ticket, 2 authority, 4 root */
    NATTVELDI_NAME = 4,                 /* part */
    NATTVELDI_KEY_TYPE = 6,             /* point type of the verification key, 2 or 3 */
    NATTVELDI_KEY = 7,                  /* part: its 32 octets */
    NATTVELDI_ENCRYPTION_KEY_TYPE = 9,  /* point type 2 or 3; 0 without an encryption key */
    NATTVELDI_ENCRYPTION_KEY = 10,      /* part: 32 octets; empty at 0 without one */
    NATTVELDI_HAS_ASSURANCE = 12,       /* 1 if an assurance is given, else 0 */
    NATTVELDI_ASSURANCE = 13,
    NATTVELDI_PERIOD_FORM = 14,         /* 0 end, 1 start and end, 2 start and duration */
    NATTVELDI_START = 15,               /* the first second of the period */
    NATTVELDI_END = 16,                 /* long word: the first second after it */
    NATTVELDI_HAS_REGION = 18,          /* 1 if a region is given, "none" too, else 0 */
    NATTVELDI_RECTANGLE_COUNT = 19,     /* 0 to 4; 0 means everywhere */
    NATTVELDI_RECTANGLES = 20,          /* 4 times north, west, south, east: coordinates */
    NATTVELDI_PERMISSION_COUNT = 36,    /* 0 to 16 */
    NATTVELDI_PERMISSIONS = 37,         /* 16 ITS-AIDs */
    NATTVELDI_SSP_STARTS = 53,          /* 16 starts of the permissions' SSP */
    NATTVELDI_SSP_LENGTHS = 69,         /* and their 16 lengths */
    NATTVELDI_SIGNED = 85,              /* part: what the signature covers */
    NATTVELDI_SIGNATURE = 87,           /* part: the whole signature structure, 66 octets */
    NATTVELDI_SIGNATURE_TYPE = 89       /* its point type, 0, 2 or 3 */
};

/* Where a field's octets begin: nattveldi_field(fields, NATTVELDI_NAME). */
NATTVELDI_MUST_USE static inline const uint8_t *nattveldi_field(const uint8_t *fields, size_t field)
{
    return fields + NATTVELDI_WORD_LENGTH * field;
}

/* Reads a certificate and writes its fields to the first 360 octets of
 * `fields`; the octets after them are unchanged. Returns 1 if fields_length is
 * under 360, then 3, then 4, 5 or 6 for the first fault in the octets. A number
 * or length over 268,435,455, a seventeenth permission and a fifth rectangle
 * are 6. A refusal leaves `fields` unchanged.
 */
NATTVELDI_MUST_USE
uint8_t nattveldi_read(const uint8_t *certificate, size_t certificate_length,
                       uint8_t *fields, size_t fields_length);

/* Works out the id of a certificate, the last 8 octets of SHA-256 over it with
 * the signature's point type taken as 0, and writes it to the first 8 octets
 * of `id`; the octets after them are unchanged. Returns 1 if id_length is under
 * 8, then what nattveldi_read returns. A refusal leaves `id` unchanged.
 */
NATTVELDI_MUST_USE
uint8_t nattveldi_id(const uint8_t *certificate, size_t certificate_length,
                     uint8_t *id, size_t id_length);

/* A store: 64 slots of 212 octets, 13,568 in all. A store of zeros is empty.
 * What else it may hold is written by the functions below; a store that was
 * changed in another way may be bad, and each of them refuses a bad store with 2.
 */
#define NATTVELDI_SLOTS 64
#define NATTVELDI_SLOT_LENGTH 212
#define NATTVELDI_STORE_LENGTH 13568

/* Installs a root (kind 4) in the lowest empty slot of `store`. `verdict` is
 * the chip's octet on the certificate's signature: NATTVELDI_GOOD, or any other
 * for bad. Returns 1 if store_length is not 13,568, then 2, then 3 to 6 as
 * nattveldi_read does, 10 for another kind, 17, 15, 16, in this order. A refusal
 * leaves `store` unchanged.
 */
NATTVELDI_MUST_USE
uint8_t nattveldi_install(uint8_t *store, size_t store_length,
                          const uint8_t *certificate, size_t certificate_length,
                          uint8_t verdict);

/* Admits a ticket or an authority (kind 1 or 2) below an issuer in the store,
 * and writes it to the lowest empty slot of `store`. Returns what
 * nattveldi_install does, with 10 for a root; between 17 and 15 comes the
 * issuer: 7 if it is not in the store, 8 if it is withdrawn, 10 if it is a
 * ticket, then 11, 12, 13. A refusal leaves `store` unchanged.
 */
NATTVELDI_MUST_USE
uint8_t nattveldi_admit(uint8_t *store, size_t store_length,
                        const uint8_t *certificate, size_t certificate_length,
                        uint8_t verdict);

/* What a slot holds: 244 octets. The numbers below count octets. Unused places
 * are zero.
 */
#define NATTVELDI_STORED_LENGTH 244

enum {
    NATTVELDI_STORED_ID = 0,                 /* 8 octets */
    NATTVELDI_STORED_ISSUER = 8,             /* the issuer's id, 8 octets; zero for a root */
    NATTVELDI_STORED_STATE = 16,             /* word: 1 held, 2 withdrawn */
    NATTVELDI_STORED_KIND = 20,              /* word: 1 ticket, 2 authority, 4 root */
    NATTVELDI_STORED_START = 24,             /* word: the first second of the period */
    NATTVELDI_STORED_END = 28,               /* long word: the first second after it */
    NATTVELDI_STORED_NAME_LENGTH = 36,       /* word: 0 to 32 */
    NATTVELDI_STORED_NAME = 40,              /* 32 octets: the name, then zeros */
    NATTVELDI_STORED_KEY_PARITY = 72,        /* word: the key's point type less 2, so 0 or 1 */
    NATTVELDI_STORED_KEY = 76,               /* the verification key's 32 octets */
    NATTVELDI_STORED_RECTANGLE_COUNT = 108,  /* word: 0 to 4; 0 means everywhere */
    NATTVELDI_STORED_RECTANGLES = 112,       /* 4 times north, west, south, east: coordinates */
    NATTVELDI_STORED_PERMISSION_COUNT = 176, /* word: 0 to 16 */
    NATTVELDI_STORED_PERMISSIONS = 180       /* 16 ITS-AIDs: words */
};

/* Writes what slot `slot` of `store` holds, the slots counted from 0, to the
 * first 244 octets of `stored`; the octets after them are unchanged. A withdrawn
 * certificate differs from a held one only in its state. Returns 1 if
 * stored_length is under 244, store_length is not 13,568 or slot is above 63,
 * then 2, then 7 if the slot is empty, in this order. A refusal leaves `stored`
 * unchanged. A slot is a size_t so that no number of a caller loses its high bits
 * on the way and becomes another slot.
 */
NATTVELDI_MUST_USE
uint8_t nattveldi_stored(const uint8_t *store, size_t store_length, size_t slot,
                         uint8_t *stored, size_t stored_length);

/* How many octets a list of slots needs: one for each slot. */
#define NATTVELDI_LIST_LENGTH 64

/* Finds the certificates that stand at `second` as `store` is. A certificate
 * stands if its chain of issuers reaches a root within eight certificates, each
 * of them held, in its period and issued within the limits of the next. Writes
 * their slot numbers, ascending, to the first octets of `list`; the octets after
 * them are unchanged. Returns how many they are, 0 to 64, or minus the number of
 * the refusal: -1 if list_length is under 64 or store_length is not 13,568, then
 * -2. A refusal leaves `list` unchanged.
 */
NATTVELDI_MUST_USE
int32_t nattveldi_standing(const uint8_t *store, size_t store_length, uint32_t second,
                           uint8_t *list, size_t list_length);

/* Finds the certificates that stand at `second` as `store` is, as
 * nattveldi_standing finds them, and would not stand if the certificate with
 * `id`, 8 octets, were withdrawn: what a page shows before nattveldi_withdraw.
 * Writes their slot numbers, ascending, to the first octets of `list`; the octets
 * after them are unchanged. Returns how many they are, 0 to 64, which is 0 if the
 * certificate with `id` does not stand itself; or minus the number of the
 * refusal: -1 if store_length is not 13,568, id_length is not 8 or list_length is
 * under 64, then -2, -7, -8, in this order. A refusal leaves `list` unchanged.
 */
NATTVELDI_MUST_USE
int32_t nattveldi_list(const uint8_t *store, size_t store_length,
                       const uint8_t *id, size_t id_length, uint32_t second,
                       uint8_t *list, size_t list_length);

/* Withdraws the certificate with `id`, 8 octets, for good: of `store`, the two
 * bits of its state change, and no other. Returns 1 if store_length is not
 * 13,568 or id_length is not 8, then 2, 7, 8, in this order. A refusal leaves
 * `store` unchanged.
 */
NATTVELDI_MUST_USE
uint8_t nattveldi_withdraw(uint8_t *store, size_t store_length,
                           const uint8_t *id, size_t id_length);

/* How many octets the text of a page needs; no text is longer. */
#define NATTVELDI_PAGE_LENGTH 6144

/* Writes the text that the program `page` prints when `input` is its standard
 * input: a store, an id and the word of a second, 13,580 octets in all. The text
 * is a line on the question, a line for each certificate that nattveldi_list
 * finds (slot, id, kind, name) and one with their count; or `refused` and the
 * number of the refusal, which is 1 for an input of another length. Every line
 * ends with a line feed. The text is written to the first octets of `text`,
 * without a zero at its end; the octets after it are unchanged. Returns its
 * length, or 0 if text_length is under 6,144, which leaves `text` unchanged.
 */
NATTVELDI_MUST_USE
uint32_t nattveldi_page(const uint8_t *input, size_t input_length,
                        uint8_t *text, size_t text_length);

/* A signed message is judged in two calls with the same arguments.
 * nattveldi_prepare makes every test but those of signatures, and writes the
 * questions that the caller then puts to the chip: is this signature, over
 * these octets, good under this key? nattveldi_decide gets the chip's verdicts,
 * makes every test again, so that nothing needs to be kept in between, and
 * writes what was accepted.
 *
 * `now` counts microseconds since the start of 2004 (TAI). `latitude` and
 * `longitude` are the caller's own position in tenths of a microdegree, at most
 * 900,000,000 and 1,800,000,000 to either side of 0; it is used where the
 * message has no location, and must be in range where it has one. `age` is by
 * how many microseconds the generation time may differ from now, at most
 * 600,000,000; 0 stands for 2,000,000.
 *
 * The questions are two, of 52 octets each: the message's, and the carried
 * certificate's, which is all zero if the message names its signer by id. The
 * decision is 28 octets. The numbers below count octets. Parts name octets of
 * the message.
 */
#define NATTVELDI_QUESTIONS_LENGTH 104
#define NATTVELDI_DECISION_LENGTH 28

enum {
    NATTVELDI_MESSAGE_QUESTION = 0,
    NATTVELDI_CERTIFICATE_QUESTION = 52
};

/* In a question. */
enum {
    NATTVELDI_QUESTION_SIGNED = 0,    /* part: what the signature covers */
    NATTVELDI_QUESTION_SIGNATURE = 8, /* part: the whole signature structure, 66 octets */
    NATTVELDI_QUESTION_KEY_TYPE = 16, /* word: the key's point type, 2 or 3; 0 without a question */
    NATTVELDI_QUESTION_KEY = 20       /* the key's 32 octets */
};

/* In a decision. */
enum {
    NATTVELDI_DECISION_PAYLOAD = 0,         /* part: the payload, which may be empty */
    NATTVELDI_DECISION_SIGNER = 8,          /* the id of the signer's certificate, 8 octets */
    NATTVELDI_DECISION_PERMISSION = 16,     /* word: the ITS-AID under which it was sent */
    NATTVELDI_DECISION_GENERATION_TIME = 20 /* long word: microseconds since the start of 2004 */
};

/* Works out what the chip is to be asked about a message, and writes it to the
 * first 104 octets of `questions`; the octets after them are unchanged. The key
 * of the message's question is that of the signer's certificate; the key of the
 * carried certificate's question is that of its issuer in the store.
 *
 * Returns what nattveldi_decide does with two good verdicts, so never 15, but 1
 * if questions_length is under 104. A refusal leaves `questions` unchanged.
 */
NATTVELDI_MUST_USE
uint8_t nattveldi_prepare(const uint8_t *store, size_t store_length,
                          const uint8_t *message, size_t message_length,
                          uint64_t now, int32_t latitude, int32_t longitude, uint64_t age,
                          uint8_t *questions, size_t questions_length);

/* Decides a message, and writes what it says to the first 28 octets of
 * `decision`; the octets after them are unchanged. `verdict` is the chip's octet
 * on the message's question, `certificate_verdict` that on the carried
 * certificate's, which is ignored where the message carries none:
 * NATTVELDI_GOOD, or any other for bad.
 *
 * Returns the first of these that applies:
 *   1   decision_length is under 28, store_length is not 13,568, the position is
 *       out of range, or the age is over 600,000,000
 *   2   the store is bad
 *   3   the message has more than 2,048 octets; then 4, 5 or 6 for the first
 *       fault in its octets
 *   14  the generation time and now differ by more than the age, or the message
 *       expired at or before the whole second of now
 *   8   the carried certificate is stored and withdrawn
 *   9   what is stored with the carried certificate's id is another certificate
 *   7   or, where the message names its signer by id, that is not stored
 *   10  the signer is not a ticket
 * and then, for each certificate from the signer upward to a root, at the whole
 * second of generation and at the message's location or else the caller's own:
 *   8   it is withdrawn
 *   12  the second is outside its period
 *   13  the position is outside its region
 *   18  it is not a root, and the eighth
 *   7   its issuer is not stored
 *   10  its issuer is a ticket
 *   11  it has a permission that its issuer lacks
 *   12  its period is not inside its issuer's
 *   13  its region is not inside its issuer's
 * and then:
 *   11  the ITS-AID of the message is not among the signer's permissions
 *   15  certificate_verdict is not good, where the message carries a certificate
 *   15  verdict is not good
 * A refusal leaves `decision` unchanged.
 */
NATTVELDI_MUST_USE
uint8_t nattveldi_decide(const uint8_t *store, size_t store_length,
                         const uint8_t *message, size_t message_length,
                         uint64_t now, int32_t latitude, int32_t longitude, uint64_t age,
                         uint8_t verdict, uint8_t certificate_verdict,
                         uint8_t *decision, size_t decision_length);

#ifdef __cplusplus
}
#endif

#endif
